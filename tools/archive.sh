#!/usr/bin/env bash
# Proves the library and writes the archive for C, target/staticlib/libchunk.a: the static library of crates/chunk_c.
set -eu
cd "$(dirname "$0")/.."
(cd crates/chunk_c && rt lib) || exit 1
mkdir -p target/staticlib
cp crates/chunk_c/out/libchunk_c.a target/staticlib/libchunk.a
