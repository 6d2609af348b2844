#!/usr/bin/env bash
# differential.sh CORPUS: compares every call with the Rust over the chunks that corpus.sh made, damaged copies of them, made-up trees,
# trees at the limits and all chunks of at most three bytes, and the listings with luac's own; measure and store with src/measured.rs, whatever
# numbers store is given; undump, which is both, and dump at width 4 with src/lundump.rs and src/ldump.rs, and at both widths with both luacs;
# UTF-8 with Rust's library, and instructions with the Rust. Prints the number of cases for each call, and fails on a difference.
set -euo pipefail
here=$(cd "$(dirname "$0")" && pwd)
corpus=$(cd "$1" && pwd)
work=$(mktemp -d)
trap 'rm -rf "$work"' EXIT
(cd "$here/.." && bash tools/archive.sh && cd crates/test_leaves && rt run < stdin) > /dev/null 2>&1
cd "$here"
cargo build -q --release --offline --features chunk
bin=target/release
find "$corpus/c" "$corpus/s" -name '*.luac' | LC_ALL=C sort > "$work/all"
find "$corpus/c" -name '*.luac' -size -12k | LC_ALL=C sort > "$work/small"
find "$corpus/c4" -name '*.luac' -size -12k | LC_ALL=C sort > "$work/small4"
echo "UTF-8, instructions:"
mkdir "$work/leaves"
"$bin/leaves" many "$work/leaves"
for f in "$work/leaves"/*; do ../crates/test_leaves/out/test_leaves < "$f"; done |
    awk '{ n += $1; d += $4 } END { print NR " files, " n " answers compared, " d " differ"; exit d > 0 }'
echo "measure, store, source_at:"
"$bin/measures" compare
"$bin/compare" exhaustive
"$bin/compare" limits
xargs -a "$work/small" "$bin/compare" 60
xargs -a "$work/small4" "$bin/compare" 60
echo "dump:"
xargs -a "$work/small" "$bin/compare_dump" 20
xargs -a "$work/small4" "$bin/compare_dump" 4
"$bin/compare_dump" limits
echo "undump and dump, chunks of both luacs:"
"$bin/widths" "$corpus"
echo "list_function:"
xargs -a "$work/all" "$bin/listings" compare 2 20000
python3 setlists.py "$work/setlists" 2000
find "$work/setlists" -name '*.luac' | LC_ALL=C sort | xargs -s 999999 "$bin/listings" compare 2 0
echo "symbexec, get_local_name, get_local_name_in, kname, getobjname:"
mkdir "$work/names"
head -n 44 "$work/small" | xargs "$bin/names" many "$work/names"
"$bin/compare_names" "$work/names"
echo "luac -l and luac -l -l:"
cc -O2 -I../include -o "$work/servicetool" ../examples/servicetool.c ../target/staticlib/libchunk.a
find "$corpus/c" "$work/setlists/luac" -name '*.luac' | LC_ALL=C sort | xargs -n 2000 python3 luac.py "$work/servicetool"
echo "luac -l and luac -l -l without luaG_checkcode:"
find "$work/setlists/made" -name '*.luac' | LC_ALL=C sort | LUAC="$corpus/luac_unchecked" xargs -n 2000 python3 luac.py "$work/servicetool"
