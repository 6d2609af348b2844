#!/usr/bin/env bash
# corpus.sh DIR: makes chunks of real Lua programs: fetches Debian packages, compiles every Lua 5.1 file in them, with its debug lists to
# DIR/c and stripped to DIR/s, and by the luac of luac32.sh, with the same number, to DIR/c4 and DIR/s4. Needs luac5.1 (package lua5.1),
# dpkg-deb, what luac32.sh needs, and a Debian mirror. What was fetched before is not fetched again. Nothing of it is committed.
set -eu
here=$(cd "$(dirname "$0")" && pwd)
packages="awesome lua-argparse lua-busted lua-copas lua-http lua-inspect lua-ldoc lua-lgi lua-luassert lua-penlight lua-socket luarocks
  minetest-data neovim-runtime nmap-common prosody-modules prosody scite vlc-data"
mkdir -p "$1/deb" "$1/root" "$1/c" "$1/s" "$1/c4" "$1/s4"
test -x "$1/luac_unchecked" || bash "$here/luac32.sh" "$1"
cd "$1/deb"
for package in $packages; do
    ls "$package"_*.deb > /dev/null 2>&1 || apt-get download -qq "$package" || echo "$package is not to be had"
done
for deb in *.deb; do
    dpkg-deb -x "$deb" ../root
done
cd ..
n=0
find root -type f \( -name '*.lua' -o -name '*.nse' \) | LC_ALL=C sort > files
while read -r file; do
    if luac5.1 -o "c/$((n + 1)).luac" "$file" 2> /dev/null; then
        n=$((n + 1))
        luac5.1 -s -o "s/$n.luac" "$file"
        ./luac32 -o "c4/$n.luac" "$file"
        ./luac32 -s -o "s4/$n.luac" "$file"
    fi
done < files
echo "$n programs of $(wc -l < files) files"
