#!/usr/bin/env bash
# luac32.sh OUT: builds OUT/luac32, a luac 5.1 whose size_t has 4 bytes, of PUC-Rio's sources in Debian's source package of lua5.1, without
# Debian's patches. Needs root for the package gcc-multilib where that is missing, and a Debian mirror. Nothing of it is committed.
# Numbers are computed by SSE, as by the 64-bit luac: constants are folded to the same bits.
# Beside it OUT/luac_unchecked, a 64-bit one that does not call luaG_checkcode, so that print.c is asked about any code.
set -eu
mkdir -p "$1/luac32.src/lists/partial"
cd "$1/luac32.src"
dpkg -s gcc-multilib > /dev/null 2>&1 || apt-get install -qq -y gcc-multilib > /dev/null
suite=$(. /etc/os-release && echo "$VERSION_CODENAME")
echo "deb-src [signed-by=/usr/share/keyrings/debian-archive-keyring.gpg] http://deb.debian.org/debian $suite main" > sources.list
cat > apt.conf << END
Dir::Etc::SourceList "$PWD/sources.list";
Dir::Etc::SourceParts "/dev/null";
Dir::State::Lists "$PWD/lists";
Dir::Cache "$PWD";
APT::Sandbox::User "root";
END
APT_CONFIG=$PWD/apt.conf apt-get -qq update
APT_CONFIG=$PWD/apt.conf apt-get -qq source --download-only lua5.1
tar -xzf lua5.1_*.orig.tar.gz --strip-components=1
cd src
sources="luac.c print.c lapi.c lauxlib.c lcode.c ldebug.c ldo.c ldump.c lfunc.c lgc.c llex.c lmem.c lobject.c lopcodes.c lparser.c
  lstate.c lstring.c ltable.c ltm.c lundump.c lvm.c lzio.c"
gcc -m32 -msse2 -mfpmath=sse -O2 -static -o ../../luac32 $sources -lm
echo "return 'a'" | ../../luac32 -o luac.out -
test "$(od -An -tx1 -N12 luac.out)" = " 1b 4c 75 61 51 00 01 04 04 04 08 00"
sed -i '/luaG_checkcode/d' lundump.c
gcc -O2 -o ../../luac_unchecked $sources -lm
