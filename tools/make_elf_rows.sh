#!/usr/bin/env bash
# Makes the ELF files of crates/vximage_rows/data anew, as hexadecimal: GNU's assembler and linker for the VAX, built of Debian's
# binutils-source, make each of sample.s, and their tools say what it has. That of examples/elf.s is examples/elf.elf, too.
#
# tools/make_elf_rows.sh [ROOM]    ROOM keeps the built tools; without it they are made in a temporary folder
#
# It needs apt-get, a C compiler, make, flex, bison, m4 and xxd, and some two minutes.
set -euo pipefail
data=$(cd "$(dirname "$0")/../crates/vximage_rows/data" && pwd)
examples=$(cd "$(dirname "$0")/../examples" && pwd)
if [ $# -gt 0 ]; then
    mkdir -p "$1"
    room=$(cd "$1" && pwd)
else
    room=$(mktemp -d)
    trap 'rm -rf "$room"' EXIT
fi

# Unpacks and builds the tools, unless they are there.
build_tools() {
    local needed
    [ -x "$room/build/ld/ld-new" ] && return
    for needed in apt-get cc make flex bison m4 xxd; do
        command -v "$needed" > /dev/null || { echo "no $needed" >&2; exit 1; }
    done
    cd "$room"
    apt-get download binutils-source
    dpkg -x binutils-source_*.deb package
    tar -xf package/usr/src/binutils/binutils-2.*.tar.*
    mkdir -p build
    cd build
    ../binutils-2.*/configure --target=vax-netbsdelf --disable-nls --disable-gdb --disable-gdbserver --disable-sim --disable-gprof \
        --disable-gprofng --disable-werror --disable-plugins --without-zstd MAKEINFO=true > configure.log 2>&1
    make -j "$(nproc)" MAKEINFO=true all-gas all-ld all-binutils > make.log 2>&1
}

as() { "$room/build/gas/as-new" "$@"; }
ld() { "$room/build/ld/ld-new" "$@"; }
strip() { "$room/build/binutils/strip-new" "$@"; }

# The bytes of a file as rows of 32.
store() {
    xxd -p -c 32 "$room/$1" > "$2"
}

# `link NAME OPTION ..`: a file of the object, linked so.
link() {
    local name=$1
    shift
    ld "$@" -o "$room/$name" "$room/sample.o"
    store "$name" "$data/$name.hex"
}

build_tools
as -o "$room/sample.o" "$data/sample.s"
store sample.o "$data/object.hex"
link linked
link page512 -z max-page-size=512
link adjacent -z max-page-size=16
link separate -z separate-code
link joined -N
link unaligned -n
as -o "$room/elf.o" "$examples/elf.s"
ld -o "$room/elf" "$room/elf.o"
store elf "$data/elf.hex"
store elf "$examples/elf.elf"
for name in linked page512 adjacent separate joined unaligned elf; do
    echo "$name:"
    "$room/build/binutils/readelf" -lW "$room/$name" | grep -E 'Entry|LOAD'
    "$room/build/binutils/nm-new" "$room/$name"
done
