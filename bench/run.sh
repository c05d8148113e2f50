#!/usr/bin/env bash
# Makes databases, measures the program on them, and prints the tables of docs/PERFORMANCE.md:
#
#   bench/run.sh [--count] OUT [PROGRAM [ORIGINAL]]
#
# OUT, outside the repository, gets the generated sources, their databases and lists of addresses;
# what is there is used again. PROGRAM is the built pdb_symbolizer, by default the proved one in
# crates/pdb_symbolizer/out. ORIGINAL, if given, is the ported crate to compare with. It is a
# program that is called as `ORIGINAL frames FILE < ADDRESSES` and writes the same report, with or
# without the rows of frames (` @START+LENGTH`). Or it is the folder of a Cargo package that has
# one, which is built in OUT: bench/original is that of the crates as published. It reads pages as
# it needs them, and with WHOLE=1 in the environment the file first. Without ORIGINAL its columns
# are left out.
#
# Times are processor seconds, the least of five runs in turn, and ratios are given from three such
# rounds: a shared machine varies by a third. With --count instructions and cache misses are counted
# too, by valgrind, which takes some minutes.
#
# Debian: clang-19 lld-19 llvm-19, and valgrind for --count. The databases have 10 and 90 MB;
# DATABASES="NAME MODULES FUNCTIONS; .." names others. The greater one takes minutes to be made.
set -eu
here=$(cd "$(dirname "$0")" && pwd)
count=
if [ "${1:-}" = --count ]; then
    count=--count
    shift
fi
out=${1:?usage: bench/run.sh [--count] OUT [PROGRAM [ORIGINAL]]}
program=$(realpath "${2:-$here/../crates/pdb_symbolizer/out/pdb_symbolizer}")
original=${3:-}
mkdir -p "$out"
out=$(cd "$out" && pwd)
if [ -d "$original" ]; then
    cargo build -q --release --manifest-path "$original/Cargo.toml" --target-dir "$out/original"
    original=$(find "$out/original/release" -maxdepth 1 -type f -perm -u+x | head -1)
fi

make_database() { # NAME MODULES FUNCTIONS
    local source=$out/$1.src
    [ -s "$out/$1.pdb" ] && return
    python3 "$here/generate.py" "$source" "$2" "$3"
    find "$source" -name '*.cpp' -print0 | xargs -0 -P "${JOBS:-2}" -I{} sh -c 'clang-19 \
        --target=x86_64-pc-windows-msvc -std=c++17 -fno-exceptions -fno-rtti -fno-stack-protector -Wno-everything \
        -g -gcodeview -O2 -c -o "${1%.cpp}.obj" "$1"' _ {}
    find "$source" -name '*.obj' | sort > "$source/objects.rsp"
    lld-link-19 /nologo /debug /nodefaultlib /entry:start /subsystem:console "/out:$out/$1.exe" "/pdb:$out/$1.pdb" \
        "@$source/objects.rsp"
    llvm-readobj-19 --sections "$out/$1.exe" > "$source/sections.txt"
}

names=
IFS=';'
for database in ${DATABASES:-small 44 120; large 270 170}; do
    IFS=' '
    set -- $database
    make_database "$@"
    names="$names $1"
    IFS=';'
done
IFS=' '
exec python3 "$here/measure.py" $count "$out" "$program" "$original" $names
