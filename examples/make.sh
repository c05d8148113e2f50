#!/usr/bin/env bash
# Makes the databases of real linkers that the examples and recorded cases read, with their images:
#
#   examples/make.sh OUT [--store]
#
# OUT gets x64.pdb and i386.pdb (clang and lld), columns.pdb (x64.pdb with columns of lines),
# gnu_ld.pdb and unordered.pdb (clang and GNU ld; in the latter what modules hold is out of order)
# and damaged.pdb (x64.pdb with four bytes of one module overwritten), each but the last with its
# .exe. The sources are in examples/source; no Windows SDK is needed. lld's own, of 76 and 80 KB,
# are laid out in pages of 1,024 bytes (repage.py), which takes 21 and 22 KB. With --store the
# databases are copied to where programs read them: crates/pdb_symbolizer/data, crates/recorded_cases/data and
# crates/example_calls/data, and x64, i386, columns and unordered with their images to
# crates/pdb_llvm_symbolizer/data.
# GNU ld writes the time into its own, so each one made differs in that.
#
# The stored ones were made on Debian 12 by clang-19 and lld-19 (19.1.7) and
# binutils-mingw-w64-x86-64 (2.40+10.4):
#   apt-get install clang-19 lld-19 binutils-mingw-w64-x86-64
set -eu
here=$(cd "$(dirname "$0")" && pwd)
out=${1:?usage: examples/make.sh OUT [--store]}
mkdir -p "$out"
out=$(cd "$out" && pwd)

# Objects lie in a folder of their own, which is refused if it is there. The folder's path is always
# the same, since GNU ld writes their whole paths into the database.
work=/tmp/pdb_example_objects
mkdir "$work"
trap 'rm -rf "$work"' EXIT
cp "$here"/source/* "$work"
cd "$work"

# With these a database has no path of this machine: names of files are relative, and lld puts
# C:\src before them.
plain="-O2 -fno-unroll-loops -fno-vectorize -ffreestanding -fno-stack-protector -mno-stack-arg-probe"
debug="-g -gcodeview -gno-codeview-command-line -fdebug-compilation-dir=."

compile() { # TARGET FILE FLAGS..
    local target=$1 file=$2
    shift 2
    clang-19 --target="$target" $plain "$@" -c "$file" -Xclang -object-file-name="${file%.*}.obj" -o "${file%.*}.obj"
}

with_lld() { # NAME TARGET FLAGS..
    local name=$1 target=$2
    shift 2
    for file in main.cpp archive.cpp; do
        compile "$target" "$file" $debug -fno-exceptions -fno-rtti "$@"
    done
    compile "$target" plain.c
    lld-link-19 /nologo /Brepro /debug /nodefaultlib /entry:start /subsystem:console '/pdbsourcepath:C:\src' \
        "/pdbaltpath:$name.pdb" "/pdb:$name.pdb" "/out:$name.exe" main.obj archive.obj plain.obj
    python3 "$here/repage.py" "$name.pdb" 1024 "$out/$name.pdb"
    cp "$name.exe" "$out"
}

with_gnu_ld() { # NAME TARGET
    for file in weigh.c tools.c plain.c; do
        compile "$2" "$file" $debug -fno-inline
    done
    # GNU ld 2.40 writes past the end of its pieces of memory; a page for each piece keeps it from harm.
    MALLOC_MMAP_THRESHOLD_=1 MALLOC_MMAP_MAX_=1000000 x86_64-w64-mingw32-ld --no-insert-timestamp \
        -e start --subsystem console "--pdb=$1.pdb" -o "$1.exe" weigh.obj tools.obj plain.obj
    cp "$1.pdb" "$1.exe" "$out"
    # That code with DWARF, for compare.py.
    for file in weigh.c tools.c plain.c; do
        compile "$2" "$file" -gdwarf-4 -fdebug-compilation-dir=. -fno-inline
    done
    x86_64-w64-mingw32-ld --no-insert-timestamp -e start --subsystem console -o "$out/$1_dwarf.exe" weigh.obj tools.obj plain.obj
}

# Two objects that share functions: GNU ld 2.40 doesn't sort what they hold.
with_pieces() { # NAME TARGET
    local name=$1 target=$2
    for object in first second; do
        clang-19 --target="$target" $plain $debug -fno-inline -D"${object^^}" -c shared.cpp \
            -Xclang -object-file-name="$object.obj" -o "$object.obj"
    done
    MALLOC_MMAP_THRESHOLD_=1 MALLOC_MMAP_MAX_=1000000 x86_64-w64-mingw32-ld --no-insert-timestamp \
        -e start --subsystem console "--pdb=$name.pdb" -o "$name.exe" first.obj second.obj
    cp "$name.pdb" "$name.exe" "$out"
}

with_lld x64 x86_64-pc-windows-msvc
with_lld i386 i386-pc-windows-msvc
with_lld columns x86_64-pc-windows-msvc -gcolumn-info
with_gnu_ld gnu_ld x86_64-w64-windows-gnu
with_pieces unordered x86_64-w64-windows-gnu
python3 "$here/damage.py" "$out/x64.pdb" archive.obj "$out/damaged.pdb"

if [ "${2:-}" = --store ]; then
    for name in x64 i386 gnu_ld damaged; do
        cp "$out/$name.pdb" "$here/../crates/pdb_symbolizer/data/"
        cp "$out/$name.pdb" "$here/../crates/recorded_cases/data/real_$name.pdb"
    done
    cp "$out/unordered.pdb" "$here/../crates/recorded_cases/data/real_unordered.pdb"
    cp "$out/x64.pdb" "$here/../crates/example_calls/data/"
    cp "$out"/{x64,i386,columns,unordered}.{pdb,exe} "$here/../crates/pdb_llvm_symbolizer/data/"
fi
ls -l "$out"
