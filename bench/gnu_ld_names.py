#!/usr/bin/env python3
"""Compares names in C++ programs that GNU ld linked with those that nm finds in their images.

    bench/gnu_ld_names.py PROGRAM

PROGRAM is pdb_llvm_symbolizer or pdb_symbolizer (asked with --any-order). The programs of
bench/gnu_ld are compiled by clang-19, -O0 and -O1, and linked by x86_64-w64-mingw32-g++ (Debian 12:
g++-mingw-w64-x86-64-win32, binutils 2.40). GNU ld 2.40 knows neither inlined calls nor all types
that clang writes, so functions have lines and no types, and none is inlined. Asked are the start of
each symbol of nm's and its middle. A name is right if it is nm's as it is stored, or undecorated by
llvm-cxxfilt-19, without parameters, and without the arguments of templates where they are printed
otherwise. A line of the output says how many places of a program are right, have no name, or have
another one; with -v the last follow."""
import os
import re
import subprocess
import sys
import tempfile

HERE = os.path.dirname(os.path.realpath(__file__))
SETS = [["shapes"], ["sums"], ["parser"], ["matrix", "matrix_main"], ["graph"]]
FLAGS = (
    "--target=x86_64-w64-windows-gnu -gcodeview -gline-tables-only -fno-jump-tables "
    "-D__always_inline__=__unused__"
).split()
# GNU ld 2.40 writes past the end of its pieces of memory; a page for each keeps it from harm.
ROOMY = {**os.environ, "MALLOC_MMAP_THRESHOLD_": "1", "MALLOC_MMAP_MAX_": "1000000"}
TOOL = "x86_64-w64-mingw32-"


def text_of(words, given=None):
    """What a program writes."""
    return subprocess.run(words, input=given, capture_output=True, text=True).stdout


def linked(room, files, level):
    """The image of a program; its database is beside it."""
    objects = []
    for name in files:
        objects.append(f"{room}/{name}{level}.o")
        words = ["clang-19", *FLAGS, *level.split(), "-c", f"{HERE}/gnu_ld/{name}.cpp"]
        subprocess.run([*words, "-o", objects[-1]], check=True)
    image = f"{room}/{files[0]}{level.split()[0]}"
    words = [f"{TOOL}g++", *objects, "-static", "-o", f"{image}.exe", f"-Wl,--pdb={image}.pdb"]
    subprocess.run(words, check=True, env=ROOMY)
    return image


def places(image):
    """The places that are asked for, as RVAs, each with the names of its symbol."""
    headers = text_of([f"{TOOL}objdump", "-p", "-h", f"{image}.exe"])
    base = int(re.search(r"ImageBase\s+(\S+)", headers).group(1), 16)
    size, start = (int(it, 16) for it in re.search(r" \.text\s+(\S+)\s+(\S+)", headers).groups())
    symbols = {}
    for line in text_of([f"{TOOL}nm", "-n", f"{image}.exe"]).splitlines():
        address, kind, name = (line.split(None, 2) + ["", ""])[:3]
        if kind in ("t", "T") and start <= int(address, 16) < start + size and name[0] != ".":
            symbols.setdefault(int(address, 16), []).append(name)
    starts = [*sorted(symbols), start + size]
    for at, following in zip(starts, starts[1:]):
        for place in sorted({at, at + (following - at) // 2}):
            yield place - base, symbols[at]


def answers(program, image, asked):
    """The innermost name at each place."""
    lines = "".join(f"0x{it:x}\n" for it in asked)
    if os.path.basename(program) == "pdb_symbolizer":
        text = text_of([program, "frames", "--any-order", f"{image}.pdb"], lines)
        parts = re.split(r"^0x.*\n", text, flags=re.M)[1:]
        return [it.splitlines()[0].strip().rsplit(" at ", 1)[0] for it in parts]
    words = [program, f"--obj={image}.exe", "--relative-address", "--no-demangle"]
    return [it.split("\n")[-2] for it in text_of(words, lines).rstrip("\n").split("\n\n")]


def bare(name):
    """A name without blanks, parameters and marks of an ABI."""
    name = name.replace("[abi:cxx11]", "").replace("operator()", "operator@")
    while re.search(r"\([^()]*\)", name):
        name = re.sub(r"\([^()]*\)( const)?", "", name)
    return re.sub(r"\s+", "", name)


def without_arguments(name):
    """A bare name without the arguments of templates; a lambda has nm's name."""
    name = re.sub(r"<lambda_?(\d+)>", r"$_\1", name)
    depth, left = 0, ""
    for letter in re.sub(OPERATOR, lambda it: it.group().translate(SIGNS), name):
        depth += (letter == "<") - (letter == ">")
        left += letter if depth == 0 and letter != ">" else ""
    return left


OPERATOR = "operator(<=>|<<=|>>=|<<|>>|<=|>=|==|->|<|>|=)"
SIGNS = {ord("<"): "L", ord(">"): "G", ord("="): "E", ord("-"): "M"}


def is_right(name, stored, plain):
    """Whether a name is one of a symbol's."""
    if name in stored or bare(name) in [bare(it) for it in plain]:
        return True
    short = without_arguments(bare(name))
    return any(without_arguments(bare(it)).endswith(short) for it in plain)


program, *flags = sys.argv[1:] or sys.exit(__doc__)
with tempfile.TemporaryDirectory() as room:
    for files in SETS:
        for level in ("-O0", "-O1 -fno-inline"):
            image = linked(room, files, level)
            asked = list(places(image))
            names = sorted({name for _, stored in asked for name in stored})
            plain = dict(zip(names, text_of(["llvm-cxxfilt-19", "-p"], "\n".join(names)).splitlines()))
            came = answers(program, image, [it for it, _ in asked])
            assert len(came) == len(asked)
            right = none = 0
            others = []
            for (rva, stored), name in zip(asked, came):
                if name.startswith("??"):
                    none += 1
                elif is_right(name, stored, [plain[it] for it in stored]):
                    right += 1
                else:
                    others.append(f"  {rva:x}: {name}, not {' '.join(plain[it] for it in stored)}")
            told = f"{len(asked)} places: {right} right, {none} none, {len(others)} others"
            print(f"{os.path.basename(image)}: {told}", *others * ("-v" in flags), sep="\n")
