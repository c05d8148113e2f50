#!/usr/bin/env python3
"""Compares the program with llvm-symbolizer at each address of the code of the databases that
make.sh made:

    examples/compare.py PROGRAM OUT

For each database it prints how many addresses have equal answers, and the ranges of the others with
both answers. Names are compared without their arguments, since llvm-symbolizer prints those of the
decorated name, and of inlined calls none, and without the blanks in them. GNU ld's database can't
be read by llvm-symbolizer; in its place it is asked of the same code with DWARF.
It needs llvm-symbolizer-19 and llvm-readobj-19 (Debian's llvm-19)."""
import json
import re
import subprocess
import sys


def bare(name):
    """A name without its arguments, and without what stands after them."""
    name = name.replace(", ", ",")
    depth = 0
    for at, char in enumerate(name):
        if char == "<":
            depth += 1
        elif char == ">":
            depth -= 1
        elif char == "(" and depth == 0 and at > 0:
            return name[:at]
    return name


def path(file):
    """A file's name, as both write it."""
    return file.replace("\\", "/").removeprefix("./")


def code_of(image):
    """The addresses of the code of an image: the first one, and the first one after it."""
    text = subprocess.run(["llvm-readobj-19", "--sections", image], capture_output=True, text=True, check=True).stdout
    found = re.search(r"Name: \.text .*?VirtualSize: (0x\w+)\s+VirtualAddress: (0x\w+)", text, re.S)
    size, start = int(found[1], 16), int(found[2], 16)
    return start, start + size


def theirs(image, addresses):
    """The answers of llvm-symbolizer, each a list of (name, file, line)."""
    words = ["llvm-symbolizer-19", f"--obj={image}", "--relative-address", "--output-style=JSON"]
    asked = "".join(f"{it:#x}\n" for it in addresses)
    lines = subprocess.run(words, input=asked, capture_output=True, text=True, check=True).stdout.splitlines()
    for line in lines:
        frames = json.loads(line).get("Symbol", [])
        yield [(bare(it["FunctionName"]) or "??", path(it["FileName"]) or "??", str(it["Line"] or "??")) for it in frames]


def ours(program, database, addresses):
    """The program's answers, alike."""
    asked = "".join(f"{it:x}\n" for it in addresses)
    text = subprocess.run([program, "frames", database], input=asked, capture_output=True, text=True).stdout
    for part in re.split(r"(?m)^0x[0-9a-f]{8}\n", text)[1:]:
        frames = []
        for line in part.splitlines():
            found = re.fullmatch(r"  (.*) at (.*):(\d+|\?\?) @.*", line)
            frames.append((bare(found[1]), path(found[2]), found[3]) if found else (line.strip(), "", ""))
        yield frames


def shown(frames):
    return " <- ".join(f"{name} {file}:{line}" if file else name for name, file, line in frames) or "nothing"


def compare(program, database, image):
    addresses = range(*code_of(image))
    equal = 0
    runs = []
    for address, a, b in zip(addresses, ours(program, database, addresses), theirs(image, addresses)):
        if a == b:
            equal += 1
        elif runs and runs[-1][1] == address and runs[-1][2:] == [a, b]:
            runs[-1][1] = address + 1
        else:
            runs.append([address, address + 1, a, b])
    print(f"{database}: {equal} of {len(addresses)} addresses alike")
    for start, end, a, b in runs:
        print(f"  {start:x} to {end - 1:x}\n    here: {shown(a)}\n    llvm: {shown(b)}")


program, out = sys.argv[1:]
for name, image in (("x64", "x64"), ("i386", "i386"), ("gnu_ld", "gnu_ld_dwarf")):
    compare(program, f"{out}/{name}.pdb", f"{out}/{image}.exe")
