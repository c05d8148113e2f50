#!/usr/bin/env python3
"""Has LLDB read symbol files, and compares functions and lines with what their records say.

    bench/lldb_symbols.py [LLDB] [NAME..]

LLDB is the program (Debian: lldb-19, of the package of that name); NAME is a case of
tests/symbols/cases.tar.xz with an image, all if none is given. Asked are the first and the last
address of each function and line record, at most 300 for each file. Inlined calls aren't compared:
LLDB 19 shows none of them. A line of the output says how many addresses of a file are alike."""
import os
import re
import subprocess
import sys
import tarfile
import tempfile

ROOT = os.path.dirname(os.path.dirname(os.path.realpath(__file__)))
CASES = f"{ROOT}/tests/symbols/cases.tar.xz"
MOST = 300


def records(path):
    """Files by number, and the functions: start, end, name and line records, which are such ranges
    with a line and a file's number."""
    files, functions = {}, []
    for line in open(path, encoding="utf-8"):
        word, *fields = line.rstrip("\n").split(" ")
        if word == "FILE":
            files[int(fields[0])] = " ".join(fields[1:])
        elif word == "FUNC":
            start, size = int(fields[0], 16), int(fields[1], 16)
            functions.append((start, start + size, " ".join(fields[3:]), []))
        elif re.fullmatch("[0-9a-f]+", word) and len(fields) == 3:
            start = int(word, 16)
            place = start, start + int(fields[0], 16), int(fields[1]), int(fields[2])
            functions[-1][3].append(place)
    return files, functions


def wanted(files, functions):
    """Name, file and line at the first and the last address of each range."""
    found = {}
    for start, end, name, lines in functions:
        found.update({at: (name, None) for at in (start, end - 1)})
        for first, after, line, file in lines:
            place = (files[file], line) if line else None
            found.update({at: (name, place) for at in (first, after - 1)})
    return found


def ask(lldb, folder, name, addresses):
    """What LLDB says of addresses, which are relative to the image's base."""
    load = [f"target create --no-dependents {name}.exe", f"target symbols add -s {name}.exe {name}.sym"]
    run = lambda lines: subprocess.run(
        [lldb, "-b", *(word for line in lines for word in ("-o", line))],
        cwd=folder, capture_output=True, text=True, check=True).stdout
    base = int(re.search(r"(0x[0-9a-fA-F]{8,}) /", run([*load, "image list"]))[1], 16)
    said = run([*load, *(f"image lookup -v -a {base + at:#x}" for at in addresses)])
    return said.split("(lldb) image lookup -v -a ")[1:]


def told(said):
    """The function, by its stored name, and the file and line that LLDB says."""
    name = re.search(r'Function: id = .*?, name = "(.*?)", range', said)
    place = re.search(r"LineEntry: \[.*?\): (.*?):(\d+)", said)
    stored = name and name[1].split('", mangled = "')[-1]
    return stored, place and (place[1], int(place[2]))


def main():
    words = sys.argv[1:]
    lldb, names = (words or ["lldb-19"])[0], words[1:]
    with tempfile.TemporaryDirectory() as folder:
        with tarfile.open(CASES) as cases:
            cases.extractall(folder, filter="data")
        known = sorted(it[:-10] for it in os.listdir(folder) if it.endswith(".image.sym"))
        for name in names or known:
            os.replace(f"{folder}/{name}.image.sym", f"{folder}/{name}.sym")
            found = wanted(*records(f"{folder}/{name}.sym"))
            asked = sorted(found)[:: max(-(-len(found) // MOST), 1)]
            pairs = [(found[at], told(it)) for at, it in zip(asked, ask(lldb, folder, name, asked))]
            alike = sum(left == right for left, right in pairs)
            differs = next((pair for pair in pairs if pair[0] != pair[1]), "")
            print(f"{name}: {alike} of {len(asked)} addresses alike {differs}")


if __name__ == "__main__":
    main()
