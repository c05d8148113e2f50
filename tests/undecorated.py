#!/usr/bin/env python3
"""Checks the texts of decorated names of Visual C++ against those of llvm-undname 19.1.7.

    tests/undecorated.py [--built FILE | --unproved] [NAMES]

FILE is where recorded_cases lies, with NAME in it for its name; if left out, the proved one is run,
with --unproved one that `rt try` compiles. A line of NAMES has a name, its short text (without
access, calling convention, `static`, `virtual` and the type that is returned) and its full text,
with tabs between; `-` stands where the name has no text. If left out, it is
crates/recorded_cases/data/names.tsv. A line passes if the program writes it for its name. The last
line is `N passed, M failed`.
"""
import os
import subprocess
import sys
import tempfile

sys.dont_write_bytecode = True
import built

NAMES = f"{built.ROOT}/crates/recorded_cases/data/names.tsv"
SHOWN = 20
SECONDS = 120


def lines_of(data):
    """The lines of a text that ends with one."""
    return data.split(b"\n")[:-1]


def main():
    place, words = built.taken(sys.argv[1:])
    program = built.program(place, "recorded_cases")
    file = words[0] if words else NAMES
    if len(words) > 1 or not os.path.isfile(file):
        built.stop(__doc__)
    with open(file, "rb") as names:
        wanted = lines_of(names.read())
    with tempfile.NamedTemporaryFile() as asked:
        asked.write(b"".join(line.split(b"\t")[0] + b"\n" for line in wanted))
        asked.flush()
        words = [program, "undecorated", asked.name]
        ran = subprocess.run(words, capture_output=True, timeout=SECONDS)
    if ran.returncode or ran.stderr:
        built.stop(f"{program} ended with status {ran.returncode} and {ran.stderr!r}")
    written = lines_of(ran.stdout)
    if len(written) != len(wanted):
        built.stop(f"{len(written)} lines were written for {len(wanted)} names")
    wrong = [(a, b) for a, b in zip(wanted, written) if a != b]
    for expected, got in wrong[:SHOWN]:
        print(f"wanted {expected!r}\n   got {got!r}")
    built.end(len(wanted) - len(wrong), len(wrong))


if __name__ == "__main__":
    main()
