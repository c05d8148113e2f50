#!/usr/bin/env python3
"""Compares pdb_llvm_symbolizer's protocol with what llvm-symbolizer 19 writes, option by option and
line by line:

    tests/llvm_protocol.py [--built FILE | --unproved] [--write ORIGINAL]

FILE is where the program lies, with NAME in it for its name; if left out, the proved one is run,
with --unproved one that `rt try` compiles, on the cases that need no environment, no folder and no
name of its own.
tests/llvm_protocol.json has the cases: the arguments, standard input (a character a byte), the
environment, how the program is called, and llvm-symbolizer's status and standard output. Both have
to be those stored, unless the case has `differs`: the beginning of a row of docs/DIFFERENCES.md,
which has to stand there. A case that has it and differs no more fails, too. All fail where the
first one does, since a program that does nothing differs as well. With --write the script stores
what ORIGINAL, llvm-symbolizer 19, writes. The last line is `N passed, M failed`.
"""
import json
import os
import shutil
import subprocess
import sys
import tempfile

sys.dont_write_bytecode = True
sys.path.insert(0, os.path.dirname(os.path.realpath(__file__)))
import built

CASES = f"{built.ROOT}/tests/llvm_protocol.json"
DATA = f"{built.ROOT}/crates/pdb_llvm_symbolizer/data"
COPIES = ["with space.exe", "it's.exe", 'quo"te.exe', "x:y.exe", "FILE:z.exe", "ünï.exe"]
RESPONSE = '--obj=x64.exe -p\n"0x140001148" 0x140001168\n'
SECONDS = 60


def made(room):
    """A folder of images: those of the data, under names with blanks, quotes and colons, too."""
    for name in os.listdir(DATA):
        shutil.copy(f"{DATA}/{name}", room)
    for name in COPIES:
        shutil.copy(f"{DATA}/x64.exe", f"{room}/{name}")
    shutil.copy(f"{DATA}/x64.exe", os.fsencode(room) + b"/lat\xe9.exe")
    os.mkdir(f"{room}/adir")
    with open(f"{room}/opts.rsp", "w", encoding="utf-8") as file:
        file.write(RESPONSE)


def run(program, room, case):
    """The status and the standard output of a case."""
    called = f"{room}/{case.get('called', 'llvm-symbolizer')}"
    if os.path.lexists(called):
        os.unlink(called)
    os.symlink(program, called)
    words = {"env": {**os.environ, **case.get("env", {})}, "cwd": room, "timeout": SECONDS}
    given = case.get("input", "").encode("latin1")
    ran = subprocess.run([called, *case["args"]], input=given, capture_output=True, **words)
    return ran.returncode, ran.stdout.decode("latin1")


def titles():
    """The rows of the tables of docs/DIFFERENCES.md, without their first bar."""
    with open(f"{built.ROOT}/docs/DIFFERENCES.md", encoding="utf-8") as file:
        return [it[2:] for it in file.read().split("\n") if it.startswith("| ")]


def named(case):
    """How a case is told."""
    return f"{case.get('called', 'llvm-symbolizer')} {case['args']} {case.get('input', '')!r}"


def is_bare(case):
    """Whether a case needs no environment, no folder and no name of the program's own."""
    words = [*case["args"], case.get("input", "")]
    return not any([case.get("env"), case.get("called"), any("adir" in it for it in words)])


is_unproved = "--unproved" in sys.argv
place, words = built.taken(sys.argv[1:])
with open(CASES, encoding="utf-8") as file:
    cases = json.load(file)
if is_unproved:
    cases = list(filter(is_bare, cases))
with tempfile.TemporaryDirectory() as room:
    made(room)
    if words[:1] == ["--write"]:
        for case in cases:
            case["status"], case["output"] = run(os.path.abspath(words[1]), room, case)
        with open(CASES, "w", encoding="utf-8") as file:
            file.write("[\n" + ",\n".join(json.dumps(it) for it in cases) + "\n]\n")
        built.end(len(cases), 0)
    program = built.program(place, "pdb_llvm_symbolizer")
    rows = titles()
    alike = failed = 0
    for case in cases:
        came = run(program, room, case)
        wanted = case["status"], case["output"]
        row = case.get("differs")
        is_told = row is None or any(it.startswith(row) for it in rows)
        if (came == wanted) == (row is None) and is_told:
            alike += row is None
            continue
        failed += 1
        print(f"{named(case)}\n  llvm-symbolizer: {wanted}\n  came: {came}\n  differs: {row}")
        if case is cases[0] and not is_unproved:
            built.end(0, len(cases))
print(f"{alike} of {len(cases)} are llvm-symbolizer's; the others differ as DIFFERENCES says")
built.end(len(cases) - failed, failed)
