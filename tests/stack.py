#!/usr/bin/env python3
"""Shows that a stack of 4 MB is enough for the deepest nests of types and scopes.

    tests/stack.py [--built FILE | --unproved] [--least]

FILE is where pdb_symbolizer lies, with NAME in it for its name; if left out, the proved one is run.
A file of a nest has 1,023 scopes in one another, and the innermost function has an argument that
leads through as many levels of types as a path of 1,024 indices holds. With a stack of 4,096 KB the
whole report has to come, with the text of all levels, and no error output; a program without proof
has twice that stack. --least prints how many KB each nest needs. The last line is `N passed, M failed`."""
import os
import resource
import subprocess
import sys
import tempfile

sys.dont_write_bytecode = True
import compiled  # noqa: E402
from built import ROOT, end, program, taken  # noqa: E402

sys.path.insert(0, os.path.join(ROOT, "bench"))
from costs import CHECKSUMS, INLINEES, code, container, database, nested_sites, table, u16, u32

ENOUGH, PLENTY = 4096, 65536  # KB
INT = 0x74
VOID = 3
FIRST = 0x1003  # the index of a nest's first type
PATH = 1024  # how many indices a path holds
OTHERS = 3  # of them those of the function, of its list of arguments, and of the innermost type


def arguments(*indices):
    return u16(0x1201) + u32(len(indices), *indices)


def procedure(result, listed):
    return u16(0x1008) + u32(result) + u16(0, 0) + u32(listed)


def method(this, listed):
    return u16(0x1009) + u32(VOID, INT, this) + u16(0, 0) + u32(listed, 0)


def pointer(to):
    return u16(0x1002) + u32(to, 0x1000C)


def constant(index):
    return u16(0x1001) + u32(index) + u16(1)


def array(element):
    return u16(0x1503) + u32(element, 0x23) + u16(4) + b"\0"


# Each nest by one of its levels: how many indices it takes on a path, its text with {} for that of
# the next level, and its types. `at` is the index of the first of these, and `on` that of the next
# level. The result of a procedure has no text.
NESTS = {
    "lists": (1, "{}", lambda at, on: [arguments(on)]),
    "second arguments": (1, "int, {}", lambda at, on: [arguments(INT, on)]),
    "arrays of lists": (1, "{}[]", lambda at, on: [array(at + 1), arguments(on)]),
    "arrays of lists, second": (1, "int, {}[]", lambda at, on: [array(at + 1), arguments(INT, on)]),
    "procedures": (
        2,
        "()({}[0]",
        lambda at, on: [array(at + 1), procedure(VOID, at + 2), arguments(on)],
    ),
    "results": (1, "()([0]", lambda at, on: [array(at + 1), procedure(on, at + 2), arguments()]),
    "methods": (
        2,
        "()(int, {})[0]",
        lambda at, on: [array(at + 1), method(0, at + 2), arguments(INT, on)],
    ),
    "objects": (2, "()({})[0]", lambda at, on: [array(at + 1), method(on, at + 2), arguments()]),
    "pointers": (1, "{}*", lambda at, on: [pointer(on)]),
    "pointers to lists": (2, "int, {}*", lambda at, on: [pointer(at + 1), arguments(INT, on)]),
    "arrays of pointers": (1, "{}*[0]", lambda at, on: [array(at + 1), pointer(on)]),
    "pointers to procedures": (
        3,
        "void (*)(int, {})",
        lambda at, on: [pointer(at + 1), procedure(VOID, at + 2), arguments(INT, on)],
    ),
    "constants": (1, "const {}", lambda at, on: [constant(on)]),
    "arrays of constants": (1, "const {}[1]", lambda at, on: [array(at + 1), constant(on)]),
    "constant lists": (2, "const int, {}", lambda at, on: [constant(at + 1), arguments(INT, on)]),
    "constant pointers": (2, "{}* const", lambda at, on: [constant(at + 1), pointer(on)]),
}


def nest(level, depth):
    """A database with a nest of so many levels in the innermost of 1,023 scopes."""
    size = len(level(0, 0))
    types = [arguments(), procedure(VOID, 0x1000), procedure(VOID, FIRST)]
    types += [arguments(FIRST + 1)]
    for number in range(depth):
        at = FIRST + 1 + number * size
        types += level(at, at + size if number < depth - 1 else INT)
    last = PATH - 2
    ids = [u16(0x1601) + u32(0x1001 + at, 0x1001) + b"g\0" for at in range(last)]
    ids += [u16(0x1601) + u32(0, 0x1002) + b"g\0"]
    streams = database([(nested_sites(1, code(8, 0)), CHECKSUMS + INLINEES)])
    streams[2], streams[4] = table(types), table(ids)
    return container(streams)


def report(text, depth):
    """The report on a nest of so many levels: the function in its scopes, and the one around it."""
    shown = "int"
    for _ in range(depth):
        shown = text.replace("{}", shown)
    scopes = "::g()" * (PATH - 2)
    return f"0x00001014\n  g({shown}){scopes} at ??:3 @0x00001010+8\n  f at ??:?? @??\n".encode()


def answer(which, file, stack):
    """The exit status, the report and the error output with a stack of so many KB."""

    def limit():
        _, most = resource.getrlimit(resource.RLIMIT_STACK)
        size = stack * 1024 if most == resource.RLIM_INFINITY else min(stack * 1024, most)
        resource.setrlimit(resource.RLIMIT_STACK, (size, size))

    words = [which, "frames", file]
    ran = subprocess.run(words, input=b"1014\n", capture_output=True, preexec_fn=limit)
    return ran.returncode, ran.stdout, ran.stderr


def least(which, file, wanted):
    """The least stack, in steps of 16 KB, with which the answer is as wanted."""
    low, high = 16, PLENTY
    while high - low > 16:
        middle = (low + high) // 2
        low, high = (low, middle) if answer(which, file, middle) == wanted else (middle, high)
    return high


def main():
    place, words = taken(sys.argv[1:], compiled.place)
    which = program(place, "pdb_symbolizer")
    enough = 2 * ENOUGH if "--unproved" in sys.argv else ENOUGH
    passed = 0
    with tempfile.NamedTemporaryFile(suffix=".pdb") as file:
        for name, (indices, text, level) in NESTS.items():
            depth = (PATH - OTHERS) // indices
            file.seek(0)
            file.truncate()
            file.write(nest(level, depth))
            file.flush()
            wanted = 0, report(text, depth), b""
            good = answer(which, file.name, enough) == wanted
            passed += good
            if "--least" in words:
                print(f"{name}, {depth} deep: {least(which, file.name, wanted)} KB", flush=True)
            elif not good:
                print(f"{name}, {depth} deep: no answer with {enough} KB of stack", flush=True)
    end(passed, len(NESTS) - passed)


if __name__ == "__main__":
    main()
