#!/usr/bin/env python3
"""Checks what files that are built to cost much take, by README's limits:

    tests/costly_files.py [--built FILE | --unproved]

FILE is where pdb_symbolizer lies, with NAME in it for its name; if left out, the proved one is run.
bench/costs.py makes the files and measures. Modules whose streams list the same pages have to stay
within what loading and caching may take, calls whose pages are listed over and over within what
rows may, and rows whose files have one long path within 60 processor seconds. A stream that many
modules share is copied once. The whole report has
to come, and no error output. Of a file in which one module lists its pages more often, that module
has to be refused, and the one before it answered. The last line is `N passed, M failed`."""
import sys
import tempfile

sys.dont_write_bytecode = True
import compiled  # noqa: E402
from built import ROOT, end, program, taken  # noqa: E402

sys.path.insert(0, f"{ROOT}/bench")
import costs  # noqa: E402

SECONDS = 60


def to_load_and_cache(size):
    """The megabytes to load a file of so many, and for what is cached, which is estimated."""
    return 128 + 12 * size


def for_rows(size):
    """Those to load it, and 35 times as many for the rows of one address."""
    return 36 * (1 + 8 * size)


def modules_answered(size, addresses):
    """The report on a file of modules: each address is in a function without lines."""
    return "".join(f"0x{it:08x}\n  f at ??:?? @??\n" for it in addresses)


def paths_answered(size, addresses):
    """The report on a file of paths: all rows, of 16 bytes each, are of one path."""
    path = "a" * (size // 2)
    return f"{16 * len(addresses)} {path}\nno file 0\nnone 0\nunreadable 0\n"


def calls_answered(size, addresses):
    """The report on a file of calls: each has rows of two bytes, one of them over the address."""
    calls = costs.times_listed(0x10000)
    return "0x00001014\n" + "  g() at ??:3 @0x00001014+2\n" * calls + "  f at ??:?? @??\n"


def procedures_answered(size, addresses):
    """The counts of a file of modules that share a stream: its procedure lies in the first one, and
    of the others nothing is known but that they hold 16 bytes each."""
    known = f"0x{addresses[0]:08x} 16 {'p' * 17}\n"
    unknown = "".join(f"0x{it:08x} 16 ??\n" for it in addresses[1:])
    return known + unknown + f"none {0xFFFFFFFF - 16 * len(addresses)}\n"


CASES = [
    (costs.streams_in_one_piece, 2_000_000, modules_answered, to_load_and_cache),
    (costs.paths_of_rows, 10_000_000, paths_answered, to_load_and_cache),
    (costs.calls_of_same_pages, 120_000, calls_answered, for_rows),
    (costs.unasked_module, 60_000, modules_answered, to_load_and_cache),
    (costs.procedures_of_same_pages, 120_000, procedures_answered, to_load_and_cache),
]


def is_refused(which):
    """Whether a module is refused whose pages are listed more often than may be copied, and the one
    before it is answered."""
    with tempfile.NamedTemporaryFile(suffix=".pdb") as file, tempfile.TemporaryFile() as output:
        data, addresses = costs.asked_module(60_000)
        file.write(data)
        file.flush()
        words, given = costs.asked(costs.asked_module, file.name, addresses)
        ended, _, _ = costs.measured(which, words, given, SECONDS, output=output)
        output.seek(0)
        first = output.read() == modules_answered(0, addresses[:1]).encode()
    if ended != "fault: OutOfMemory" or not first:
        print(f"{costs.asked_module.__doc__}: {ended or 'answered'}")
        return False
    return True


def is_within(which, case, size, answered, limit):
    """Whether a case's file of about so many bytes is answered, and within the limits."""
    with tempfile.NamedTemporaryFile(suffix=".pdb") as file, tempfile.TemporaryFile() as output:
        data, addresses = case(size)
        file.write(data)
        file.flush()
        words, given = costs.asked(case, file.name, addresses)
        ended, seconds, memory = costs.measured(which, words, given, SECONDS, output=output)
        output.seek(0)
        is_answered = output.read() == answered(size, addresses).encode()
    most = limit(len(data) / 1e6)
    if ended or memory > most or not is_answered:
        wrong = ended or ("" if is_answered else "another report")
        print(f"{case.__doc__}: {wrong}, {seconds:.1f} s, {memory:.0f} MB of {most:.0f} MB")
        return False
    return True


def main():
    place, _ = taken(sys.argv[1:], compiled.place)
    which = program(place, "pdb_symbolizer")
    passed = sum(is_within(which, *it) for it in CASES) + is_refused(which)
    end(passed, len(CASES) + 1 - passed)


if __name__ == "__main__":
    main()
