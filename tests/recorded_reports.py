#!/usr/bin/env python3
"""Runs pdb_symbolizer on the recorded reports; recorded.py beside this says how one is written.

    tests/recorded_reports.py [--built BUILT | --unproved] [FILE or NAME ..]

Output, error output and exit status have to be exactly as recorded, for each file of a case. An
input of several lines is handed over twice, each time to a run of its own: at once, as a regular
file, whose lines are answered in the order of their addresses; and by line, where each read gives
one line, which is answered after those before it.

FILE is a file of cases, in crates/recorded_cases/data or elsewhere; the databases lie in that
folder of data. NAME is that of a case in one of the files below; without a word all of these are
run. BUILT is where the program lies, with NAME in it for its name; if left out, the proved one is
run, as each compiler of `rt ci` built it. A run that differs is printed by the name of its case,
what differs in the file, and how the input was handed over, with the first line that differs. The
last line is `N passed, M failed`, in cases of a program.

With --unproved `rt try` compiles the program without proof, and runs it on each file of the few
cases that words name, input at once. It compares the output, which may have 1 MiB, and prints the
status; its last line counts the runs.
"""
import concurrent.futures
import itertools
import os
import re
import socket
import subprocess
import sys
import tempfile

sys.dont_write_bytecode = True
from built import PROVED, ROOT, end, program, stop, taken  # noqa: E402
from recorded import DATA, Malformed, reports_of  # noqa: E402

FILES = [
    "rows.txt",
    "sound.txt",
    "damaged.txt",
    "signatures.txt",
    "again.txt",
    "permuted.txt",
    "samples.txt",
    "hostile.txt",
    "addresses.txt",
    "real.txt",
    "by_file.txt",
]
SECONDS = 120
# The most bytes that the program asks a read for: a longer line wouldn't come by one.
LONGEST = 65_536


def run_at_once(words, given, streams):
    """The status of a run whose standard input is a file."""
    with tempfile.TemporaryFile() as file:
        file.write(given)
        file.seek(0)
        return subprocess.run(words, stdin=file, timeout=SECONDS, **streams).returncode


def run_by_line(words, given, streams):
    """The status of a run whose standard input is a socket of packets: a read gives one, a line."""
    ours, theirs = socket.socketpair(socket.AF_UNIX, socket.SOCK_SEQPACKET)
    with ours, subprocess.Popen(words, stdin=theirs, **streams) as started:
        theirs.close()
        ours.settimeout(SECONDS)
        try:
            for line in lines_of(given):
                ours.send(line)
            ours.close()
            return started.wait(SECONDS)
        except (BrokenPipeError, ConnectionResetError):
            return started.wait(SECONDS)  # It ended before the input did.
        finally:
            started.kill()


def lines_of(text):
    """The lines of a text, with their newlines."""
    return re.findall(rb".*\n|.+", text)


def paces_of(report):
    """How its input is handed over."""
    lines = lines_of(report.given)
    if len(lines) < 2:
        return [("at once", run_at_once)]
    if max(map(len, lines)) > LONGEST:
        raise Malformed(f"a line of input is longer than {LONGEST} bytes")
    return [("at once", run_at_once), ("by line", run_by_line)]


def differences(report, words, run):
    """In what a run differs from what is recorded."""
    with tempfile.TemporaryFile() as output, tempfile.TemporaryFile() as errors:
        try:
            status = run(words, report.given, {"stdout": output, "stderr": errors})
        except (subprocess.TimeoutExpired, TimeoutError, socket.timeout):
            yield f"no end after {SECONDS} seconds"
            return
        yield from first_difference("output", output, report.output)
        yield from first_difference("error output", errors, report.errors)
    if status != report.status:
        yield f"status {status} and not {report.status}"


def first_difference(which, file, wanted):
    """The first line in which what a file holds differs from what has to come, if any does."""
    file.seek(0)
    pairs = itertools.zip_longest(lines_of(file.read()), lines_of(wanted), fillvalue=b"")
    for number, (line, other) in enumerate(pairs, 1):
        if line != other:
            yield f"{which}, line {number}\n  gives   {shown(line)}\n  and not {shown(other)}"
            return


def shown(line):
    """The text of a line's bytes, in quotes."""
    return ascii(line.decode("latin-1"))


def run_case(program, report):
    """Runs a case on each of its files, and returns what differs."""
    wrong = []
    try:
        for change, content in report.files():
            with tempfile.NamedTemporaryFile(suffix=".pdb") as file:
                file.write(content)
                file.flush()
                words = [program, *report.arguments(file.name)]
                for pace, run in paces_of(report):
                    label = f"{os.path.basename(program)}, {report.name}, {change}, {pace}"
                    wrong += (f"{label}: {it}\n" for it in differences(report, words, run))
    except Malformed as why:
        raise Malformed(f"{report.name}: {why}") from why
    return "".join(wrong)


def chosen(words):
    """The cases of the files that words name, or of that name; all of FILES without a word."""
    reports = [it for file in FILES for it in reports_of(f"{DATA}/{file}")]
    cases = {it.name: it for it in reports}
    if len(cases) < len(reports):
        stop("two cases have one name")
    for word in words or FILES:
        paths = [it for it in (f"{DATA}/{word}", word) if os.path.isfile(it)]
        if word in cases:
            yield cases[word]
        elif paths:
            yield from reports_of(paths[0])
        else:
            stop(f"{word}: neither a file of cases nor the name of one")


def run_unproved(cases):
    """Has `rt try` compile the program, and run it on each file of cases; gives its status."""
    with tempfile.TemporaryDirectory() as folder:
        os.mkdir(f"{folder}/cases")
        data = []
        for report in cases:
            for number, (change, content) in enumerate(report.files(), 1):
                name = f"{report.name} {number} {change}".replace(" ", "-")
                arguments = "\n".join(report.arguments(f"{name}.pdb"))
                write(f"{folder}/cases/{name}", report.given)
                write(f"{folder}/cases/{name}.args", arguments.encode())
                write(f"{folder}/cases/{name}.stdout", report.output)
                write(f"{folder}/{name}.pdb", content)
                data += ["--data", f"{name}.pdb={folder}/{name}.pdb"]
        words = ["rt", "try", "--cases", f"{folder}/cases", *data]
        return subprocess.run(words, cwd=f"{ROOT}/crates/pdb_symbolizer").returncode


def write(path, content):
    """Writes a file."""
    with open(path, "wb") as file:
        file.write(content)


def programs_of(place):
    """The built program; without a place, as each compiler of `rt ci` built it."""
    first = program(place, "pdb_symbolizer")
    other = f"{first}.by-rattle"
    if place != PROVED or not os.access(other, os.X_OK):
        return [first]
    return [it for it in (first, other) if os.path.getmtime(it) >= os.path.getmtime(first)]


def run_built(programs, cases):
    """Runs programs on cases, as many at a time as there are processors; says what came of it."""
    runs = list(itertools.product(programs, cases))
    failed = 0
    print("running", *(os.path.basename(it) for it in programs))
    with concurrent.futures.ThreadPoolExecutor(os.cpu_count()) as lanes:
        for wrong in lanes.map(run_case, *zip(*runs)):
            print(wrong, end="")
            failed += bool(wrong)
    end(len(runs) - failed, failed)


def main():
    words = sys.argv[1:]
    if words[:1] == ["--unproved"]:
        if not words[1:]:
            stop("--unproved wants the names of cases, or files of few cases")
        sys.exit(run_unproved(list(chosen(words[1:]))))
    place, words = taken(words)
    run_built(programs_of(place), list(chosen(words)))


if __name__ == "__main__":
    try:
        main()
    except Malformed as malformed:
        stop(malformed)
