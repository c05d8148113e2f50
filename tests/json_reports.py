#!/usr/bin/env python3
"""Checks that `frames --json` says what the recorded reports on addresses say.

    tests/json_reports.py [--built BUILT | --unproved] [NAME ..]

For each recorded report on lines (recorded.py), or those of NAME, the program is run with `--json`.
Each line that it writes is read by Python's json, has the members of GUIDE's schema and no others,
and is written out again as text: that text has to be the recorded output, byte for byte, with the
same error output and status. A line that isn't an address has to be there as it was given, where it
is UTF-8. Then it is run with `--demangle`, with and without `--json`: these have to say the same.

BUILT is where the program lies, with NAME in it for its name; if left out, the proved one is run,
with --unproved one that is compiled without proof. A report that differs is printed by its name.
The last line is `N passed, M failed`, in reports.
"""
import concurrent.futures
import json
import os
import re
import subprocess
import sys
import tempfile

sys.dont_write_bytecode = True
import compiled
from built import end, program, stop, taken
from recorded import Malformed
from recorded_reports import FILES, SECONDS, chosen

ADDRESS = re.compile("0x[0-9a-f]{8}")
# The first bytes of a line that isn't an address, which are all that is written of it.
LONGEST = 4352


class Differs(Exception):
    """What isn't as the schema, or the recorded report, has it."""


def members(text, pairs):
    """Fails where an object hasn't exactly these members, in this order."""
    if [name for name, _ in pairs] != text.split():
        raise Differs(f"members {[name for name, _ in pairs]} and not {text.split()}")


def is_number(value):
    """Whether a value is a number that isn't negative."""
    return type(value) is int and value >= 0


def part(value, kind):
    """The text of a part of a frame: two question marks where it isn't known."""
    if value is None:
        return "??"
    if not (isinstance(value, str) if kind is str else is_number(value)):
        raise Differs(f"{value!r} isn't of the right kind")
    return str(value)


def row_text(row):
    """The text of a row."""
    if row is None:
        return "??"
    members("start length", row)
    start, length = (value for _, value in row)
    if not ADDRESS.fullmatch(start):
        raise Differs(f"{start!r} is no address")
    return f"{start}+{part(length, int)}"


def frame_text(frame):
    """The text of a frame."""
    members("function file line row", frame)
    function, file, line, row = (value for _, value in frame)
    where = f"{part(function, str)} at {part(file, str)}:{part(line, int)}"
    return f"  {where} @{row_text(row)}\n"


def text_of(line, given):
    """The text for a line of JSON, by the line that was given."""
    pairs = json.loads(line.decode(), object_pairs_hook=lambda it: it)
    value = dict(pairs)
    if "line" in value:
        members("line error", pairs)
        if value["error"] != "not an address" or value["line"] != shown(given):
            raise Differs(f"{line!r} for {given!r}")
        return "not an address\n"
    if not ADDRESS.fullmatch(value["address"]):
        raise Differs(f"{value['address']!r} is no address")
    if "error" in value:
        members("address error", pairs)
        if value["error"] != "unreadable":
            raise Differs(f"error {value['error']!r}")
        return f"{value['address']}\n  unreadable\n"
    members("address frames", pairs)
    frames = "".join(map(frame_text, value["frames"]))
    return f"{value['address']}\n" + (frames or "  ??\n")


def shown(given):
    """The text that stands for a line, where U+FFFD stands for what isn't UTF-8."""
    return given[:LONGEST].decode(errors="replace")


def text_in(output, given, status):
    """The text for lines of JSON, by the input; after a fault there are fewer of them."""
    lines = output.split(b"\n")
    if lines.pop():
        raise Differs("the output doesn't end with a newline")
    asked = given.split(b"\n")
    if not asked[-1]:
        asked.pop()
    if status == 0 and len(lines) != len(asked):
        raise Differs(f"{len(lines)} lines for {len(asked)}")
    return "".join(map(text_of, lines, asked)).encode()


def run(built, words, given):
    """What a run writes, as output, error output and status."""
    ran = subprocess.run([built, *words], input=given, capture_output=True, timeout=SECONDS)
    return ran.stdout, ran.stderr, ran.returncode


def same(what, got, wanted):
    """Fails where something isn't as it has to be."""
    if got != wanted:
        raise Differs(f"{what}: {got[:400]!r}\n  and not {wanted[:400]!r}")


def compare(built, report, file):
    """Compares the lines of JSON for a file with the recorded report."""
    words = report.arguments(file)
    output, errors, status = run(built, [*words, "--json"], report.given)
    same("output", text_in(output, report.given, status), report.output)
    same("error output", errors, report.errors)
    same("status", str(status), str(report.status))
    plain, _, _ = run(built, [*words, "--demangle"], report.given)
    output, _, status = run(built, [*words, "--demangle", "--json"], report.given)
    same("undecorated output", text_in(output, report.given, status), plain)


def run_case(built, report):
    """Runs a report on each of its files, and returns what differs."""
    for change, content in report.files():
        with tempfile.NamedTemporaryFile(suffix=".pdb") as file:
            file.write(content)
            file.flush()
            try:
                compare(built, report, file.name)
            except (Differs, ValueError, KeyError, subprocess.TimeoutExpired) as why:
                return f"{report.name}, {change}: {why}\n"
    return ""


def main():
    place, words = taken(sys.argv[1:], compiled.place)
    built = program(place, "pdb_symbolizer")
    reports = [it for it in chosen(words or FILES) if it.arguments("")[0] == "frames"]
    failed = 0
    with concurrent.futures.ThreadPoolExecutor(os.cpu_count()) as lanes:
        for wrong in lanes.map(run_case, [built] * len(reports), reports):
            print(wrong, end="")
            failed += bool(wrong)
    end(len(reports) - failed, failed)


if __name__ == "__main__":
    try:
        main()
    except Malformed as malformed:
        stop(malformed)
