#!/usr/bin/env python3
"""Compares pdb_llvm_symbolizer with llvm-symbolizer 19 at addresses of databases, and counts where
their answers differ:

    bench/llvm_corpus.py [--built FILE] [--addresses N] [--show N] [DATABASE..]

FILE is where the program lies, with NAME in it for its name; if left out, the proved one is run.
Each DATABASE is a file, or a folder whose files ending in .pdb are taken; if left out, those that
the repository has are. An image is made for each, which names the database and has its sections.
Both programs are asked for N addresses of its code (2,000 if left out): all, if there are no more,
or else addresses at equal distances. Compared are the depth of the answer, and of each frame
function, file, line and column. Where answers differ, the script names the first of these that
does, and puts every frame that differs into a class. A class is a row of docs/DIFFERENCES.md: an
address is in it only where the database's own rows (stored_rows.py) are as the row says. The script
prints how many addresses each has, and N of --show of each.

The counts in DIFFERENCES are of the repository's databases; of the .pdb files of LLVM's own tests
(Debian: apt-get source llvm-toolchain-19) with 20000 addresses; of those of bench/run.sh with
100000; and of the first four modules of its smaller one, compiled and linked with other flags as
DLLs without an entry, with 30000.

Nothing is compared where llvm-symbolizer-19 isn't installed (Debian: llvm-19); LLVM_SYMBOLIZER in
the environment may name another file. Each database is one test: it fails where the program doesn't
answer each address, or differs in a way that is in no class. The last line is `N passed, M failed`.
"""
import json
import os
import shutil
import struct
import subprocess
import sys
import tempfile

sys.dont_write_bytecode = True
HERE = os.path.dirname(os.path.realpath(__file__))
sys.path.insert(0, f"{os.path.dirname(HERE)}/tests")
import built
from stored_rows import Rows, Unreadable, streams

EXECUTE = 0x2000_0000
BASE = 0x1_4000_0000
X86 = 0x14C
SECONDS = 600
NUMBERS = {"--addresses": 2000, "--show": 0}


def described(data):
    """Of a database its machine, GUID, age, and section headers."""
    try:
        found = streams(data)
        guid = found[1][12:28]
        dbi = found[3]
        age, machine = struct.unpack_from("<I", dbi, 8)[0], struct.unpack_from("<H", dbi, 58)[0]
        sizes = struct.unpack_from("<5i", dbi, 24)
        last = struct.unpack_from("<2i", dbi, 48)
        start = 64 + sum(sizes) + last[1]
        number = struct.unpack_from("<H", dbi, start + 10)[0]
        headers = found[number]
    except (IndexError, struct.error, Unreadable) as error:
        raise Unreadable from error
    if len(guid) != 16 or not headers or len(headers) % 40:
        raise Unreadable
    return machine, guid, age, [headers[it : it + 40] for it in range(0, len(headers), 40)]


def image(path, machine, guid, age, headers):
    """An image that has these sections, without their bytes, and names a database."""
    is_x86 = machine == X86
    own = [it[:16] + bytes(20) + it[36:40] for it in headers]
    end = max(sum(struct.unpack_from("<2I", it, 8)) for it in headers)
    start = end + 0xFFFF & ~0xFFFF
    if start > 0xF000_0000:
        raise Unreadable
    record = b"RSDS" + guid + struct.pack("<I", age) + os.fsencode(path) + b"\0"
    optional = 0xE0 if is_x86 else 0xF0
    front = 0x80 + 4 + 20 + optional + 40 * (len(own) + 1) + 0x1FF & ~0x1FF
    entry = struct.pack("<IIHHIIII", 0, 0, 0, 0, 2, len(record), start + 28, front + 28)
    content = entry + record
    content += bytes(-len(content) % 0x200)
    places = (len(content), start, len(content), front, 0, 0, 0, 0, 0x4000_0040)
    own.append(struct.pack("<8s6I2HI", b".cv", *places))
    made = bytearray(front)
    made[:2] = b"MZ"
    struct.pack_into("<I", made, 0x3C, 0x80)
    made[0x80:0x84] = b"PE\0\0"
    struct.pack_into("<HHIIIHH", made, 0x84, machine or X86, len(own), 0, 0, 0, optional, 0x22)
    at = 0x98
    struct.pack_into("<H", made, at, 0x10B if is_x86 else 0x20B)
    if is_x86:
        struct.pack_into("<I", made, at + 28, BASE & 0xFFFF_FFFF)
    else:
        struct.pack_into("<Q", made, at + 24, BASE)
    struct.pack_into("<II", made, at + 32, 0x1000, 0x200)
    struct.pack_into("<II", made, at + 56, start + 0x10000, front)
    tables = at + (92 if is_x86 else 108)
    struct.pack_into("<I", made, tables, 16)
    struct.pack_into("<II", made, tables + 4 + 8 * 6, start, 28)
    at += optional
    for it in own:
        made[at : at + 40] = it
        at += 40
    return bytes(made) + content


def places(headers, count):
    """Addresses of the code: all, or so many at equal distances."""
    spans = []
    for it in headers:
        size, start = struct.unpack_from("<2I", it, 8)
        if struct.unpack_from("<I", it, 36)[0] & EXECUTE:
            spans.append(range(start, start + min(size, 1 << 28)))
    total = sum(map(len, spans))
    step = max(1, -(-total // count))
    return [it for span in spans for it in span[::step]]


def ask(program, file, asked):
    """The answers of a program: each a list of frames, or why there is none."""
    called = [program, f"--obj={file}", "--relative-address", "--output-style=JSON"]
    text = "".join(f"{it:#x}\n" for it in asked).encode()
    ran = subprocess.run(called, input=text, capture_output=True, timeout=SECONDS)
    made = []
    for line in ran.stdout.decode("utf-8", "replace").splitlines():
        answer = json.loads(line)
        made.append(answer.get("Symbol", answer.get("Error")))
    return made


FIELDS = {"function": "FunctionName", "file": "FileName", "line": "Line", "column": "Column"}


# Databases by whether anything is known of their addresses here and there.
WHOLE = {
    (True,): "known here",
    (False,): "unknown here",
    (True, False): "known here alone",
    (False, True): "known there alone",
    (False, False): "unknown in both",
}


def is_known(answer):
    """Whether anything is known of an address by its answer."""
    return isinstance(answer, list) and any(it["FunctionName"] or it["FileName"] for it in answer)


# The rows of DIFFERENCES that are classes of answers that differ, and one that is none.
DAMAGED = "a module whose lines can't be read"
LONG_CALL = "the row of an inlined call whose length isn't stored"
UNDERSCORE = "an inlined call whose name begins with `_`"
FOREIGN = "a name of Rust or of Itanium (`_R..`, `_ZN..`)"
NO_LINE = "a row of the line 0xfeefee or 0xf00f00"
TWO_ROWS = "two rows of lines at one place"
FOLDED = "equal functions that a linker folded into one"
BLOCKS = "a function whose lines lie in several blocks"
TWICE = "an inlined function that is listed twice"
NO_NAME = "an inlined call whose stored name is empty"
UNKNOWN = "no class"
NO_LINES = (0xFEEFEE, 0xF00F00)


def row_class(ours, theirs, offset, over, blocks):
    """The class of two places of a function's own frame, by the rows over its offset of each
    subsection of lines, and by the last ones of each of several blocks."""
    rows = [row for _, rows in over for row in rows]
    if len(over) > 1:
        return FOLDED if {ours[1:], theirs[1:]} <= set(rows) else UNKNOWN
    is_first = len(rows) > 1 and over[0][0] == offset and rows[0] == theirs[1:]
    if is_first and rows[-1] == ours[1:]:
        return TWO_ROWS
    return BLOCKS if ours[1:] in rows and theirs[1:] in blocks else UNKNOWN


def call_class(ours, theirs, twice):
    """The class of two places of a call, by the lines between entries of one inlined function."""
    return TWICE if ours[0] == theirs[0] and ours[1] - theirs[1] in twice else UNKNOWN


def name_class(ours, theirs, is_call, is_x86):
    """The class of two names that differ, of a call or the function itself."""
    if is_call and (ours, theirs) == ("<name omitted>", ""):
        return NO_NAME
    if is_call:
        return UNDERSCORE if is_x86 and ours == f"_{theirs}" else UNKNOWN
    return FOREIGN if ours.startswith(("_R", "_Z")) else UNKNOWN


def frame_classes(ours, theirs, is_call, is_x86, rows, place):
    """The classes of two frames, of a call or the function itself: none if they are alike."""
    names = ours["FunctionName"], theirs["FunctionName"]
    given, wanted = place_of(ours), place_of(theirs)
    found = {name_class(*names, is_call, is_x86)} if names[0] != names[1] else set()
    if given == wanted:
        return found
    if theirs["Line"] in NO_LINES:
        return found | {NO_LINE if given == ("", 0, 0) else UNKNOWN}
    if is_call:
        return found | {call_class(given, wanted, set(rows.listed_twice(*place)) - {0})}
    over, blocks = list(rows.rows_over(*place)), list(rows.blocks_over(*place))
    return found | {row_class(given, wanted, place[1], over, blocks)}


def place_of(frame):
    """File, line and column of a frame."""
    return frame["FileName"], frame["Line"], frame["Column"]


def classes(ours, theirs, rows, is_x86, place):
    """The classes of all that differs of two answers at a section and offset."""
    if rows.is_damaged(*place):
        is_bare = not any(it["FileName"] for it in ours + theirs)
        return {DAMAGED if is_bare and len(ours) == 1 else UNKNOWN}
    if len(ours) != len(theirs):
        return {LONG_CALL if len(ours) > len(theirs) and rows.is_open_at(*place) else UNKNOWN}
    last = len(ours) - 1
    found = set()
    for it, (a, b) in enumerate(zip(ours, theirs)):
        found |= frame_classes(a, b, it < last, is_x86, rows, place)
    return found


def kind(ours, theirs):
    """The first that differs of two answers; None if none does."""
    if len(ours) != len(theirs):
        return "depth"
    for name, field in FIELDS.items():
        if any(a[field] != b[field] for a, b in zip(ours, theirs)):
            return name
    return None


def shown(answer):
    """An answer in a line."""
    if not isinstance(answer, list):
        return str(answer)
    return " <- ".join(" ".join(str(it[field]) for field in FIELDS.values()) for it in answer)


def asked_of(path, room, count):
    """An image that names a copy of a database, what describes that, and addresses of its code."""
    with open(path, "rb") as file:
        described_by = described(file.read())
    shutil.copyfile(path, f"{room}/it.pdb")
    with open(f"{room}/it.exe", "wb") as file:
        file.write(image(f"{room}/it.pdb", *described_by))
    return f"{room}/it.exe", described_by, places(described_by[3], count)


def placed(at, headers):
    """The section of an address, and the offset in it."""
    for number, it in enumerate(headers, 1):
        size, start = struct.unpack_from("<2I", it, 8)
        if start <= at < start + size:
            return number, at - start
    raise Unreadable


def compare(path, described_by, asked, answers, show):
    """How many addresses of a database each kind of difference has, with its classes."""
    counts, rows = {}, None
    machine, _, _, headers = described_by
    for at, ours, theirs in zip(asked, *answers):
        it = kind(ours, theirs)
        if it is None:
            continue
        if rows is None:
            with open(path, "rb") as file:
                rows = Rows(file.read())
        of = classes(ours, theirs, rows, machine == X86, placed(at, headers))
        it += ": " + "; ".join(sorted(of))
        counts[it] = counts.get(it, 0) + 1
        if counts[it] <= show:
            print(f"  {it} at {at:x}\n    here:  {shown(ours)}\n    there: {shown(theirs)}")
    return counts


def stored():
    """The databases of linkers that the repository has, each once."""
    found = {}
    for crate in ("pdb_symbolizer", "pdb_llvm_symbolizer"):
        folder = f"{built.ROOT}/crates/{crate}/data"
        found.update((it, f"{folder}/{it}") for it in os.listdir(folder) if it.endswith(".pdb"))
    return [found[it] for it in sorted(found)]


def taken(given):
    """The numbers and the databases among the words."""
    numbers, files = dict(NUMBERS), []
    while given:
        word = given.pop(0)
        if word in numbers:
            numbers[word] = int(given.pop(0))
        elif os.path.isdir(word):
            files += [f"{word}/{it}" for it in sorted(os.listdir(word)) if it.endswith(".pdb")]
        else:
            files.append(word)
    if not files:
        files = stored()
    return numbers, files


place, given = built.taken(sys.argv[1:], None)
numbers, files = taken(given)
programs = [built.program(place, "pdb_llvm_symbolizer")]
original = shutil.which(os.environ.get("LLVM_SYMBOLIZER", "llvm-symbolizer-19"))
if original:
    programs.append(original)
else:
    print("llvm-symbolizer-19 isn't installed: nothing is compared")
totals, whole, passed, failed = {}, {}, 0, 0
for path in files:
    with tempfile.TemporaryDirectory() as room:
        try:
            it, described_by, asked = asked_of(path, room, numbers["--addresses"])
        except Unreadable:
            whole["without an image"] = whole.get("without an image", 0) + 1
            continue
        answers = [ask(program, it, asked) for program in programs]
    is_answered = [len(it) == len(asked) and any(map(is_known, it)) for it in answers]
    if len(answers[0]) not in (1, len(asked)):
        failed += 1
        print(f"{path}: an address has no answer")
        continue
    name = WHOLE.get(tuple(is_answered))
    if name:
        passed += 1
        whole[name] = whole.get(name, 0) + 1
        continue
    counts = compare(path, described_by, asked, answers, numbers["--show"])
    is_told = not any(UNKNOWN in it for it in counts)
    passed += is_told
    failed += not is_told
    for name, number in [("addresses", len(asked)), *counts.items()]:
        totals[name] = totals.get(name, 0) + number
    if counts:
        print(f"{path}: {len(asked)} addresses; {counts}")
print(f"databases: {whole}; of the others:")
for name, number in totals.items():
    print(f"  {number} {name}")
built.end(passed, failed)
