#!/usr/bin/env python3
"""Checks pdb_inspect against pdb_symbolizer at every address, llvm-pdbutil and hashlib.

    tests/inspect.py [--built BUILT | --unproved] [--record | FILE ..]

FILE is a program database; without one the four stored ones are taken. BUILT is where the programs
lie, with NAME in it for a program's name; if left out, the proved ones are run. Of each file:

- `functions`: each place is that of the outermost frame that `frames` has at the function's start,
  and starts ascend;
- `lines`: each address of a run has the run's file and line in its innermost frame, and no other
  address of code has a frame that can be read;
- `sizes` by function and by file: the counts are those of `pdb_symbolizer sizes`; with padding
  joined each address of a contribution counts for the last of the functions that begin in it;
- `modules`: the bytes of each module are those of llvm-pdbutil's section contributions;
- `info`: GUID and age are those of llvm-pdbutil;
- `locate`: each name of a function is found at its address;
- `sources`: what is said agrees with the digests, by Python's hashlib, of copies that are right,
  changed and missing; and with `SUMS` of a database with MD5, SHA-1 and SHA-256 by hashlib;
- `diff`: the changes add up to the difference of the totals, and are none of a file to itself;
- CSV and JSON have the same rows.

- a pipe gives what its file gives;
- long work shows how far it is where standard error is a terminal, and nowhere else;
- each fault is told by its name, on standard error;
- the cases of tests/inspect/cases.txt answer as they are recorded.

What llvm-pdbutil 14 says of the stored databases is recorded in tests/inspect, one file for each
that it can read, and --record writes that anew. Of other databases its checks are left out where it isn't installed,
which is said. A file with more than a million bytes of code is asked at some of its addresses. The
last line is `N passed, M failed`.
"""
import csv
import hashlib
import io
import json
import lzma
import os
import re
import shlex
import shutil
import subprocess
import sys
import tempfile

sys.dont_write_bytecode = True
import compiled  # noqa: E402
from built import ROOT, end, program, stop, taken  # noqa: E402

STORED = [f"{ROOT}/crates/pdb_symbolizer/data/{it}.pdb" for it in ("x64", "i386", "gnu_ld", "damaged")]
PLACE = re.compile(r"  (.*) at (.*):(\d+|\?\?) @.*")
# Files, and what is to be said of the paths of tests/inspect/sums.pdb.xz by them. Each name has the
# kind of its checksum; that of ch.c is another content's, that of deep/dir/d.c is d.c's, and that of
# short.c is cut. gone.c is a FIFO.
COPIES = {
    "md5.c": b"md5 file",
    "sha1.c": b"sha1 file",
    "sha256.c": b"sha256 file",
    "empty.c": b"",
    "ch.c": b"changed now",
    "short.c": b"q",
    "none.c": b"x",
    "deep/dir/d.c": b"deep",
    "d.c": b"other",
}
SUMS = """verdict,path
changed,/b/ch.c
right,/b/empty.c
missing,/b/emptymd5.c
missing,/b/gone.c
right,/b/md5.c
no checksum,/b/none.c
changed,/b/short.c
missing,/b/twice.c
missing,/b/twice.c
right,/x/deep/dir/d.c
right,C:\\b\\sha1.c
right,sha256.c
"""
ASKED = "section-headers", "section-contribs", "modules", "summary", "files"
MOST = 1_000_000
counts = [0, 0]


def check(what, holds, why=""):
    counts[0 if holds else 1] += 1
    if not holds:
        print(f"FAILED {what}: {why}")


def run(words, given=b"", status=0):
    done = subprocess.run(words, input=given, stdout=subprocess.PIPE, stderr=subprocess.PIPE)
    if done.returncode != status:
        check(" ".join(words), False, f"status {done.returncode}: {done.stderr[:200]!r}")
    return done.stdout.decode("utf-8", "replace")


def rows_of(inspect, *words):
    """The rows of a command, which CSV and JSON have alike."""
    rows = [json.loads(it) for it in run([inspect, *words, "--format", "json"]).splitlines()]
    text = run([inspect, *words, "--format", "csv"])
    as_csv = list(csv.DictReader(io.StringIO(text, newline="")))
    same = [{k: "" if v is None else str(v) for k, v in it.items()} for it in rows] == as_csv
    check(f"{words[0]} {words[1]} as CSV", same, "its rows differ from those of JSON")
    return rows


def frames_at(symbolizer, file, addresses):
    """For each address its frames, innermost first: name, file, line; None if unreadable."""
    given = "".join(f"{it:x}\n" for it in addresses).encode()
    answers, frames = {}, None
    for line in run([symbolizer, "frames", file], given).splitlines():
        if line.startswith("0x"):
            frames = answers.setdefault(int(line, 16), [])
        elif line == "  unreadable":
            frames.append(None)
        elif line != "  ??":
            frames.append(PLACE.fullmatch(line).groups())
    return {it: None if None in found else found for it, found in answers.items()}


def place(row):
    file, line = row["file"], row["line"]
    return ("??" if file is None else file, "??" if line is None else str(line))


def check_functions(inspect, symbolizer, file):
    rows = rows_of(inspect, "functions", file)
    starts = [int(it["start"], 16) for it in rows]
    check(f"functions {file}: order", starts == sorted(set(starts)), "starts don't ascend")
    found = frames_at(symbolizer, file, starts)
    for start, row in zip(starts, rows):
        frames = found[start]
        wanted = frames[-1][1:] if frames else ("??", "??")
        check(f"functions {file} {row['start']}", place(row) == wanted, f"{row} and {frames}")
    for row in rows[:200]:
        if row["name"] and "\n" not in row["name"]:
            places = run([inspect, "locate", file, row["name"], "--format", "json"]).splitlines()
            is_in = row["start"] in [json.loads(it)["address"] for it in places]
            check(f"locate {file} {row['name']}", is_in, f"{places}")


def check_lines(inspect, symbolizer, file, code):
    """`code`: the ranges of the sections in which code may run."""
    runs = {}
    for row in rows_of(inspect, "lines", file):
        for address in range(int(row["start"], 16), int(row["start"], 16) + row["size"]):
            if address in runs:
                check(f"lines {file} {address:x}", False, "it is in two runs")
            runs[address] = place(row)
    addresses = [it for start, stop_at in code for it in range(start, stop_at)]
    found = frames_at(symbolizer, file, addresses[:: 1 + len(addresses) // MOST])
    wrong = [(it, at, runs.get(it)) for it, at in found.items()
             if (at[0][1:] if at else None) != runs.get(it)]
    check(f"lines {file}", not wrong, f"{wrong[:3]}")


def symbolizer_sizes(symbolizer, file, by_file, last):
    """The counts of `pdb_symbolizer sizes`, by name."""
    words = [symbolizer, "sizes", file, "0", f"{last:x}"] + ["--by-file"] * by_file
    sizes = {}
    for line in run(words).splitlines():
        if by_file:
            found = re.fullmatch(r"(?:(no file|none|unreadable) (\d+)|(\d+) (.*))", line).groups()
            name, count = (found[0], found[1]) if found[0] else (found[3], found[2])
            name = {"no file": "(no file)", "unreadable": "(unreadable)"}.get(found[0], name)
        elif line.startswith("none "):
            continue
        else:
            _, count, name = line.split(" ", 2)
        if count != "0" and not (by_file and line.startswith("none ")):
            sizes[name] = sizes.get(name, 0) + int(count)
    return sizes


def sizes_of(inspect, file, *words):
    rows = rows_of(inspect, "sizes", file, *words)
    order = [(-it["bytes"], it["name"]) for it in rows]
    check(f"sizes {file} {words}: order", order == sorted(order, key=lambda it: (it[0], it[1].encode())))
    return {it["name"]: it["bytes"] for it in rows}


def check_sizes(inspect, symbolizer, file, last, contributions):
    for by, by_file in (("function", False), ("file", True)):
        wanted = symbolizer_sizes(symbolizer, file, by_file, last)
        got = sizes_of(inspect, file, "--by", by)
        check(f"sizes {file} by {by}", got == wanted, f"{set(got.items()) ^ set(wanted.items())}")
    by_file = sizes_of(inspect, file, "--by", "file")
    folders = {}
    for name, count in by_file.items():
        folder = name if name.startswith("(") else re.split(r"[/\\][^/\\]*$", name)[0]
        folder = "" if folder == name and not name.startswith("(") else folder
        folders[folder] = folders.get(folder, 0) + count
    check(f"sizes {file} by folder", sizes_of(inspect, file, "--by", "folder") == folders)
    top = run([inspect, "sizes", file, "--top", "1"]).splitlines()
    total = sum(sizes_of(inspect, file).values())
    check(f"sizes {file}: total", int(top[-1].split()[0]) == total, f"{top[-1]}, {total}")
    if contributions is None or sum(it[2] for it in contributions) > MOST:
        return
    joined = {}
    names = {int(it["start"], 16): it["name"] or "??" for it in rows_of(inspect, "functions", file)}
    for start, _, size, _ in contributions:
        last = None
        for it in range(start, start + size):
            last = names.get(it, last)
            if last:
                joined[last] = joined.get(last, 0) + 1
    got = sizes_of(inspect, file, "--join-padding")
    check(f"sizes {file} joined", got == joined, f"{set(got.items()) ^ set(joined.items())}")


def recorded(file):
    """Where it is recorded what llvm-pdbutil says of a stored database."""
    return f"{ROOT}/tests/inspect/{os.path.basename(file).removesuffix('.pdb')}.txt"


def record():
    """Records what llvm-pdbutil says of the stored databases."""
    for file in STORED:
        said = {it: said_by_pdbutil(it, file) for it in ASKED}
        if not all(said.values()):
            continue
        with open(recorded(file), "w", encoding="utf-8") as out:
            for what, text in said.items():
                lines = [line.rstrip() for line in text.strip("\n").split("\n")]
                out.write(f"$ llvm-pdbutil dump --{what}\n" + "\n".join(lines) + "\n")


def pdbutil(what, file):
    """What llvm-pdbutil says of a file: of a stored one what is recorded."""
    if file not in STORED:
        return said_by_pdbutil(what, file)
    if not os.path.exists(recorded(file)):
        return ""
    with open(recorded(file), encoding="utf-8") as text:
        pieces = dict(it.split("\n", 1) for it in text.read().split("$ llvm-pdbutil dump --")[1:])
    return pieces.get(what, "")


def said_by_pdbutil(what, file):
    """What llvm-pdbutil says of a file; nothing where it isn't installed, or can't read the file."""
    if not shutil.which("llvm-pdbutil"):
        return ""
    words = ["llvm-pdbutil", "dump", f"--{what}", file]
    done = subprocess.run(words, stdout=subprocess.PIPE, stderr=subprocess.DEVNULL)
    if done.returncode != 0:
        print(f"llvm-pdbutil can't read {what} of {file}: what is checked by it is left out")
        return ""
    return done.stdout.decode("utf-8", "replace")


def pdbutil_contributions(file, sections):
    """Start, module, size and flags of each section contribution."""
    text = pdbutil("section-contribs", file)
    form = r"mod = (\d+), (\d+):(\d+), size = (\d+), .*\n((?:\s+(?:IMAGE|none|\|).*\n?)*)"
    found = []
    for module, section, offset, size, flags in re.findall(form, text):
        at = int(section) - 1
        start = sections[at][0] + int(offset) if 0 <= at < len(sections) else None
        found.append((start, int(module), int(size), flags))
    return found


def pdbutil_sections(file):
    """Start, size and whether code may run, of each section."""
    text = pdbutil("section-headers", file)
    form = r"SECTION HEADER #\d+.*?([0-9A-F]+) virtual size\s+([0-9A-F]+) virtual address(.*?)(?=SECTION HEADER|\Z)"
    return [
        (int(start, 16), int(size, 16), "MEM_EXECUTE" in rest or "Execute" in rest)
        for size, start, rest in re.findall(form, text, re.S)
    ]


def check_modules(inspect, file, contributions):
    text = pdbutil("modules", file)
    modules = re.findall(r"Mod \d+ \| `(.*)`:", text)
    wanted = [[name, 0, 0, 0, 0] for name in modules] + [["(no module)", 0, 0, 0, 0]]
    for _, module, size, flags in contributions:
        if "MEM_EXECUTE" in flags or "CNT_CODE" in flags:
            part = 1
        elif "CNT_UNINITIALIZED_DATA" in flags:
            part = 4
        else:
            part = 3 if "MEM_WRITE" in flags else 2
        wanted[min(module, len(modules))][part] += size
    if not any(wanted[-1][1:]):
        wanted.pop()
    rows = rows_of(inspect, "modules", file)
    got = [[it["module"], it["code"], it["read_only"], it["written"], it["zeroed"]] for it in rows]
    check(f"modules {file}", got == wanted, f"{got} and {wanted}")
    by_module = {}
    for name, *parts in wanted:
        by_module[name] = by_module.get(name, 0) + sum(parts)
    by_module = {name: size for name, size in by_module.items() if size}
    check(f"sizes {file} by module", sizes_of(inspect, file, "--by", "module") == by_module)


def check_info(inspect, file):
    text = pdbutil("summary", file)
    rows = rows_of(inspect, "info", file)
    guid = re.search(r"GUID: \{(.*)\}", text)[1]
    # llvm-pdbutil 14 and 19 print the GUID's bytes in another order: the first three numbers.
    plain = guid.replace("-", "")
    bytes_of = bytes.fromhex(plain)
    swapped = (bytes_of[3::-1] + bytes_of[5:3:-1] + bytes_of[7:5:-1] + bytes_of[8:]).hex().upper()
    got = rows[0]["guid"].replace("-", "")
    check(f"info {file}: GUID", got in (plain, swapped), f"{got} and {plain}")
    streams = int(re.search(r"Number of streams: (\d+)", text)[1])
    page = int(re.search(r"Block Size: (\d+)", text)[1])
    check(f"info {file}: streams", (rows[0]["streams"], rows[0]["page_size"]) == (streams, page), rows[0])


def stored_sums(file):
    """Path and checksum of each source file, by llvm-pdbutil."""
    text = pdbutil("files", file)
    return {
        (path, kind.lower(), sum_of.lower())
        for kind, sum_of, path in re.findall(r"- \((MD5|SHA-1|SHA-256): ([0-9A-F]+)\) (.*)", text)
    }


def check_sources(inspect, file):
    digests = {"md5": hashlib.md5, "sha-1": hashlib.sha1, "sha-256": hashlib.sha256}
    sums = stored_sums(file)
    have = f"{ROOT}/examples/source"
    with tempfile.TemporaryDirectory() as folder:
        for turn, changed in enumerate((False, True, None)):
            for name in os.listdir(have):
                if changed is None:
                    os.remove(f"{folder}/{name}")
                    continue
                given = open(f"{have}/{name}", "rb").read()
                open(f"{folder}/{name}", "wb").write(given + b" " * changed)
            rows = rows_of(inspect, "sources", file, folder)
            verdicts = sorted((it["path"], it["verdict"]) for it in rows if it["verdict"] != "no checksum")
            wanted = []
            for path, kind, sum_of in sums:
                at = f"{folder}/" + re.split(r"[/\\]", path)[-1]
                if not os.path.exists(at):
                    verdict = "missing"
                else:
                    same = digests[kind](open(at, "rb").read()).hexdigest() == sum_of
                    verdict = "right" if same else "changed"
                wanted.append((path, verdict))
            check(f"sources {file} {turn}", verdicts == sorted(wanted), f"{verdicts} and {sorted(wanted)}")


def check_sums(inspect):
    with tempfile.TemporaryDirectory() as folder:
        with lzma.open(f"{ROOT}/tests/inspect/sums.pdb.xz") as stored, open(f"{folder}/sums.pdb", "wb") as file:
            file.write(stored.read())
        for name, content in COPIES.items():
            os.makedirs(os.path.dirname(f"{folder}/src/{name}"), exist_ok=True)
            with open(f"{folder}/src/{name}", "wb") as file:
                file.write(content)
        os.mkfifo(f"{folder}/src/gone.c")
        said = run([inspect, "sources", f"{folder}/sums.pdb", f"{folder}/src", "--format", "csv"])
        check("checksums of each kind", said == SUMS, said)


def check_diff(inspect, old, new):
    for by in ("function", "file", "folder", "module", "library", "section"):
        rows = rows_of(inspect, "diff", old, new, "--by", by)
        wanted = {name: size for name, size in sizes_of(inspect, new, "--by", by).items()}
        had = {name: size for name, size in sizes_of(inspect, old, "--by", by).items()}
        changes = {it["name"]: (it["old"], it["new"], it["change"]) for it in rows}
        names = {it for it in {*wanted, *had} if wanted.get(it, 0) != had.get(it, 0)}
        right = {it: (had.get(it, 0), wanted.get(it, 0), wanted.get(it, 0) - had.get(it, 0)) for it in names}
        check(f"diff {old} {new} by {by}", changes == right, f"{changes} and {right}")
        total = sum(it[2] for it in changes.values())
        check(f"diff {old} {new} by {by}: total", total == sum(wanted.values()) - sum(had.values()))


def check_file(inspect, symbolizer, file):
    sections = pdbutil_sections(file)
    check_functions(inspect, symbolizer, file)
    if not sections:
        check_sizes(inspect, symbolizer, file, 0x0100_0000, None)
        return
    code = [(start, start + size) for start, size, may_run in sections if may_run]
    check_lines(inspect, symbolizer, file, code)
    contributions = pdbutil_contributions(file, sections)
    if not contributions:
        return
    kept = [it for it in contributions if it[0] is not None]
    last = max(start + size for start, size, _ in sections)
    check_sizes(inspect, symbolizer, file, last, kept)
    check_modules(inspect, file, contributions)
    check_info(inspect, file)
    check_sources(inspect, file)


def piece_of(terminal):
    """What was written to a terminal next; nothing at the end."""
    try:
        return os.read(terminal, 1 << 16)
    except OSError:
        return b""


def on_terminal(words):
    """What a program writes to standard error where that is a terminal; and its output."""
    shown, terminal = os.openpty()
    done = subprocess.run(words, stdout=subprocess.PIPE, stderr=terminal)
    os.close(terminal)
    text = b""
    while piece := piece_of(shown):
        text += piece
    os.close(shown)
    return text, done.stdout


def check_progress(inspect):
    x64, i386 = STORED[:2]
    cases = [
        (["sources", x64, f"{ROOT}/examples/source"], rb"\r0 of 4 files\r {40}\r"),
        (["diff", x64, i386], b"%s\r {%d}\r%s\r {%d}\r" % (x64.encode(), len(x64), i386.encode(), len(i386))),
        (["functions", x64], b""),
    ]
    for words, form in cases:
        alone = subprocess.run([inspect, *words], stdout=subprocess.PIPE, stderr=subprocess.PIPE)
        text, output = on_terminal([inspect, *words])
        check(f"progress of {words[0]}", re.fullmatch(form, text), text)
        check(f"no progress of {words[0]}", (alone.stdout, alone.stderr) == (output, b""), alone.stderr)


def check_pipe(inspect, file):
    with open(file, "rb") as opened:
        content = opened.read()
    for command in ("functions", "lines", "modules", "sources", "sizes"):
        words = [inspect, command, "/dev/stdin", "--format", "json"]
        same = run(words, content) == run([inspect, command, file, "--format", "json"])
        check(f"{command} of a pipe", same, "its rows differ from those of the file")
    came = json.loads(run([inspect, "info", "/dev/stdin", "--format", "json"], content))
    wanted = json.loads(run([inspect, "info", file, "--format", "json"]))
    check("info of a pipe", {**came, "file": file} == wanted, f"{came} and {wanted}")


def check_faults(inspect):
    cases = [
        (["sizes", "data/x.pdb"], b"pdb_inspect: cannot read data/x.pdb: No such file or directory\n", 1),
        (["info", ROOT], f"pdb_inspect: cannot read {ROOT}: Is a directory\n".encode(), 1),
        (["info", __file__], f"pdb_inspect: cannot load {__file__}: UnrecognizedFileFormat\n".encode(), 1),
        (["sizes", "x", "--top", "a"], b"error: --top wants a number, and a is none\n", 2),
        (["sizes", "x", "--by", "file", "--join-padding"], b"error: --join-padding goes with --by function alone\n", 2),
    ]
    for words, text, status in cases:
        done = subprocess.run([inspect, *words], stdout=subprocess.PIPE, stderr=subprocess.PIPE)
        same = (done.returncode, done.stdout, done.stderr) == (status, b"", text)
        check(f"fault {words}", same, f"{done.returncode} {done.stderr!r}")
    with open("/dev/full", "wb") as full:
        done = subprocess.run([inspect, "info", STORED[0]], stdout=full, stderr=subprocess.PIPE)
    check("fault of a full output", done.returncode == 1 and b"cannot write" in done.stderr, done.stderr)


def check_cases(inspect):
    folder = os.path.dirname(STORED[0])
    with open(f"{ROOT}/tests/inspect/cases.txt", encoding="utf-8") as text:
        cases = re.findall(r"(?m)^\$ (.*)\n((?:(?:[>!]|status) ?.*\n)*)", text.read())
    for words, wanted in cases:
        done = subprocess.run([inspect, *shlex.split(words)], cwd=folder, capture_output=True)
        came = "".join(f"> {it}\n" for it in done.stdout.decode().splitlines())
        came += "".join(f"! {it}\n" for it in done.stderr.decode().splitlines())
        came += f"status {done.returncode}\n" * (done.returncode != 0)
        check(words, came == wanted, f"{came} and {wanted}")
    check("cases", cases, "none is recorded")


def attempt(what, checks, *words):
    """Makes checks. An output that has another form than theirs is a failure."""
    try:
        checks(*words)
    except (ArithmeticError, AttributeError, LookupError, TypeError, ValueError) as error:
        check(what, False, repr(error))


def main():
    place_of, files = taken(sys.argv[1:], compiled.place)
    if files == ["--record"]:
        return record()
    inspect, symbolizer = program(place_of, "pdb_inspect"), program(place_of, "pdb_symbolizer")
    if files and not shutil.which("llvm-pdbutil"):
        print("llvm-pdbutil isn't installed: what is checked by it is left out")
    if not run([inspect, "--version"]).startswith("pdb_inspect "):
        stop(f"{inspect} doesn't say its version")
    files = files or STORED
    for file in files:
        if not os.path.isfile(file):
            stop(f"{file} isn't there")
        attempt(file, check_file, inspect, symbolizer, file)
    attempt("diff", check_diff, inspect, files[0], files[-1])
    attempt("diff of one", check_diff, inspect, files[0], files[0])
    attempt("progress", check_progress, inspect)
    attempt("a pipe", check_pipe, inspect, files[0])
    attempt("faults", check_faults, inspect)
    attempt("checksums", check_sums, inspect)
    attempt("cases", check_cases, inspect)
    end(*counts)


main()
