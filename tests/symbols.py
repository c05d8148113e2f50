#!/usr/bin/env python3
"""Checks symbol files byte for byte.

    tests/symbols.py [--built FILE | --unproved] [NAME..]

FILE is where the programs lie, with NAME in it for a program's name; if left out, the proved ones
are run, with --unproved those that `rt try` compiles. A case is a database of
tests/symbols/cases.tar.xz, NAME.pdb; NAME alone is tried if names are given. Beside it lie what has
to be written: NAME.sym of the database alone, NAME.image.sym with its image NAME.exe,
NAME.outer.sym without inlined calls, all three with names as they are stored, and NAME.names.sym
with undecorated ones. The files were made by a program that asks for each address by itself, and
finds stretches and numbers by the rules of the form; the undecorated names are those that
llvm-undname 19 prints.

Then comes unwinding: unwind.exe has each unwind code, chained entries and machine frames, and gets
the identity of a database; unwind.cfi has its records, which another reader of these codes wrote.

Then come faults: a database that isn't loaded is refused as pdb_symbolizer refuses it, an image of
another build, one that is cut short and a file that is no image by their names, and nothing is
written. Last come names with a character that ends a line, long files that aren't read whole,
outputs that fail, and --output and --store, which have to write the whole file and leave nothing
beside it. Links and FIFOs are written into, files of others beside it stay, also of runs at once,
and no file that is read is written over. Without proof these aren't tried, since a stand-in writes
no files. The last line is `N passed, M failed`.
"""
import os
import resource
import struct
import subprocess
import sys
import tarfile
import tempfile

sys.dont_write_bytecode = True
import built

CASES = f"{built.ROOT}/tests/symbols/cases.tar.xz"
SECONDS = 60
# What the end of a case's file has, and the words that ask for it.
FORMS = {
    ".sym": ["--no-demangle"],
    ".image.sym": ["--no-demangle"],
    ".outer.sym": ["--no-demangle", "--no-inlines"],
    ".names.sym": [],
}
FAULTY_SIZES = [0, 1, 31, 56, 4096, 9000, 20000]
# Lengths of the image cpp_o2_19.exe cut short, and what isn't whole then: the DOS header, the
# headers up to 180, those of the sections up to 248, the debug directory at 1910, the CodeView
# record at 192c.
CUT_IMAGES = {
    0x1: b"NoDosSignature",
    0x3F: b"HeadersPastEnd",
    0x17F: b"HeadersPastEnd",
    0x180: b"SectionsPastEnd",
    0x247: b"SectionsPastEnd",
    0x248: b"DebugDirectoryPastEnd",
    0x192B: b"DebugDirectoryPastEnd",
    0x192C: b"NoRsdsRecord",
    0x1963: b"RecordPastEnd",
}
# The length of the image up to its exception directory.
BEFORE_FUNCTIONS = 0x1E00
# The length of a file that is longer than any image, and the memory that may be taken then.
LONG = 6 << 30
ROOM = 1 << 30
# How many names beside a path are tried, and how many runs write to one path at once.
NAMES = 1000
RUNS = 8


def run(program, words, folder):
    """Status, output and error output of a program."""
    streams = {"stdin": subprocess.DEVNULL, "capture_output": True, "timeout": SECONDS}
    ran = subprocess.run([program, *words], cwd=folder, **streams)
    return ran.returncode, ran.stdout, ran.stderr


class Tally:
    """How many checks passed and failed."""

    def __init__(self):
        self.passed = self.failed = 0

    def check(self, what, got, wanted):
        """Compares what came with what has to come, and says where they begin to differ."""
        if got == wanted:
            self.passed += 1
            return
        self.failed += 1
        print(f"{what}: ", end="")
        if isinstance(got, bytes):
            lines = zip(wanted.split(b"\n"), got.split(b"\n"))
            differing = [pair for pair in lines if pair[0] != pair[1]]
            print("wanted %r, got %r" % (differing or [(wanted[-80:], got[-80:])])[0])
        else:
            print(f"wanted {wanted!r}, got {got!r}")


def check_case(tally, program, folder, name):
    """Compares the symbol files of a database with those that lie beside it."""
    for end, words in FORMS.items():
        if not os.path.exists(f"{folder}/{name}{end}"):
            continue
        image = [f"{name}.exe"] if end == ".image.sym" else []
        wanted = open(f"{folder}/{name}{end}", "rb").read()
        status, output, errors = run(program, [*words, f"{name}.pdb", *image], folder)
        is_well = (status, errors) == (0, b"")
        tally.check(f"{name}{end}", output if is_well else (status, errors), wanted)


def check_refused(tally, program, symbolizer, folder, name):
    """Compares the fault of a database with pdb_symbolizer's, which has to refuse it, too."""
    wanted = run(symbolizer, ["frames", name], folder)
    got = run(program, [name], folder)
    tally.check(name, got if got[:2] == (1, b"") else (got, "isn't refused"), wanted)


def check_faults(tally, program, symbolizer, folder):
    """Compares faults with those of pdb_symbolizer, and those of images with their names."""
    whole = open(f"{folder}/x64.pdb", "rb").read()
    for size in FAULTY_SIZES:
        with open(f"{folder}/cut_{size}.pdb", "wb") as file:
            file.write(whole[:size])
        check_refused(tally, program, symbolizer, folder, f"cut_{size}.pdb")
    check_refused(tally, program, symbolizer, folder, "missing.pdb")
    for image, fault in (
        ("misc_o0.exe", b"OtherBuild"),
        ("x64.pdb", b"Image(NoDosSignature)"),
        ("missing.exe", b"ImageFile(NotFound)"),
    ):
        got = run(program, ["cpp_o2_19.pdb", image], folder)
        tally.check(f"the image {image}", got, (1, b"", b"fault: " + fault + b"\n"))
    image = open(f"{folder}/cpp_o2_19.exe", "rb").read()
    for size, fault in CUT_IMAGES.items():
        with open(f"{folder}/cut_{size:x}.exe", "wb") as file:
            file.write(image[:size])
        got = run(program, ["cpp_o2_19.pdb", f"cut_{size:x}.exe"], folder)
        tally.check(f"the image cut at {size:x}", got, (1, b"", b"fault: Image(" + fault + b")\n"))
    for words in ([], ["--unknown", "x64.pdb"], ["x64.pdb", "--output"], ["a", "b", "c"]):
        got = run(program, words, folder)
        tally.check(f"the words {words}", (got[0], got[1], got[2][:7]), (2, b"", b"error: "))


def code_id(image, name):
    """The line of an image's code ID: its time stamp and its size in memory."""
    headers = struct.unpack_from("<I", image, 60)[0]
    stamp, size = (struct.unpack_from("<I", image, headers + at)[0] for at in (8, 80))
    return f"INFO CODE_ID {stamp:08X}{size:x} {name}\n".encode()


def check_images(tally, program, folder):
    """Has images described that no case has: one with each unwind code, and one that is cut short
    before its exception directory, whose functions are left out."""

    def check_image(name, image, database, records):
        with open(f"{folder}/{name}", "wb") as file:
            file.write(image)
        whole = open(f"{folder}/{database}.sym", "rb").read()
        first, others = whole.split(b"\n", 1)
        wanted = first + b"\n" + code_id(image, name) + others + records
        got = run(program, ["--no-demangle", f"{database}.pdb", name], folder)
        tally.check(f"the image {name}", got[1] if got[::2] == (0, b"") else got, wanted)

    read = lambda name: open(f"{folder}/{name}", "rb").read()
    image, owner = read("unwind.exe"), read("x64.sym").split(b" ")[3].decode()
    number = lambda at, size: int(owner[at : at + size], 16)
    identity = struct.pack("<IHH", number(0, 8), number(8, 4), number(12, 4))
    identity += bytes.fromhex(owner[16:32]) + struct.pack("<I", int(owner[32:], 16))
    place = image.index(b"RSDS") + 4
    image = image[:place] + identity + image[place + len(identity) :]
    check_image("each_code.exe", image, "x64", read("unwind.cfi"))
    check_image("no_functions.exe", read("cpp_o2_19.exe")[:BEFORE_FUNCTIONS], "cpp_o2_19", b"")


def check_names(tally, program, folder):
    """Looks at the first lines of files whose names have characters that end a line or a field."""
    first = open(f"{folder}/cpp_o2_19.image.sym", "rb").read().split(b"\n")[:2]
    wanted = [line.rsplit(b" ", 1)[0] for line in first]
    names = b"a_b_.pdb", b"_c d_.exe"
    os.link(f"{folder}/cpp_o2_19.pdb", f"{folder}/a\nb\t.pdb")
    os.link(f"{folder}/cpp_o2_19.exe", f"{folder}/ c d\r.exe")
    status, output, errors = run(program, ["a\nb\t.pdb", " c d\r.exe"], folder)
    got = output.split(b"\n")[:2] if (status, errors) == (0, b"") else (status, errors)
    tally.check("names", got, [line + b" " + name for line, name in zip(wanted, names)])


def check_long_images(tally, program, folder):
    """Has files given as images that are longer than the memory that may be taken."""

    def check_long(name, front, wanted):
        with open(f"{folder}/{name}", "wb") as file:
            file.write(front)
            file.truncate(LONG)
        how = {"stdin": subprocess.DEVNULL, "capture_output": True, "timeout": SECONDS}
        how["preexec_fn"] = lambda: resource.setrlimit(resource.RLIMIT_AS, (ROOM, ROOM))
        words = [program, "--no-demangle", "cpp_o2_19.pdb", name]
        ran = subprocess.run(words, cwd=folder, **how)
        tally.check(f"the image {name}", (ran.returncode, ran.stdout, ran.stderr), wanted)
        os.remove(f"{folder}/{name}")

    read = lambda name: open(f"{folder}/{name}", "rb").read()
    check_long("zeros.exe", b"", (1, b"", b"fault: Image(NoDosSignature)\n"))
    check_long("begun.exe", b"MZ", (1, b"", b"fault: Image(NoPeSignature)\n"))
    wanted = read("cpp_o2_19.image.sym").replace(b" cpp_o2_19.exe\n", b" followed.exe\n", 1)
    check_long("followed.exe", read("cpp_o2_19.exe"), (0, wanted, b""))


def check_failing_outputs(tally, program, folder):
    """Has texts written to a full disk, and to a pipe that nobody reads."""
    image = ["cpp_o2_19.pdb", "cpp_o2_19.exe"]
    ends, write = os.pipe()
    os.close(ends)
    with open("/dev/full", "wb") as full, open(write, "wb", buffering=0) as pipe:
        for output, kind in ((full, b"Other"), (pipe, b"BrokenPipe")):
            for words in (image, ["--help"], ["--version"]):
                how = {"stdin": subprocess.DEVNULL, "stdout": output, "stderr": subprocess.PIPE}
                ran = subprocess.run([program, *words], cwd=folder, timeout=SECONDS, **how)
                wanted = 1, b"fault: Write(" + kind + b")\n"
                tally.check(f"{words}, {kind}", (ran.returncode, ran.stderr), wanted)


def check_targets(tally, program, folder):
    """Has files written, and looks at what lies there then."""
    wanted = open(f"{folder}/cpp_o2_19.image.sym", "rb").read()
    identity = wanted.split(b" ")[3].decode()
    words = ["--no-demangle", "cpp_o2_19.pdb", "cpp_o2_19.exe"]

    def check_target(tally, option, below, name):
        got = run(program, [*option, *words], folder)
        found = os.listdir(below) if os.path.isdir(below) else []
        text = open(f"{below}/{name}", "rb").read() if found == [name] else found
        tally.check(f"{option}", text if got == (0, b"", b"") else got, wanted)

    os.mkdir(f"{folder}/out")
    open(f"{folder}/it.txt", "wb").close()
    check_target(tally, ["--output", "out/it.sym"], f"{folder}/out", "it.sym")
    below = f"{folder}/store/cpp_o2_19.pdb/{identity}"
    check_target(tally, ["--store=store"], below, "cpp_o2_19.sym")
    got = run(program, ["--output", "missing/it.sym", *words], folder)
    tally.check("no folder", got, (1, b"", b"fault: Write(NotFound)\n"))
    got = run(program, ["--store", "it.txt", *words], folder)
    tally.check("a file as store", (got[:2], got[2][:13]), ((1, b""), b"fault: Write("))
    if os.geteuid():
        os.mkdir(f"{folder}/read", 0o555)
        for option in (["--store", "read"], ["--output", "read/it.sym"]):
            got = run(program, [*option, *words], folder)
            tally.check(f"{option}", got, (1, b"", b"fault: Write(PermissionDenied)\n"))


def check_store_over(tally, program, folder, words, name):
    """Has a symbol file written to a store where its place is another name of what is read."""
    identity = open(f"{folder}/cpp_o2_19.image.sym", "rb").read().split(b" ")[3].decode()
    below = f"{folder}/over_{name}/cpp_o2_19.pdb/{identity}"
    place = f"{below}/cpp_o2_19.sym"
    before = open(f"{folder}/{name}", "rb").read()
    os.makedirs(below)
    for how in (os.link, os.symlink):
        how(f"{folder}/{name}", place)
        got = run(program, ["--store", f"over_{name}", *words], folder)
        tally.check(f"{name} in a store", (got[0], got[1], got[2][:7]), (2, b"", b"error: "))
        tally.check(f"{name} in place", open(place, "rb").read(), before)
        tally.check(f"beside {name}", os.listdir(below), ["cpp_o2_19.sym"])
        os.remove(place)


def check_others(tally, program, folder):
    """Has files written where others stand: links, FIFOs, files of other runs, what is read."""
    read = lambda name: open(f"{folder}/{name}", "rb").read()
    image = ["--no-demangle", "cpp_o2_19.pdb", "cpp_o2_19.exe"]
    wanted, done = read("cpp_o2_19.image.sym"), (0, b"", b"")
    os.symlink("behind.sym", f"{folder}/link.sym")
    tally.check("a link", run(program, ["--output", "link.sym", *image], folder), done)
    tally.check("behind a link", read("behind.sym"), wanted)
    tally.check("the link", os.path.islink(f"{folder}/link.sym"), True)
    with open(f"{folder}/old.sym", "wb") as file:
        file.write(b"old")
    os.symlink("old.sym", f"{folder}/to_old.sym")
    little = lambda: resource.setrlimit(resource.RLIMIT_FSIZE, (1024, 1024))
    how = {"capture_output": True, "timeout": SECONDS, "preexec_fn": little, "restore_signals": False}
    ran = subprocess.run([program, "--output", "to_old.sym", *image], cwd=folder, **how)
    got = ran.returncode, ran.stderr, read("old.sym")
    tally.check("a link, with little room", got, (1, b"fault: Write(Other)\n", b"old"))
    os.symlink("/dev/full", f"{folder}/full.sym")
    got = run(program, ["--output", "full.sym", *image], folder)
    tally.check("a full device", got, (1, b"", b"fault: Write(Other)\n"))
    tally.check("the link to it", os.path.islink(f"{folder}/full.sym"), True)
    os.mkfifo(f"{folder}/fifo.sym")
    with subprocess.Popen(["cat", "fifo.sym"], cwd=folder, stdout=subprocess.PIPE) as reader:
        tally.check("a FIFO", run(program, ["--output", "fifo.sym", *image], folder), done)
        tally.check("through a FIFO", reader.communicate(timeout=SECONDS)[0], wanted)

    numbers = ["", *range(1, NAMES)]
    for number in numbers:
        with open(f"{folder}/own.sym.part{number}", "w") as file:
            file.write(f"own {number}")
    got = run(program, ["--output", "own.sym", *image], folder)
    tally.check("all names taken", got, (1, b"", b"fault: Write(Other)\n"))
    os.remove(f"{folder}/own.sym.part{numbers.pop()}")
    tally.check("a name is left", run(program, ["--output", "own.sym", *image], folder), done)
    tally.check("own.sym", read("own.sym"), wanted)
    kept = [read(f"own.sym.part{number}") for number in numbers]
    tally.check("files of others", kept, [f"own {number}".encode() for number in numbers])

    os.mkdir(f"{folder}/at_once")
    words = [program, "--output", "at_once/it.sym", *image]
    runs = [subprocess.Popen(words, cwd=folder) for _ in range(RUNS)]
    statuses = [one.wait(timeout=SECONDS) for one in runs]
    tally.check("runs at once", (statuses, os.listdir(f"{folder}/at_once")), ([0] * RUNS, ["it.sym"]))
    tally.check("of runs at once", read("at_once/it.sym"), wanted)

    os.symlink("cpp_o2_19.pdb", f"{folder}/link.pdb")
    before = [read(name) for name in image[1:]]
    for path in ("cpp_o2_19.pdb", "./cpp_o2_19.exe", "link.pdb"):
        got = run(program, ["--output", path, *image], folder)
        tally.check(f"{path} over itself", (got[0], got[1], got[2][:7]), (2, b"", b"error: "))
    for name in image[1:]:
        check_store_over(tally, program, folder, image, name)
    tally.check("what is read", [read(name) for name in image[1:]], before)
    for words in (["--store", ""], ["--store="], ["--output", ""], ["--output="]):
        told = f"error: a value is required for '{words[0].rstrip('=')}'\n".encode()
        got = run(program, [*words, *image], folder)
        tally.check(f"{words}", (*got[:2], got[2][: len(told)]), (2, b"", told))


def main():
    words = sys.argv[1:]
    without_proof = "--unproved" in words
    place, names = built.taken(words)
    program = built.program(place, "pdb_symbols")
    symbolizer = built.program(place, "pdb_symbolizer")
    tally = Tally()
    with tempfile.TemporaryDirectory() as folder:
        with tarfile.open(CASES) as cases:
            cases.extractall(folder, filter="data")
        known = sorted(it[:-4] for it in os.listdir(folder) if it.endswith(".pdb"))
        if not set(names) <= set(known):
            built.stop(__doc__)
        for name in names or known:
            check_case(tally, program, folder, name)
        if not names:
            check_images(tally, program, folder)
            check_faults(tally, program, symbolizer, folder)
            if not without_proof:
                check_names(tally, program, folder)
                check_long_images(tally, program, folder)
                check_failing_outputs(tally, program, folder)
                check_targets(tally, program, folder)
                check_others(tally, program, folder)
    built.end(tally.passed, tally.failed)


if __name__ == "__main__":
    main()
