#!/usr/bin/env python3
"""Measures one address of three databases of 1 GB, and prints a table: large.py OUT PROGRAM..

OUT is the folder of run.sh, with its databases `small` and `large`. It gets the databases of 1 GB:
`small` extended by free pages; `small` with its modules 166 times over; and `large` with its
modules 18 times over. Each copy of a module holds as much as the module did. PROGRAM is the path of
pdb_symbolizer, of pdb_llvm_symbolizer, of llvm-symbolizer, or of the ported crate's program that
run.sh builds. Those named after llvm-symbolizer are asked by image. Times are processor seconds,
the least of five runs in turn. What is read of a database is counted by strace, if that is installed. Debian: strace,
llvm-19."""
import os
import re
import shutil
import struct
import subprocess
import sys
import tempfile

sys.dont_write_bytecode = True
import meter  # noqa: E402

PAGE = 4096
NO_STREAM = 0xFFFF
DEBUG_INFORMATION = 3
HEADER, ENTRY = "<32s4I", "<HHIIIHHII"  # of a file, of a contribution
SIZES = slice(24, 32)  # of the module list and of the contributions, in the DBI header


def streams_of(path):
    """The streams of a database, each as bytes."""
    data = open(path, "rb").read()
    _, size, _, _, directory = struct.unpack_from(HEADER, data)
    assert size == PAGE, path
    listed = struct.unpack_from("<I", data, 52)[0]  # the page that lists the directory's pages
    at = lambda page: data[page * PAGE : (page + 1) * PAGE]
    count = -(-directory // PAGE)
    words = b"".join(map(at, struct.unpack_from(f"<{count}I", data, listed * PAGE)))
    words = struct.unpack_from(f"<{directory // 4}I", words)
    lengths = [0 if it == 0xFFFFFFFF else it for it in words[1 : 1 + words[0]]]
    place, found = 1 + words[0], []
    for length in lengths:
        pages = -(-length // PAGE)
        found.append(b"".join(map(at, words[place : place + pages]))[:length])
        place += pages
    return found


def write_database(path, streams):
    """Writes streams as a database, one after another, past the pages of its free page map."""
    numbers = (n for n in range(3, 1 << 30) if n % PAGE not in (1, 2))
    with open(path, "wb") as file:

        def put(data):
            taken = [next(numbers) for _ in range(-(-len(data) // PAGE))]
            for number, start in zip(taken, range(0, len(data), PAGE)):
                file.seek(number * PAGE)
                file.write(data[start : start + PAGE])
            return taken

        lists = [number for stream in streams for number in put(stream)]
        words = [len(streams), *map(len, streams), *lists]
        directory = struct.pack(f"<{len(words)}I", *words)
        pages = put(directory)
        listed = put(struct.pack(f"<{len(pages)}I", *pages))
        end = next(numbers)
        file.truncate(end * PAGE)
        file.seek(0)
        magic = b"Microsoft C/C++ MSF 7.00\r\n\x1aDS\0\0\0"
        file.write(struct.pack(HEADER, magic, PAGE, 1, end, len(directory)) + struct.pack("<2I", 0, *listed))


def module_entries(data):
    """The entries of a module list, each up to the next multiple of four bytes."""
    place = 0
    while place < len(data):
        end = data.index(b"\0", data.index(b"\0", place + 64) + 1) + 1
        end += -end % 4
        yield bytearray(data[place:end])
        place = end


def many_times(streams, times):
    """The same streams with their modules many times over; the copies' code comes after it all."""
    dbi = streams[DEBUG_INFORMATION]
    modules, held = struct.unpack("<2I", dbi[SIZES])
    lists = dbi[64 : 64 + modules]
    contributions = dbi[64 + modules : 64 + modules + held]
    behind = dbi[64 + modules + held :]
    entries = list(module_entries(lists))
    rows = list(struct.iter_unpack(ENTRY, contributions[4:]))
    span = max(row[2] + row[3] for row in rows)
    found, all_entries, all_rows = list(streams), [], []
    for copy in range(times):
        for entry in entries:
            entry = bytearray(entry)
            stream = struct.unpack_from("<H", entry, 34)[0]
            if copy and stream != NO_STREAM:
                struct.pack_into("<H", entry, 34, len(found))
                found.append(streams[stream])
            all_entries.append(bytes(entry))
        for row in rows:
            row = list(row)
            row[2] += copy * span
            row[5] += copy * len(entries)
            all_rows.append(row)
    all_rows.sort(key=lambda row: (row[0], row[2]))
    lists = b"".join(all_entries)
    contributions = contributions[:4] + b"".join(struct.pack(ENTRY, *row) for row in all_rows)
    head = bytearray(dbi[:64])
    head[SIZES] = struct.pack("<2I", len(lists), len(contributions))
    found[DEBUG_INFORMATION] = bytes(head) + lists + contributions + behind
    return found


def with_free_pages(source, path, pages=1 << 18):
    """Copies a database, extended to a number of pages by free ones, which take no room on a disk."""
    shutil.copyfile(source, path)
    with open(path, "r+b") as file:
        file.truncate(pages * PAGE)
        file.seek(40)
        file.write(struct.pack("<I", pages))


def made(out, folder, name, make):
    """A database in a folder of its own, beside its image. It is made once, of that of run.sh."""
    os.makedirs(f"{out}/{folder}", exist_ok=True)
    pdb = f"{out}/{folder}/{name}.pdb"
    if not os.path.exists(pdb):
        shutil.copyfile(f"{out}/{name}.exe", f"{out}/{folder}/{name}.exe")
        make(f"{out}/{name}.pdb", f"{pdb}.new")
        os.rename(f"{pdb}.new", pdb)
    return pdb


def asked_of(program, pdb, given):
    """The command that asks a program for one address of a database or its image, and its input."""
    if os.path.basename(program).replace("-", "_").find("llvm_symbolizer") < 0:
        return [program, "frames", pdb], given
    address = open(given).read().strip()
    image = pdb.removesuffix(".pdb") + ".exe"
    return [program, f"--obj={image}", "--relative-address", f"0x{address}"], os.devnull


def reads_of(words, given, pdb):
    """How many reads of a database a run makes, and of how many millions of bytes."""
    with tempfile.NamedTemporaryFile("r") as log:
        trace = ["strace", "-f", "-y", "-e", "trace=read,pread64,mmap", "-o", log.name]
        subprocess.run([*trace, *words], stdin=open(given), stdout=subprocess.DEVNULL)
        lines = [it for it in log if f"<{os.path.realpath(pdb)}>" in it]
    if any("mmap(" in it for it in lines):
        return "mapped", ""
    sizes = [int(it) for line in lines for it in re.findall(r"= (\d+)$", line.strip())]
    return str(sum(it > 0 for it in sizes)), f"{sum(sizes) / 1e6:.1f}"


def main(out, *programs):
    out = os.path.realpath(out)
    many_of = lambda times: lambda source, path: write_database(path, many_times(streams_of(source), times))
    asked = [
        ("free pages", made(out, "free", "small", with_free_pages), "small.1"),
        ("10 MB, modules 166 times over", made(out, "many_small", "small", many_of(166)), "small.1"),
        ("90 MB, modules 18 times over", made(out, "many", "large", many_of(18)), "large.1"),
    ]
    print("| one address of a large file | program | reads | MB read | seconds | MB |\n|" + "---|" * 6)
    for what, pdb, given in asked:
        commands = [asked_of(it, pdb, f"{out}/{given}") for it in programs]
        runs = [[meter.measured(words, stdin=open(it))[:3] for words, it in commands] for _ in range(5)]
        for number, (words, it) in enumerate(commands):
            mine = [run[number] for run in runs]
            if any(status for *_, status in mine):
                sys.exit(f"{' '.join(words)}: status {mine[0][2]}")
            seconds, memory = min(run[0] for run in mine), max(run[1] for run in mine)
            reads = reads_of(words, it, pdb) if shutil.which("strace") else ("", "")
            size = f"{os.path.getsize(pdb) / 1e6:,.0f} MB: {what}"
            name = os.path.basename(words[0])
            print("| " + " | ".join([size, name, *reads, f"{seconds:.3f}", f"{memory:.0f}"]) + " |", flush=True)


if __name__ == "__main__":
    if len(sys.argv) < 3 or sys.argv[1] in ("-h", "--help"):
        sys.exit(__doc__)
    main(*sys.argv[1:])
