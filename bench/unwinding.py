#!/usr/bin/env python3
"""Makes images whose functions cost much to unwind, and measures pdb_symbols on them:

    bench/unwinding.py PROGRAM

PROGRAM is the built pdb_symbols. The entries of an image's exception directory all name the same
unwind information: 255 codes at 255 offsets, and a chain of 32 parents of 255 codes each. So each
function has 8,415 codes, and rules that change at 255 offsets. A table in Markdown is printed:
processor seconds, megabytes of memory, and how many millions of bytes were written."""
import sys
import tempfile

sys.dont_write_bytecode = True
import meter  # noqa: E402
from costs import container, database, procedures, u16, u32  # noqa: E402

DATA = 0x1000  # the address at which the image's only section begins
PLACE = 0x400  # and its place in the file
GUID, AGE = bytes(16), 1  # those of costs.database


def codes(count, kind):
    """Unwind codes at one offset less than the code before, the last step first."""
    operation = lambda at: 0x02 if kind == "allocate" else at % 16 << 4
    return b"".join(bytes((max(count - at, 0), operation(at))) for at in range(count))


def unwind_information(entries_end, parents, count, kind):
    """A table, and its parents, each with an entry of its own in the table before."""
    made, address = b"", entries_end
    for at in range(parents + 1):
        chained = at < parents
        slots = codes(count, kind)
        table = bytes((0x21 if chained else 0x01, 0, count, 0)) + slots + slots[:2] * (count % 2)
        if chained:
            table += u32(0, 1, address + len(table) + 12)
        made, address = made + table, address + len(table)
    return made


def image(entries, kind, parents=32, count=255):
    """An x64 image with an exception directory of so many entries, whose codes allocate memory, or
    push registers."""
    end = DATA + 12 * entries
    places = range(entries)
    first = 0x100000
    listed = b"".join(u32(first + 512 * at, first + 512 * at + 300, end) for at in places)
    unwound = listed + unwind_information(end, parents, count, kind)
    record_at = len(unwound) + 28
    record = b"RSDS" + GUID + u32(AGE) + b"g.pdb\0"
    debug = u32(0, 0) + u16(0, 0) + u32(2, len(record), DATA + record_at, PLACE + record_at)
    data = unwound + debug + record
    directories = [(0, 0)] * 16
    directories[3] = DATA, 12 * entries
    directories[6] = DATA + len(unwound), 28
    optional = u16(0x20B) + bytes(22) + u32(0x40000000, 1) + u32(0x1000, 0x200) + bytes(16)
    optional += u32(0x2000000, PLACE) + bytes(44) + u32(16)
    optional += b"".join(u32(*it) for it in directories)
    coff = u16(0x8664, 1) + u32(0x5F000000, 0, 0) + u16(len(optional), 0x22)
    section = b".rdata\0\0" + u32(len(data), DATA, len(data), PLACE, 0, 0, 0, 0x40000040)
    head = b"MZ" + bytes(58) + u32(64) + b"PE\0\0" + coff + optional + section
    return head + bytes(PLACE - len(head)) + data


def main(program):
    print("| entries | codes | image, MB | seconds | memory, MB | written, MB |\n|" + "---|" * 6)
    with tempfile.TemporaryDirectory() as room:
        with open(f"{room}/g.pdb", "wb") as file:
            file.write(container(database([(procedures(16), b"")])))
        for entries in (500, 5000):
            for kind in ("allocate", "push"):
                made = image(entries, kind)
                with open(f"{room}/g.exe", "wb") as file:
                    file.write(made)
                words = [program, f"{room}/g.pdb", f"{room}/g.exe", "--output", f"{room}/g.sym"]
                seconds, memory, status, said = meter.measured(words, limit=120)
                with open(f"{room}/g.sym", "rb") as file:
                    size = len(file.read()) if status == 0 else 0
                sizes = f"{len(made) / 1e6:.2f}", f"{seconds:.2f}"
                sizes += f"{memory:.0f}", f"{size / 1e6:.1f}"
                print(f"| {entries} | {kind} |", " | ".join(sizes), f"| {said or ''}")


if __name__ == "__main__":
    main(*sys.argv[1:])
