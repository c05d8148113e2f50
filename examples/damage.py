#!/usr/bin/env python3
"""Damages the lines of one module of a program database: damage.py IN.pdb MODULE OUT.pdb

The first lines subsection (DEBUG_S_LINES) of the module whose name ends in MODULE gets 0xffffffff for its size, so that it
reaches past the module's stream. Its symbols, and all other modules, stay as they are."""
import struct
import sys


def streams_of(data):
    """The streams of a container, each as the file's places of its bytes, page by page."""
    page, _, _, size, _, directory_list = struct.unpack_from("<6I", data, 32)

    def pages(byte_count):
        return -(-byte_count // page)

    list_places = struct.unpack_from(f"<{pages(size)}I", data, directory_list * page)
    directory = b"".join(data[p * page : p * page + page] for p in list_places)[:size]
    (count,) = struct.unpack_from("<I", directory)
    sizes = [0 if it == 0xFFFFFFFF else it for it in struct.unpack_from(f"<{count}I", directory, 4)]
    at = 4 + 4 * count
    for length in sizes:
        numbers = struct.unpack_from(f"<{pages(length)}I", directory, at)
        at += 4 * pages(length)
        yield [(p * page + i) for p in numbers for i in range(page)][:length]


def modules_of(dbi):
    """The modules of the DBI stream: name, number of the stream, size of the symbols."""
    (module_bytes,) = struct.unpack_from("<I", dbi, 24)
    at, end = 64, 64 + module_bytes
    while at < end:
        stream, symbols = struct.unpack_from("<HI", dbi, at + 34)
        name_end = dbi.index(0, at + 64)
        yield dbi[at + 64 : name_end].decode(), stream, symbols
        at = (dbi.index(0, name_end + 1) + 1 + 3) // 4 * 4


def main():
    source, wanted, target = sys.argv[1:]
    data = bytearray(open(source, "rb").read())
    streams = list(streams_of(bytes(data)))
    dbi = bytes(data[i] for i in streams[3])
    number, symbols = next((s, n) for name, s, n in modules_of(dbi) if name.endswith(wanted))
    places = streams[number]
    stream = bytes(data[i] for i in places)
    at = symbols
    while struct.unpack_from("<I", stream, at)[0] != 0xF2:
        at += 8 + (struct.unpack_from("<I", stream, at + 4)[0] + 3) // 4 * 4
    for place in places[at + 4 : at + 8]:
        data[place] = 0xFF
    open(target, "wb").write(data)


main()
