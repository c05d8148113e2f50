#!/usr/bin/env python3
"""Lays a program database out in smaller pages: repage.py IN.pdb PAGE OUT.pdb

lld writes pages of 4,096 bytes and gives each stream its own, so that its smallest database has 19
of them. In pages of 512 to 2,048 bytes the same streams, byte for byte, take a third of that."""
import struct
import sys

MAGIC = b"Microsoft C/C++ MSF 7.00\r\n\x1aDS\0\0\0"
NO_STREAM = 0xFFFFFFFF


def streams_of(data):
    """The streams of a container, each as its bytes; None where the directory has none."""
    page, _, _, size, _, page_list = struct.unpack_from("<6I", data, 32)

    def joined(numbers, length):
        return b"".join(data[n * page : n * page + page] for n in numbers)[:length]

    def pages(length):
        return -(-length // page)

    listed = struct.unpack_from(f"<{pages(size)}I", data, page_list * page)
    directory = joined(listed, size)
    (count,) = struct.unpack_from("<I", directory)
    at = 4 + 4 * count
    for length in struct.unpack_from(f"<{count}I", directory, 4):
        if length == NO_STREAM:
            yield None
            continue
        numbers = struct.unpack_from(f"<{pages(length)}I", directory, at)
        at += 4 * pages(length)
        yield joined(numbers, length)


class Pages:
    """The pages of a container that is made: page 0 is the header, pages 1 and 2 the free map."""

    def __init__(self, size):
        self.size = size
        self.pages = [b"", b"", b""]

    def add(self, data):
        """Adds pages with these bytes, past those of the free map, and returns their numbers."""
        numbers = []
        for at in range(0, len(data), self.size):
            while len(self.pages) % self.size in (1, 2):
                self.pages.append(b"")
            numbers.append(len(self.pages))
            self.pages.append(data[at : at + self.size])
        return numbers


def repaged(streams, size):
    made = Pages(size)
    numbers = [made.add(it or b"") for it in streams]
    words = [len(streams)]
    words += [NO_STREAM if it is None else len(it) for it in streams]
    words += [n for it in numbers for n in it]
    directory = struct.pack(f"<{len(words)}I", *words)
    listed = made.add(directory)
    (page_list,) = made.add(struct.pack(f"<{len(listed)}I", *listed))
    count = len(made.pages)
    made.pages[0] = MAGIC + struct.pack("<6I", size, 1, count, len(directory), 0, page_list)
    # (a bit for each page, set where it is free)
    made.pages[1] = bytes(
        sum(1 << bit for bit in range(8) if 8 * at + bit >= count) for at in range(size)
    )
    return b"".join(it.ljust(size, b"\0") for it in made.pages)


def main():
    source, size, target = sys.argv[1:]
    data = open(source, "rb").read()
    open(target, "wb").write(repaged(list(streams_of(data)), int(size)))


main()
