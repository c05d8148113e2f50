"""Rows of lines of a database, read by neither of two programs that are compared. By them
llvm_corpus.py tells why answers differ."""
import struct

MAGIC = b"Microsoft C/C++ MSF 7.00\r\n\x1aDS\0\0\0"
NO_STREAM = 0xFFFF
LINES = 0xF2
INLINEES = 0xF6
SUBSECTIONS = range(0xF1, 0xFE)
PROCEDURES = (0x110F, 0x1110, 0x1146, 0x1147, 0x1155, 0x1156)
# Inlined calls: where the annotations of their rows begin.
SITES = {0x114D: 12, 0x115D: 16}
# Annotations of rows, by their opcodes.
CODE_OFFSET, CODE_BASE, CODE_CHANGE, CODE_LENGTH = range(1, 5)
CODE_AND_LINE, LENGTH_AND_CODE = 11, 12


class Unreadable(Exception):
    """A database, or a part of one, that can't be read."""


def words(data):
    """The numbers of four bytes each."""
    return struct.unpack(f"<{len(data) // 4}I", data[: len(data) // 4 * 4])


def streams(data):
    """The streams of a container."""
    if not data.startswith(MAGIC):
        raise Unreadable
    size, _, _, length, _, front = words(data[32:56])
    if not size:
        raise Unreadable

    def joined(pages, length):
        return b"".join(data[it * size : (it + 1) * size] for it in pages)[:length]

    count = -(-length // size)
    listed = joined([front + it for it in range(-(-4 * count // size))], 4 * count)
    numbers = words(joined(words(listed), length))
    sizes = [0 if it == 0xFFFF_FFFF else it for it in numbers[1 : 1 + numbers[0]]]
    at = 1 + numbers[0]
    made = []
    for length in sizes:
        count = -(-length // size)
        made.append(joined(numbers[at : at + count], length))
        at += count
    return made


def modules(info):
    """Of each module in the module list its stream, and the sizes of what lies there: symbols, C11
    lines, lines."""
    at = 64
    end = at + struct.unpack_from("<I", info, 24)[0]
    while at < end:
        yield struct.unpack_from("<HIII", info, at + 34)
        at = info.index(b"\0", info.index(b"\0", at + 64) + 1) + 1
        at += -at % 4


def subsections(data):
    """The kinds and bytes of subsections; a kind that none has is damage."""
    at = 0
    while at < len(data):
        kind, length = struct.unpack_from("<II", data, at)
        if kind & 0x7FFF_FFFF not in SUBSECTIONS or at + 8 + length > len(data):
            raise Unreadable
        yield kind, data[at + 8 : at + 8 + length]
        at += 8 + length


def rows_of(data):
    """A subsection of lines: its section, the first offset, the first one after it, and the rows as
    they are stored, each with its offset, line and column, and the number of its block."""
    start, section, flags, size = struct.unpack_from("<IHHI", data)
    at, rows, block = 12, [], 0
    while at < len(data):
        _, count, length = struct.unpack_from("<III", data, at)
        for it in range(count):
            offset, line = struct.unpack_from("<II", data, at + 12 + 8 * it)
            columns = at + 12 + 8 * count + 4 * it
            column = struct.unpack_from("<H", data, columns)[0] if flags & 1 else 0
            rows.append((start + offset, line & 0xFF_FFFF, column, block))
        at += length
        block += 1
    return section, start, start + size, rows


def compressed(data, at):
    """A number of one, two or four bytes, and where it ends."""
    first = data[at]
    if first < 0x80:
        return first, at + 1
    if first < 0xC0:
        return (first & 0x3F) << 8 | data[at + 1], at + 2
    return int.from_bytes(data[at : at + 4], "big") & 0x1FFF_FFFF, at + 4


def site_rows(data):
    """The rows of an inlined call: where each begins, which annotation gives it, its own length."""
    at = offset = base = 0
    made = []
    while at < len(data) and data[at]:
        kind = data[at]
        number, at = compressed(data, at + 1)
        length = None
        if kind == LENGTH_AND_CODE:
            length = number
            number, at = compressed(data, at)
        if kind == CODE_OFFSET:
            offset = number
        elif kind == CODE_BASE:
            base = number
        elif kind in (CODE_CHANGE, CODE_LENGTH, LENGTH_AND_CODE):
            offset += number
        elif kind == CODE_AND_LINE:
            offset += number & 15
        if kind == CODE_LENGTH and made:
            made[-1][2] = number
        elif kind in (CODE_CHANGE, CODE_AND_LINE, LENGTH_AND_CODE):
            made.append([base + offset, kind, length])
    return made


class Rows:
    """The rows of a database, by sections and offsets in them."""

    def __init__(self, data):
        self.streams = streams(data)
        self.info = self.streams[3]
        self.modules = list(modules(self.info))
        size, length = struct.unpack_from("<II", self.info, 24)
        owners = self.info[68 + size : 64 + size + length]
        self.owners = list(struct.iter_unpack("<H2xII4xH10x", owners))

    def module(self, section, offset):
        """What lies in the stream of the module that holds a place: symbols, and lines."""
        for owner, start, size, index in self.owners:
            if owner == section and start <= offset < start + size:
                stream, symbols, old, lines = self.modules[index]
                data = b"" if stream == NO_STREAM else self.streams[stream]
                return data[4:symbols], data[symbols + old : symbols + old + lines]
        return b"", b""

    def rows_over(self, section, offset):
        """For each subsection of lines over a place the rows that begin at the greatest offset at
        the place or before it: that offset, and their lines and columns."""
        _, data = self.module(section, offset)
        for kind, part in list(subsections(data)):
            own, start, end, rows = rows_of(part) if kind == LINES else (0, 0, 0, [])
            before = [it[0] for it in rows if it[0] <= offset]
            if own == section and start <= offset < end and before:
                begun = max(before)
                yield begun, [it[1:3] for it in rows if it[0] == begun]

    def blocks_over(self, section, offset):
        """Of each block of a subsection of lines over a place that has several: line and column of
        the last row at the place or before it, or, if there is none, of the first one."""
        _, data = self.module(section, offset)
        for kind, part in list(subsections(data)):
            own, start, end, rows = rows_of(part) if kind == LINES else (0, 0, 0, [])
            if own == section and start <= offset < end and len({it[3] for it in rows}) > 1:
                first = {it[3]: it[1:3] for it in sorted(rows, reverse=True)}
                last = {it[3]: it[1:3] for it in sorted(rows) if it[0] <= offset}
                yield from (first | last).values()

    def listed_twice(self, section, offset):
        """How many lines lie between the first and the last entry of an inlined function that the
        module of a place lists more than once."""
        _, data = self.module(section, offset)
        first = {}
        for kind, part in list(subsections(data)):
            step = 12 if kind == INLINEES and part[:4] == bytes(4) else 0
            for at in range(4, len(part) - 11, step) if step else ():
                function, _, line = struct.unpack_from("<III", part, at)
                yield line - first.setdefault(function, line)

    def is_damaged(self, section, offset):
        """Whether lines of the module that holds a place can't be read."""
        try:
            list(self.rows_over(section, offset))
        except (Unreadable, struct.error):
            return True
        return False

    def sites(self, section, offset):
        """The rows of the inlined calls of the procedure that a place lies in."""
        data, _ = self.module(section, offset)
        at, start = 0, None
        while at + 4 <= len(data):
            length, kind = struct.unpack_from("<HH", data, at)
            content = data[at + 4 : at + 2 + length]
            if kind in PROCEDURES:
                size, place, own = struct.unpack_from("<12xI12xIH", content)
                is_over = own == section and place <= offset < place + size
                start = place if is_over else None
            elif kind in SITES and start is not None:
                yield start, site_rows(content[SITES[kind] :])
            at += 2 + length

    def is_open_at(self, section, offset):
        """Whether a row of an inlined call over a place has no length of its own, and none follows
        before a row that is given together with its own."""
        for start, rows in self.sites(section, offset):
            for it, ((place, _, length), (end, _, _)) in enumerate(zip(rows, rows[1:])):
                if start + place <= offset < start + end and length is None:
                    given = next((row for row in rows[it + 1 :] if row[2] is not None), None)
                    if given and given[1] == LENGTH_AND_CODE:
                        return True
        return False
