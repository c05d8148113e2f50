#!/usr/bin/env python3
"""Makes files that are built to cost much, measures the program on each, and prints a table.

    bench/costs.py PROGRAM [--symbols] [--only NAME] [--limit SECONDS]

PROGRAM is the built pdb_symbolizer; with --symbols pdb_symbols, which asks for all addresses. Each
case is a function below: it makes a file of about so many bytes, and addresses to ask. Times are
processor seconds, memory the most that the process held."""
import struct
import sys
import tempfile

sys.dont_write_bytecode = True
import meter  # noqa: E402

MAGIC = b"Microsoft C/C++ MSF 7.00\r\n\x1aDS\0\0\0"
PAGE = 0x1000
NO_STREAM = 0xFFFF
CODE = 0x60000020
MODULE_STREAMS = 8  # the first stream of a module
ALWAYS = 1 << 20  # how many bytes may be copied of any file,
TIMES = 7  # and how many times its own bytes beside that


def u16(*numbers):
    return struct.pack(f"<{len(numbers)}H", *numbers)


def u32(*numbers):
    return struct.pack(f"<{len(numbers)}I", *numbers)


def aligned(data):
    return data + b"\0" * (-len(data) % 4)


def pages(size):
    return -(-size // PAGE)


def container(streams, aliases={}, backwards=True, again={}):
    """An MSF container. A stream of `aliases` has another's pages, all but the first backwards; or
    all in order, so that they are one piece. Of one of `again` the pages from one up to another are
    listed so many times in a row."""
    count, numbers = 3, {}
    for at, data in enumerate(streams):
        if at not in aliases:
            numbers[at] = list(range(count, count + pages(len(data))))
            count += len(numbers[at])
    for at, other in aliases.items():
        first, *others = numbers[other]
        numbers[at] = [first, *(reversed(others) if backwards else others)]
    sizes = [len(streams[aliases.get(at, at)]) for at in range(len(streams))]
    lists = dict(numbers)
    for at, (first, end, times) in again.items():
        lists[at] = numbers[at][:first] + numbers[at][first:end] * times + numbers[at][end:]
        sizes[at] += (times - 1) * (end - first) * PAGE
    listed = [n for at in range(len(streams)) for n in lists[at]]
    directory = u32(len(streams), *sizes, *listed)
    directory_pages = list(range(count, count + pages(len(directory))))
    count += len(directory_pages)
    page_list = u32(*directory_pages)
    list_pages = list(range(count, count + pages(len(page_list))))
    count += len(list_pages)
    header = MAGIC + u32(PAGE, 1, count, len(directory), 0, *list_pages)
    made = bytearray(count * PAGE)
    made[: len(header)] = header
    written = [(numbers[at], data) for at, data in enumerate(streams) if at not in aliases]
    for where, data in [*written, (directory_pages, directory), (list_pages, page_list)]:
        for at, number in enumerate(where):
            part = data[at * PAGE : at * PAGE + PAGE]
            made[number * PAGE : number * PAGE + len(part)] = part
    return bytes(made)


def table(records):
    """A table of types or ids."""
    body = b"".join(u16(len(it)) + it for it in records)
    count = 0x1000 + len(records)
    header = u32(20040203, 56, 0x1000, count, len(body)) + u16(NO_STREAM, NO_STREAM)
    return header + u32(4, 0x3FFFF, 0, 0, 0, 0, 0, 0) + body


def function_id(name):
    """Types and ids of one function: its argument list, its procedure, its id."""
    types = [u16(0x1201) + u32(0), u16(0x1008) + u32(3) + u16(0, 0) + u32(0x1000)]
    return types, [u16(0x1601) + u32(0, 0x1001) + name + b"\0"]


def module_entry(stream, symbols, lines):
    head = u32(0) + bytes(28) + u16(0, stream) + u32(symbols, 0, lines) + u16(1, 0) + u32(0, 0, 0)
    return aligned(head + b"a.obj\0a.obj\0")


def contribution(offset, size, module):
    return u16(1, 0) + u32(offset, size, CODE) + u16(module, 0) + u32(0, 0)


def database(
    modules, names=b"\0", contributions=None, records=b"", name=b"g", entries=None, maps=()
):
    """The streams of a database; a module is its symbols and its C13 data. Maps, two OMAPs or none,
    are the last streams."""
    types, ids = function_id(name)
    contributions = contributions or [contribution(0, 0x7FFEFFFF, 0)]
    entries = entries or [
        module_entry(MODULE_STREAMS + at, len(symbols), len(lines))
        for at, (symbols, lines) in enumerate(modules)
    ]
    section = b".text\0\0\0" + u32(0x7FFF0000, 0x1000, 0x7FFF0000, 0x400, 0, 0, 0, CODE)
    places = {5: 6}
    if maps:
        after = MODULE_STREAMS + len(modules)
        places |= {3: after, 4: after + 1, 10: 6}
    optional = u16(*[places.get(at, NO_STREAM) for at in range(11)])
    listed = b"".join(entries)
    covered = u32(0xEFFE0000 + 19970605) + b"".join(contributions)
    head = u32(0xFFFFFFFF, 19990903, 1) + u16(NO_STREAM, 0, NO_STREAM, 0, 5, 0)
    head += u32(len(listed), len(covered), 0, 0, 0, 0, len(optional), 0) + u16(0, 0x8664) + u32(0)
    information = u32(20000404, 1, 1) + bytes(16) + u32(7) + b"/names\0" + u32(1, 2, 1, 1, 0, 0, 7)
    strings = u32(0xEFFEEFFE, 1, len(names)) + names
    streams = [b"", information, table(types), head + listed + covered + optional, table(ids)]
    streams += [records, section, strings]
    return streams + [symbols + lines + u32(0) for symbols, lines in modules] + list(maps)


def record(kind, data):
    body = aligned(u16(0, kind) + data)
    return u16(len(body) - 2) + body[2:]


def procedure(offset, length, end, name=b"f"):
    return record(0x1110, u32(0, end, 0, length, 0, 0, 0, offset) + u16(1) + b"\0" + name + b"\0")


END = record(6, b"")


def procedures(count):
    """That many procedures of 16 bytes side by side, from 0x100 on."""
    made, at = [u32(4)], 4
    size = len(procedure(0, 0, 0)) + len(END)
    for number in range(count):
        made += [procedure(0x100 + 16 * number, 16, at + size - len(END)), END]
        at += size
    return b"".join(made)


def compressed(number):
    if number < 0x80:
        return bytes([number])
    if number < 0x4000:
        return bytes([0x80 | number >> 8, number & 255])
    return struct.pack(">I", 0xC0000000 | number)


def code(length, offset):
    """The annotation that makes a row of this length, so far on from the last one's start."""
    return compressed(12) + compressed(length) + compressed(offset)


def nested_sites(depth, annotations, length=0x20, inlinee=0x1000):
    """The procedure f at 0x10 with so many sites, each in the one before."""
    first = procedure(0x10, length, 0)
    site = lambda end: record(0x114D, u32(0, end, inlinee) + annotations)
    end = 4 + len(first) + depth * len(site(0))
    return u32(4) + procedure(0x10, length, end) + site(end) * depth + END


def subsection(kind, data):
    return aligned(u32(kind, len(data)) + data)


CHECKSUMS = subsection(0xF4, aligned(u32(1) + b"\0\0"))
INLINEES = subsection(0xF6, u32(0) + u32(0x1000, 0, 3))


def row_lines(count):
    """One subsection of that many rows before 0x100."""
    rows = b"".join(u32(number, 0x80000005) for number in range(count))
    block = u32(0, count, 12 + len(rows)) + rows
    return CHECKSUMS + subsection(0xF2, u32(0) + u16(1, 0) + u32(0x10) + block)


def whole_pages(symbols):
    """Symbols, and one that is passed over up to the end of a page."""
    return symbols + record(0x0402, bytes((-len(symbols) - 4) % PAGE))


def times_listed(part):
    """How many times a part of a file, of so many bytes, may be listed with the rest of a stream."""
    return ALWAYS // part + TIMES


def same_pages(front, part, times, lines=b"", count=1, **how):
    """A database whose modules, that many, all name one stream. Of its symbols the middle part is
    listed so many times; its front and that part are whole pages."""
    more = (times - 1) * len(part)
    symbols = front + part + END
    entries = [module_entry(MODULE_STREAMS, len(symbols) + more, len(lines))] * count
    streams = database([(symbols, lines)], entries=entries, **how)
    where = len(front) // PAGE, len(front + part) // PAGE, times
    return container(streams, again={MODULE_STREAMS: where})


def long_site(size, end):
    """An inline site of so many bytes, most of them rows, of which the last one is long."""
    rows = code(1, 0) + b"\x0b\x02" * ((size - 40) // 2) + code(0x100000, 1)
    return record(0x114D, (u32(0, end, 0x1000) + rows).ljust(size - 4, b"\0"))


def spread(count, number, step=16, first=0x1100):
    return [first + step * (at * count // number) for at in range(number)]


# ---- the cases: what is made of about so many bytes, and what is asked


def file_names(size):
    """a table of names without an end, in which the files of 1,000 nested calls begin"""
    symbols = nested_sites(1000, code(16, 0))
    streams = database([(symbols, CHECKSUMS + INLINEES)], names=b"\0" + b"a" * size)
    return container(streams), spread(16, 1000, 1, 0x1010)


def rows_of_calls(size):
    """nested calls of 16,000 rows each, of which the last alone covers the address"""
    rows = code(1, 0) + b"\x0b\x02" * 16000 + code(0x100000, 1)
    depth = max(size // len(rows), 1)
    symbols = nested_sites(depth, rows, length=0x200000)
    streams = database([(symbols, CHECKSUMS + INLINEES)])
    return container(streams), spread(1000, 1000, 1, 0x1010 + 20000)


def runs_of_calls(size):
    """a call of which each row, one byte long, has another line"""
    rows = size // 2
    symbols = nested_sites(1, code(1, 0) + b"\x0b\x21" * rows, length=rows + 16)
    streams = database([(symbols, CHECKSUMS + INLINEES)])
    return container(streams), spread(1000, 1000, 1, 0x1010)


def rows_of_functions(size):
    """procedures that share one long subsection of lines"""
    count = size // 60
    streams = database([(procedures(count), row_lines(count))], names=b"\0a.c\0")
    return container(streams), spread(count, 1000)


def rows_of_publics(size):
    """public symbols that share one long subsection of lines"""
    count = size // 28
    symbol = lambda at: record(0x110E, u32(2, 0x100 + 16 * at) + u16(1) + b"p\0")
    records = b"".join(symbol(at) for at in range(count))
    streams = database([(u32(4), row_lines(count))], names=b"\0a.c\0", records=records)
    return container(streams), spread(count, 1000)


def sites_of_thunks(size):
    """thunks that each hold all inline sites of the module"""
    count = size // 52
    thunk = lambda at, end: record(0x1102, u32(0, end, 0, 0x100 + 16 * at) + u16(1, 16) + b"\0t\0")
    site = lambda end: record(0x114D, u32(0, end, 0x1000) + code(1, 0))
    first = 4 + count * len(thunk(0, 0))
    end = first + count * len(site(0))
    made = [u32(4), *(thunk(at, end) for at in range(count))]
    made += [site(first + at * len(site(0))) for at in range(1, count + 1)]
    streams = database([(b"".join(made), CHECKSUMS + INLINEES)], names=b"\0b.h\0")
    return container(streams), spread(count, 1000)


def shared_streams(size):
    """modules that all name one stream"""
    count = min(size // 120, 65535)
    symbols = procedures(count)
    entries = [module_entry(MODULE_STREAMS, len(symbols), 0)] * count
    covered = [contribution(0x100 + 16 * at, 16, at) for at in range(count)]
    streams = database([(symbols, b"")], contributions=covered, entries=entries)
    return container(streams), spread(count, 1000)


def stated_directory(size):
    """a directory that is stated as 1,000 MB, all of it one page"""
    stated = 1000 << 20
    lists = pages(4 * pages(stated))
    header = MAGIC + u32(PAGE, 1, 2, stated, 0, *([1] * lists))
    return header.ljust(PAGE, b"\0") + u32(*([1] * 1024)), [0x1014]


def streams_of_same_pages(size):
    """modules whose streams list the same 4 MB of pages backwards"""
    count = max((size - (4 << 20)) // 4096, 1)
    symbols = u32(4) + bytes((4 << 20) - 8)
    entries = [module_entry(MODULE_STREAMS + at, 4, 0) for at in range(count + 1)]
    streams = database([(symbols, b"")], entries=entries) + [b""] * count
    aliases = {MODULE_STREAMS + 1 + at: MODULE_STREAMS for at in range(count)}
    return container(streams, aliases), [0x1014]


def streams_in_one_piece(size):
    """1,000 modules whose streams list the same pages in order"""
    symbols = procedures(size // 2 // 66)
    covered = [contribution(0x100 + 16 * at, 16, at) for at in range(1000)]
    entries = [module_entry(MODULE_STREAMS + at, len(symbols), 0) for at in range(1000)]
    streams = database([(symbols, b"")], contributions=covered, entries=entries) + [b""] * 999
    aliases = {MODULE_STREAMS + at: MODULE_STREAMS for at in range(1, 1000)}
    return container(streams, aliases, backwards=False), spread(1000, 1000)


def paths_of_rows(size):
    """rows of one function, whose files are entries of one long path: sizes by file"""
    count = size // 2 // 28
    block = lambda at: u32(8 * at, 1, 20) + u32(16 * at, 0x80000005)
    rows = b"".join(block(at) for at in range(count))
    lines = subsection(0xF4, aligned(u32(1) + b"\0\0") * count)
    lines += subsection(0xF2, u32(0x100) + u16(1, 0) + u32(16 * count) + rows)
    first = procedure(0x100, 16 * count, 0)
    symbols = u32(4) + procedure(0x100, 16 * count, 4 + len(first)) + END
    streams = database([(symbols, lines)], names=b"\0" + b"a" * (size // 2) + b"\0")
    return container(streams), spread(count, count)


def names_of_imports(size):
    """inlined calls whose ids name a module of a long name, which isn't there"""
    count = size // 2 // 64
    start = lambda at: struct.pack(">I", 0xC0000000 | 16 * at)
    annotations = lambda at: compressed(12) + compressed(16) + start(at)
    site = lambda at, end: record(0x114D, u32(0, end, 0x80000000 + at) + annotations(at))
    first = 4 + len(procedure(0, 0, 0))
    end = first + count * len(site(0, 0))
    made = [u32(4), procedure(0x10, 16 * count, end)]
    made += [site(at, first + (at + 1) * len(site(0, 0))) for at in range(count)]
    ids = b"".join(u32(0x80000000 + at, 0, 3) for at in range(count))
    lines = CHECKSUMS + subsection(0xF6, u32(0) + ids)
    lines += subsection(0xF7, u32(1, count, *(0x80001000 + at for at in range(count))))
    streams = database([(b"".join(made) + END, lines)], names=b"\0" + b"A" * (size // 2) + b"\0")
    return container(streams), spread(count, 1000, 16, 0x1010)


def long_answers(size):
    """nested calls of one function, whose name is long: an answer of 60 MB, twice"""
    streams = database([(nested_sites(1000, code(16, 0)), CHECKSUMS + INLINEES)], name=b"g" * 60000)
    return container(streams), [0x1014, 0x1013]


def calls_of_same_pages(size):
    """nested calls of 32,000 rows each, whose pages are listed over and over, 1 address"""
    part = max(size // 0x10000 - 1, 1) * 0x10000
    times = times_listed(part)
    end = PAGE + part * times
    front = whole_pages(u32(4) + procedure(0x10, 0x200000, end))
    sites = long_site(0x10000, end) * (part // 0x10000)
    return same_pages(front, sites, times, CHECKSUMS + INLINEES), [0x1014]


def thunks_of_same_pages(size, count=100, **how):
    """thunks that each hold all inline sites of such pages"""
    thunk = lambda at, end: record(0x1102, u32(0, end, 0, 0x100 + 16 * at) + u16(1, 16) + b"\0t\0")
    thunks = lambda end: u32(4) + b"".join(thunk(at, end) for at in range(count))
    first = len(whole_pages(thunks(0)))
    part = max((size - first) // PAGE - 16, 1) * PAGE
    times = times_listed(part)
    end = first + part * times
    sites = long_site(PAGE, end) * (part // PAGE)
    lines = CHECKSUMS + INLINEES
    return same_pages(whole_pages(thunks(end)), sites, times, lines, **how), spread(count, count)


def procedures_of_same_pages(size):
    """modules that all name one stream of such pages, of procedures: sizes"""
    count = max(size // 1000, 1)
    part = max(size // PAGE - 16 - count * 94 // PAGE, 1) * PAGE
    each = procedure(0x100, 16, 0, b"p" * 17) + END
    covered = [contribution(0x100 + 16 * at, 16, at) for at in range(count)]
    times = times_listed(part)
    front, how = whole_pages(u32(4)), {"count": count, "contributions": covered}
    return same_pages(front, each * (part // len(each)), times, **how), spread(count, count)


def imports_of_same_pages(size):
    """modules that all name one stream of such pages, of imports"""
    count = max(size // 2500, 1)
    part = max(size // PAGE - 16 - count * 94 // PAGE, 1) * PAGE
    times = times_listed(part)
    site = lambda end: record(0x114D, u32(0, end, 0x80000000) + code(16 * count, 0))
    end = len(u32(4) + procedure(0x100, 16 * count, 0) + site(0))
    symbols = u32(4) + procedure(0x100, 16 * count, end) + site(end) + END
    lines = CHECKSUMS + subsection(0xF6, u32(0) + u32(0x80000000, 0, 3))
    some = (-len(symbols + lines) - 8) % PAGE
    data = u32(0xF7, some + part * times) + u32(1, 0) * (some // 8) + bytes(some % 8)
    front = symbols + lines + data
    size_of_lines = len(front) - len(symbols) + part * times
    entries = [module_entry(MODULE_STREAMS, len(symbols), size_of_lines)] * count
    covered = [contribution(0x100 + 16 * at, 16, at) for at in range(count)]
    how = {"names": b"\0a.obj\0", "contributions": covered, "entries": entries}
    streams = database([(front, u32(1, 0) * (part // 8))], **how)
    where = len(front) // PAGE, (len(front) + part) // PAGE, times
    return container(streams, again={MODULE_STREAMS: where}), spread(count, count)


def thunks_moved(size):
    """some such thunks, all mapped as many times as they are: sizes by file"""
    count = max(size // 12500, 1)
    moved = lambda at: u32(0x1000 + 0x100000 * at, 0x1100)
    end = lambda at: u32(0x1000 + 0x100000 * at + 16 * count, 0)
    to = b"".join(moved(at) + end(at) for at in range(count))
    return thunks_of_same_pages(size, count, maps=(to, u32(0x1000, 0x1000)))


def addresses_left_out(size):
    """a section of 2,048 MB all of whose addresses an OMAP leaves out"""
    streams = database([(procedures(16), b"")], maps=(u32(0, 0), u32(0x1000, 0x1000)))
    return container(streams), [0x1100]


def listed_often(addresses):
    """A file whose second module, from 0x11000 on, has one page 400 times in its list."""
    modules = [(procedures(16), b""), (u32(4) + bytes(PAGE - 4), b"")]
    covered = [contribution(0, 0x1000, 0), contribution(0x10000, 0x1000, 1)]
    streams = database(modules, contributions=covered)
    return container(streams, again={MODULE_STREAMS + 1: (0, 1, 400)}), addresses


def unasked_module(size):
    """a module that nobody asks for, whose list has one page 400 times"""
    return listed_often([0x1100])


def asked_module(size):
    """the same, where it is asked for after another module"""
    return listed_often([0x1100, 0x11000])


def long_tail(size):
    """a small database with a tail of 2,000 MB"""
    return container(database([(procedures(16), b"")])), [0x1100]


CASES = [
    (file_names, (1, 10)),
    (rows_of_calls, (1, 10)),
    (runs_of_calls, (0.01, 0.02, 0.04)),
    (rows_of_functions, (1,)),
    (rows_of_publics, (1,)),
    (sites_of_thunks, (1,)),
    (shared_streams, (1,)),
    (stated_directory, (1,)),
    (streams_of_same_pages, (6,)),
    (streams_in_one_piece, (2,)),
    (paths_of_rows, (1, 10)),
    (names_of_imports, (1, 10)),
    (long_answers, (1,)),
    (long_tail, (1,)),
    (unasked_module, (0.06,)),
    (asked_module, (0.06,)),
    (calls_of_same_pages, (0.12, 1)),
    (thunks_of_same_pages, (0.14, 0.5)),
    (procedures_of_same_pages, (0.12, 0.25)),
    (imports_of_same_pages, (0.12, 0.25)),
    (thunks_moved, (0.1, 0.2)),
    (addresses_left_out, (0.01,)),
]

# what is asked for the sizes of functions or of files, of all addresses
SIZES = {procedures_of_same_pages: [], thunks_moved: ["--by-file"]}


def asked(case, file, addresses):
    """The program's arguments for a case's file, and the addresses that it reads."""
    if case is paths_of_rows:
        whole = f"{addresses[0]:x}", f"{addresses[-1] + 16:x}"
        return ["sizes", "--by-file", file, *whole], []
    if case in SIZES:
        return ["sizes", *SIZES[case], file, "0", "ffffffff"], []
    return ["frames", file], addresses


def measured(program, arguments, addresses, limit, **how):
    """How a run ended, its processor seconds and its megabytes."""
    lines = "".join(f"{it:x}\n" for it in addresses).encode()
    words = [program, *arguments]
    seconds, memory, status, said = meter.measured(words, limit=limit, input=lines, **how)
    return said or ("" if status == 0 else f"status {status}"), seconds, memory


def main():
    words = sys.argv[1:]
    option = lambda name, default: words[words.index(name) + 1] if name in words else default
    only, limit = option("--only", None), int(option("--limit", "120"))
    print("| file | file, MB | addresses | seconds | memory, MB | ended |")
    print("|---|---|---|---|---|---|")
    for case, sizes in CASES:
        if only not in (None, case.__name__):
            continue
        for size in sizes:
            with tempfile.NamedTemporaryFile(suffix=".pdb") as file:
                data, addresses = case(int(size * 1_000_000))
                file.write(data)
                file.flush()
                if case is long_tail:
                    file.truncate(2_000_000_000)
                if "--symbols" in words:
                    arguments, addresses = [file.name], []
                else:
                    arguments, addresses = asked(case, file.name, addresses)
                ended, seconds, memory = measured(words[0], arguments, addresses, limit)
            row = [case.__doc__, f"{len(data) / 1e6:.2f}", f"{len(addresses):,}"]
            row += [f"{seconds:.2f}", f"{memory:.0f}", ended]
            print("|", " | ".join(row), "|", flush=True)


if __name__ == "__main__":
    main()
