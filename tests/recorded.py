"""Recorded reports: what pdb_symbolizer is asked of a database, and what has to come.

A file of them, in crates/recorded_cases/data, is a text of paragraphs, with an empty line between
two. A paragraph that begins with `#` is a note, and any other a case. A case has lines of these
forms:

- `case NAME DATABASE`: its name, and the file of its program database
- `prefixes FIRST LAST`: the case is of the file's prefixes, of each length from FIRST to LAST
- `numbers PLACE FIRST LAST`: the case is of the file with each of these numbers in the four bytes
  at PLACE
- `bytes PLACE BYTES`: the case is of the file with BYTES at PLACE
- `< TEXT`: a line of input, for a report on addresses
- `sizes START END`: the range, in hexadecimal, for a report on how many of its addresses each
  function has
- `by-file START END`: the range, in hexadecimal, for a report on how many of its addresses each
  source file has
- `any-order`: the report is asked for with `--any-order`
- `> TEXT`: a line of output that must come
- `! TEXT`: a line of error output that must come
- `status NUMBER`: the exit status that must come, by default 0

Lines `prefixes`, `numbers` and `bytes` have hexadecimal numbers and bytes. They name files that
take the place of the database's own, and what comes must be the same for each of them.

The lines of input are one text in their order, and so are those of output and of error output. So
an answer can stand below its address. TEXT is printable ASCII. `\\r` stands for a carriage return,
and `\\xNN` for any other byte, for a backslash, or for a space at the end. With a number after the
sign, as in `>3 TEXT`, the line comes that often. With `-` there, as in `<- TEXT`, it ends without a
newline.

A DATABASE whose name ends in `.pdb` is the file as it is. Any other is a text of the file:
`length NUMBER`, and below that lines `PLACE BYTES`, both hexadecimal, with the bytes from that
place on. Bytes that no line names are zero.
"""
import functools
import os
import re

from built import ROOT

DATA = f"{ROOT}/crates/recorded_cases/data"
NUMBER = "[0-9A-Fa-f]+"
BYTES = "(?:[0-9A-Fa-f]{2})+"
TEXT = r"(?:[ -\[\]-~]|\\r|\\x[0-9A-Fa-f]{2})*"
# A case's lines.
LINE = re.compile(
    rf"case \S+ \S+|(?:sizes|by-file) \S+ \S+|status [0-9]+|bytes {NUMBER} {BYTES}"
    rf"|any-order|prefixes {NUMBER} {NUMBER}|numbers {NUMBER} {NUMBER} {NUMBER}"
    rf"|[<>!](?:-|[1-9][0-9]*)?(?: {TEXT})?"
)
# The text of a database.
DATABASE = re.compile(f"length [0-9]+\n(?:{NUMBER} {BYTES}\n)*")
# Lines of which a case has no more than one.
ONCE = ("case", "sizes", "by-file", "any-order", "status")


class Malformed(Exception):
    """What isn't of the form above, and where."""


def bytes_of(text):
    """The bytes that a recorded text stands for."""
    plain = re.sub(r"\\x(..)|\\r", lambda it: chr(int(it[1], 16)) if it[1] else "\r", text)
    return plain.encode("latin-1")


def recorded_lines(mark, text):
    """The bytes of a line of a text, as often as its mark says."""
    if mark == "-":
        return bytes_of(text)
    return (bytes_of(text) + b"\n") * int(mark or 1)


def content_of(path):
    """The bytes of a file."""
    try:
        with open(path, "rb") as file:
            return file.read()
    except OSError as error:
        raise Malformed(f"{path}: {error.strerror}") from error


def patched(content, place, piece):
    """Bytes, once a piece is written over those from a place on."""
    if place + len(piece) > len(content):
        raise Malformed(f"the bytes at {place:x} reach past the end")
    content[place : place + len(piece)] = piece
    return content


def bytes_in(text):
    """The bytes that the text of a database describes."""
    if not DATABASE.fullmatch(text):
        raise Malformed("not the text of a database")
    length, *lines = text.splitlines()
    content = bytearray(int(length.split()[1]))
    for line in lines:
        place, digits = line.split()
        patched(content, int(place, 16), bytes.fromhex(digits))
    return bytes(content)


@functools.lru_cache(maxsize=16)
def database_bytes(name):
    """The bytes of a database, which is recorded as itself or as a text."""
    content = content_of(f"{DATA}/{name}")
    if name.endswith(".pdb"):
        return content
    try:
        return bytes_in(content.decode("latin-1"))
    except Malformed as why:
        raise Malformed(f"{name}: {why}") from why


def database_of(name, folder):
    """The file of a database, written out where it is recorded as text."""
    if name.endswith(".pdb"):
        return f"{DATA}/{name}"
    path = f"{folder}/{name}"
    if not os.path.exists(path):
        with open(path, "wb") as file:
            file.write(database_bytes(name))
    return path


def changed(original, word, *numbers):
    """The files of a line `prefixes`, `numbers` or `bytes`, with what differs in each."""
    if word == "bytes":
        place, digits = numbers
        yield f"bytes {place}", patched(bytearray(original), int(place, 16), bytes.fromhex(digits))
        return
    *place, first, last = (int(it, 16) for it in numbers)
    if not first <= last < 1 << 32:
        raise Malformed(f"{word}: {first:x} to {last:x} is no range")
    for number in range(first, last + 1):
        if place:
            content = patched(bytearray(original), *place, number.to_bytes(4, "little"))
            yield f"number {number:x} at {place[0]:x}", content
        elif number > len(original):
            raise Malformed(f"prefix {number:x} is longer than the file")
        else:
            yield f"prefix {number:x}", original[:number]


class Report:
    """A recorded report."""

    def __init__(self, paragraph):
        self.name, self.range, self.flags, self.status, self.changes = "", [], [], 0, []
        self.order = []
        self.given, self.output, self.errors = b"", b"", b""
        lines = paragraph.removesuffix("\n").split("\n")
        for line in lines:
            if not LINE.fullmatch(line):
                raise Malformed(f"{lines[0]}: no line of a case: {line!r}")
            self.add(*line.split(" ", 1))
        words = [it.split(" ")[0] for it in lines]
        if not self.name or any(words.count(it) > 1 for it in ONCE):
            raise Malformed(f"{lines[0]}: a case has a name, and no line of its kind twice")
        if self.range and (self.given or "sizes" in words and "by-file" in words):
            raise Malformed(f"{lines[0]}: a case has one range or an input")

    def add(self, word, rest=""):
        """Adds what a line says."""
        if word == "case":
            self.name, self.database = rest.split(" ")
        elif word in ("sizes", "by-file"):
            self.range, self.flags = rest.split(" "), ["--by-file"] * (word == "by-file")
        elif word == "any-order":
            self.order = ["--any-order"]
        elif word == "status":
            self.status = int(rest)
        elif word.isalpha():
            self.changes.append([word, *rest.split(" ")])
        elif word[0] == "<":
            self.given += recorded_lines(word[1:], rest)
        elif word[0] == ">":
            self.output += recorded_lines(word[1:], rest)
        else:
            self.errors += recorded_lines(word[1:], rest)

    def files(self):
        """The bytes of its files, each with what differs in it from its database."""
        original = database_bytes(self.database)
        if not self.changes:
            yield "no change", original
        for words in self.changes:
            yield from changed(original, *words)

    def arguments(self, path):
        """The program's arguments that ask for it of a file."""
        if self.range:
            return ["sizes", *self.order, *self.flags, path, *self.range]
        return ["frames", *self.order, path]

    def addresses(self):
        """The addresses of its input."""
        return re.findall(r"^(?:0x)?([0-9a-f]{1,8})$", self.given.decode("latin-1"), re.M)


def reports_of(path):
    """The recorded reports of a file, at least one."""
    paragraphs = content_of(path).decode("latin-1").split("\n\n")
    for note in paragraphs:
        if note.startswith("#") and re.search("^[^#]", note, re.M):
            raise Malformed(f"{path}: a note with another line: {note!r}")
    try:
        reports = [Report(it) for it in paragraphs if not it.startswith("#")]
    except Malformed as why:
        raise Malformed(f"{path}: {why}") from why
    names = [it.name for it in reports]
    if not names or len(set(names)) < len(names):
        raise Malformed(f"{path}: no case, or two of one name")
    return reports
