#!/usr/bin/env python3
"""Checks that what the documents name is there: files, functions, clauses, definitions, counts.

    tests/documents.py [--with DOCUMENT OLD NEW] [DOCUMENT..]

Documents are the .md files at the top and in docs/; if DOCUMENTs are named, these alone. By kind:

- link: the file that a link leads to is there; anchor: so is its heading.
- map: ARCHITECTURE's table of crates has the crates of crates.txt, and README a link to each
  document.
- file: a path in backticks is there.
- word: a name in backticks stands in the sources, or is one of OUTSIDE, which are other programs'.
  In DIFFERENCES the first column, `there`, isn't looked at.
- place: in ARCHITECTURE's tables a file of the second column has the functions in parentheses after
  it, and so has a file of definitions of the third column. In GLOSSARY the files of the third
  column are there.
- clause: in PROVED's tables each call is a function of the crates that the heading names, or of the
  one after `of`, and has exactly the clauses that the row says; `-` is one without a name. The
  fields of a record stand for a clause that is this record.
- count: a number that the sources have too is the same there (COUNTS).
- date: each entry of DECISIONS ends with the day on which it held, and its refusals name the kit.
- script: each script that test.sh runs has a row in RELEASING.

With --with, DOCUMENT is read with NEW in place of OLD, which has to stand there: tests/teeth.sh
shows by this that a stale row of each kind is found. The last line is `N passed, M failed`, in
things named.
"""
import collections
import glob
import os
import re
import sys

sys.dont_write_bytecode = True
from built import ROOT, end, stop  # noqa: E402
from recorded import DATA, reports_of  # noqa: E402
from recorded_reports import FILES  # noqa: E402

DOCUMENTS = sorted(glob.glob("*.md", root_dir=ROOT) + glob.glob("docs/*.md", root_dir=ROOT))
# Scripts whose words are those of documents, and show nothing of the sources.
THIS = ("tests/documents.py", "tests/teeth.sh")
# Names in backticks that are those of other programs, formats and tools, and stand in no source.
OUTSIDE = set("""
ASAN_SYMBOLIZER_PATH BSJB OnceCell _main a.pdb crates/mine/src/main.rt gunzip lm pdb2 serde_json
shrink_to_fit __try throw vc140.pdb
""".split())


# The sources


class Function:
    """A function as it is declared: where, of which type or trait, and with which clauses."""

    def __init__(self, crate, owners, name, public):
        self.crate, self.owners, self.name, self.public = crate, owners, name, public
        self.clauses, self.fields = set(), {}


def owners_of(line):
    """The names that an impl or a trait may be asked by: its trait's and its type's."""
    line = re.sub(r"\bfor<[^>]*>", "", line)
    while re.search(r"<[^<>]*>", line):
        line = re.sub(r"<[^<>]*>", "", line)
    line = re.sub(r"\bwhere\b.*", "", line)
    head = re.match(r"(?:pub )?(?:unsafe )?(?:impl|trait) ?(.*?)\s*[:{]?\s*$", line)
    names = head[1].split(" for ") if head else []
    return {it.strip(" &{").split("::")[-1] for it in names}


def records_in(path):
    """The records of a file of definitions, with their fields. A field that is a record above it
    stands for the fields of that."""
    found = {}
    for name, body in re.findall(r"(?ms)^pub record (\w+)(.*?)(?=^\S|\Z)", read(path)):
        fields = re.findall(r"(?m)^ +pub (\w+) : (\w*)", body.partition("where\n")[2])
        found[name] = set().union(*(found.get(kind) or {it} for it, kind in fields))
    return found


def abbreviated_in(path):
    """The definitions of a file that stand for another one, each with that one."""
    return re.findall(r"(?m)^(Reports\w+) [^=]*=\s+(\w+)", read(path))


def functions_in(path, records):
    """The functions of a file."""
    crate = path.split("/")[1]
    owners, facts, found = set(), set(), None
    whole = open(f"{ROOT}/{path}", encoding="utf-8").read().split("\n")
    module = "laws" if "/laws" in path else ""
    for at, line in enumerate(whole):
        if re.match(r"(pub )?(unsafe )?(impl|trait)\b", line):
            head, until = line, at
            while "{" not in whole[until] and until + 1 < len(whole):
                until += 1
                head += " " + whole[until].strip()
            owners, facts = owners_of(head.split("{")[0]), set()
        elif line == "}":
            owners, facts = set(), set()
        fact = re.match(r"    (?:ghost|law) (\w+)", line)
        if fact and fact[1] != "use":
            facts.add(fact[1])
        declared = re.match(r"(\s*)(pub(?:\(\w+\))? )?(?:const )?fn (\w+)", line)
        if declared:
            named = owners | ({module} if module else set()) | {crate}
            found = Function(crate, named, declared[3], bool(declared[2]) or "Trait" in named)
            found.facts, found.depth = facts, len(declared[1])
            yield found
        clause = re.match(r"(\s*)ensures\*? ?(\w*) ?\{ ?(\w*)", line)
        if clause and found and len(clause[1]) == found.depth + 4:
            found.clauses.add(clause[2] or "-")
            found.fields[clause[2] or "-"] = records.get(clause[3], set())


def read(path):
    with open(f"{ROOT}/{path}", encoding="utf-8", errors="replace") as file:
        return file.read()


def sources(*kinds):
    """The files of these kinds, without what was built."""
    for kind in kinds:
        for path in glob.glob(kind, root_dir=ROOT, recursive=True):
            if "/out/" not in path:
                yield path


class Sources:
    """What the sources have."""

    def __init__(self):
        self.crates = re.findall(r"(?m)^(\w+):", read("crates.txt"))
        self.functions, records = collections.defaultdict(list), {}
        for path in sources("crates/*/specs/**/*.antt"):
            records.update(records_in(path))
        for path in sources("crates/*/specs/**/*.antt"):
            records.update((it, records[of]) for it, of in abbreviated_in(path) if of in records)
        for path in sources("crates/*/src/**/*.rt"):
            for it in functions_in(path, records):
                self.functions[it.name].append(it)
        self.words = set()
        kinds = ["crates/*/src/**/*.rt", "crates/*/specs/**/*.antt", "crates/*/proofs/**/*.antt"]
        kinds += [f"{it}/**/*{kind}" for it in ("tests", "bench") for kind in (".py", ".sh", ".c")]
        kinds += ["examples/*", "crates.txt", "VERSION", "HANDLES", "tests/wrong_bodies/*/*.edit"]
        kinds += ["crates/*/must-fail/*.edit", "docs/pdb_symbolizer.1", "test.sh"]
        kinds += ["bench/original/src/*"]
        for path in sources(*kinds):
            if os.path.isfile(f"{ROOT}/{path}") and path not in THIS:
                self.words |= set(re.findall(r"[A-Za-z_][A-Za-z0-9_]*", read(path)))
                self.words |= set(re.split(r"[/.]", path))


def slug(heading):
    """The anchor of a heading."""
    text = re.sub(r"\[([^]]*)\]\([^)]*\)", r"\1", heading).strip().lower()
    return re.sub(r"[^\w\- ]", "", text).replace(" ", "-")


# What is checked. Each check yields a kind, a place in a document, and why it fails or None.


def rows_of(text):
    """The rows of tables: line number, heading above, cells."""
    heading = ""
    for number, line in enumerate(text.split("\n"), 1):
        if line.startswith("#"):
            heading = line.lstrip("# ")
        elif line.startswith("| ") and not re.match(r"\|[-| ]+$", line):
            yield number, heading, [it.strip() for it in line.strip("|").split(" | ")]


def prose(text):
    """The text without its blocks of code, with the same lines."""
    kept, fenced = [], False
    for line in text.split("\n"):
        if line.startswith("```"):
            fenced = not fenced
            line = "```"
        kept.append("" if fenced or line.startswith("    ") or line == "```" else line)
    return "\n".join(kept)


def spans(text):
    """What stands in backticks, with the number of its line."""
    for match in re.finditer(r"`([^`]+)`", text):
        yield text.count("\n", 0, match.start()) + 1, " ".join(match[1].split())


def links(document, text, texts):
    """Files and headings that links lead to."""
    for match in re.finditer(r"\]\(([^)\s]+)\)", prose(text)):
        target, _, anchor = match[1].partition("#")
        if "://" in target:
            continue
        number = text.count("\n", 0, match.start()) + 1
        path = os.path.normpath(os.path.join(os.path.dirname(document), target or "."))
        path = path if target else document
        there = os.path.exists(f"{ROOT}/{path}")
        yield "link", number, None if there else f"there is no {path}"
        if anchor and there:
            headings = re.findall(r"(?m)^#+ (.*)$", texts.get(path) or read(path))
            known = anchor in map(slug, headings)
            yield "anchor", number, None if known else f"{path} has no heading #{anchor}"


def is_file(word, document, crate):
    """Whether a path in backticks is there: from the top, beside the document or in a crate."""
    word = re.sub(r"\b(NAME|CRATE|CASE|FUNCTION)\b|\.\.", "*", word.rstrip("/"))
    bases = ["", "docs/", "crates/", "tests/", f"crates/{crate}/", f"crates/{crate}/src/"]
    bases += [f"crates/{crate}/data/", "crates/*/", "crates/*/specs/", "crates/*/src/"]
    bases += ["crates/*/data/"]
    kinds = ["", ".antt"]
    return any(glob.glob(f"{ROOT}/{base}{word}{kind}") for base in bases for kind in kinds)


PATH = re.compile(r"(?:\.\./)?[\w.*-]+(?:/[\w.*-]+)+/?|[\w-]+\.(?:rt|antt|py|sh|md|txt|pdb|edit)")
BUILT = re.compile(r"(^|/)out(/|$)|^/|~")
NAME = re.compile(r"(?:[A-Za-z_][\w.]*::)*[A-Za-z_]\w*(?:\.\.)?(?:\(\))?")


def words(document, text, known):
    """Names and paths in backticks."""
    skipped = set()
    if document.endswith("DIFFERENCES.md"):
        lines = text.split("\n")
        for number, heading, cells in rows_of(text):
            first = lines[number - 1].split(" | ")[0]
            beside = cells[0] if "eside" not in heading else " | ".join(cells)
            lines[number - 1] = lines[number - 1].replace(beside, "", 1)
        text = "\n".join(lines)
    crate = ""
    for number, span in spans(prose(text)):
        if span in known.crates:
            crate = span
        if PATH.fullmatch(span) and not BUILT.search(span) and span not in OUTSIDE:
            found = re.match(r"(?:crates/)?(\w+)/", span)
            crate = found[1] if found and found[1] in known.crates else crate
            there = is_file(span, document, crate)
            yield "file", number, None if there else f"there is no {span}"
        elif NAME.fullmatch(span) and span not in OUTSIDE:
            for part in re.split(r"::", span.removesuffix("()")):
                begun = part.removesuffix("..")
                there = begun in known.words if begun == part else any(
                    it.startswith(begun) for it in known.words
                )
                yield "word", number, None if there else f"no source has {part}"


def has_word(path, name):
    """Whether a name is a word of a file."""
    return re.search(rf"\b{re.escape(name)}\b", read(path)) is not None


def definition_files(crate, span):
    """The files of definitions that a name in a third column may stand for."""
    found = re.fullmatch(r"(\w+)/specs/(\w+)", span)
    crate, name = found.groups() if found else (crate, span)
    return [f"crates/{crate}/specs/{name}.antt"], f"crates/*/specs/{name}.antt"


def in_file(number, crate, path, names):
    """Whether a file of a crate has these names."""
    whole = f"crates/{crate}/src/{path}"
    if not os.path.exists(f"{ROOT}/{whole}"):
        yield "place", number, f"there is no {whole}"
        return
    yield "place", number, None
    for name in re.findall(r"\w+", names):
        yield "place", number, None if has_word(whole, name) else f"{whole} has no {name}"


def in_definitions(number, crate, span, names):
    """Whether a file of definitions, of a crate or one that it cites, has these names."""
    own, anywhere = definition_files(crate, span)
    files = [it for it in own if os.path.exists(f"{ROOT}/{it}")]
    files = files or glob.glob(anywhere, root_dir=ROOT)
    yield "place", number, None if files else f"no crate has definitions {span}"
    for name in re.findall(r"\w+", names) if files else []:
        there = any(has_word(it, name) for it in files)
        yield "place", number, None if there else f"the definitions {span} have no {name}"


CODE = re.compile(r"`(?:(\w+)/src/)?([\w/]+\.rt)`(?: \((`\w+`(?:, `\w+`)*)\))?")
SPECS = re.compile(r"`(?:(\w+)/specs/)?([A-Z]\w+)`(?: \((`\w+`(?:, `\w+`)*)\))?")


def places(text):
    """ARCHITECTURE's files with their functions and definitions."""
    for number, heading, cells in rows_of(text):
        if len(cells) != 3:
            continue
        crate = ""
        if heading == "The words of clauses":
            cells = ["", "", cells[1]]
        for named, path, names in CODE.findall(cells[1]):
            crate = named or crate
            yield from in_file(number, crate, path, names)
        for named, name, names in SPECS.findall(cells[2]):
            crate = named or crate
            yield from in_definitions(number, crate, name, names)


def glossary(text):
    """The files that GLOSSARY's third column names."""
    for number, _, cells in rows_of(text):
        crate = ""
        for span in re.findall(r"`([^`]+)`", cells[-1]) if len(cells) == 3 else []:
            found = re.match(r"(\w+)/(specs|src)\b", span)
            crate = found[1] if found else crate
            names = [span] if found else [f"{crate}/specs/{span}", f"{crate}/src/{span}"]
            tried = [f"{ROOT}/crates/{it}{kind}" for it in names for kind in ("", ".antt")]
            if found or re.fullmatch(r"[A-Z]\w+", span):
                there = any(os.path.exists(it) for it in tried)
                yield "place", number, None if there else f"there is no {names[0]}"


def crates_of(heading, known):
    """The crates whose functions a heading is about."""
    return [it for it in re.findall(r"`(\w+)`", heading) if it in known.crates]


def calls_in(cell):
    """The calls of a cell: their types or crates, and their names."""
    owner = None
    for span in re.findall(r"`([^`]+)`", cell):
        *path, name = re.sub(r"::<\w+>$", "", span).split("::")
        owner = path[-1] if path else owner
        yield owner, name


def found_functions(crates, owner, name, known):
    """The functions of that name, also of all that begin so where it ends with `..`."""
    names = [name]
    if name.endswith(".."):
        names = [it for it in known.functions if it.startswith(name[:-2])]
    for it in (it for name in names for it in known.functions[name]):
        if (it.crate in crates or owner == it.crate) and (owner is None or owner in it.owners):
            yield it


def merged_rows(text):
    """PROVED's rows of calls: number, heading, calls, clauses. A row with an empty first cell says
    more of the calls above it."""
    merged = []
    for number, heading, cells in rows_of(text):
        if len(cells) != 3 or cells[0] in ("call", "law"):
            continue
        if cells[0]:
            merged.append([number, heading, cells[0], cells[1]])
        elif merged:
            merged[-1][3] += ", " + cells[1]
    return merged


def clauses(text, known):
    """PROVED's rows: each call with its clauses."""
    for number, heading, calls, named in merged_rows(text):
        calls, _, place = calls.partition(" of ")
        crates = crates_of(place, known) or crates_of(heading, known)
        wanted = set(re.findall(r"`(\w+)`", named)) or {"-"}
        for owner, name in calls_in(calls):
            found = list(found_functions(crates, owner, name, known))
            label = f"{owner}::{name}" if owner else name
            if not found:
                yield "clause", number, f"{' '.join(crates)}: no call {label}"
            else:
                fitting = any(fits(it, wanted, "follows" in named) for it in found)
                said = " or ".join(sorted({", ".join(sorted(names(it))) for it in found}))
                why = f"{label} has the clauses {said}"
                yield "clause", number, None if fitting else why


def names(function):
    """The names of a function's clauses; of one that is a record, the names of its fields."""
    return set().union(*(function.fields[it] or {it} for it in function.clauses))


def fits(function, wanted, more):
    """Whether a function has these clauses, and no more unless there may be. A clause that is a
    record is named by its fields, all of them, or itself."""
    there = wanted <= function.clauses | names(function) | function.facts
    left = {it for it in function.clauses if not function.fields[it] or it not in wanted}
    left = set().union(*(function.fields[it] or {it} for it in left))
    return there and (more or left <= wanted)


def body_of(path, opening):
    """What stands in braces after a line that begins so."""
    return re.search(rf"(?ms)^{opening}.*?\n(?:{{\n)?(.*?)^}}", read(path))[1]


def variants(path, name):
    """How many variants an enum has."""
    return len(re.findall(r"(?m)^    [A-Z]\w*\b", body_of(path, f"pub enum {name}")))


def constant(path, name):
    """The value of a number in the sources."""
    value = re.search(rf"\bconst {name}: \w+ = ([^;]*);", read(path))[1]
    return eval(value.replace("u32::MAX", "0xffffffff"), {})


def kinds_of_scopes():
    """How many kinds of symbols start a scope."""
    path, words = "crates/pdb_symbol_records/src/kinds.rt", ""
    scoped = "is_global is_dpc is_procedure is_thunk is_separated_code is_inline_site"
    for name in scoped.split():
        words += body_of(path, f"pub fn {name}")
    return len(set(re.findall(r"\bS_\w+", words)))


def edits(pattern, place):
    """How many edits the folders of crates have, and of how many crates."""
    found = glob.glob(f"{pattern}/*.edit", root_dir=ROOT)
    return len(found), len({it.split("/")[place] for it in found})


def reports(is_counted):
    """How many recorded reports are so."""
    return sum(map(is_counted, [it for file in FILES for it in reports_of(f"{DATA}/{file}")]))


LISTED = "TIMES_LISTED"
NAMES = "crates/recorded_cases/data/names.tsv"
TRIED, OTHERS = edits("crates/*/must-fail", 1), edits("tests/wrong_bodies/*", 2)
SOURCE = {
    "types": "crates/pdb_records/src/type_data.rt",
    "ids": "crates/pdb_records/src/id_data.rt",
    "symbols": "crates/pdb_symbol_records/src/symbol_data.rt",
    "errors": "crates/pdb_resolving/src/error.rt",
    "requests": "crates/pdb_llvm_protocol/src/request.rt",
    "sites": "crates/pdb_module_data/src/inline_sites.rt",
    "paths": "crates/pdb_type_printing/src/index_path.rt",
    "copies": "crates/pdb_container/src/bounded_bytes.rt",
}
# Numbers that documents name: the document, the words around one, # for it, and what the sources
# have.
COUNTS = [
    ("docs/PROVED.md", "# whole reports", lambda: reports(lambda it: True)),
    ("docs/PROVED.md", "# with an input", lambda: reports(lambda it: not it.range)),
    ("docs/PROVED.md", "# with a range", lambda: reports(lambda it: bool(it.range))),
    ("docs/PROVED.md", "# of them by source file", lambda: reports(lambda it: bool(it.flags))),
    ("docs/PROVED.md", "# decorated names", lambda: read(NAMES).count("\n")),
    ("docs/PROVED.md", "# forms of types", lambda: variants(SOURCE["types"], "TypeData")),
    ("docs/PROVED.md", "types and # of ids", lambda: variants(SOURCE["ids"], "IdData")),
    ("docs/PROVED.md", "One of # forms", lambda: variants(SOURCE["symbols"], "SymbolData")),
    ("docs/PROVED.md", "# variants of `Error`", lambda: variants(SOURCE["errors"], "Error")),
    ("docs/PROVED.md", "more than # bytes", lambda: constant(SOURCE["requests"], "LONGEST")),
    ("docs/DIFFERENCES.md", "the # kinds of procedures", kinds_of_scopes),
    ("docs/RELEASING.md", "# edits of", lambda: OTHERS[0]),
    ("docs/RELEASING.md", "edits of # crates", lambda: OTHERS[1]),
    ("docs/RELEASING.md", "tries the # that", lambda: TRIED[0]),
    ("docs/RELEASING.md", "that no equation refuses, in # crates", lambda: TRIED[1]),
    ("docs/ARCHITECTURE.md", "# inline", lambda: constant(SOURCE["sites"], "MAXIMUM_DEPTH")),
    ("docs/ARCHITECTURE.md", "# types or ids", lambda: constant(SOURCE["paths"], "MAX_LENGTH")),
    ("docs/COSTS.md", "copied than 1 MB and #n", lambda: constant(SOURCE["copies"], "TIMES_COPIED")),
    ("docs/COSTS.md", "listed than 1 MB and #n", lambda: constant(SOURCE["copies"], LISTED)),
]


def counts(document, text):
    """Numbers that the sources have too."""
    flat = " ".join(text.split())
    for where, around, value in COUNTS:
        if where == document:
            form = "([0-9][0-9,]*)".join(map(re.escape, around.split("#")))
            found = [int(it.replace(",", "")) for it in re.findall(form, flat)]
            right = found and set(found) == {value()}
            why = f"{around}: {found or 'nowhere'}, and the sources have {value()}"
            yield "count", 1, None if right else why


def scripts(text):
    """The scripts that test.sh runs: each has a row here."""
    for name in re.findall(r"(?m)^count (?:python3 )?(\S+)", read("test.sh")):
        there = name == "rt" or f"`{name}`" in text
        yield "script", 1, None if there else f"no row says what {name} checks"


def dates(text):
    """The days on which decisions held, and the kit that refuses forms."""
    entry = re.compile(r"(?ms)^- .*?(?=^- |^#|^\n|\Z)|^\| [^|\n]+\| [^-|\n][^|\n]*\|$")
    for match in entry.finditer(text):
        whole = " ".join(match[0].strip(" |\n").split())
        number = text.count("\n", 0, match.start()) + 1
        dated = re.search(r"\(\d+ [A-Z][a-z]{2}\)$", whole) or whole.startswith("limit | ")
        yield "date", number, None if dated else f"no day stands at the end of {whole[:40]}"
    refusals = text.partition("## Forms that the toolchain refuses")[2].partition("\n## ")[0]
    named = re.search(r"`rt version`: `rattle-kit-\w+ logic \w+`", refusals)
    yield "date", 1, None if named else "the refused forms name no kit"


def crates_mapped(text, known):
    """The table of crates: each has a row, and each row is a crate's."""
    table = text.partition("## Crates, by layers")[2].partition("\n## ")[0]
    rows = [cells[0] for _, _, cells in rows_of(table) if len(cells) == 2]
    listed = re.findall(r"`(\w+)`", " ".join(rows))
    for name in sorted(set(listed) | set(known.crates)):
        there = listed.count(name) == 1 and name in known.crates
        yield "map", 1, None if there else f"{name} has {listed.count(name)} rows among crates"


def documents_mapped(text):
    """README leads to each document."""
    for name in DOCUMENTS:
        there = name == "README.md" or f"]({name}" in text
        yield "map", 1, None if there else f"no link leads to {name}"


def faults(document, text, texts, known):
    """What a document names, each with its kind, its line, and why it isn't so, or None."""
    yield from links(document, text, texts)
    yield from words(document, text, known)
    yield from counts(document, text)
    if document == "README.md":
        yield from documents_mapped(text)
    if document == "docs/ARCHITECTURE.md":
        yield from crates_mapped(text, known)
        yield from places(text)
    if document == "docs/DECISIONS.md":
        yield from dates(text)
    if document == "docs/GLOSSARY.md":
        yield from glossary(text)
    if document == "docs/PROVED.md":
        yield from clauses(text, known)
    if document == "docs/RELEASING.md":
        yield from scripts(text)


def main():
    texts = {it: read(it) for it in DOCUMENTS}
    asked = sys.argv[1:]
    if asked[:1] == ["--with"] and len(asked) == 4 and asked[1] in texts:
        _, document, old, new = asked
        if texts[document].count(old) == 0:
            stop(f"{document} has no {old!r}")
        texts[document] = texts[document].replace(old, new)
        asked = [document]
    if any(it not in texts for it in asked):
        stop(__doc__)
    known, passed, failed = Sources(), 0, 0
    for document in asked or DOCUMENTS:
        for kind, number, why in faults(document, texts[document], texts, known):
            passed += why is None
            if why is not None:
                failed += 1
                print(f"{document}:{number}: {kind}: {why}")
    end(passed, failed)


if __name__ == "__main__":
    main()
