"""Turns a library of this repository into its statements: declarations, contracts, definitions.

Each function that another crate can name keeps its contract and gets a body that calls `absurd`, a
function declared as C's whose contract is false. So every contract is proved at once, whatever it
says: a check over such a library proves nothing of it. Other functions are left out, and so are
proofs, but for the lemmas that contracts or other crates cite. check_over_statements.py uses this.
"""
import glob
import os
import re
import shutil

ABSURD = """unsafe extern "C" {
    /// Never returns.
    pub safe fn absurd()
        ensures { ⊥ };
}
"""
BODY = "{\n    absurd::absurd();\n    unreachable!()\n}"
PAIRS = {"{": "}", "(": ")", "[": "]"}
# What ends before the brace of a clause, not of a body.
CLAUSE = re.compile(
    r"(?:^|[\s}>)])(?:(?:requires|ensures)\*?(?:\s+[^\W\d]\w*)?|ghost\s+[^\W\d]\w*\s*:)\s*$"
)
WORDS = r"(?P<words>(?:(?:const|unsafe|safe|async)\s+|extern\s+)*)"
FUNCTION = re.compile(rf"(?P<pub>pub(?:\([a-z ]+\))?\s+)?{WORDS}fn\s+\w+")
HEAD = re.compile(r"(?m)^(?:unsafe\s+)?(?P<impl>impl\b)|^(?:pub(?:\([a-z ]+\))?\s+)?trait\b")
# A lemma file of a crate, as proofs and attributes of functions name it.
CITED = re.compile(r"\b(\w+)(?:\.|::)proofs(?:\.|::)([A-Z]\w*)")
# What isn't code: comments, texts, characters. A lifetime isn't a character.
NO_CODE = re.compile(
    r'//[^\n]*|/\*.*?\*/|(?<![\w])b?r(#*)".*?"\1|"(?:\\.|[^"\\])*"'
    r"|(?<![A-Za-z0-9_])b?'(?:\\[^']+|\\'|[^\\'\n])'",
    re.S,
)


def code_of(text):
    """The text with blanks in place of what isn't code, so that places stay."""
    return NO_CODE.sub(lambda it: re.sub(r"[^\n]", " ", it[0]), text)


def closing(code, at):
    """The place of the bracket that closes the one at this place."""
    opens, closes, depth = code[at], PAIRS[code[at]], 0
    for place in range(at, len(code)):
        depth += (code[place] == opens) - (code[place] == closes)
        if depth == 0:
            return place
    raise ValueError("a bracket isn't closed")


def body_of(code, at):
    """Where the body of a function begins, if it has one, and where the function ends."""
    at = since = closing(code, code.index("(", at)) + 1
    while True:
        if code[at] == ";":
            return None, at + 1
        if code[at] == "{" and not CLAUSE.search(code[since:at]):
            return at, closing(code, at) + 1
        if code[at] in PAIRS:
            since = at = closing(code, at) + 1
        else:
            at += 1


def attributes(code, text, at):
    """Where the attributes and comments before a function begin."""
    start = text.rfind("\n", 0, at) + 1
    while start:
        line = text.rfind("\n", 0, start - 1) + 1
        words = text[line:start].strip()
        if words.endswith("]"):
            begun = code.rfind("#[", 0, start)
            if begun < 0 or closing(code, begun + 1) + 1 != line + len(text[line:start].rstrip()):
                break
            line = text.rfind("\n", 0, begun) + 1
        elif not words.startswith("//") or words.startswith("//!"):
            break
        start = line
    return start


def without_tactics(code, text):
    """The head of a function without what only its proof needs."""
    kept, at = [], 0
    for it in re.finditer(r"#\[(?:tactic|cycle)\b", code):
        kept.append(text[at : it.start()])
        at = closing(code, it.start() + 1) + 1
    return "".join(kept) + text[at:]


def owners(code):
    """The impls and traits of a file: begin, end, and whether it is an impl of no trait."""
    for it in HEAD.finditer(code):
        begins = code.index("{", it.start())
        head = re.sub(r"for\s*<", "", code[it.start() : begins])
        is_own = it["impl"] is not None and not re.search(r"\bfor\s+[^<]", head)
        yield it.start(), closing(code, begins), is_own


def is_named(function, regions):
    """Whether a function can be named outside of its impl or file."""
    visible = (function["pub"] or "").strip()
    at = function.start()
    is_own = next((own for begin, end, own in regions if begin < at < end), None)
    return visible != "" if is_own is None else not is_own or visible == "pub"


def statements(text):
    """The text of a source file with its statements alone."""
    code, kept, at, end = code_of(text), [], 0, 0
    regions = list(owners(code))
    for it in FUNCTION.finditer(code):
        line = code.rfind("\n", 0, it.start()) + 1
        if it.start() < end or code[line : it.start()].strip():
            continue
        body, end = body_of(code, it.end())
        if body is None or "const" in it["words"]:
            continue
        start = attributes(code, text, it.start())
        kept.append(text[at:start])
        if is_named(it, regions):
            kept.append(without_tactics(code[start:body], text[start:body]) + BODY)
        at = end
    return "".join(kept) + text[at:]


def read(path):
    with open(path, encoding="utf-8") as file:
        return file.read()


def write(path, text):
    os.makedirs(os.path.dirname(path), exist_ok=True)
    with open(path, "w", encoding="utf-8") as file:
        file.write(text)


def cited(crates):
    """The lemma files of each crate that other crates cite."""
    found = {}
    for part in ("src", "specs", "proofs"):
        for path in glob.glob(f"{crates}/*/{part}/**/*.*t", recursive=True):
            crate = os.path.relpath(path, crates).split(os.sep)[0]
            for other, name in CITED.findall(read(path)):
                if other != crate:
                    found.setdefault(other, set()).add(name)
    return found


def with_cited(crate, proofs, wanted):
    """The lemma files of a crate that these cite, themselves among them."""
    found = set()
    while wanted:
        name = wanted.pop()
        if name not in found and os.path.exists(f"{proofs}/{name}.antt"):
            found.add(name)
            text = read(f"{proofs}/{name}.antt")
            wanted |= set(re.findall(rf"Rattle\.{crate}\.proofs\.(\w+)", text))
    return found


def make(crates, crate, to, wanted):
    """Writes a crate's statements to a folder, with the lemma files that are wanted of it."""
    home, own = f"{crates}/{crate}", ""
    shutil.rmtree(to, ignore_errors=True)
    if os.path.isdir(f"{home}/specs"):
        shutil.copytree(f"{home}/specs", f"{to}/specs")
    for path in sorted(glob.glob(f"{home}/src/**/*.rt", recursive=True)):
        text = statements(read(path))
        own += text
        write(f"{to}/{os.path.relpath(path, home)}", text)
    named = set(re.findall(rf"Rattle\.{crate}\.proofs\.([A-Z]\w*)", own))
    lemmas = with_cited(crate, f"{home}/proofs", set(wanted) | named)
    if lemmas:
        lines = read(f"{home}/proofs/Lib.antt").split("\n")
        name_of = re.compile(r"\s*(?:pub )?mod (\w+)")
        lines = [it for it in lines if not name_of.match(it) or name_of.match(it)[1] in lemmas]
        write(f"{to}/proofs/Lib.antt", "\n".join(lines))
    for name in lemmas:
        shutil.copy(f"{home}/proofs/{name}.antt", f"{to}/proofs")
        if os.path.isdir(f"{home}/proofs/{name}"):
            shutil.copytree(f"{home}/proofs/{name}", f"{to}/proofs/{name}")
