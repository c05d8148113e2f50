"""The work of manual.sh, whose head says what it does."""
import os, re, subprocess, sys

sys.dont_write_bytecode = True
import built

words = sys.argv[1:]
is_unproved = "--unproved" in words
place, words = built.taken(words)
# What a program with commands does, by its name.
COMMANDS = {
    "pdb_symbolizer": "functions and lines by a program database (PDB)",
    "pdb_inspect": "lists what a program database (PDB) has",
}
# What a program without commands does, by its name.
SINGLE = {
    "pdb_llvm_symbolizer": "answers addresses by PDBs, as llvm-symbolizer does",
    "pdb_symbols": "writes symbol files of PDBs, which crash reporters read",
}


def help_of(name, *words):
    """The lines of a help text of a program with commands."""
    return lines_of(built.program(place, name), "help", *words)


def lines_of(*words):
    """The lines of a help text."""
    ran = subprocess.run(words, capture_output=True, text=True)
    lines = ran.stdout.rstrip("\n").split("\n")
    if (ran.returncode, ran.stderr) != (0, "") or lines[1:2] != [""] or "Usage: " not in lines[2]:
        built.stop(f"{ran.args}: status {ran.returncode}, {ran.stderr!r}, no help text")
    return lines


def roff(text):
    text = text.replace("\\", "\\e").replace("-", "\\-")
    return f"\\&{text}" if text[:1] in (".", "'") else text


def paragraphs(lines):
    """Lines of a help text as roff: rows of a list by `.TP`, commands as they stand, prose."""
    made = []
    for at, line in enumerate(lines):
        row = re.fullmatch(r"  ?\s*(\S.*?)\s{2,}(\S.*)", line)
        if not line:
            made.append(".PP")
        elif row:
            made += [".TP", f".B {roff(row[1])}", roff(row[2])]
        elif line.startswith("  "):
            made += [".PP", ".EX", f"    {roff(line.strip())}", ".EE"]
        else:
            made.append(roff(line))
    return made


def command(program, name):
    """The section of a command: what it does, its usage and arguments, what it reads and writes."""
    about, _, usage, *rest = help_of(program, name)
    usage = usage.removeprefix("Usage: ").removesuffix(" [OPTIONS]")
    return [f".SS {roff(usage)}", f"{roff(about)}.", *paragraphs(rest)]


def page_of(made):
    """The lines of a page as its text, without a `.PP` that nothing follows."""
    following = zip(made, [*made[1:], ".PP"])
    return "".join(f"{line}\n" for line, next_one in following if (line, next_one) != (".PP", ".PP"))


def whole(program):
    """The page of a program with commands."""
    about, _, usage, *rest = help_of(program)
    version = open(f"{built.ROOT}/VERSION").read().strip()
    at = rest.index("Examples:")
    last = next(it for it, line in enumerate(rest) if line.startswith("The exit status is "))
    names = [it.split()[0] for it in rest if re.match(r"  [a-z]+ {2,}[A-Z]", it)]
    names = [it for it in names if it != "help"]
    made = [f'.TH {program.upper()} 1 "" "{program} {version}"']
    made += [".SH NAME", f"{program} \\- {roff(COMMANDS[program])}"]
    made += [".SH SYNOPSIS", f".B {roff(usage.removeprefix('Usage: '))}"]
    made += [".SH DESCRIPTION", roff(about), ".SH COMMANDS"]
    for name in names:
        made += command(program, name)
    made += [".SH OPTIONS", *paragraphs(rest[rest.index("Options:") + 1 : at - 1])]
    made += [".SH EXAMPLES", *paragraphs(rest[at + 1 : last])]
    made += [".SH EXIT STATUS", *paragraphs(rest[last:])]
    return page_of(made)


def single(name):
    """The page of a program without commands: a section for each line of help that ends in `:`."""
    about, _, usage, *rest = lines_of(built.program(place, name), "--help")
    version = open(f"{built.ROOT}/VERSION").read().strip()
    made = [f'.TH {name.upper()} 1 "" "{name} {version}"']
    made += [".SH NAME", f"{name} \\- {roff(SINGLE[name])}"]
    made += [".SH SYNOPSIS", f".B {roff(usage.removeprefix('Usage: '))}"]
    made += [".SH DESCRIPTION", f"{roff(about)}."]
    part = []
    for line in [*rest, "Exit status:"]:
        if re.fullmatch(r"[A-Z][a-z ]+:", line):
            made += paragraphs(part) + [f".SH {line[:-1].upper()}"]
            part = []
        else:
            part.append(line)
    at = next(it for it, line in enumerate(made) if line.startswith("The exit status is "))
    made = made[:at] + made[-1:] + made[at:-1]
    return page_of(made)


def ask_ahead(names):
    """Asks for all help texts, of the commands that the page has now, since a run without proof
    answers what was asked before (unproved.py)."""
    asked = [[built.program(place, name), "--help"] for name in SINGLE if name in names]
    for name in names:
        if name in COMMANDS:
            page = open(f"{built.ROOT}/docs/{name}.1").read()
            commands = re.findall(r"(?m)^\.SS \S+ (\w+)", page)
            program = built.program(place, name)
            asked += [[program, "help", *it] for it in ([], *([it] for it in commands))]
    for words in asked:
        subprocess.run(words, stdin=subprocess.DEVNULL, capture_output=True)


alike = 0
PAGES = [*COMMANDS, *SINGLE]
names = [it for it in words if it != "--write"] or list(PAGES)
for name in names:
    if name not in PAGES:
        built.stop(f"there is no page of {name}")
if is_unproved:
    ask_ahead(names)
for name in names:
    text = single(name) if name in SINGLE else whole(name)
    page = f"{built.ROOT}/docs/{name}.1"
    if "--write" in words:
        open(page, "w").write(text)
    was = open(page).read() if os.path.exists(page) else ""
    alike += was == text
    if was != text:
        print(f"docs/{name}.1 isn't what the help texts make: tests/manual.sh --write")
built.end(alike, len(names) - alike)
