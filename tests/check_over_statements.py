#!/usr/bin/env python3
"""Checks a crate against the statements alone of the crates below it. That takes minutes; `rt
check` first proves all of these crates.

    tests/check_over_statements.py CRATE [FLAG..]

This is for quick checks while a crate is edited. It PROVES NOTHING OF THE CRATES BELOW: their
functions are taken to meet their contracts, whatever their bodies do. So a crate that passes here
is proved only once `rt check`, or the gate, has proved it over real ones.

FLAG is one of `rattle check`, such as `--only module::function` (several; of a method
`module::Type::method`), `--allow-holes`, `--fix-imports` or `--test`. The statements
(tests/statements.py) are built once, and again where a contract, a definition or the kit changed.
What a whole check found is kept beside them for the next one. All that lies outside of the
repository, since `rt ci` refuses sources that it doesn't check: in a folder of its own below
~/.cache/haughpan, or below what XDG_CACHE_HOME names. The kit is the one whose `rt` is on the path.
The last line but one is rattle's; the last says that nothing below was proved.
"""
import hashlib
import os
import shutil
import subprocess
import sys
import time

sys.dont_write_bytecode = True
import statements
from built import ROOT

CRATES = f"{ROOT}/crates"
CACHE = os.environ.get("XDG_CACHE_HOME") or os.path.expanduser("~/.cache")
OUT = f"{CACHE}/haughpan/{hashlib.sha256(ROOT.encode()).hexdigest()[:12]}"
HELP = ("-h", "--help")


def libraries():
    """The crates of the repository, in order, each with those that it stands on."""
    found = {}
    for line in statements.read(f"{ROOT}/crates.txt").split("\n"):
        name, colon, below = line.partition("#")[0].partition(":")
        if colon:
            found[name.strip()] = below.split()
    return found


def below(crate, known):
    """The crates of the repository that a crate stands on, lowest first."""
    found = set()
    wanted = [it for it in known[crate] if it in known]
    while wanted:
        name = wanted.pop()
        if name not in found:
            found.add(name)
            wanted += [it for it in known[name] if it in known]
    return [it for it in known if it in found]


def kit():
    """The folder of the kit, by the place of its `rt`."""
    rt = shutil.which("rt")
    if rt is None:
        sys.exit("no rt is on the path: the kit is needed")
    return os.path.dirname(os.path.dirname(os.path.realpath(rt)))


def command(verb, crate, root, known, place):
    """A command of rattle for a crate, over the statements of those that it names."""
    words = [f"{place}/bin/rattle", verb, "--crate-name", crate, root, "--jobs", "1"]
    for name in ["std", *known.get(crate, [])]:
        folder = f"{OUT}/built" if name in known else f"{place}/rlibs"
        words += ["--extern", f"{name}={folder}/{name}.rlib"]
    if verb == "build":
        words += ["--extern", f"absurd={OUT}/built/absurd.rlib"] if crate != "absurd" else []
        words += ["--statements", "-o", f"{OUT}/built/{crate}.new"]
    words += ["-L", f"dependency={place}/rlibs", "-L", f"dependency={OUT}/built"]
    logic = f"{place}/rattle/logic/antt-project.json"
    return words + ["--antt-project", logic, "--logic-built", f"{place}/logic_built"]


def key(folder, others):
    """What tells the content of a folder, and of what it stands on."""
    told = hashlib.sha256("\n".join(others).encode())
    for path, folders, files in os.walk(folder):
        folders.sort()
        for name in sorted(files):
            told.update(f"{os.path.relpath(path, folder)}/{name}\n".encode())
            told.update(statements.read(f"{path}/{name}").encode())
    return told.hexdigest()


def build(crate, content, known, place):
    """Builds the statements of a crate in its folder, unless those of this content are there."""
    built, stored = f"{OUT}/built/{crate}.rlib", f"{OUT}/built/{crate}.key"
    if os.path.isdir(built) and os.path.exists(stored) and statements.read(stored) == content:
        return
    start = time.time()
    words = command("build", crate, "src/lib.rt", known, place)
    shutil.rmtree(f"{OUT}/built/{crate}.new", ignore_errors=True)
    streams = {"stdout": subprocess.PIPE, "stderr": subprocess.STDOUT, "text": True}
    ran = subprocess.run(words, cwd=f"{OUT}/{crate}", **streams)
    if ran.returncode:
        sys.exit(f"{ran.stdout[-3000:]}\nthe statements of {crate} can't be built")
    shutil.rmtree(built, ignore_errors=True)
    os.rename(f"{OUT}/built/{crate}.new", built)
    statements.write(stored, content)
    print(f"statements of {crate}: {time.time() - start:.0f} s", flush=True)


def build_below(crate, known, place):
    """Builds the statements of all crates below one."""
    os.makedirs(f"{OUT}/built", exist_ok=True)
    version = statements.read(f"{place}/KIT-ID")
    statements.write(f"{OUT}/absurd/src/lib.rt", statements.ABSURD)
    keys = {"absurd": key(f"{OUT}/absurd", [version])}
    build("absurd", keys["absurd"], known, place)
    cited = statements.cited(CRATES)
    for name in below(crate, known):
        statements.make(CRATES, name, f"{OUT}/{name}", cited.get(name, ()))
        others = [keys[it] for it in known[name] if it in keys]
        keys[name] = key(f"{OUT}/{name}", [keys["absurd"], *others])
        build(name, keys[name], known, place)


def check(crate, flags, known, place):
    """Checks a crate over the statements; returns the status."""
    home = f"{CRATES}/{crate}"
    root = "src/lib.rt" if os.path.exists(f"{home}/src/lib.rt") else "src/main.rt"
    words = command("check", crate, root, known, place)
    if not {"--only", "--allow-holes"} & set(flags):
        kind = "tests" if "--test" in flags else "crate"
        words += ["--incremental", f"{OUT}/checked/{crate}/{kind}"]
        os.makedirs(words[-1], exist_ok=True)
    start = time.time()
    status = subprocess.run(words + flags, cwd=home).returncode
    taken = time.time() - start
    print(f"{taken:.0f} s, over statements alone: nothing below {crate} was proved")
    return status


def main(crate, *flags):
    known, place = libraries(), kit()
    if crate not in known:
        sys.exit(f"crates.txt has no crate {crate}")
    build_below(crate, known, place)
    sys.exit(check(crate, list(flags), known, place))


if __name__ == "__main__":
    if len(sys.argv) < 2 or sys.argv[1] in HELP:
        sys.exit(__doc__)
    main(*sys.argv[1:])
