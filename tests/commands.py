"""The work of commands.sh, whose head says what it does."""
import os, re, shutil, subprocess, sys, tempfile

sys.dont_write_bytecode = True
import built

words = sys.argv[1:]
DOCUMENTS = ["README.md", "docs/GUIDE.md", "docs/RELEASING.md"]
PROGRAMS = ["pdb_symbolizer", "pdb_inspect", "pdb_llvm_symbolizer"]
# The gate proves, compiles and runs the examples, which stand in these crates; and the crates that
# users of the library name.
EXAMPLES = ["example_calls", "recorded_cases", "pdb_report_tests"]
CALLED = ["pdb_addr2line", "pdb_report", "pdb_symbols_modules"]
CALLED += ["pdb_container_types", "pdb_image"]
top = built.ROOT
is_unproved = "--unproved" in words
words += ["--quick"] * is_unproved
place, words = built.taken(words)
flags = [it for it in words if it.startswith("--")]
documents = [it for it in words if not it.startswith("--")] or DOCUMENTS
programs = {name: built.program(place, name) for name in PROGRAMS}
LONG = re.compile(r"rt (run|ci|check|test|must-fail|plant)\b|bench/")
SLOW = re.compile(r"rt try\b|examples/|tests/|\./|install ")


def is_gap(lines, at):
    """Whether an empty line lies within what a command prints."""
    while at < len(lines) and not lines[at]:
        at += 1
    return at < len(lines) and re.match(r"    (?!\$ )", lines[at])


def transcripts(lines):
    """Each transcript: the numbers of its lines."""
    at = 0
    while at < len(lines):
        end = at
        if lines[at].startswith("    $ ") and (at == 0 or lines[at - 1] == ""):
            while end < len(lines) and (lines[end].startswith("    ") or is_gap(lines, end)):
                end += 1
            yield at, end
        at = max(end, at + 1)


def copied(to):
    """A copy of the repository, with the programs where they lie once they were built."""
    shutil.copytree(top, to, ignore=shutil.ignore_patterns(".git", "out"))
    for name, program in programs.items():
        os.mkdir(f"{to}/crates/{name}/out")
        shutil.copy(program, f"{to}/crates/{name}/out/{name}")
    return to


def run_transcript(lines, room, name):
    """The transcript as it runs, or why it is left out."""
    commands = []
    for line in lines:
        if line.startswith("    $ "):
            commands.append([line[6:], []])
        else:
            commands[-1][1].append(line[4:])
    if any(LONG.match(it) for it, _ in commands):
        return None, "it takes too long"
    slow = any(SLOW.match(it) for it, _ in commands)
    if slow and "--quick" in flags:
        return None, "with --quick"
    if slow and name == "docs/RELEASING.md" and "--slow" not in flags:
        return None, "without --slow"
    if any("parallel " in it for it, _ in commands) and not shutil.which("parallel"):
        return None, "GNU parallel isn't installed"
    os.makedirs(f"{room}/bin")
    for program, file in programs.items():
        os.symlink(file, f"{room}/bin/{program}")
    if slow:
        folder = copied(f"{room}/copy")
    else:
        folder = f"{room}/work"
        for program in programs:
            shutil.copytree(f"{top}/crates/{program}/data", f"{folder}/data", dirs_exist_ok=True)
    came = []
    for command, wanted in commands:
        if command.startswith("cd "):
            folder = os.path.join(folder, command[3:])
            came.append((command, wanted, [], 0))
            continue
        path = f"{room}/bin:{os.environ['PATH']}"
        how = {"stdin": subprocess.DEVNULL, "stdout": subprocess.PIPE, "stderr": subprocess.STDOUT}
        how["env"] = {**os.environ, "PATH": path, "HOME": room}
        ran = subprocess.run(["bash", "-o", "pipefail", "-c", command], cwd=folder, **how)
        text = ran.stdout.decode(errors="replace")
        came.append((command, wanted, text.rstrip("\n").splitlines(), ran.returncode))
    return came, None


def check(name):
    """Runs a document's transcripts: how many commands ran, and how many went otherwise."""
    lines = open(f"{top}/{name}").read().split("\n")
    count = bad = 0
    changed = []
    for start, end in transcripts(lines):
        with tempfile.TemporaryDirectory() as room:
            came, why = run_transcript(lines[start:end], room, name)
        if came is None:
            print(f"{name}:{start + 1}: not run, {why}: {lines[start][6:]}")
            continue
        fresh = []
        for command, wanted, got, status in came:
            count += not command.startswith("cd ")
            fresh.append(f"    $ {command}")
            silent = not wanted and "--write" not in flags or command.startswith("cd ")
            if got != wanted and not silent or status:
                bad += 1
                print(f"{name}:{start + 1}: $ {command}\n  wanted {wanted}")
                print(f"  came {got}, status {status}")
            fresh += [f"    {it}".rstrip() for it in (wanted if silent else got)]
        changed.append((start, end, fresh))
    if "--write" in flags:
        for start, end, fresh in reversed(changed):
            lines[start:end] = fresh
        open(f"{top}/{name}", "w").write("\n".join(lines))
    return count, bad


def unknown_code(name):
    """The pieces of code of a document that aren't in the example."""
    example = open(f"{top}/crates/example_calls/src/main.rt").read()
    pieces = re.findall(r"(?ms)^```rust\n(.*?)^```$", open(f"{top}/{name}").read())
    return [it for it in pieces if it not in example]


def code_lines(text):
    """The lines of code, without what they are indented by."""
    return [line.strip() for line in text.split("\n")]


def stands_in(piece, lines):
    """Whether the lines of a piece stand in these, one after the other."""
    return any(lines[at : at + len(piece)] == piece for at in range(len(lines)))


def examples_of_crates():
    """Each example in a comment on a crate or an item: its file and line, and its lines."""
    for folder, _, names in sorted(os.walk(f"{top}/crates")):
        for name in sorted(it for it in names if it.endswith(".rt")):
            example, file = None, os.path.relpath(f"{folder}/{name}", top)
            for number, line in enumerate(open(f"{top}/{file}"), 1):
                comment = re.match(r"\s*//[/!] ?(.*)", line)
                fence = comment and comment[1].startswith("```")
                if fence and example is None:
                    is_code = comment[1] != "```text"
                    example = f"{file}:{number}", [], is_code
                elif fence:
                    if example[2]:
                        yield example[:2]
                    example = None
                elif example is not None:
                    example[1].append(comment[1].strip() if comment else line)


def unproved_examples():
    """The examples of crates that aren't code of a crate of examples."""
    sources = []
    for crate in EXAMPLES:
        for folder, _, names in os.walk(f"{top}/crates/{crate}/src"):
            sources += [code_lines(open(f"{folder}/{it}").read()) for it in sorted(names)]
    for place, piece in examples_of_crates():
        if not any(stands_in(piece, lines) for lines in sources):
            yield f"{place}: this example stands in none of {', '.join(EXAMPLES)}"


def heads_without_example():
    """The crates that users of the library name, without an example at their heads."""
    have = {re.sub(r":\d+$", "", place) for place, _ in examples_of_crates()}
    for crate in CALLED:
        if f"crates/{crate}/src/lib.rt" not in have:
            yield f"crates/{crate}/src/lib.rt has no example"


def copies_differ():
    """The stored databases that aren't the same wherever they stand."""
    read = lambda file: open(f"{top}/crates/{file}", "rb").read()
    for name in os.listdir(f"{top}/crates/pdb_symbolizer/data"):
        others = [f"recorded_cases/data/real_{name}"]
        others += [f"{it}/data/{name}" for it in ("example_calls", "pdb_inspect", "pdb_llvm_symbolizer")]
        for other in others:
            there = os.path.exists(f"{top}/crates/{other}")
            if there and read(other) != read(f"pdb_symbolizer/data/{name}"):
                yield other


def unwritten_texts():
    """Each text that is asked for on a full disk, and what came where that isn't reported."""
    # A full disk's kind has no name of its own in reports.
    answers = {"pdb_symbolizer": "fault: Write(Other)\n"}
    answers["pdb_inspect"] = "pdb_inspect: cannot write to standard output\n"
    answers["pdb_llvm_symbolizer"] = "Error: standard output can't be written\n"
    for name, wanted in answers.items():
        for word in ("--help", "--version"):
            with open("/dev/full", "wb") as full:
                ran = subprocess.run([programs[name], word], stdout=full, stderr=subprocess.PIPE)
            came = ran.returncode, ran.stderr.decode(errors="replace")
            yield f"{name} {word} > /dev/full", None if came == (1, wanted) else came


def answer_to_closed_input():
    """What comes of an address, and of closed standard input, where that isn't its end."""
    command = [programs["pdb_symbolizer"], "frames", f"{top}/crates/pdb_symbolizer/data/x64.pdb"]
    asked = subprocess.run(command, input=b"2000\n", capture_output=True)
    closed = subprocess.run(["sh", "-c", 'exec "$@" <&-', "sh", *command], capture_output=True)
    came = asked.stdout, closed.returncode, closed.stdout[:80], closed.stderr[:80]
    wanted = b"0x00002000\n  ??\n", 0, b"", b""
    return "pdb_symbolizer frames x64.pdb <&-", None if came == wanted else came


total = wrong = 0
for command, came in [] if is_unproved else [*unwritten_texts(), answer_to_closed_input()]:
    total += 1
    if came is not None:
        wrong += 1
        print(f"{command}: came {came}")
for other in copies_differ():
    wrong += 1
    print(f"crates/{other} is another database than that of crates/pdb_symbolizer/data")
for why in [*unproved_examples(), *heads_without_example()]:
    wrong += 1
    print(why)
for name in documents:
    count, bad = check(name)
    for piece in unknown_code(name):
        bad += 1
        print(f"{name}: not in crates/example_calls:\n{piece}")
    total, wrong = total + count, wrong + bad
print(f"{total} commands, {wrong} otherwise than they stand")
built.end(max(total - wrong, 0), wrong)
