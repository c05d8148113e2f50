#!/usr/bin/env python3
"""Refuses every request for memory of programs in turn, and fails every read of a file that
is read on demand; `rt ci` has to have built them.

    tests/refused_requests/sweep.py [--built FILE | --unproved] [CASE..]

Of a case, the Nth request is refused in the Nth of as many runs as there are requests in one with
nothing refused.

- `pdb_symbolizer`, on the recorded rows of reports and on lines of JSON: such a run ends with
  status 1 and `fault: OutOfMemory` on standard error, and what is out is a prefix. One that ends as
  if nothing was refused passes in a case that exceptions.txt names, with the reason; where the
  request is of a function that it names; and at most once in 20 requests of others. A run whose Nth
  read at an offset fails, in the Nth of as many as there are, ends with status 1 and `fault:
  File(Other)`, and what is out is a prefix, too.
- `pdb_llvm_symbolizer`, on the cases of tests/llvm_symbolizer: such a run ends with status 1 and
  says so on standard error, and what is out is a prefix, or goes on as one of `pdb_symbolizer` may.
  A run whose Nth read at an offset fails says why the file can't be read, on standard error or in
  JSON in the answer, and no line of it says anything else of an address than that nothing is known;
  or it goes on as if nothing failed, where the database lies at a second place, too.
- `pdb_symbols`, on databases of tests/symbols, alone and with an image: such a run ends as one of
  `pdb_symbolizer` has to, with a prefix of the symbol file. With `--output` the file that was there
  before stays as it was, and nothing is left beside it.
- `recorded_cases reads`, on recorded reads of records, streams and tables: the call that finds no
  memory says so, and is made again.
- `pdb_inspect`, on each of its commands: such a run ends with status 1 and `pdb_inspect: out of
  memory`, and what is out is a prefix. A run whose Nth read at an offset fails says which file can't
  be read.
- `recorded_cases again`, on the files of the same rows and on the recorded texts: the call that
  finds no memory says so. The same context or formatter then answers it, and all other questions of
  its file, as if nothing was refused.

CASE is the name of a case: of a row, or as "context DATABASE FLAGS". Without one all are swept, and
each program and command has to have requests. The script prints how many of each function were
refused. The last line is `N passed, M failed`, in cases. FILE is where the programs lie, with NAME
in it for a program's name; if left out, the proved ones are run. A C compiler is needed (Debian:
gcc).
"""
import bisect
import collections
import concurrent.futures
import glob
import os
import re
import shutil
import subprocess
import sys
import tarfile
import tempfile

HERE = os.path.dirname(os.path.realpath(__file__))
sys.path.insert(0, os.path.dirname(HERE))
sys.dont_write_bytecode = True
import built  # noqa: E402
import compiled  # noqa: E402
import llvm_cases  # noqa: E402
from built import ROOT, stop  # noqa: E402
from recorded import DATA, Malformed, database_of, reports_of  # noqa: E402

SECONDS = 60
# The greatest file that contexts are asked about: in greater ones each of 65,536 frames is a request of its own.
GREATEST = 100_000
# At most one of so many requests of a run on demand may go on that is of no function with a name in exceptions.txt: a
# compiler may have put the named function into the one that calls it.
UNNAMED = 20
# The longest answer of a recorded read, in bytes: a text of it is made piece by piece.
LONGEST = 1_000
# Recorded texts of several calls or several files, which aren't asked here, and comments.
LEFT_OUT = ("#", "each_again", "file_run_again", "forgotten", "prefixes")
# Recorded texts of formatters; all others are of contexts.
FORMATTED = ("function", "unnamed", "emitted", "id", "emitted_id", "size")


# Recorded cases


def rows():
    """The recorded reports of which each request is refused."""
    return reports_of(f"{DATA}/rows.txt")


def file_of(row, folder):
    """The file of a row; of one of several files that differ in one thing, the first."""
    if not row.changes:
        return database_of(row.database, folder)
    path = f"{folder}/{row.name}"
    _, content = next(row.files())
    with open(path, "wb") as file:
        file.write(content)
    return path


def recorded_texts():
    """The recorded answers of formatters and contexts, by database, flags, kind and question."""
    texts = collections.defaultdict(dict)
    with open(f"{DATA}/texts.txt", encoding="ascii") as lines:
        for line in lines:
            words, _, answer = line.rstrip("\n").partition(" => ")
            if not answer or words.startswith(LEFT_OUT):
                continue
            word, database, module, flags, index = words.split()
            kind = "formatter" if word in FORMATTED else "context"
            texts[database, flags, kind][f"{word} {module} {index}"] = answer
    return texts


# Cases


class Case:
    """A run of a program, with at least so many requests; and with so many reads at offsets, where
    requests may go on as UNNAMED says. Its reads are failed if `fails_reads`. Where `wanted` is
    none, it is what comes with nothing refused. `called` is what names the program and its
    command."""

    folder, given, wanted, least, least_reads, called = ROOT, b"", None, 1, None, None
    fails_reads = False

    def __init__(self, name, words):
        self.name, self.words = name, words

    def differs(self, came):
        """What differs where nothing was refused."""
        return "" if self.wanted in (None, came) else f"{shown(came)}, and not {shown(self.wanted)}"


class Report(Case):
    """A run of pdb_symbolizer, which reads its file on demand."""

    program, least_reads, fails_reads = "pdb_symbolizer", 1, True

    def is_unread(self, wanted, came):
        """Whether a run in which a read failed is as it has to be."""
        return came[0] == 1 and came[2] == b"fault: File(Other)\n" and wanted[1].startswith(came[1])

    def is_right(self, wanted, came):
        """Whether a run in which a request was refused is as it has to be."""
        return came[0] == 1 and came[2] == b"fault: OutOfMemory\n" and wanted[1].startswith(came[1])


class JsonReport(Report):
    """A run of pdb_symbolizer that writes lines of JSON: frames, a fault, and a line that isn't an address."""

    called, folder = "pdb_symbolizer frames --json", f"{ROOT}/crates/pdb_symbolizer/data"
    given = b"11c4\n1148\nzz\n"
    wanted = (
        0,
        b'{"address":"0x000011c4","frames":[{"function":"plain","file":null,"line":null,"row":null}]}\n'
        b'{"address":"0x00001148","error":"unreadable"}\n'
        b'{"line":"zz","error":"not an address"}\n',
        b"",
    )


# Arguments of pdb_symbolizer that ask for no report, with the status, and what stands in the output
# where that is 0, else in the error output.
WORDS = {
    "": (2, b"error: 'pdb_symbolizer' requires a subcommand"),
    "help": (0, b"Usage: pdb_symbolizer <COMMAND>"),
    "help sizes": (0, b"Usage: pdb_symbolizer sizes "),
    "frames --help": (0, b"Usage: pdb_symbolizer frames "),
    "frames": (2, b"error: the following required arguments were not provided"),
    "sizes F 10 zz": (2, b"fault: NotAnAddress\n"),
    "sizes --by-file F 10 zz": (2, b"fault: NotAnAddress\n"),
    "frame F": (2, b"error: unrecognized subcommand 'frame'"),
    "frames F --hlep": (2, b"error: unexpected argument '--hlep'"),
}


class Words(Report):
    """A run of pdb_symbolizer with such arguments, which reads no file."""

    least_reads = 0

    def __init__(self, words):
        super().__init__(f"words {words}".strip(), words.split())
        self.told = WORDS[words]

    def differs(self, came):
        """What differs where nothing was refused."""
        status, *texts = came
        told, other = reversed(texts) if status else texts
        is_told = status == self.told[0] and self.told[1] in told and not other
        return "" if is_told else shown(came)


# What says that a read failed, and a line of the answer where nothing is known.
UNREAD_TEXT = re.compile(rb"Input/output error|No such file or directory")
UNKNOWN_LINE = re.compile(
    rb'(\?\?( at )?(\?\?:0(:0)?)?|  \w+: (\?\?|0))?|[\[\], ]*\{"Address":.*"Error":.*'
    rb'|    "Error": \{|      "Message": "Input/output error"|    "ModuleName": ".*"'
)


class DropIn(Case):
    """A run of pdb_llvm_symbolizer."""

    program, folder = "pdb_llvm_symbolizer", llvm_cases.DATA
    least_reads, fails_reads = 0, True

    def is_unread(self, wanted, came):
        """Whether a run in which a read failed is as it has to be."""
        known = set(wanted[1].splitlines())
        others = [it for it in came[1].splitlines() if it not in known]
        is_told = UNREAD_TEXT.search(came[1] + came[2]) is not None
        return came == wanted or is_told and all(map(UNKNOWN_LINE.fullmatch, others))

    def differs(self, came):
        """What is neither llvm-symbolizer's nor a stored difference where nothing was refused."""
        name = self.name.removeprefix("llvm ")
        differences = llvm_cases.differences(name, llvm_cases.told(*came))
        return "" if differences == llvm_cases.content(name, "differs") else shown(came)

    def is_right(self, wanted, came):
        """Whether a run in which a request was refused is as it has to be."""
        return came[0] == 1 and b"memory" in came[2] and wanted[1].startswith(came[1])


class Symbols(Report):
    """A run of pdb_symbols, which writes a symbol file to its output."""

    program = "pdb_symbols"

    def __init__(self, folder, words):
        super().__init__(f"symbols {' '.join(words)}", words)
        self.folder = folder


class SymbolsFile(Symbols):
    """A run of pdb_symbols that writes a symbol file to a path."""

    def __init__(self, folder, path, words):
        super().__init__(folder, words)
        self.words = ["--output", path, *words]
        self.name += " --output"
        self.path = f"{folder}/{path}"

    def differs(self, came):
        """What differs where nothing was refused. The file that is there then has to stay."""
        if came != (0, b"", b"") or not self.written():
            return f"{shown(came)}, and {len(self.written())} bytes were written"
        with open(f"{self.path}.whole", "wb") as file:
            file.write(self.written())
        return ""

    def written(self):
        """What the file holds; nothing if it isn't there, or if something lies beside it."""
        if glob.glob(f"{self.path}.part*") or not os.path.exists(self.path):
            return b""
        with open(self.path, "rb") as file:
            return file.read()

    def stays(self):
        """Whether the file is as it was before."""
        with open(f"{self.path}.whole", "rb") as file:
            return self.written() == file.read()

    def is_unread(self, wanted, came):
        """Whether a run in which a read failed is as it has to be."""
        return came == (1, b"", b"fault: File(Other)\n") and self.stays()

    def is_right(self, wanted, came):
        """Whether a run in which a request was refused is as it has to be."""
        return came == (1, b"", b"fault: OutOfMemory\n") and self.stays()


# Commands of pdb_inspect, over a file F.
COMMANDS = [
    "functions F",
    "functions F --demangle --format json",
    "lines F --format csv",
    "modules F",
    "sources F ../../../examples/source",
    "info F",
    "info F ../../pdb_llvm_symbolizer/data/x64.exe",
    "locate F plain start+16",
    "sizes F",
    "sizes F --by file",
    "sizes F --by folder",
    "sizes F --by module",
    "sizes F --by library",
    "sizes F --by section",
    "sizes F --join-padding --top 3",
    "diff F i386.pdb",
    "diff F i386.pdb --by section",
    "diff F i386.pdb --top 1 --format csv",
    "help sizes",
    "sizes F --top a",
]
# Those of them that read no file.
UNREAD = "help sizes", "sizes F --top a"


class Inspected(Case):
    """A run of pdb_inspect."""

    program, folder = "pdb_inspect", f"{ROOT}/crates/pdb_symbolizer/data"
    fails_reads = True

    def __init__(self, words):
        super().__init__(f"inspect {words}", words.replace("F", "x64.pdb").split())
        self.least_reads = None if words in UNREAD else 1

    def is_unread(self, wanted, came):
        """Whether a run in which a read failed is as it has to be."""
        said = re.fullmatch(rb"pdb_inspect: cannot read \S+\.pdb: Input/output error\n", came[2])
        return came[0] == 1 and said is not None and wanted[1].startswith(came[1])

    def is_right(self, wanted, came):
        """Whether a run in which a request was refused is as it has to be."""
        said = came[2] == b"pdb_inspect: out of memory\n"
        return came[0] == 1 and said and wanted[1].startswith(came[1])


class Repeating(Case):
    """A run of a program that asks again where a call finds no memory, and says so."""

    def is_right(self, wanted, came):
        """Whether one call said so, and all else is as if nothing was refused."""
        lines, refused = came[1].splitlines(), b"out of memory"
        others = [it for it in lines if it != refused]
        return len(lines) == len(others) + 1 and (came[0], others, came[2]) == (wanted[0], wanted[1].splitlines(), wanted[2])


class Read(Repeating):
    """A run of `recorded_cases reads`."""

    program, called = "recorded_cases", "recorded_cases reads"
    folder, wanted, least = DATA, (0, b"1 reads\n", b""), 0


def unshared(text):
    """The text of frames with shared names as that of their copy, which says the same."""
    return text.replace("Shared", "")


class Asked(Repeating):
    """A run of `recorded_cases again`, with its questions and their recorded answers, if there are."""

    program, called = "recorded_cases", "recorded_cases again"

    def __init__(self, name, words, answers):
        super().__init__(name, ["again", *words])
        self.questions = list(answers)
        self.answers = {it: unshared(answer) for it, answer in answers.items() if answer}

    def differs(self, came):
        """Each question is asked twice; of a file without a recorded answer an error may say why it
        isn't loaded. A fault is reported as another one where its part failed before."""
        status, output, errors = came
        if (status, output, bool(self.answers)) == (1, b"", False) and errors.startswith(b"Error: "):
            return ""
        lines = [it.partition(" => ") for it in output.decode(errors="replace").split("\n")[:-1]]
        is_asked = [question for question, _, _ in lines] == 2 * self.questions
        if status or errors or not is_asked:
            return f"{shown(came)}, and not each of {len(self.questions)} questions twice"
        for question, _, answer in lines:
            answer = unshared(answer)
            recorded = self.answers.get(question, answer)
            if recorded != answer and not (recorded.startswith("fault") and answer.startswith("fault")):
                return f"{question} => {answer}, and not {recorded}"
        return ""


def reports(folder):
    """The program on the recorded rows, and on arguments that ask for no report."""
    for row in rows():
        case = Report(row.name, row.arguments(file_of(row, folder)))
        case.given, case.wanted = row.given, (row.status, row.output, row.errors)
        # A file that is too short for a header isn't read.
        case.least_reads = int(row.status == 0)
        yield case
    yield JsonReport("json damaged.pdb", ["frames", "--json", "damaged.pdb"])
    for words in WORDS:
        yield Words(words)


def drop_ins():
    """pdb_llvm_symbolizer on the cases that are compared with llvm-symbolizer."""
    for name in llvm_cases.names():
        case = DropIn(f"llvm {name}", llvm_cases.arguments(name))
        case.given = llvm_cases.content(name, "input")
        yield case


# Databases of symbol files, with images, and how they are asked for.
SYMBOLS = (
    ["x64.pdb"],
    ["--no-demangle", "rust_o2.pdb", "rust_o2.exe"],
    ["--no-inlines", "gnuld_one_O2_19.pdb"],
)


def symbols(folder):
    """pdb_symbols on stored databases, to its output and to a file."""
    below = f"{folder}/symbols"
    with tarfile.open(f"{ROOT}/tests/symbols/cases.tar.xz") as cases:
        cases.extractall(below, filter="data")
    for words in SYMBOLS:
        yield Symbols(below, words)
    yield SymbolsFile(below, "it.sym", ["gnuld_one_O2_19.pdb", "gnuld_one_O2_19.exe"])


def reads(folder):
    """The recorded reads: all that were worked out by hand, and of each kind the longest answer that isn't very long."""
    chosen, longest = [], {}
    for file in ("by_hand", "records", "modules", "databases"):
        with open(f"{DATA}/reads_{file}.txt", encoding="ascii") as lines:
            for line in lines:
                question, is_case, answer = line.partition(" => ")
                kind = question.split(" ")[0], ".pdb" in question
                if is_case and file == "by_hand":
                    chosen.append(line)
                elif is_case and len(longest.get(kind, ("", ""))[1]) < len(answer) < LONGEST:
                    longest[kind] = line, answer
    for number, line in enumerate([*chosen, *(it[0] for it in longest.values())]):
        path = f"{folder}/read {number}"
        with open(path, "w", encoding="ascii") as file:
            file.write(line)
        yield Read(f"read {line.partition(' => ')[0][:60]}", ["reads", path])


def asked(folder):
    """Contexts and formatters, asked all that is recorded of their file, and each address of a row in every way."""
    texts = recorded_texts()
    for row in rows():
        answers = texts[row.database, "23", "context"]
        for address in row.addresses():
            offset = f"{max(int(address, 16) - 0x1000, 0):x}"
            places = f"frames_at 0 {address}", f"function_at 0 {address}"
            places += tuple(f"{run} 0 {offset}" for run in ("run_from", "file_run_from", "frames_run_from"))
            for question in (*places, "functions 0 0"):
                answers.setdefault(question, None)
    for (database, flags, kind), answers in texts.items():
        path = database_of(database, folder)
        if os.path.getsize(path) > GREATEST:
            continue
        for question, answer in list(answers.items()):
            for word, other in (("frames_at", "shared_at"), ("function", "emitted"), ("id", "emitted_id")):
                if question.split()[0] == word:
                    answers[question.replace(word, other, 1)] = answer
        # All functions come first: a call for them that is refused leaves no part as failed, or a
        # fault differs.
        in_order = sorted(answers.items(), key=lambda it: it[0].split()[0] != "functions")
        for kind in (kind, *["symbolizer"] * (kind == "context" and flags == "23")):
            name = f"{kind} {database} {flags}"
            with open(f"{folder}/{name}", "w", encoding="ascii") as questions:
                questions.writelines(f"{question}\n" for question, _ in in_order)
            yield Asked(name, [kind, path, flags, f"{folder}/{name}"], dict(in_order))


# Runs


class Program:
    """A program, the library that refuses, and the functions by where they begin in the program."""

    def __init__(self, file, library, is_marked):
        self.file, self.environment = file, {"LD_PRELOAD": library}
        if is_marked:
            self.environment["REFUSE_MARKED"] = "1"
        listed = subprocess.run(["nm", "-n", file], capture_output=True, text=True, check=True).stdout
        self.functions = [(int(at, 16), name) for at, name in re.findall(r"^([0-9a-f]+) [tT] ([^<\n]*\w)", listed, re.M)]

    def function_at(self, place):
        """The function that a return address lies in."""
        after = bisect.bisect_left(self.functions, (place, ""))
        return self.functions[after - 1][1] if after else "?"

    def run(self, case, number=None, read_number=None):
        """Runs a case with the request with that number refused, or with none, and so with a read.
        It gives what came, how many requests there were, -1 if none was looked for, who asked, and
        how many reads there were."""
        read, write = os.pipe()
        environment = {**self.environment, "REFUSE_REPORT": str(write)}
        if number:
            environment["REFUSE"] = str(number)
        if read_number:
            environment["REFUSE_READ"] = str(read_number)
        # A pipe may hand the input over in parts, and each may be a request more: so it is a file.
        with tempfile.TemporaryFile() as given:
            given.write(case.given)
            given.seek(0)
            try:
                ran = subprocess.run(
                    [self.file, *case.words],
                    stdin=given,
                    capture_output=True,
                    env=environment,
                    cwd=case.folder,
                    pass_fds=[write],
                    timeout=SECONDS,
                )
            finally:
                os.close(write)
        with open(read, encoding="ascii") as told:
            lines = dict(line.split(" ", 1) for line in told.read().splitlines())
        places = lines.get("refused", "0").split()[1:]
        callers = [self.function_at(int(place, 16)) for place in places]
        spans, count = map(int, lines.get("requests", "0 -1").split())
        reads = int(lines.get("reads", "0"))
        return (ran.returncode, ran.stdout, ran.stderr), count if spans else -1, callers, reads


def sweep(program, case, exceptions):
    """Refuses each request of a case in turn; gives what went wrong, and how often which function was refused."""
    wanted, count, _, reads = program.run(case)
    is_seen = count >= case.least and reads >= (case.least_reads or 0)
    differs = case.differs(wanted) or ("" if is_seen else "no request or no read is seen")
    if differs:
        return [f"{case.name}: with nothing refused: {differs}"], {}
    wrong, unnamed, refused = [], [], collections.Counter()
    for number in range(1, count + 1):
        came, _, callers, _ = program.run(case, number)
        if case.is_right(wanted, came):
            refused[asker(callers)] += 1
        elif may_go_on(case, callers, exceptions) and came in (wanted, without_tip(wanted)):
            refused[f"{asker(callers)}, as if it weren't"] += 1
        else:
            said = f"{case.name}: request {number} of {count} refused, of {' < '.join(callers)}: {shown(came)}"
            (unnamed if case.least_reads is not None and came == wanted else wrong).append(said)
    if len(unnamed) * UNNAMED > count:
        wrong += unnamed
    refused["functions without a name in exceptions.txt, as if they weren't"] += len(unnamed)
    return wrong + failing_reads(program, case, wanted, reads), refused


def may_go_on(case, callers, exceptions):
    """Whether exceptions.txt names the case, or a function by which a request was refused."""
    return case.name in exceptions or any(f"of {caller}".startswith(it) for caller in callers for it in exceptions if it.startswith("of "))


def failing_reads(program, case, wanted, reads):
    """Fails each read at an offset of a case in turn; gives what went wrong."""
    wrong = []
    for number in range(1, reads + 1 if case.fails_reads else 1):
        came = program.run(case, read_number=number)[0]
        if not case.is_unread(wanted, came):
            wrong.append(f"{case.name}: read {number} of {reads} failed: {shown(came)}")
    return wrong


def without_tip(came):
    """What came, but for clap's tip of a word that is like a wrong one."""
    status, output, errors = came
    return status, output, re.sub(rb"  tip: .*\n\n", b"", errors)


def asker(callers):
    """The innermost function that isn't the standard library's."""
    others = (it for it in callers if not it.startswith(("rattle_", "std", "core")))
    return next(others, "?")


def shown(came):
    """What came, in short."""
    status, output, errors = came
    return f"status {status}, output of {len(output)} bytes {output[-60:]!r}, errors {errors[-120:]!r}"


# All

KINDS = Report, JsonReport, Inspected, DropIn, Symbols, Read, Asked


def exceptions_of():
    """The cases of exceptions.txt, and the beginnings of functions' names after `of `."""
    with open(f"{HERE}/exceptions.txt", encoding="utf-8") as text:
        return {it.split(": ")[0] for it in text if it.strip() and not it.startswith("#")}


def library_in(folder):
    """Builds the library that refuses."""
    compiler, library = shutil.which("cc"), f"{folder}/refuse.so"
    if not compiler or not shutil.which("nm"):
        stop("a C compiler is needed, which compiles refuse.c: install the Debian package gcc")
    flags = "-O1 -Wall -Wextra -Werror -shared -fPIC -fno-omit-frame-pointer".split()
    subprocess.run([compiler, *flags, "-o", library, f"{HERE}/refuse.c", "-ldl"], check=True)
    return library


def main(words):
    place, words = built.taken(words, compiled.place)
    exceptions, passed, failed, where = exceptions_of(), 0, 0, collections.Counter()
    with tempfile.TemporaryDirectory(prefix="refused-requests-") as folder:
        library, programs = library_in(folder), {}
        for kind in KINDS:
            file = built.program(place, kind.program)
            programs[kind.program] = Program(file, library, issubclass(kind, Repeating))
        cases = [*reports(folder), *map(Inspected, COMMANDS), *drop_ins(), *symbols(folder)]
        cases += [*reads(folder), *asked(folder)]
        unknown = set(words) - {it.name for it in cases}
        if unknown:
            stop(f"no case has the name {', '.join(sorted(unknown))}")
        cases = [it for it in cases if not words or it.name in words]
        unswept = [] if words else KINDS
        with concurrent.futures.ProcessPoolExecutor() as lanes:
            lanes_of = [lanes.submit(sweep, programs[it.program], it, exceptions) for it in cases]
            for case, it in zip(cases, lanes_of):
                wrong, refused = it.result()
                passed, failed = passed + (not wrong), failed + bool(wrong)
                where.update(refused)
                unswept = [it for it in unswept if not refused or not isinstance(case, it)]
                print("".join(f"{line}\n" for line in wrong), end="")
        for kind in unswept:
            failed += 1
            print(f"no request of {kind.called or kind.program} was refused")
    for name, number in sorted(where.items()):
        print(f"{number:6} refused, of {name}")
    print(f"{sum(where.values())} requests refused")
    built.end(passed, failed)


if __name__ == "__main__":
    try:
        main(sys.argv[1:])
    except Malformed as malformed:
        stop(malformed)
