"""Programs without proof, for the scripts of this folder.

`rt try` compiles a program and runs it on a folder of cases, but leaves none. So with --unproved a
script runs twice, over stand-ins for the programs. In the first run, whose output goes nowhere, a
stand-in writes down what it is asked: its words, its input and the files that these name. Then `rt
try` runs all of that, once for each program. In the second run a stand-in answers what came.

A run that depends on what an earlier one wrote isn't known then: its stand-in says so. What is
printed comes at once, after the whole input was read, and error output is told from output by its
first words. So programs that are asked in turn, or measured, aren't tried in this way.
"""
import atexit
import os
import re
import shutil
import subprocess
import sys
import tempfile

PROGRAMS = ["pdb_symbolizer", "pdb_inspect", "pdb_llvm_symbolizer", "pdb_symbols"]
PROGRAMS += ["recorded_cases"]
STAND_IN = '''#!/usr/bin/env python3
import hashlib, json, os, re, shutil, sys
FOLDER, NAME = {folder!r}, {name!r}
words, given, files = sys.argv[1:], b"", {{}}
if not sys.stdin.isatty():
    given = sys.stdin.buffer.read()
if NAME == "pdb_llvm_symbolizer":
    # Lines and images name files beside them. `rt try` takes no name that isn't UTF-8.
    names = [it for it in sorted(os.listdir(".")) if it.encode(errors="ignore").decode() == it]
    files = {{it: it for it in names[:50] if os.path.isfile(it)}}
elif NAME == "pdb_symbols":
    # The files' names are written, too.
    files = {{it: it for it in words if os.path.isfile(it)}}
else:
    for at, word in enumerate(words):
        if os.path.isfile(word):
            words[at] = hashlib.sha256(open(word, "rb").read()).hexdigest()[:16] + ".pdb"
            files[words[at]] = word
key = hashlib.sha256(json.dumps([NAME, words]).encode() + given).hexdigest()[:24]
answer = f"{{FOLDER}}/answers/{{key}}"
if os.path.exists(answer):
    status, size = open(answer, "rb").readline().split()
    text = open(answer, "rb").read().split(b"\\n", 1)[1]
    sys.stdout.buffer.write(text[:int(size)])
    sys.stdout.flush()
    sys.stderr.buffer.write(text[int(size):])
    sys.exit(int(status))
asked = f"{{FOLDER}}/asked/{{NAME}}"
for name, file in files.items():
    shutil.copy(file, f"{{asked}}/data/{{name}}")
open(f"{{asked}}/cases/{{key}}", "wb").write(given)
if words:
    open(f"{{asked}}/cases/{{key}}.args", "w").write("\\n".join(words) + "\\n")
print("not run without proof: it depends on an earlier run", file=sys.stderr)
sys.exit(3)
'''
OTHERS = rb"Warning: |--[a-z-]+=: expected |pdb_llvm_symbolizer: error: |pdb_inspect: "
ERROR = re.compile(rb"(?m)^(?:fault: |error: |Error: |" + OTHERS + rb").*\n?")
# The file of a program that `rt try` compiled, where it stands for the program's name.
COMPILED = re.compile(rb"(?m)^/\S*/program(?=: error: )")


def place(root):
    """Where stand-ins lie that answer what this script asks, with NAME for a program's name."""
    folder = tempfile.mkdtemp()
    os.mkdir(f"{folder}/answers")
    for name in PROGRAMS:
        for part in ("cases", "data"):
            os.makedirs(f"{folder}/asked/{name}/{part}")
        with open(f"{folder}/{name}", "w") as file:
            file.write(STAND_IN.format(folder=folder, name=name))
        os.chmod(f"{folder}/{name}", 0o755)
    sys.stdout.flush()
    first = os.fork()
    if first == 0:
        nowhere = os.open(os.devnull, os.O_WRONLY)
        os.dup2(nowhere, 1)
        os.dup2(nowhere, 2)
        return f"{folder}/NAME"
    atexit.register(shutil.rmtree, folder, True)
    os.waitpid(first, 0)
    for name in PROGRAMS:
        answer(root, folder, name)
    return f"{folder}/NAME"


def answer(root, folder, name):
    """Has `rt try` run what a program was asked, and stores what came."""
    asked = f"{folder}/asked/{name}"
    if not os.listdir(f"{asked}/cases"):
        return
    words = ["rt", "try", "--cases", f"{asked}/cases"]
    for file in sorted(os.listdir(f"{asked}/data")):
        words += ["--data", f"{file}={asked}/data/{file}"]
    streams = {"stdout": subprocess.PIPE, "stderr": subprocess.STDOUT}
    said = subprocess.run(words, cwd=f"{root}/crates/{name}", **streams).stdout
    form = rb"(?s)(?:^|\n)== (\w{24})\n(.*?)case=\1 run=(\w+)(?: status=(\d+))?[^\n]*"
    for key, text, _, status in re.findall(form, said):
        status = int(status or b"1")
        text = COMPILED.sub(name.encode(), text)
        errors = text if status == 2 else b"".join(ERROR.findall(text))
        output = b"" if status == 2 else ERROR.sub(b"", text)
        with open(f"{folder}/answers/{key.decode()}", "wb") as file:
            file.write(b"%d %d\n" % (status, len(output)) + output + errors)
    cases = [it for it in os.listdir(f"{asked}/cases") if not it.endswith(".args")]
    missing = [it for it in cases if not os.path.exists(f"{folder}/answers/{it}")]
    if missing:
        print(said.decode(errors="replace")[-3000:])
    print(f"{name}: {len(cases)} runs without proof, {len(missing)} without an answer")
    shutil.rmtree(asked)
    for part in ("cases", "data"):
        os.makedirs(f"{asked}/{part}")
