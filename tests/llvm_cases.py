"""What is compared with llvm-symbolizer: each case of tests/llvm_symbolizer, by its name.

NAME.args has the arguments, a line each, and NAME.input the standard input, if there is any.
NAME.expected has what llvm-symbolizer 19 writes: its standard output, its exit status, its standard
error. NAME.differs has what is otherwise of pdb_llvm_symbolizer, as diff prints it. In messages of
both the program's own name is left out.
"""
import os
import re
import subprocess

from built import ROOT

CASES = f"{ROOT}/tests/llvm_symbolizer"
DATA = f"{ROOT}/crates/pdb_llvm_symbolizer/data"
OWN_NAME = re.compile(rb"^\S*(llvm-symbolizer-19|pdb_llvm_symbolizer): (?=error: )", re.M)


def names():
    """The names of all cases."""
    return sorted(it.removesuffix(".args") for it in os.listdir(CASES) if it.endswith(".args"))


def content(name, kind):
    """The bytes of a case's file, none if it isn't there."""
    path = f"{CASES}/{name}.{kind}"
    if not os.path.exists(path):
        return b""
    with open(path, "rb") as file:
        return file.read()


def arguments(name):
    """The arguments of a case."""
    return content(name, "args").decode().splitlines()


def told(status, output, errors):
    """What a run came to, as it is stored."""
    return output + b"status %d\n" % status + OWN_NAME.sub(b"", errors)


def differences(name, came):
    """In what that is otherwise than llvm-symbolizer's."""
    words = ["diff", "--text", f"{CASES}/{name}.expected", "-"]
    ran = subprocess.run(words, input=came, stdout=subprocess.PIPE)
    return ran.stdout if ran.returncode < 2 else b"no answer is stored\n"
