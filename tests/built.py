"""Built programs, which the scripts of this folder run, and how such a script ends.

With `--built FILE` among its words a script runs the programs that FILE names, NAME in it standing
for the name of one. With `--unproved` it runs stand-ins, whose answers are those of programs that
`rt try` compiles without proof (unproved.py), or such programs themselves where a script measures
them, refuses their requests or asks by earlier answers (compiled.py). Otherwise it runs the proved ones: `rt ci` builds
these, or `rt run` in the folder of a program.
"""
import os
import sys

import compiled
import unproved

ROOT = os.path.dirname(os.path.dirname(os.path.realpath(__file__)))
PROVED = f"{ROOT}/crates/NAME/out/NAME"


def end(passed, failed):
    """Says how many passed and how many failed, and ends. If none passed, that is a failure."""
    failed = failed if passed else max(failed, 1)
    print(f"{passed} passed, {failed} failed")
    sys.exit(1 if failed else 0)


def stop(why):
    """Ends where nothing can be tested."""
    print(why)
    end(0, 1)


def taken(words, unproved_by=unproved.place):
    """Where the programs lie, with NAME for a program's name, and the words but for that.
    `unproved_by` makes those without proof."""
    if "--unproved" in words:
        return unproved_by(ROOT), [it for it in words if it != "--unproved"]
    if "--built" not in words:
        return PROVED, words
    at = words.index("--built")
    if at + 1 == len(words):
        stop("--built wants the name of a file")
    return words[at + 1], words[:at] + words[at + 2 :]


def program(place, name):
    """The file of the program of that name."""
    file = os.path.abspath(place.replace("NAME", name))
    compiled.make(file)
    if not os.path.isfile(file) or not os.access(file, os.X_OK):
        stop(f"{file} isn't there: rt ci builds it, or rt run in crates/{name}")
    return file
