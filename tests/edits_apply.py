#!/usr/bin/env python3
"""Checks that each edit that a proof has to refuse applies to the code as it stands.

    tests/edits_apply.py

Edits are those in crates/CRATE/must-fail, which the gate tries, and in tests/wrong_bodies/CRATE,
which a release tries: a change of the code may leave one of these without its text. An edit names
a file of its crate, and each text that it replaces has to stand there once. Edits that don't apply
are named. The last line is 'N passed, M failed'."""

import pathlib
import sys

TOP = pathlib.Path(__file__).resolve().parent.parent


def fault(crate, edit):
    """Why an edit of a crate doesn't apply, or None."""
    lines = edit.read_text().splitlines()
    file = next((line[6:] for line in lines if line.startswith("file: ")), "")
    path = TOP / "crates" / crate / file
    if not path.is_file():
        return f"there is no file {path}"
    text = path.read_text()
    olds = [line[5:] for line in lines if line.startswith("old: ")]
    news = [line[5:] for line in lines if line.startswith("new: ")]
    if not olds or len(olds) != len(news):
        return "it has no pairs of old and new texts"
    for old, new in zip(olds, news):
        if text.count(old) != 1:
            return f"a text stands {text.count(old)} times and not once: {old}"
        text = text.replace(old, new)
    return None


def main():
    edits = [(path.parts[-3], path) for path in TOP.glob("crates/*/must-fail/*.edit")]
    edits += [(path.parts[-2], path) for path in TOP.glob("tests/wrong_bodies/*/*.edit")]
    failed = 0
    for crate, edit in sorted(edits):
        why = fault(crate, edit)
        if why is not None:
            failed += 1
            print(f"{edit.relative_to(TOP)}: {why}")
    print(f"{len(edits) - failed} passed, {failed} failed")
    return 1 if failed or not edits else 0


sys.exit(main())
