#!/usr/bin/env bash
# Runs the commands of README.md, docs/GUIDE.md and docs/RELEASING.md as they stand, and compares
# what they print:
#
#   tests/commands.sh [--built FILE | --unproved] [--write] [--quick | --slow] [DOCUMENT..]
#
# FILE is where pdb_symbolizer, pdb_inspect and pdb_llvm_symbolizer lie, with NAME in it for a
# program's name; if left out, the proved ones are run, with --unproved and --quick those that `rt
# try` compiles.
# DOCUMENT is one of these three documents; if left out, all are. A block of a document that begins
# with `    $ ` is a transcript. Each such line is a command, and the lines below it are what it
# prints, on standard error too. Each has to end with status 0; what one with nothing below it
# prints isn't compared. Each transcript runs in a new folder, with the programs on the path and
# their data in data/. What compiles or copies runs in a copy of the repository; with --quick it is
# left out. What proves or measures isn't run here. RELEASING's command that tries a thousand files
# runs with --slow alone. Each block ```rust has to stand in crates/example_calls; each example in a
# comment on a crate or an item, in that or another crate of examples; and each crate that users of
# the library name has one at its head. The programs have to end with status 1, and say why, where
# help or the version can't be written; pdb_symbolizer takes closed input for its end. With --write
# what came is put into the documents. The last line is `N passed, M failed`, in commands.
set -eu
exec python3 "$(dirname "$0")/commands.py" "$@"
