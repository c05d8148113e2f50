#!/usr/bin/env bash
# Checks that docs/pdb_symbolizer.1, docs/pdb_inspect.1, docs/pdb_llvm_symbolizer.1 and
# docs/pdb_symbols.1 are the manual pages of the programs' own help:
#
#   tests/manual.sh [--built FILE | --unproved] [--write] [PROGRAM..]
#
# FILE is where the programs lie, with NAME in it for a program's name; if left out, the proved ones
# are run, with --unproved those that `rt try` compiles. PROGRAM is the name of one; if left out,
# all pages are checked. Each help text has to begin with what the program or command does and with its
# usage, and to come with status 0 and no error output. With --write the pages are made anew. The
# last line is `N passed, M failed`.
set -eu
exec python3 "$(dirname "$0")/manual.py" "$@"
