#!/usr/bin/env bash
# Compares pdb_llvm_symbolizer with what llvm-symbolizer 19 writes, as examples/llvm_expected.sh
# stored it:
#
#   tests/llvm_symbolizer.sh [--built FILE | --unproved] [--write ORIGINAL | CASE..]
#
# FILE is where the program lies, with NAME in it for its name; if left out, the proved one is run,
# with --unproved one that `rt try` compiles, on the cases alone.
# CASE is the name of a case of tests/llvm_symbolizer, whose form tests/llvm_cases.py has; if left
# out, all are run. Output, exit status and error output have to be those stored, but for the stored
# differences. Then the program is asked for one address after the other, by a line of 256 MB, for
# files that aren't regular, for huge ones, for images with room between their sections, for files of
# symbol stores, and with its input closed.
# With --write the script stores what ORIGINAL, llvm-symbolizer 19, writes, and, if the program is
# there, what that has otherwise. The last line is `N passed, M failed`.
set -eu
exec python3 "$(dirname "$0")/llvm_compared.py" "$@"
