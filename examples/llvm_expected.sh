#!/usr/bin/env bash
# Makes what tests/llvm_symbolizer.sh compares with, by llvm-symbolizer 19:
#
#   examples/llvm_expected.sh [--built FILE]
#
# For each case of tests/llvm_symbolizer it writes NAME.expected. That has what llvm-symbolizer-19
# writes to standard output for the arguments in NAME.args and the lines of NAME.input, its status,
# and what it writes to standard error. If there is a pdb_llvm_symbolizer, the proved one or that of
# FILE (`NAME` in it stands for the program's name), it writes NAME.differs too: what is otherwise
# there, as diff prints it. Each difference has to be explained in docs/DIFFERENCES.md.
# It needs llvm-symbolizer-19 (Debian: apt-get install llvm-19; the stored ones are of 19.1.7).
set -eu
top=$(cd "$(dirname "$0")/.." && pwd)
exec "$top/tests/llvm_symbolizer.sh" "$@" --write llvm-symbolizer-19
