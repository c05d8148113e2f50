#!/usr/bin/env bash
# Makes random and damaged files, and checks that each is answered or refused:
#
#   tests/fuzz.sh [--built FILE | --unproved] [--keep FOLDER] [COUNT [SEED]]
#
# FILE is where pdb_symbolizer lies, with NAME in it for its name; if left out, the proved one is
# run, with --unproved one that `rt try` compiles. COUNT is 1000, SEED 1. A file is random bytes,
# with or without the magic of a container, or one of crates/pdb_symbolizer/data that was cut,
# overwritten in some places, or damaged in what one stream says. For each, `frames` is asked of
# some addresses and `sizes` of a range. Either the status is 0, each address has an answer of the
# report's form, and the counts add up; or it is 1, nothing was written, and a fault is reported by
# its name. Random bytes have to be refused, and the files of data as they are, which are tried
# first, answered with functions. No run may take longer than 20 seconds. What goes otherwise is
# printed, and kept with --keep. The last line is `N passed, M failed`.
set -eu
exec python3 "$(dirname "$0")/fuzz.py" "$@"
