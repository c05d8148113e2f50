#!/usr/bin/env bash
# Runs all tests: `rt ci` (every proof, must-fail edit, test and program), says how long it took,
# then runs the scripts below. What each of them checks stands at its head, and in
# docs/RELEASING.md. It fails where one fails; the last line counts all.
set -u
cd "$(dirname "$0")"
. tests/count.sh

# A second job of one check loads once more what that stands on: a quarter more processor time. On
# few processors all of them are busy without it. So there `rt ci` runs as many checks as there are
# processors (RT_JOBS), each with one job, if memory is enough: 4 GB for each.
processors=$(nproc)
memory=$(awk '/^MemAvailable/ { print int($2 / 4000000) }' /proc/meminfo)
if ((processors <= 4 && memory >= processors)); then
    export RT_JOBS=${RT_JOBS:-$processors}
fi

TIMEFORMAT='rt ci took %U seconds of user time, %S of system time and %R of wall time'
time count rt ci
count python3 tests/recorded_reports.py
count python3 tests/json_reports.py
count python3 tests/refused_requests/sweep.py
count tests/commands.sh
count tests/manual.sh
count tests/llvm_symbolizer.sh
count python3 tests/llvm_protocol.py
count python3 tests/llvm_clients.py
count python3 tests/stack.py
count python3 tests/costly_files.py
count python3 tests/undecorated.py
count python3 tests/symbols.py
count python3 tests/inspect.py
count tests/version.sh
count python3 tests/documents.py
count tests/teeth.sh
count python3 tests/edits_apply.py
total
