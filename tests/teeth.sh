#!/usr/bin/env bash
# Shows that no test script passes over a program that does nothing:
#
#   tests/teeth.sh
#
# Each script that takes --built is run over /bin/true, over /bin/cat and over no program, on a few
# of its cases where it takes names of cases: a script that fails on these fails on all. It has to
# end with status 1 and the line `0 passed, M failed`, in which M is the number below, and 1 over no
# program. (version.sh has six places that no program prints.) Then tests/documents.py is given a
# document with a stale row of each kind, which it has to find. Then what test.sh counts
# (tests/count.sh) is tried on commands that pass and fail in all ways. The last line is
# `N passed, M failed`.
set -u
cd "$(dirname "$0")/.."
good=0
bad=0
tried=" built.py teeth.sh "

# Counts whether something is so.
expect() { # WHAT CONDITION..
    local what=$1
    shift
    if "$@"; then
        good=$((good + 1))
    else
        bad=$((bad + 1))
        echo "$what"
    fi
}

# Whether a text has the form of an extended regular expression.
is_like() { # TEXT FORM
    [[ $1 =~ ^$2$ ]]
}

# Runs a script over each program that does nothing: so many have to fail.
over_nothing() { # SCRIPT FAILED WORD..
    local program said ended wanted passed=0 none=1
    [ "$1" = version.sh ] && passed=6 none=4
    tried+="$1 "
    for program in /bin/true /bin/cat /nonexistent; do
        wanted="1 $passed passed, $2 failed"
        [ "$program" = /nonexistent ] && wanted="1 $passed passed, $none failed"
        said=$(timeout 60 "tests/$1" --built "$program" "${@:3}" 2> /dev/null < /dev/null)
        ended=$?
        said="$ended ${said##*$'\n'}"
        expect "tests/$* over $program: '$said', and not '$wanted'" [ "$said" = "$wanted" ]
    done
}

# Gives tests/documents.py a document with another text in place of one, which makes a row stale.
stale() { # KIND DOCUMENT OLD NEW
    local said ended
    said=$(python3 tests/documents.py --with "${@:2}" 2>&1)
    ended=$?
    expect "tests/documents.py finds no stale $1 in $2, with '$4': '$said'" \
        is_like "$ended ${said//$'\n'/ }" "1 .*$2:[0-9]+: $1: .* [1-9][0-9]* failed"
}

# Two commands that do as bash is told: one, and one by the name of that whose line may have more.
plain() { bash -c "$1"; }
rt() { plain "$1"; }

# Tries what is counted of a command.
counted() { # NAME DOES PASSED FAILED
    local said wanted="$3 passed, $4 failed, status $(($3 == 0 || $4 > 0))"
    said=$(. tests/count.sh && count "$1" "$2" > /dev/null; total; echo "status $?")
    said=${said//$'\n'/, }
    expect "of $1 '$2' is counted: $said, and not $wanted" [ "$said" = "$wanted" ]
}

over_nothing recorded_reports.py 2 row_before-first-function_F row_one-line_F
over_nothing json_reports.py 1 row_before-first-function_F
over_nothing refused_requests/sweep.py 4 row_one-line_F 'llvm llvm' \
    'read sections plain.pdb 2608:0b' 'formatter signatures.hex 23'
over_nothing commands.sh 8 --quick README.md
over_nothing manual.sh 1
over_nothing llvm_symbolizer.sh 9 llvm
over_nothing llvm_protocol.py 223
over_nothing llvm_clients.py 1
over_nothing stack.py 16
over_nothing costly_files.py 6
over_nothing undecorated.py 1
over_nothing symbols.py 3 x64
over_nothing inspect.py 1
over_nothing version.sh 4
over_nothing fuzz.sh 24 20
for script in $(cd tests && grep -l -- --built *.sh *.py */*.py); do
    expect "tests/$script isn't tried here" is_like "$tried" ".* $script .*"
done

stale link README.md docs/GUIDE.md docs/GUIDES.md
stale anchor README.md GUIDE.md#as-a-library GUIDE.md#as-libraries
stale map README.md '](CHANGELOG.md)' '](VERSION)'
stale map docs/ARCHITECTURE.md '| `pdb_pieces` |' '| `pdb_slices` |'
stale file CONTRIBUTING.md tests/recorded_reports.py tests/recorded_report.py
stale word docs/GUIDE.md '`find_shared_frames`' '`find_joined_frames`'
stale place docs/ARCHITECTURE.md '(`read_stream`)' '(`read_streams`)'
stale place docs/ARCHITECTURE.md '`Procedures` (`over`)' '`Procedures` (`beneath`)'
stale place docs/ARCHITECTURE.md loading.rt loadings.rt
stale place docs/GLOSSARY.md pdb_addr2line/specs/Answer pdb_addr2line/specs/Reply
stale clause docs/PROVED.md '`Source::may_list`' '`Source::may_cut`'
stale clause docs/PROVED.md '`loaded`, `refused`' '`loaded`, `turned_away`'
stale clause docs/PROVED.md '`kept`, `text`' '`kept`'
stale clause docs/PROVED.md '`laws::frames_as_deep`' '`laws::frames_so_deep`'
stale clause docs/PROVED.md '`isolated`, `exchanged` | Every' '`isolated` | Every'
stale count docs/PROVED.md '798 whole' '791 whole'
stale count docs/RELEASING.md '128 edits' '100 edits'
stale date docs/DECISIONS.md 'need no memory. (28 Nov)' 'need no memory.'
stale date docs/DECISIONS.md 'rattle-kit-' 'kit-'
stale script docs/RELEASING.md '`tests/stack.py`' '`tests/stacks.py`'

counted plain 'echo 5 passed, 0 failed' 5 0
counted plain 'echo 5 passed, 2 failed; exit 1' 5 2
counted plain 'echo 5 passed, 2 failed' 5 2
counted plain 'echo 5 passed, 0 failed; exit 1' 5 1
counted plain 'echo 0 passed, 0 failed' 0 1
counted plain 'echo 2 failed' 0 1
counted plain 'echo crate x: 3 failed' 0 1
counted plain 'echo crate x: 5 passed, 0 failed' 0 1
counted plain 'echo 5 passed, 0 failed; echo done' 0 1
counted plain 'echo "5 passed, 0 failed (x)"' 0 1
counted plain true 0 1
counted plain false 0 1
counted rt 'echo "5 passed, 0 failed (x)"' 5 0
counted rt 'echo "5 passed, 2 failed (x)"; exit 1' 5 2
counted rt 'echo "5 passed, 0 failed (x)"; exit 1' 5 1
echo "$good passed, $bad failed"
[ "$bad" -eq 0 ]
