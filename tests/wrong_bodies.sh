#!/usr/bin/env bash
# Tries the wrong bodies that the gate doesn't: edits of a crate's code, each of which the crate's
# proof has to refuse.
#
#   tests/wrong_bodies.sh [CRATE ..]
#
# They stand in tests/wrong_bodies/CRATE/NAME.edit, in the form of CONTRIBUTING's must-fail edits.
# If no CRATE is named, those of all crates are tried. `rt must-fail` reads edits right in a crate's
# must-fail/ alone, so it runs in a copy of the repository, in which they stand there in place of
# the crate's own. The copy has no out/: what another checkout on the machine checked is taken over,
# and the rest is proved first. It takes a few GB where TMPDIR says, and is removed at the end.
# An edit fails that is still proved, can't be applied or read, or wasn't tried. The last line is
# `N passed, M failed`; with no edit at all the status is 1.
set -eu
cd "$(dirname "$0")/.."

if (($# == 0)); then
    set -- $(ls tests/wrong_bodies)
fi
for crate in "$@"; do
    if ! grep -q "^$crate:" crates.txt; then
        echo "crates.txt has no crate $crate" >&2
        exit 1
    fi
    if ! ls "tests/wrong_bodies/$crate/"*.edit > /dev/null 2>&1; then
        echo "tests/wrong_bodies has no edit of $crate" >&2
        exit 1
    fi
done

copy=$(mktemp -d)
trap 'rm -rf "$copy"' EXIT
mkdir "$copy/top"
cp crates.txt HANDLES "$copy/top"
tar -c --exclude=out --exclude=must-fail crates | tar -x -C "$copy/top"
for crate in "$@"; do
    mkdir -p "$copy/top/crates/$crate/must-fail"
    cp "tests/wrong_bodies/$crate/"*.edit "$copy/top/crates/$crate/must-fail"
done

(cd "$copy/top" && rt must-fail "$@") 2>&1 | tee "$copy/log"
status=${PIPESTATUS[0]}

passed=0
failed=0
for crate in "$@"; do
    for edit in "tests/wrong_bodies/$crate/"*.edit; do
        label="must-fail $crate/$(basename "$edit"): "
        if grep -qF "${label}refused" "$copy/log"; then
            passed=$((passed + 1))
            continue
        fi
        failed=$((failed + 1))
        grep -qF "$label" "$copy/log" || echo "${label}not tried"
    done
done
if ((failed == 0 && (status != 0 || passed == 0))); then
    failed=1
fi
echo "$passed passed, $failed failed"
exit $((failed > 0))
