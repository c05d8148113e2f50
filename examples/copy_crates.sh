#!/usr/bin/env bash
# Copies crates of this repository, and all that they stand on here, into another repository of the
# Rattle kit:
#
#   examples/copy_crates.sh TO CRATE..
#
# TO gets their folders in TO/crates, and their lines in TO/crates.txt, which is made if there is
# none. Their licences go to TO/licences/haughpan. What is there already stays. A crate can stand only
# on crates of its own repository and of the kit, so they are copied and not named from afar.
set -eu
top=$(cd "$(dirname "$0")/.." && pwd)
to=${1:?usage: examples/copy_crates.sh TO CRATE..}
shift
mkdir -p "$to/crates" "$to/licences/haughpan"
cp "$top"/LICENSE-* "$to/licences/haughpan"
touch "$to/crates.txt"

# The crates to copy: the named ones, and what their lines name.
wanted=" "
next="$*"
while [ -n "$next" ]; do
    found=
    for crate in $next; do
        line=$(grep -E "^$crate( [^:]*)?:" "$top/crates.txt" || true)
        case $wanted in *" $crate "*) continue ;; esac
        [ -n "$line" ] || continue
        wanted="$wanted$crate "
        found="$found ${line#*:}"
    done
    next=$(echo $found)
done

for crate in $wanted; do
    if [ ! -d "$to/crates/$crate" ]; then
        mkdir "$to/crates/$crate"
        (cd "$top/crates/$crate" && tar -c --exclude=./out --exclude=./must-fail .) | tar -x -C "$to/crates/$crate"
    fi
    grep -qE "^$crate( [^:]*)?:" "$to/crates.txt" || grep -E "^$crate( [^:]*)?:" "$top/crates.txt" >> "$to/crates.txt"
done
