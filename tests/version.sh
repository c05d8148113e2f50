#!/usr/bin/env bash
# Checks that all that names the version has that of VERSION:
#
#   tests/version.sh [--built FILE | --unproved]
#
# These are CHANGELOG.md's newest heading, the sources of the programs, and what the programs
# print when asked by --version; and no other document names it. The programs are the proved ones,
# or those of FILE, with NAME in it for a program's name; with --unproved none is run. The last line
# is `N passed, M failed`.
set -u
cd "$(dirname "$0")/.."
built=crates/NAME/out/NAME
programs="pdb_symbolizer pdb_inspect pdb_llvm_symbolizer pdb_symbols"
[ "${1:-}" = --built ] && built=$2
[ "${1:-}" = --unproved ] && programs=
version=$(cat VERSION)
exactly='(^|[^0-9.])'${version//./\\.}'($|[^0-9.]|\.($|[^0-9]))'
passed=0
failed=0

# Counts whether what was found is what has to be.
same() { # WHAT FOUND WANTED
    if [ "$2" = "$3" ]; then
        passed=$((passed + 1))
    else
        failed=$((failed + 1))
        echo "$1: '${2:0:99}' and not '$3'"
    fi
}

newest=$(grep -m1 '^## ' CHANGELOG.md | sed -E 's/ \((not released|[0-9][^)]*)\)$//')
same "CHANGELOG.md's newest heading" "$newest" "## $version"
for file in crates/pdb_arguments/src/command.rt crates/pdb_inspect/src/arguments.rt \
    crates/pdb_{llvm_symbolizer,symbols}/src/help.rt; do
    said=$(grep -o 'const VERSION: &str.*' "$file" | sed -E 's/"pdb_[a-z]+ /"/; s/\\n"/"/')
    same "$file" "$said" "const VERSION: &str = \"$version\";"
done
for name in $programs; do
    said=$("${built//NAME/$name}" --version 2>&1; echo "status $?")
    same "$name --version" "$said" "$name $version"$'\nstatus 0'
done
same "documents that name it" "$(grep -nE "$exactly" README.md CONTRIBUTING.md docs/*.md)" ""
echo "$passed passed, $failed failed"
[ "$failed" -eq 0 ]
