#!/usr/bin/env bash
# Shows that the released program is the proved one: it has the bytes of the program that was just proved and built, without
# its symbols. Where sources have changed since the release, that can't be seen, and a line says that the release is behind.
# usage: tests/release.sh SPPROF
set -u
spprof=$(readlink -f "$1")
cd "$(dirname "${BASH_SOURCE[0]}")/.." || exit 1
folder=$(mktemp -d)
trap 'rm -rf "$folder"' EXIT
passed=0
failed=0

holds() { # WRONG COMMAND..: counts whether the command succeeds, and tells what is wrong where it does not
    local wrong=$1
    shift
    if "$@"; then
        passed=$((passed + 1))
    else
        echo "FAILED release: $wrong"
        failed=$((failed + 1))
    fi
}

named() { # KEY: what release/SOURCES says of it
    sed -n "s/^$1: //p" release/SOURCES
}

has_four_lines() {
    [ "$(cut -d : -f 1 release/SOURCES)" = $'toolchain\ntree\nsources\nprogram' ]
}

has_its_bytes() {
    [ -x release/spprof-x86_64-linux ] && release/names "$(named sources)" release/spprof-x86_64-linux | cmp -s - <(tail -n 2 release/SOURCES)
}

# Where git has the tree that the release names, the sources in it are those that the release names.
has_its_tree() {
    local tree
    tree=$(named tree)
    git cat-file -e "$tree^{tree}" 2> /dev/null || return 0
    mkdir "$folder/tree" && git archive "$tree" crates.txt crates | tar -x -C "$folder/tree" && [ "$(release/hash "$folder/tree")" = "$(named sources)" ]
}

is_the_proved_one() {
    release/strip "$spprof" "$folder/stripped" && cmp "$folder/stripped" release/spprof-x86_64-linux &&
        echo 'release: the released program is the one that was proved and built, byte for byte'
}

if [ ! -e release/SOURCES ]; then
    holds 'there is no released program' false
else
    holds 'release/SOURCES has other lines than its four' has_four_lines
    holds 'the program is not the one that release/SOURCES names' has_its_bytes
    holds 'the tree that release/SOURCES names has other sources' has_its_tree
    if [ "$(named sources)" = "$(release/hash)" ]; then
        holds "the program built here is another; the release was made by $(named toolchain)" is_the_proved_one
    else
        holds 'the release is behind' true
        echo 'release: BEHIND: sources have changed since, so it was not compared; release/make makes it anew'
    fi
fi
echo "$passed passed, $failed failed"
[ $failed -eq 0 ]
