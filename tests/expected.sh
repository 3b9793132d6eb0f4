#!/usr/bin/env bash
# What the gate tries is what tests/expected.txt lists, a path a line, sorted: every must-fail edit, every source of a
# crate that has a test in it, every script and C program of tests/, every Rust file of second/tests/, every example with
# what is stored of it, and what the report program is given and has to print. It says which path is gone or not listed.
# With --write it writes the list anew. The last line is 'N passed, M failed'.
# shellcheck source=tests/common.sh
. "$(dirname "$0")/common.sh" || exit

list=tests/expected.txt
export LC_ALL=C

# The paths that are there.
there() {
    find crates second/tests tests examples -path 'crates/*/out' -prune -o '(' -path 'crates/*/must-fail/*.edit' \
        -o -path 'crates/*.rt' -exec grep -qF '#[test]' '{}' ';' -o -path 'second/tests/*.rs' \
        -o -path 'tests/*.sh' -o -path 'tests/*.c' -o -path 'examples/*.drawing' -o -path 'examples/*.report' \
        -o -path 'examples/*.txt' -o -path examples/host.c -o -path 'crates/*/std*' \
        ')' -print | sort
}

as_listed() {
    diff --unchanged-line-format= --old-line-format='gone: %L' --new-line-format='not listed: %L' "$list" <(there)
}

if [ "${1-}" = --write ]; then there > "$list" || exit; fi
try 'the list and the files differ' as_listed
tally
