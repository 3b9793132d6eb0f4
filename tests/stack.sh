#!/usr/bin/env bash
# How much stack each question takes, measured by stack.c, and that it is no more than the header's line 'Stack: at most
# N KB' says. It needs target/staticlib/libbrentivex.a and gcc. It prints a row for each question; the last line is
# 'N passed, M failed'.
# shellcheck source=tests/common.sh
. "$(dirname "$0")/common.sh" || exit

kb=$(sed -nE 's/^ \* Stack: at most ([0-9]+) KB$/\1/p' include/brentivex.h)

# A figure that is too small is told.
told() {
    "$work/stack" 1 > "$work/table"
    [ $? -eq 1 ]
}

try 'stack.c builds' gcc -std=c99 -O1 -Wall -Wextra -Werror -pedantic -pthread -Iinclude tests/stack.c \
    target/staticlib/libbrentivex.a -o "$work/stack"
try "a question takes more than $kb KB" "$work/stack" "$kb"
try 'a figure of 1 KB passes' told
tally
