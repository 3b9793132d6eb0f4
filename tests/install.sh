#!/usr/bin/env bash
# Installs the library under temporary folders and builds and runs the C host from there, as a host's own build would.
# It needs target/staticlib/libbrentivex.a, make, pkg-config, gcc and g++. The last line is 'N passed, M failed'.
# shellcheck source=tests/common.sh
. "$(dirname "$0")/common.sh" || exit

# The three files, and no other.
files() {
    diff <(cd "$1" && find . -type f | sort) \
        <(printf '%s\n' ./include/brentivex.h ./lib/libbrentivex.a ./lib/pkgconfig/brentivex.pc)
}

# build PROGRAM COMPILER..: the host as a host's build makes it, by what pkg-config says.
build() {
    local program=$1 cflags libs
    shift
    cflags=$(pkg-config --cflags brentivex) && libs=$(pkg-config --libs brentivex) || return
    # shellcheck disable=SC2086  # each is a list of words
    "$@" -O2 -Wall -Wextra -Werror -pedantic $cflags examples/host.c -x none $libs -o "$program"
}

# The host on each drawing with a stored output host-DRAWING.txt or host-DRAWING-K-C.txt.
answers() {
    local stored drawing k c
    for stored in examples/host-*.txt; do
        IFS=- read -r drawing k c < <(basename "${stored#examples/host-}" .txt)
        diff "$stored" <("$1" "examples/$drawing.drawing" ${k:+"$k"} ${c:+"$c"}) || return
    done
}

# With -s the host prints a row for each constraint, and the rows add up to the sum that it gives.
rows() {
    "$1" -s examples/bracket.drawing | awk '
        /^Its sheet:/ { wanted_rows = $3; wanted = $7 }
        /^Row / { rows++; sum += $3 + $4 }
        END { exit !(rows == 28 && rows == wanted_rows && sum == wanted) }'
}

# The exit status is 0 where no call is refused, 1 where one is, 2 where the words or the file are no good.
statuses() {
    "$1" examples/D.drawing > "$work/out" && { "$1" examples/refused.drawing > "$work/out"; [ $? -eq 1 ]; } &&
        { "$1" examples/D.drawing 3x 2> "$work/out"; [ $? -eq 2 ]; } &&
        { "$1" "$work/nothing" 2> "$work/out"; [ $? -eq 2 ]; }
}

# handed_on HOST LINE WORD..: the host gives these words for D to the library, which refuses one, as the line says.
handed_on() {
    "$1" examples/D.drawing "${@:3}" > "$work/out"
    [ $? -eq 1 ] && grep -qF -- "$2" "$work/out"
}

# turned_away HOST WORD..: the host asks nothing.
turned_away() {
    "$1" examples/D.drawing "${@:2}" > "$work/out" 2> "$work/use"
    [ $? -eq 2 ] && [ ! -s "$work/out" ]
}

# A K that fits an int32_t and a number that fits a uint32_t are the library's to refuse; others are no good.
numbers() {
    handed_on "$1" 'At K = -2147483648: refused, code 10:' -2147483648 &&
        handed_on "$1" 'At K = 2147483647: refused, code 10:' 2147483647 &&
        handed_on "$1" 'Constraint 4294967295: refused, code 11:' -3 4294967295 &&
        turned_away "$1" -2147483649 && turned_away "$1" 2147483648 && turned_away "$1" 18446744073709551613 &&
        turned_away "$1" -3 4294967296 && turned_away "$1" -3 -1 && turned_away "$1" ''
}

# The archive leaves no symbol undefined but those that the header names.
symbols() {
    local undefined named
    undefined=$(nm --undefined-only --format=posix "$1/lib/libbrentivex.a") || return
    named=$(sed -n 's/^ \* Symbols: //p' "$1/include/brentivex.h")
    undefined=$(awk 'NF > 1 { print $1 }' <<< "$undefined" | sort -u | grep -vxF "$(tr ' ' '\n' <<< "$named")")
    [ -z "$undefined" ] || { echo "undefined: $undefined" | head -5; return 1; }
}

# The archive defines the functions that the header declares and no other symbol that a host could clash with.
functions() {
    diff <(nm --defined-only --extern-only --format=posix "$1/lib/libbrentivex.a" | awk 'NF > 1 { print $1 }' | sort) \
        <(grep -oE '\bbrentivex_[a-z_]+\(' "$1/include/brentivex.h" | tr -d '(' | sort)
}

# installed WHERE: everything that is tried of one installation; pkg-config is set up to find it.
installed() {
    try 'the version is that of the Makefile' \
        test "$(pkg-config --modversion brentivex)" = "$(sed -n 's/^VERSION = //p' Makefile)"
    try 'the host builds as C' build "$work/host_c" gcc -std=c99
    try 'the host builds as C++' build "$work/host_cpp" g++ -x c++
    for host in "$work/host_c" "$work/host_cpp"; do
        try 'the host prints the stored answers' answers "$host"
        try 'the rows of shares add up' rows "$host"
        try 'the exit status tells' statuses "$host"
        try 'numbers are handed on where they fit' numbers "$host"
    done
    try 'three files and no other' files "$1"
}

# The prefix lies in the temporary folder too, so that nothing is put elsewhere even where DESTDIR is not honoured.
try 'make install with DESTDIR and PREFIX' make -s install DESTDIR="$work/stage" PREFIX="$work/usr"
try 'nothing is put outside DESTDIR' test ! -e "$work/usr"
export PKG_CONFIG_SYSROOT_DIR=$work/stage PKG_CONFIG_PATH=$work/stage$work/usr/lib/pkgconfig
installed "$work/stage$work/usr"
try 'make install with PREFIX alone' env -u DESTDIR -u MAKEFLAGS PREFIX="$work/prefix" make -s install
unset PKG_CONFIG_SYSROOT_DIR
export PKG_CONFIG_PATH=$work/prefix/lib/pkgconfig
installed "$work/prefix"
try 'no undefined symbol beyond those named' symbols "$work/prefix"
try 'the functions declared and no other' functions "$work/prefix"
tally
