#!/usr/bin/env bash
# The calls of calls.c in four builds. It needs target/staticlib/libbrentivex.a, gcc and valgrind (Debian package
# valgrind). The last line is 'N passed, M failed'.
#
#   pages behind, pages in front   the library touches no byte behind a run of bytes that is lent, or before it, and
#                                  writes to no drawing and no sheet that is checked: a page stops it
#   valgrind                       the library touches no byte round a run of bytes on the heap, and no code and no byte
#                                  it answers hangs on a byte that was never written; nothing leaks
#   AddressSanitizer               the calling program's own use of memory, and that it does nothing undefined; of the
#                                  library, which is built without it, only the lengths it gives to memcpy and memset
# shellcheck source=tests/common.sh
. "$(dirname "$0")/common.sh" || exit

# calls [FLAGS] -- [COMMAND..]: builds calls.c with the flags and runs it on the examples under the command.
calls() {
    local flags=()
    while [ "$1" != -- ]; do flags+=("$1") && shift; done
    shift
    gcc -std=c99 -g -O1 -Wall -Wextra -Werror -pedantic "${flags[@]}" -Iinclude tests/calls.c \
        target/staticlib/libbrentivex.a -o "$work/calls" && "$@" "$work/calls" examples/*.drawing
}

# The calls under valgrind; fails where there is none.
under_valgrind() {
    command -v valgrind > "$work/valgrind" || { echo 'no valgrind here: install the package valgrind' && return 1; }
    calls -- valgrind -q --leak-check=full --errors-for-leak-kinds=all --error-exitcode=9
}

try 'pages behind' calls -DGUARD_BEHIND --
try 'pages in front' calls -DGUARD_FRONT --
try 'valgrind' under_valgrind
try 'AddressSanitizer' calls -fsanitize=address,undefined -fno-sanitize-recover=all --
tally
