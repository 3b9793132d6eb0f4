# shellcheck shell=bash
# What the tests of this folder share. A test sources this file, which takes it to the top of the repository and makes
# it a temporary folder, $work; it counts with `try` and ends with `tally`.
set -u
{ cd "$(dirname "${BASH_SOURCE[0]}")/.." && work=$(mktemp -d); } || { echo '0 passed, 1 failed'; exit 1; }
trap 'rm -rf "$work"' EXIT
passed=0
failed=0

# try WHAT COMMAND..: counts whether the command succeeds.
try() {
    local what=$1
    shift
    if "$@"; then passed=$((passed + 1)); else failed=$((failed + 1)) && echo "FAILED: $what"; fi
}

# The last line; fails where anything has failed.
tally() {
    echo "$passed passed, $failed failed"
    [ "$failed" -eq 0 ]
}
