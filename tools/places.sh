#!/bin/sh
# Lists or counts, at a commit, the places in src/ that docs/DESIGN-PASS.md goes by: tools/places.sh [COMMIT] [list]
at=${1:-HEAD}
how=-hc
[ "${2:-}" = list ] && how=-n
count() {
    name=$1
    shift
    if [ "$how" = -n ]; then
        echo "== $name"
        git grep -nE "$@" "$at" -- 'crates/*/src/*.rt'
    else
        printf '%-4s %s\n' "$(git grep -hE "$@" "$at" -- 'crates/*/src/*.rt' | wc -l)" "$name"
    fi
}
cd "$(dirname "$0")/.." || exit 1
count '1a own enums of the shape of Option or Result' -e '^ +(Faulty|None|Nothing|Failed|Found|Refused|Error)(\(|,)'
count '1b flags with a value beside them' -e '^ +pub (found|fits|ok|some|is_[a-z]+): bool,'
count '1c functions that answer a refusal or an outcome by its number' -e '^ *(pub )?(extern "C" )?fn .*-> u32$' -e '^\) -> u32$'
count '1d fields and parameters for the number of a refusal' -e '\bcode: u32\b'
count '1e numbers written out or named for a refusal or an outcome' -e '^ +return [0-9]+;' -e '\{ 9 \} else' -e '^const (RANGE|NUMBER|SHORT|NONE|NOT_SHOWN): '
count '1f numbers written out or named for a kind' -e '^(pub )?const (POINT|LINE|CIRCLE|FREE_CIRCLE|CLUSTER|OBJECT|CONSTRAINT|END): u' -e '^ +[1-7] => [^O]' -e '\(k == [0-9]\)'
count '1g functions over the number of a kind' -e '^(pub )?fn [a-z_]+\((k|kind): u(8|16)\b'
count '2a functions and types with a twin' -e 'fn (one_byte|two_bytes|no_objects|no_constraints|no_ends|weigh_objects|weigh_constraints)\(' -e 'fn (room|number|range)_fault\(code: ' -e '^pub struct (Counts|Entries|NetArrays) '
count '3a loops that count an index by hand' -e '^ +while (e|v|i|j|c|lowest|after) < '
count '3b all loops by while or loop' -e '^ +(loop|while) '
count '3c for loops' -e '^ +for '
count '4a conversions by hand' -e '\bas (usize|u8|u16|u32|i32|i64)\b' -e '256 \* \(' -e '% 256\) as'
count '5a parameters that travel together, a line each' -e '^    (n|m|ends|head|next|takes|weights|shares|room|stuck|object_kinds|object_stated|constraint_kinds|constraint_stated|kinds|stated): '
count '5b the same on one line' -e 'fn .*(above: usize, below: usize|shares: &(mut )?\[u16; ENDS\], (room|takes):|stuck: .*shares:)'
count '6a parallel arrays' -e '^ +pub (object_kinds|object_stated|constraint_kinds|constraint_stated): '
count '7a function pointers, dyn values, switches on a step' -e '\b(dyn|fn\(|impl Fn)'
