#!/usr/bin/env bash
# Every name in backticks in the documents is one that the crates declare, and every path there is that of a file or a
# folder. A name is one word; or words joined by ::, the last of which is declared in the module that the others name;
# or words joined by dots, of which the last is declared; or a file or type as the crates import it, as in
# Rattle.density.specs.Net. A path may start
# at a crate and leave out .antt. Names right before a path (`name`, `path`; `name` and `name` in `path`; `name`
# (`path`), and so on) stand in its file, and so do those in the first cell of a row whose last is paths alone. Each
# document counts as one test, and what is missing has a line of its own. The last line is 'N passed, M failed'.
# shellcheck source=tests/common.sh
. "$(dirname "$0")/common.sh" || exit

documents=(README.md docs/*.md)
# Words that the documents explain and no crate declares: those of the two languages, and parts of paths.
language='abbrev refl rt tt write declared ensures i32 in new now old proofs pub requires result specs'
language+=' u32 unfoldable use'
export LC_ALL=C

# The text of a document: a line for each paragraph, heading, list item and row of a table. Blocks of code are left out:
# what lies between two fences, or is indented by four behind an empty line and is no part of a list.
text() {
    awk 'function flush() { if (unit != "") print unit; unit = "" }
        /^```/ { flush(); code = !code; next }
        code { next }
        /^ *$/ { flush(); apart = 1; next }
        /^    / && apart && !list { next }
        /^([-*]|[0-9]+\.) / { flush(); list = 1 }
        /^[^ ]/ && !/^([-*]|[0-9]+\.) / && apart { list = 0 }
        /^[|#]/ { flush() }
        { sub(/^ +/, ""); unit = unit == "" ? $0 : unit " " $0; apart = 0 }
        /^[|#]/ { flush() }
        END { flush() }' "$1"
}

# What stands in backticks in a text; a lone backtick is an open one.
quoted() {
    awk -F'`' '
        NF > 0 && NF % 2 == 0 { print "open backtick: " substr($0, 1, 40) }
        { for (i = 2; i < NF; i += 2) print $i }' | sort -u
}

# The names of a text that come with a path: NAME PATH.., a line each. Names joined by commas and 'and' go together.
placed() {
    awk -F'`' '
        function word(s) { return s ~ /^[A-Za-z][-A-Za-z0-9_]+$/ }
        function path(s) { return s ~ /^[-A-Za-z0-9_.\/]+\/[-A-Za-z0-9_.\/]*$/ }
        { count = 0; between = "" }
        { for (i = 2; i < NF; i += 2) {
            if (path($i)) for (; count > 0; count--) print names[count], $i
            else if (!word($i) || between !~ /^(, | and |, and )$/) count = 0
            if (word($i)) names[++count] = $i
            between = $(i + 1)
            gsub(/\*/, "", between)
            if (between !~ /^(, | and |, and | in |, in | \(| \(in )$/) count = 0
        } }
        /^\|.*\| *`[^ |]*\/[^ |]*`(, `[^ |]*\/[^ |]*`)* *\|$/ {
            cells = split($0, cell, "|")
            last = cell[cells - 1]
            gsub(/[`,]/, "", last)
            parts = split(cell[2], part, "`")
            for (i = 2; i < parts; i += 2) if (word(part[i])) print part[i] last
        }' | sort -u
}

# The files of the crates with an ending, without what rt makes.
with_ending() {
    find crates -name out -prune -o -name "*.$1" -print
}

# What each file of the crates declares, FILE NAME: NAME.. : TYPE, data, record or ruleset NAME of definitions and laws;
# functions, types, constants, fields and cases of the code; a must-fail edit its own name.
declared() {
    local file modifiers='((unfoldable|abbrev|pub) )*' name='[A-Za-z][^ (]*'
    with_ending antt | while read -r file; do
        sed -nE -e "s/^ *$modifiers(data|record|ruleset) ([^ ]+).*/\4/p" \
            -e "/^ *let /!s/^ *$modifiers($name( $name)*)( \{[^}]*\})? :( .*)?$/\3/p" "$file" | tr -s ' ' '\n' |
            sed "s|^|$file |"
    done
    with_ending rt | while read -r file; do
        sed -nE -e 's/^([^<]* )?(fn|struct|enum|trait|const) (\w+).*/\3/p' \
            -e 's/^ *(pub )?(\w+)(: .*|\(.*\))?,$/\2/p' "$file" | sed "s|^|$file |"
    done
    with_ending edit | sed -E 's|.*/([^/]+)\.edit$|& \1|'
}

# What the documents may name besides: the modules and the crates, and what the crates use of the libraries, which are
# none of these crates.
besides() {
    local own
    own=$(cd crates && printf '%s|' *)
    with_ending rt | xargs basename -s .rt
    ls crates
    { with_ending antt && with_ending rt; } | xargs sed -nE \
        "/^ *(ghost )?use Rattle\.(${own%|})\./!s/^ *(ghost )?use [^{:]*\{(.*)\};?\$/\2/p" | tr -s ', ' '\n'
}

# A path of the repository, or the end of one from a folder on, with or without .antt or .edit.
path() {
    grep -qE "/${1//./\\.}(\.antt|\.edit)?$" "$work/paths"
}

# The files of the crates that a path names: the file, or else those of the folder.
files() {
    grep -E "(^|/)${1//./\\.}(\.antt)?$" "$work/files" || grep -E "(^|/)${1//./\\.}/" "$work/files"
}

# declares NAME FILE..: whether one of the files declares it.
declares() {
    printf "%s $1\n" "${@:2}" | grep -qxF -f - "$work/declared"
}

# in_module WORD: whether a::b::c is declared in the module b of the crate a, and a::b at the root of the crate a or in
# a module a.
in_module() {
    local name=${1##*::} module=${1%::*} root=crates/${1%%::*}/src inner
    inner=${module#*::}
    case $module in
        *::*) declares "$name" "$root/${inner//:://}.rt" ;;
        *) declares "$name" "$root/lib.rt" "$root/main.rt" crates/*/src/"$module.rt" ;;
    esac
}

# in_file WORD: whether Rattle.a.b.C is a file of the crate a, or a type that its code declares; what the library has
# passes.
in_file() {
    local inner=${1#Rattle.}
    case $inner in
        std | std.*) ;;
        *.declared.*) declares "${inner##*.}" "crates/${inner%%.*}"/src/*.rt ;;
        *) path "${inner//.//}" ;;
    esac
}

# there WORD: whether what a word in backticks names is there; says what is not. Other words pass.
there() {
    case $1 in
        'open backtick'*) echo "$document: $1" && return 1 ;;
        *' '* | *[!-[:alnum:]_:./]* | .antt | [[:alpha:]]) ;;
        */* | *.antt | *.rt | *.md | *.sh) path "${1%/}" || { echo "$document: no path $1" && return 1; } ;;
        *::*) in_module "$1" || { echo "$document: no name $1" && return 1; } ;;
        Rattle.*) in_file "$1" || { echo "$document: no file $1" && return 1; } ;;
        *.*) there "${1##*.}" ;;
        [[:alpha:]]*) [[ " $language " = *" $1 "* ]] || grep -qxF -- "$1" "$work/names" ||
            { echo "$document: no name $1" && return 1; } ;;
    esac
}

# stands NAME PATH..: whether one of the files that the paths name declares it, or is code that uses it; says what does
# not stand there. Crates pass, and names that come with a path outside of the crates.
stands() {
    local found=() path
    for path in "${@:2}"; do
        mapfile -t -O "${#found[@]}" found < <(files "${path%/}")
    done
    [ "${#found[@]}" -eq 0 ] || [ -d "crates/$1" ] || declares "$1" "${found[@]}" ||
        grep -lwF -- "$1" "${found[@]}" | grep -q '\.rt$' || { echo "$document: no $1 in ${*:2}" && return 1; }
}

# Whether a document has words in backticks, everything that they name is there, and stands where the document says.
all_there() {
    local word missing=0
    local -a words
    text "$1" > "$work/text"
    quoted < "$work/text" > "$work/words"
    while read -r word; do
        there "$word" || missing=1
    done < "$work/words"
    while read -r -a words; do
        stands "${words[@]}" || missing=1
    done < <(placed < "$work/text")
    [ -s "$work/words" ] && [ "$missing" -eq 0 ]
}

find . -name .git -prune -o -path ./target -prune -o -path './crates/*/out' -prune -o -print > "$work/paths"
find crates -name out -prune -o -type f -print > "$work/files"
declared | sort -u > "$work/declared"
{ sed -E -e '/\/(Answers|Invariants)\.antt /d' -e 's/^[^ ]* //' "$work/declared" && besides; } | sort -u > "$work/names"
for document in "${documents[@]}"; do
    try "$document names what is not there" all_there "$document"
done
tally
