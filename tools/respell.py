#!/usr/bin/env python3
"""Brings the repository's own names to the spelling of today's Rattle: definitions, fields, constructors and laws in snake case.

usage: python3 tools/respell.py     at the top of the repository, once, right after the kit's port.py

A name of the repository is one that a signature of a file of specs/ or proofs/ declares, or that a file binds, and no library exports there. `takenBy`
becomes `taken_by`, `as-many` becomes `as_many`. Names of types, of the code, of goals and of files keep theirs. The texts of must-fail edits
follow, and those of the documents where they stand in backticks or in a block of code. It says where two names of one file would fall together, and
writes nothing then.
"""

import glob
import re
import sys

NAME = r'[^\s(){}.;,@"«»`]+'
MARKS = r"(?:(?:pub|abbrev|unfoldable|pattern) )*"
DECLARED = re.compile(rf"(?m)^ *{MARKS}((?:{NAME} )*?{NAME})(?: \{{[^{{}}\n]*\}})* :(?= |$)")
USED = re.compile(r"(?m)^use ([^\s{]+?)\.?\{([^}]*)\}")
COMMENT = re.compile(r"--[^\n]*")
# A law or a field that would have the name of the definition that it is about; and `getD`, which is the library's `get_or` now.
SPECIAL = {
    "both-shares": "both_shares_are",
    "constraint-fault-in": "constraint_fault_in_lem",
    "constraint-value": "constraint_value_lem",
    "constraint-weight": "constraint_weight_lem",
    "getD-tabulated": "get_or_tabulated",
    "in-force": "in_force_lem",
    "in-range": "is_in_range",
    "object-fault-in": "object_fault_in_lem",
    "object-value": "object_value_lem",
    "object-weight": "object_weight_lem",
    "taken_at": "taken_at_lem",
}


def crates():
    with open("crates.txt", encoding="utf-8") as f:
        return {line.split(":")[0].split()[0] for line in f if ":" in line and not line.startswith("#")}


def is_old(name):
    """Types are in camel case; a dash is in no name of a type."""
    return name[0].isalpha() and "-" in name or name[0].islower() and re.search("[a-z0-9][A-Z]", name) is not None


def snake(name):
    if name in SPECIAL:
        return SPECIAL[name]
    return re.sub("(?<=[a-z0-9])[A-Z]", lambda m: "_" + m[0].lower(), name).replace("-", "_")


def imported(text, own):
    """The names that a file has from the libraries."""
    names = set()
    for module, listed in USED.findall(text):
        group = re.match(r"Rattle\.(\w+)\.", module)
        if not group or group[1] not in own:
            names |= {it.strip().split(" as ")[-1] for it in listed.split(",")}
    return names


def declared():
    return {it for path in definitions() for group in DECLARED.findall(COMMENT.sub("", read(path))) for it in group.split()}


def read(path):
    with open(path, encoding="utf-8") as f:
        return f.read()


def definitions():
    return sorted(glob.glob("crates/*/specs/**/*.antt", recursive=True) + glob.glob("crates/*/proofs/**/*.antt", recursive=True))


def is_walk(path):
    return path.endswith("/Proof.antt")


def old_names(own):
    names = set()
    for path in definitions():
        if is_walk(path):
            continue
        code = COMMENT.sub("", read(path))
        here = {it for group in DECLARED.findall(code) for it in group.split()} | set(re.findall(NAME, code))
        names |= {it for it in here if is_old(it) or it in SPECIAL} - imported(code, own)
    return names


WORD = re.compile(rf"(?<![^\s(){{}}.;,@«»`]){NAME}")


def turn(text, names):
    return WORD.sub(lambda m: snake(m[0]) if m[0] in names else m[0], text)


def turn_also(text, names, there):
    """As turn, and the names that port.py has turned in the sources, and in no page or edit."""
    text = turn(text, names)
    return WORD.sub(lambda m: snake(m[0]) if is_old(m[0]) and snake(m[0]) in there else m[0], text)


def turn_antt(text, names):
    """The code as it is, and of a comment the names in camel case and those in backticks."""
    parts = re.split(r"(--[^\n]*)", text)
    return "".join(turn_prose(it, names) if it.startswith("--") else turn(it, names) for it in parts)


def turn_prose(text, names):
    text = re.sub(r"`[^`\n]*`", lambda m: turn(m[0], names), text)
    camel = {it for it in names if "-" not in it}
    return turn(text, camel)


def turn_rt(text, names):
    parts = re.split(r"(//[^\n]*)", text)
    return "".join(turn_prose(it, names) if it.startswith("//") else turn(it, names) for it in parts)


def turn_page(text, names, there):
    """The blocks of code, indented ones too, and what is in backticks."""
    parts = re.split(r"(?ms)(^```.*?^```$|^    [^\n]*$)", text)
    return "".join(
        turn_also(it, names, there) if it.startswith(("```", "    ")) else re.sub(r"`[^`]*`", lambda m: turn_also(m[0], names, there), it) for it in parts
    )


def turn_edit(text, names, there):
    """A text of an edit: the names, and a projection written tight, as the sources have it."""
    text = turn_also(text, names, there)
    return re.sub(r"(?<=[\w)]) \.(?=[a-z])", ".", text)


def fallen(path, before, names):
    """The names of a file that would fall together."""
    words = set(WORD.findall(before))
    made = {}
    for it in words:
        made.setdefault(snake(it) if it in names else it, set()).add(it)
    return [f"{path}: {sorted(them)}" for them in made.values() if len(them) > 1]


def main():
    own = crates()
    names = old_names(own)
    there = declared() | {snake(it) for it in names}
    turned, together = {}, []
    for path in definitions():
        text = read(path)
        here = names - imported(text, own)
        if not is_walk(path):
            together += fallen(path, COMMENT.sub("", text), here)
        turned[path] = turn_antt(text, here)
    for path in sorted(glob.glob("crates/*/src/**/*.rt", recursive=True)):
        turned[path] = turn_rt(read(path), names)
    for path in sorted(glob.glob("crates/*/must-fail/*.edit")):
        turned[path] = turn_edit(read(path), names, there)
    for path in ["README.md", *sorted(glob.glob("docs/*.md"))]:
        turned[path] = turn_page(read(path), names, there)
    if together:
        print("\n".join(sorted(together)), file=sys.stderr)
        return 1
    for path, text in turned.items():
        if text != read(path):
            with open(path, "w", encoding="utf-8") as f:
                f.write(text)
    print(f"{len(names)} names")
    return 0


if __name__ == "__main__":
    raise SystemExit(main())
