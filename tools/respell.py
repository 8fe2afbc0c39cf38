#!/usr/bin/env python3
# SPDX-License-Identifier: MIT OR Apache-2.0
"""respell.py [--list]: spells the names that this repository's own specs/ and proofs/ declare as today's Rattle does.

Definitions, record fields and constructors are in snake case (isSet to is_set, under-way to under_way); in the name of a
lemma a dash still joins two names, each of which is in snake case (getD-getsFrom to getD-gets_from). It goes by spelling,
over the .antt files and over the clauses and `ghost use` items of the .rt files below crates/. Functions of src/, exported
C names, strings, inputs and outputs keep their names. Names that would fall together with another get the spelling that
APART gives. --list prints the table and writes nothing. It was run once, after the kit's port.py (docs/PORT.md).
"""
import glob
import re
import sys

WORD = r'[^\s(){}.;,@"«»]+'
DECLARATION = re.compile(
    r'(\s*)((?:abbrev |unfoldable |pub |infixl \d+ |infixr \d+ )*)(data |record )?'
    r'([^\s(){}.;,@"«»=:|]+)((?: \{[^}]*\}| \([^)]*\))*) :(?!=)')
HEAD = re.compile(r"(abbrev )?(pub )?(data|record) ")
# where the plain spelling would be another name
APART = {
    "isSet": "bit_is_set", "any-chip": "some_chip", "charge-of": "charging_chip", "filled-up": "desk_filled_up",
    "no-control": "empty_control", "no-request": "empty_request", "lastBlock": "last_block_of", "readAs": "word_read_as",
    "alikeAt": "two_alike_at", "allocatedIn": "allocated_ins", "inUse": "is_in_use", "isoInEvery": "every_iso_in",
    "takenIn": "taken_ins", "lentBack": "gives_lent_back", "setOut": "out_is_set",
}


def texts():
    for ending in ("specs", "proofs"):
        yield from sorted(glob.glob(f"crates/*/{ending}/**/*.antt", recursive=True))


def kinds():
    """Each declared name with what it is declared as."""
    found = {}
    for path in texts():
        inside = False
        with open(path, encoding="utf-8") as file:
            for line in file:
                stripped = line.strip()
                if stripped.startswith(("--", "use ")):
                    continue
                if HEAD.match(stripped):
                    inside = True
                elif line[:1] not in " \n":
                    inside = False
                m = DECLARATION.match(line)
                if m:
                    kind = ("type" if m[3] else "definition" if "abbrev" in m[2] or "unfoldable" in m[2]
                            else "member" if inside and m[1] else "lemma")
                    found.setdefault(m[4], set()).add(kind)
    return found


def snake(name):
    return re.sub(r"(?<=[a-z0-9])[A-Z](?![A-Z0-9])", lambda m: "_" + m[0].lower(), name)


def part_in_snake_case(part):
    return part if part[:1].isupper() else snake(part)


def table():
    declared = kinds()
    rows = {}
    for name, what in declared.items():
        if name[:1].isupper() or "." in name:
            continue
        new = "-".join(part_in_snake_case(part) for part in name.split("-"))
        if what & {"definition", "member"}:
            new = new.replace("-", "_")
        new = APART.get(name, new)
        if new != name:
            rows[name] = new
    # a definition keeps the plain spelling, and a lemma or a field that would have it gets the ending _lem
    plain = {rows[name] for name in rows if "definition" in declared[name]}
    plain |= {name for name in declared if "definition" in declared[name] and name not in rows}
    for name, what in declared.items():
        if "definition" not in what and "type" not in what and rows.get(name, name) in plain:
            rows[name] = rows.get(name, name) + "_lem"
    return rows, declared


CLAUSE = re.compile(r"(?:requires|ensures|ghost)\s*\*?\s*(?:\w+\s*:?\s*)?\{")


def clauses(text):
    """The places of a .rt file that are antt."""
    for m in re.finditer(r"ghost use [^;]*;", text):
        yield m.span()
    for m in CLAUSE.finditer(text):
        depth, at = 1, m.end()
        while depth:
            depth += {"{": 1, "}": -1}.get(text[at], 0)
            at += 1
        yield m.end(), at - 1


def respelled(text, rows):
    # a path to the proof of a function of src/ has that function's name
    return "".join(
        part if number % 2 else re.sub(WORD, lambda m: rows.get(m[0], m[0]), part)
        for number, part in enumerate(re.split(r"(Rattle\.\w+\.proofs\.[\w.+-]*)", text)))


def main():
    rows, declared = table()
    if "--list" in sys.argv:
        for old, new in sorted(rows.items()):
            print(f"{old}\t{new}")
        return
    for path in texts():
        with open(path, encoding="utf-8") as file:
            text = file.read()
        new = "".join(
            line if line.lstrip().startswith("--") else respelled(line, rows) for line in text.splitlines(True))
        if new != text:
            with open(path, "w", encoding="utf-8") as file:
                file.write(new)
    for path in sorted(glob.glob("crates/*/src/**/*.rt", recursive=True)):
        with open(path, encoding="utf-8") as file:
            text = file.read()
        new, at = "", 0
        for begin, end in sorted(set(clauses(text))):
            if begin < at:
                continue
            new += text[at:begin] + respelled(text[begin:end], rows)
            at = end
        new += text[at:]
        if new != text:
            with open(path, "w", encoding="utf-8") as file:
                file.write(new)


if __name__ == "__main__":
    main()
