#!/usr/bin/env python3
# SPDX-License-Identifier: MIT OR Apache-2.0
"""tools/places.py [POINT..] [--list] [--tree FOLDER]: the places in crates/*/src that read like the older language, by
the points of docs/DESIGN-PASS.md. Prints how many a crate has, with --list each place.

 1  enums of the shape of Option or Result (two ways, one of them empty; a way called Refused with a number); a group of
    constants that number kinds or rows; fields and answers that are such a number; fields that are a flag as a number
 2  functions of one crate whose bodies differ only in names and numbers; enums of one crate with the same ways
 3  while and loop
 4  matches that turn each way of an enum into a number, or numbers into ways; functions that print piece by piece
 5  a clause that stands in three or more functions of a crate; three or more parameters that three functions share
 6  an array with a count beside it; two arrays of one length side by side
 7  matches of a number whose ways each call another function
 8  answers in proofs/ of these crates (each tried by hand: the check may find it alone)
"""
import collections
import pathlib
import re
import sys

args = [a for a in sys.argv[1:] if a.isdigit()]
points = [int(a) for a in args] or list(range(1, 9))
root = pathlib.Path(sys.argv[sys.argv.index("--tree") + 1]) if "--tree" in sys.argv else \
    pathlib.Path(__file__).resolve().parent.parent

FN = re.compile(r"^( *)(?:pub )?fn (\w+)(?:<[^>\n]*>)?\(([^{]*?)\)(?: -> ([^{]*?))?(?: \{\n()|\n(.*?)^\1\{\n)(.*?)^\1\}",
                re.S | re.M)
ENUM = re.compile(r"^ *(?:pub )?enum (\w+)(?:<\w+>)? \{\n(.*?)^ *\}", re.S | re.M)
STRUCT = re.compile(r"^ *(?:pub )?struct (\w+) \{\n(.*?)^ *\}", re.S | re.M)
WORD = re.compile(r"[A-Za-z_]\w*|\d[\w]*|[^\s\w]")
KEEP = set("if else match while loop for in return let mut as u8 u16 u32 u64 usize bool true false self".split())
FLAGS = set("""ready armed iso loaded open callback setup_ready begun last sets_address flag busy late len_ok
    chosen""".split())


def bare(text):
    """without comments and ghost lines"""
    return re.sub(r"//[^\n]*", lambda m: " " * len(m[0]), text)


class Crate:
    def __init__(self, path):
        self.name, self.files = path.name, {}
        for f in sorted(path.glob("src/**/*.rt")):
            self.files[f.relative_to(root / "crates")] = bare(f.read_text())
        self.fns = []
        for f, text in self.files.items():
            for m in FN.finditer(text):
                _, name, params, result, _, head, body = m.groups()
                self.fns.append((f, line(text, m.start(2)), name, params, result, head or "", body))


def ways(body):
    return [w.strip() for w in re.split(r",\s*\n|,\s*$", re.sub(r"\{[^}]*\}", "{..}", body)) if w.strip()]


def line(text, at):
    return text[:at].count("\n") + 1


def one(c):
    for f, text in c.files.items():
        for m in ENUM.finditer(text):
            w = ways(m[2])
            empty = [x for x in w if re.fullmatch(r"\w+", x)]
            full = [x for x in w if not re.fullmatch(r"\w+", x)]
            if any(re.match(r"Refused\b", x) for x in w) or (len(w) == 2 and len(full) >= 1 and (
                    len(empty) == 1 or any(re.match(r"(Ends|End|Nothing)\b", x) for x in w))):
                yield f, line(text, m.start(1)), f"enum {m[1]} {{ {', '.join(w)} }}"
        groups = re.findall(r"(?:^(?:pub )?const [A-Z0-9_]+: u8 = \d+;\n+){2,}", text, re.M)
        for g in groups:
            yield f, line(text, text.index(g)), "constants " + ", ".join(re.findall(r"const (\w+)", g))
        for m in re.finditer(r"^ *pub (kind|sort|stage|power|refusal|row|" + "|".join(sorted(FLAGS)) + r"): u(?:8|16|32),",
                             text, re.M):
            yield f, line(text, m.start(1)), "field " + m[0].strip()
    for f, n, name, params, result, head, body in c.fns:
        if re.fullmatch(r"u8", (result or "").strip()) and re.search(r"refus|row|stop", name):
            yield f, n, f"fn {name} answers a row's number"
        for m in re.finditer(r"\b(kind|row|sort): u(?:8|32)", params):
            yield f, n, f"fn {name} takes {m[0]}"


def shape(body):
    """the body with names and numbers by their first place"""
    seen, out = {}, []
    for w in WORD.findall(body):
        if re.match(r"\w", w) and w not in KEEP:
            w = "n" if w[0].isdigit() else "w"
        out.append(w)
    return " ".join(out)


def two(c):
    by = collections.defaultdict(list)
    for f, n, name, params, result, head, body in c.fns:
        kind = re.sub(r"\w+:", "", re.sub(r"u8|u16|u32|usize", "u", params)) + "->" + re.sub(
            r"u8|u16|u32|usize", "u", result or "")
        if len(WORD.findall(body)) >= 6:
            by[kind, shape(body)].append((f, n, name))
    for same in by.values():
        if len(same) > 1:
            yield same[0][0], same[0][1], "fns " + ", ".join(x[2] for x in same)
    by = collections.defaultdict(list)
    for f, text in c.files.items():
        for m in ENUM.finditer(text):
            w = tuple(re.sub(r"\b(\w*)(?=\))", "", x) if x.startswith("Asks") else x for x in ways(m[2]))
            by[w].append((f, line(text, m.start(1)), m[1]))
    for same in by.values():
        if len(same) > 1:
            yield same[0][0], same[0][1], "enums " + ", ".join(x[2] for x in same)


def three(c):
    for f, text in c.files.items():
        for m in re.finditer(r"^ *(while|loop)\b.*", text, re.M):
            yield f, line(text, m.start(1)), m[0].strip()


def four(c):
    for f, n, name, params, result, head, body in c.fns:
        arms = re.findall(r"^\s*(.+?) => (.+?),?$", body, re.M)
        if len(arms) >= 2 and re.match(r"\s*match ", body):
            left, right = zip(*arms)
            number = lambda x: re.fullmatch(r"(\d[\w]*|_|true|false|[A-Z][A-Z0-9_]+|\w+\((\d+, )*\d+\))", x)
            way = lambda x: re.fullmatch(r"\w+::\w+(\(.*\))?( \{.*\})?|_", x)
            if all(way(x) for x in left) and all(number(x) for x in right):
                yield f, n, f"fn {name}: ways to numbers"
            elif all(number(x) for x in left) and all(way(x) for x in right):
                yield f, n, f"fn {name}: numbers to ways"
        if re.search(r"\bprint\(rt, ", body):
            yield f, n, f"fn {name} prints piece by piece"


def five(c):
    by = collections.defaultdict(list)
    for f, n, name, params, result, head, body in c.fns:
        for m in re.finditer(r"requires(?: \w+)? \{(.*?)\}\s*(?=requires|ensures|$)", head, re.S):
            by[" ".join(m[1].split())].append((f, n, name))
    for clause, at in by.items():
        if len(at) >= 3:
            yield at[0][0], at[0][1], f"requires {clause}: {', '.join(x[2] for x in at)}"
    by = collections.defaultdict(list)
    for f, n, name, params, result, head, body in c.fns:
        ps = [" ".join(p.split()) for p in re.split(r",(?![^\[]*\])", params) if ":" in p]
        if len(ps) >= 3:
            by[tuple(ps[:3])].append((f, n, name))
    for ps, at in by.items():
        if len(at) >= 3:
            yield at[0][0], at[0][1], f"({', '.join(ps)}): {', '.join(x[2] for x in at)}"


def six(c):
    for f, text in c.files.items():
        for m in STRUCT.finditer(text):
            arrays = re.findall(r"(\w+): \[[^;\]]+; (\w+)\]", m[2])
            if arrays and re.search(r"\b(count|len|length|n): u", m[2]):
                yield f, line(text, m.start(1)), f"struct {m[1]}: {arrays[0][0]} with a count"
            sizes = [s for _, s in arrays]
            if len(sizes) != len(set(sizes)):
                yield f, line(text, m.start(1)), f"struct {m[1]}: arrays of one length"
    for f, n, name, params, result, head, body in c.fns:
        if re.search(r"\[[^;\]]+; \w+\], .*\bn: u", params):
            yield f, n, f"fn {name}: an array and how many of it"


def seven(c):
    for f, n, name, params, result, head, body in c.fns:
        for m in re.finditer(r"match [\w.]+ \{\n(.*?)\n\s*\}", body, re.S):
            arms = re.findall(r"^\s*(.+?) => (.+?),?$", m[1], re.M)
            if len(arms) >= 3 and all(re.fullmatch(r"[A-Z0-9_:a-z]*[A-Z0-9_]+|\d+|_", a) for a, _ in arms) and sum(
                    bool(re.match(r"\w+(::\w+)*\(", b)) for _, b in arms) >= len(arms) - 1:
                yield f, n, f"fn {name}"
                break


def eight(c):
    for f in sorted((root / "crates" / c.name / "proofs").glob("**/Answers.antt")):
        count = len(re.findall(r"^pub \S+ : goal\.", f.read_text(), re.M))
        if count and not (root / "crates" / c.name / "src" / "lib.rt").read_text().count("\n") < 4:
            for _ in range(count):
                yield f.relative_to(root / "crates"), 0, "answer"


names = [line_.split(":")[0].split()[0] for line_ in (root / "crates.txt").read_text().split("\n")
         if line_.strip() and line_[0] != "#"]
crates = [Crate(root / "crates" / n) for n in names]
for p in points:
    find = [one, two, three, four, five, six, seven, eight][p - 1]
    found = {c.name: list(find(c)) for c in crates}
    print(f"point {p}: {sum(map(len, found.values()))}  " + ", ".join(f"{n} {len(v)}" for n, v in found.items() if v))
    if "--list" in sys.argv and p < 8:
        for places in found.values():
            for f, n, what in places:
                print(f"    {f}:{n}: {what}")
