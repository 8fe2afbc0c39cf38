#!/usr/bin/env python3
# SPDX-License-Identifier: MIT OR Apache-2.0
"""edits.py LANDED TABLE [REPORT]: brings the must-fail edits from the tree LANDED to today's spelling.

LANDED is a checkout of the commit before the port, TABLE what `tools/respell.py --list` prints in a checkout of the
kit's first pass. An edit there changes texts of LANDED's files. For each of its changes the file is taken before and
after it; both are turned as the port turned the tree: projections by the kit's own tight.py, words by TABLE, and by what
stands in today's file at the place of LANDED's word (first in this file, then in all). What differs between the two is
then put into today's file, at the place that lines up with it, and `old:` and `new:` are written as they read there: on
one line of today's layout, once in the file. Comments and all other lines of an edit stay. What cannot be placed word
for word is left as it was and said ("left:"), to be done by hand. REPORT: a file that shows each change as it was and is.
It was run once, after the kit's port.py, tools/respell.py and tools/answers.py; tests/edits-fit says what still fits.
"""
import collections
import difflib
import glob
import importlib.util
import os
import re
import subprocess
import sys
import tempfile

TIGHT = "/opt/rattle/port/notes/2026-11-18-a-projection-is-written-tight/tight.py"
# files that got another name, and the scripts that tests/wrong-scripts copies beside proof_usb20
RENAMED = {
    "crates/machine/specs/Contracts.antt": "crates/machine/specs/CallContracts.antt",
    "crates/recorder/src/ring.rt": "crates/recorder/src/blocks.rt",
}
SCRIPTS = "Control Handler Bus Endpoint Calls Kinds".split()
WORDS = {
    "antt": re.compile(r'«[^»]*»|[^\s(){}\[\].;,@"«»]+|\S'),
    "rt": re.compile(r"«[^»]*»|\w+(?:-\w+)*[′']*|[^\s\w]"),
}


def read(path):
    if not os.path.exists(path):
        return None
    with open(path, encoding="utf-8") as file:
        return file.read()


def tokens(text, kind):
    return [(m[0], m.start(), m.end()) for m in WORDS[kind].finditer(text)]


# ---- which word of one text stands for which of another


class Lined:
    """Two lists of words lined up: for each of the first where in the second it stands, and whether word for word."""

    def __init__(self, first, second, turn=lambda word: word):
        names = []
        for words in ([turn(w) for w, _, _ in first], [w for w, _, _ in second]):
            with tempfile.NamedTemporaryFile("w", delete=False, encoding="utf-8") as file:
                file.writelines(w + "\n" for w in words)
            names.append(file.name)
        said = subprocess.run(["diff", "--minimal", *names], stdout=subprocess.PIPE, text=True).stdout
        for name in names:
            os.unlink(name)
        self.blocks, i, j = [], 0, 0
        for m in re.finditer(r"^(\d+)(?:,(\d+))?([acd])(\d+)(?:,(\d+))?$", said, re.M):
            i1, i2, j1, j2 = int(m[1]), int(m[2] or m[1]), int(m[4]), int(m[5] or m[4])
            i1, j1 = (i1 if m[3] == "a" else i1 - 1), (j1 if m[3] == "d" else j1 - 1)
            self.blocks += [(i, i1, j, j1), (i1, i2, j1, j2)]
            i, j = i2, j2
        self.blocks.append((i, len(first), j, len(second)))
        self.low, self.high, self.exact = [0] * len(first), [0] * len(first), [False] * len(first)
        for i1, i2, j1, j2 in self.blocks:
            for k in range(i1, i2):
                self.exact[k] = i2 - i1 == j2 - j1
                self.low[k], self.high[k] = (j1 + k - i1, j1 + k - i1 + 1) if self.exact[k] else (j1, j2)


def bare(word):
    return word[1:-1] if word[0] == "«" and word != "«open»" else word


class Turned:
    """LANDED's texts turned as the port turned them."""

    def __init__(self, landed, table):
        self.landed = landed
        with open(table, encoding="utf-8") as file:
            self.table = dict(line.rstrip("\n").split("\t") for line in file)
        spec = importlib.util.spec_from_file_location("tight", TIGHT)
        self.tight = importlib.util.module_from_spec(spec)
        spec.loader.exec_module(self.tight)
        self.here, self.all = {}, {}
        self.kept = {}
        self.learn()

    def plain(self, word):
        word = bare(word)
        return self.table.get(word, word).replace("′", "'").replace("″", "''")

    def learn(self):
        everywhere = collections.defaultdict(collections.Counter)
        for path in glob.glob(f"{self.landed}/crates/*/specs/**/*.antt", recursive=True) + glob.glob(
            f"{self.landed}/crates/*/src/**/*.rt", recursive=True
        ):
            name, kind = os.path.relpath(path, self.landed), path.rsplit(".", 1)[1]
            today = read(RENAMED.get(name, name))
            if today is None:
                continue
            first, second = tokens(read(path), kind), tokens(today, kind)
            found = collections.defaultdict(collections.Counter)
            for i1, i2, j1, j2 in Lined(first, second, self.plain).blocks:
                for k in range(i2 - i1 if i2 - i1 == j2 - j1 else 0):
                    found[first[i1 + k][0]][second[j1 + k][0]] += 1
                    everywhere[kind, first[i1 + k][0]][second[j1 + k][0]] += 1
            # the commonest word, by each
            self.here[name] = {w: c.most_common(1)[0][0] for w, c in found.items() if c.most_common(1)[0][0] != w}
        self.all = {w: c.most_common(1)[0][0] for w, c in everywhere.items() if c.most_common(1)[0][0] != w[1]}

    def word(self, name, kind, word):
        word = bare(word)
        if not re.search(r"[\w′·-]", word):
            return word
        for table, key in ((self.here.get(name, {}), word), (self.table, word), (self.all, (kind, word))):
            if key in table:
                return table[key]
        return word.replace("′", "'").replace("″", "''")

    def lined(self, key, *words):
        if key not in self.kept:
            self.kept[key] = Lined(*words)
        return self.kept[key]

    def text(self, name, text):
        """A file's text as the port turned it: in code only its clauses."""
        if (name, text) not in self.kept:
            kind = name.rsplit(".", 1)[1]
            turned = self.tight.turned(text, kind, None)
            turned = turned[0] if isinstance(turned, tuple) else turned

            def words(part):
                return WORDS[kind].sub(lambda m: self.word(name, kind, m[0]), part)

            if kind == "antt":
                turned = words(turned)
            else:
                out, at = "", 0
                for begin, end in sorted(set(clauses(turned))):
                    if begin >= at:
                        out, at = out + turned[at:begin] + words(turned[begin:end]), end
                turned = out + turned[at:]
            self.kept[name, text] = turned
        return self.kept[name, text]


def clauses(text):
    """The places of a .rt file that are antt."""
    for m in re.finditer(r"(?:requires|ensures|ghost)\b[^{};()]*\{", text):
        depth, at = 1, m.end()
        while depth and at < len(text):
            depth += {"{": 1, "}": -1}.get(text[at], 0)
            at += 1
        yield m.end(), at - 1
    for m in re.finditer(r"ghost use [^;]*;", text):
        yield m.span()


# ---- one change


def changed_words(first, second):
    """Where two lists of words differ."""
    a, b = [w for w, _, _ in first], [w for w, _, _ in second]
    start = end = 0
    while start < min(len(a), len(b)) and a[start] == b[start]:
        start += 1
    while end < min(len(a), len(b)) - start and a[-1 - end] == b[-1 - end]:
        end += 1
    matched = difflib.SequenceMatcher(None, a[start : len(a) - end], b[start : len(b) - end], autojunk=False)
    return [
        (i1 + start, i2 + start, j1 + start, j2 + start) for tag, i1, i2, j1, j2 in matched.get_opcodes() if tag != "equal"
    ]


class Change:
    """What a change of LANDED's text, before to after, is in today's text."""

    def __init__(self, turned, name, before, after, today, old, at, lines):
        self.today, self.kind, self.why = today, name.rsplit(".", 1)[1], []
        one, two = turned.text(name, before), turned.text(name, after)
        first, second, self.words = (tokens(text, self.kind) for text in (one, two, today))
        lined = turned.lined((one, today), first, self.words)
        self.pieces = []
        for i1, i2, j1, j2 in changed_words(first, second):
            if i1 < i2:
                low, high = lined.low[i1], lined.high[i2 - 1]
                exact = all(lined.exact[i1:i2]) and high - low == i2 - i1
            else:
                low, high = lined.high[i1 - 1], lined.low[i1] if i1 < len(first) else len(self.words)
                exact = lined.exact[i1 - 1] and lined.exact[min(i1, len(first) - 1)] and low == high
                high = max(low, high)
            new = two[second[j1][1] : second[j2 - 1][2]] if j1 < j2 else ""
            left = two[second[j1 - 1][2] : second[j1][1]] if j1 < len(second) else ""
            right = two[second[j2 - 1][2] : second[j2][1]] if j1 < j2 and j2 < len(second) else ""
            if not exact:
                self.why.append("not word for word")
            if "\n" in new and not lines:
                self.why.append("of several lines")
            self.pieces.append((low, high, new, left, right))
        if not self.pieces:
            self.why.append("no difference")
            return
        # LANDED's old text, by those of its words that stand today
        source = tokens(before, self.kind)
        to_first = turned.lined((before, one), source, first, lambda word: turned.word(name, self.kind, word))
        own = [
            lined.low[to_first.low[k]] for k, (_, begin, end) in enumerate(source)
            if end > at and begin < at + len(old) and to_first.exact[k] and lined.exact[to_first.low[k]]
        ]
        low, high = min(p[0] for p in self.pieces), max(p[1] for p in self.pieces)
        last = len(self.words) - 1
        begin = self.words[min(own[:1] + [low, last])][1]
        end = self.words[max(own[-1:] + [high - 1, min(low, last)])][2]
        line = today.rfind("\n", 0, begin) + 1
        if old[:1] == " " and not today[line:begin].strip():
            begin = line
        self.take(begin, end)
        if "\n" in self.old and not lines:
            at_change = self.words[low][1] if low < high else self.words[low - 1][2]
            line, after = self.line(at_change, self.words[max(high - 1, low - (low == high))][2])
            self.take(max(begin, line), min(end, after))
        if today.count(self.old) != 1:
            line, after = self.line(begin, end)
            self.take(line + len(today[line:]) - len(today[line:].lstrip(" ")), after)
        if today.count(self.old) != 1 or (not lines and "\n" in self.old + self.new):
            self.why.append("not once on a line")

    def line(self, begin, end):
        after = self.today.find("\n", end)
        return self.today.rfind("\n", 0, begin) + 1, len(self.today) if after < 0 else after

    def take(self, begin, end):
        """The old text from here to there, and the new one: white space as the change has it, but today's line breaks."""
        today, out, at = self.today, "", begin
        for low, high, new, left, right in self.pieces:
            before = self.words[low - 1][2]
            behind = self.words[high][1] if high < len(self.words) else len(today)
            if low == high:
                begins = ends = before
                if "\n" in today[before:behind] and "\n" in left and "\n" not in right:
                    out, at = out + today[at:behind] + new + right, behind
                    continue
            else:
                begins, ends = self.words[low][1], self.words[high - 1][2]
            if not new:
                if "\n" in today[ends:behind] or ends >= end:
                    out, at = out + today[at : max(at, before)], ends
                elif "\n" in today[before:begins]:
                    out, at = out + today[at:begins], behind
                else:
                    out, at = out + today[at : max(at, before)] + left, behind
                continue
            if low < high and ("\n" in today[before:begins] or "\n" in left or before < at):
                out += today[at:begins] + new
            else:
                out += today[at : max(at, before)] + (" " if "\n" in left else left) + new
            if "\n" in today[ends:behind] or "\n" in right or (low < high and ends >= end):
                at = max(at, ends)
            else:
                out, at = out + right, behind
        end = max(end, at)
        self.old, self.new = today[begin:end], out + today[at:end]


# ---- the edits


class Edit:
    def __init__(self, landed, path):
        self.path = os.path.relpath(path, landed)
        self.scripts = self.path.startswith("tests/")
        self.lines = read(path).split("\n")

    def changes(self):
        """Each change: LANDED's file, its texts, and the numbers of their lines in the edit."""
        name = old = None
        for number, line in enumerate(self.lines):
            if line.startswith("file: "):
                file, at_file = line[6:], number
                crate = self.path.split("/")[1]
                if self.scripts:
                    crate = "script" if os.path.basename(file)[:-5] in SCRIPTS else "proof_usb20"
                name = f"crates/{crate}/{file}"
            elif line.startswith("old: "):
                old, at_old = line[5:], number
            elif line.startswith("new:"):
                new = line[4:].removeprefix(" ")
                texts = [text.replace("\\n", "\n") if self.scripts else text for text in (old, new)]
                yield name, *texts, at_file, at_old, number

    def turn(self, turned, say):
        before, today, left = {}, {}, 0
        for name, old, new, at_file, at_old, at_new in self.changes():
            now = RENAMED.get(name, name)
            text = before.get(name) or read(f"{turned.landed}/{name}")
            before[name] = text.replace(old, new)
            here = today.get(name) or read(now)
            if here is None:
                say(self, name, (old, new), None, "no such file today")
                left += 1
                continue
            change = Change(turned, name, text, before[name], here, old, text.index(old), self.scripts)
            if change.why:
                say(self, name, (old, new), None, ", ".join(change.why))
                left += 1
                continue
            today[name] = here.replace(change.old, change.new)
            texts = [text.replace("\n", "\\n") if self.scripts else text for text in (change.old, change.new)]
            self.lines[at_old], self.lines[at_new] = f"old: {texts[0]}", f"new: {texts[1]}"
            self.lines[at_file] = "file: " + now.split("/", 2)[2]
            say(self, name, (old, new), texts, "")
        with open(self.path, "w", encoding="utf-8") as file:
            file.write("\n".join(self.lines))
        return left


def main(landed, table, report=os.devnull):
    turned = Turned(landed, table)
    count = left = 0
    with open(report, "w", encoding="utf-8") as file:

        def say(edit, name, was, texts, why):
            file.write(f"== {edit.path} ({name})\n")
            for word, text in zip(("was old", "was new", "now old", "now new"), [*was, *(texts or [])]):
                file.write(f"  {word}: {text.strip()}\n")
            if why:
                file.write(f"  left: {why}\n")
                print(f"left: {edit.path}: {why}: {was[0].strip()}")

        for path in sorted(glob.glob(f"{landed}/crates/*/must-fail/**/*.edit", recursive=True)) + sorted(
            glob.glob(f"{landed}/tests/wrong-scripts/*/*.edit")
        ):
            count += 1
            left += Edit(landed, path).turn(turned, say)
    print(f"edits: {count} edits; {left} changes left by hand")


if __name__ == "__main__":
    main(*sys.argv[1:])
