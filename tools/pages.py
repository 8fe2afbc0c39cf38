#!/usr/bin/env python3
# SPDX-License-Identifier: MIT OR Apache-2.0
"""pages.py LANDED TABLE PAGE..: spells names of specs/ and proofs/ in pages as today's Rattle does.

As tools/edits.py, whose words it takes: in a quote (a block indented by four spaces with a sign of antt's) projections
are written tight and every word is turned, as in the file that its section names; in a code span the words that
only a definition or a lemma can be, those with a capital inside, a dash or a prime. Prose, commands, paths and file
names stay. Then tests/quotes says which quotes a file does not have. It was run once.
"""
import os
import re
import sys
from importlib.machinery import SourceFileLoader
from importlib.util import module_from_spec, spec_from_loader

sys.dont_write_bytecode = True
HERE = os.path.dirname(os.path.abspath(__file__))


def module(name, path):
    loader = SourceFileLoader(name, path)
    made = module_from_spec(spec_from_loader(name, loader))
    loader.exec_module(made)
    return made


edits = module("edits", f"{HERE}/edits.py")
SIGN = re.compile(r"[→≡×≤⌜]|= .* \.[a-z]")
FILE = re.compile(r"`(?:crates/)?((?:[a-z0-9_]+/(?:specs|src)/)?[A-Za-z0-9_/]+\.(?:antt|rt))`")
# what only antt's names look like; a path, a command or a file name is left alone
OWN = re.compile(r"[a-z0-9₀-₉]+(?:[A-Z][A-Za-z0-9]*|-[A-Za-z0-9]+|[′″])[\w′″-]*$|[a-z][\w-]*[′″]$")
PLAIN = re.compile(r"[\w./*-]*/[\w./*-]*|[\w.-]+\.(?:antt|rt|md|c|h|py|rs|toml|txt|edit|pair)|--?\w.*|(?:rt|cargo|git|python3|tests|make) .*")


class Page:
    def __init__(self, turned, text):
        self.turned, self.folder, self.files = turned, None, []
        self.text = text

    def note(self, line):
        if line.startswith("#"):
            self.folder, self.files = None, []
        for path in FILE.findall(line):
            if re.match(r"[a-z0-9_]+/(specs|src)/", path):
                self.folder = os.path.dirname(path)
            elif self.folder:
                path = f"{self.folder}/{path}"
            self.files.append(f"crates/{path}")

    def word(self, word, files):
        bare = edits.bare(word)
        if not re.search(r"[\w′″]", bare):
            return bare
        for name in files if OWN.match(bare) or bare == "getD" else ():
            if bare in self.turned.here.get(name, {}):
                return self.turned.here[name][bare]
        if bare in self.turned.table:
            return self.turned.table[bare]
        if OWN.match(bare) and ("antt", bare) in self.turned.all:
            return self.turned.all["antt", bare]
        return bare.replace("′", "'").replace("″", "''")

    def tight(self, text):
        try:
            return self.turned.tight.turned(text, "fragment", None)[0]
        except (AssertionError, RecursionError):
            return text

    def quote(self, text, files):
        text = self.tight(text)
        # a clause has no brackets any more, and names its result
        text = re.sub(r"\{ λ (\w+)\. ⌜ (.*?) ⌝ \}", lambda m: "{ " + re.sub(rf"(?<![\w.]){m[1]}(?![\w])", "result", m[2]) + " }", text, flags=re.S)
        text = re.sub(r"\{ ⌜ (.*?) ⌝ \}", r"{ \1 }", text, flags=re.S)
        text = re.sub(r"\(now \(?([\w.]+)\.entry\)?\)|now \(?(\w+)\.entry\)?", lambda m: f"{m[1] or m[2]}.old", text)
        text = re.sub(r"\(now \(?([\w.]+)\.exit\)?\)|now \(?(\w+)\.exit\)?", lambda m: f"{m[1] or m[2]}.new", text)
        return edits.WORDS["antt"].sub(lambda m: self.word(m[0], files), text)

    def span(self, text):
        if PLAIN.fullmatch(text) or "://" in text:
            return text
        turned = self.tight(text) if SIGN.search(text) or re.search(r"[\w)] \.[a-z0-9]", text) else text
        return edits.WORDS["antt"].sub(
            lambda m: self.word(m[0], self.files) if OWN.match(edits.bare(m[0])) or m[0][0] == "«" else m[0], turned)

    def turn(self):
        lines, out, at = self.text.split("\n"), [], 0
        fence = False
        sections = []
        # which files a section names, before and behind a quote
        for number, line in enumerate(lines):
            if line.startswith("#") or not number:
                sections.append((number, Page(self.turned, "")))
            sections[-1][1].note(line if not line.startswith("#") else "")
        def files_at(number):
            return [page for first, page in sections if first <= number][-1].files
        while at < len(lines):
            line = lines[at]
            self.files = files_at(at)
            if line.startswith("```"):
                fence = not fence
            if not fence and line.startswith("    ") and (not out or not out[-1].strip() or out[-1].startswith("    ")):
                end = at
                while end < len(lines) and lines[end].startswith("    "):
                    end += 1
                block = "\n".join(lines[at:end])
                out += (self.quote(block, self.files) if SIGN.search(block) else block).split("\n")
                at = end
                continue
            if fence:
                out.append(line)
                at += 1
                continue
            # a paragraph: spans may go over a line's end
            end = at + 1
            while end < len(lines) and lines[end].strip() and not lines[end].startswith(("    ", "```", "#", "- ", "* ", "| ")):
                end += 1
            text = "\n".join(lines[at:end])
            out += re.sub(r"(`+)([^`]+)\1", lambda m: m[1] + self.span(m[2]) + m[1], text).split("\n")
            at = end
        return "\n".join(out)


def main(landed, table, *pages):
    turned = edits.Turned(landed, table)
    operators = os.path.join(os.path.dirname(edits.TIGHT), "operators.txt")
    with open(operators, encoding="utf-8") as file:
        turned.tight.KNOWN.update(file.read().split())
    for path in pages:
        with open(path, encoding="utf-8") as file:
            text = file.read()
        new = Page(turned, text).turn()
        if new != text:
            with open(path, "w", encoding="utf-8") as file:
                file.write(new)
            print(f"pages: {path}: {sum(a != b for a, b in zip(text.split(chr(10)), new.split(chr(10))))} lines")


if __name__ == "__main__":
    main(*sys.argv[1:])
