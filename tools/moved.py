#!/usr/bin/env python3
# SPDX-License-Identifier: MIT OR Apache-2.0
"""tools/moved.py OLD NEW: the laws that stood in specs/ in the tree OLD and stand right in proofs/ in the tree NEW,
file by file, each with its public names, as docs/PORT.md has them.
tools/moved.py OLD NEW --lay-back FOLDER: copies NEW's crates to FOLDER with these files in specs/ again, so that the
kit's contracts.py, which reads specs/ alone, finds each declaration: contracts.py OLD FOLDER."""
import re
import shutil
import sys
import textwrap
from pathlib import Path

# at the margin, or in a module without a name
MARKS = "(?:abbrev |unfoldable )*"
DECLARED = re.compile(rf"(?:  )*{MARKS}pub {MARKS}(?:record |data )?([^\s:(){{}}|,;=]+)(?= [:({{])")


def files(tree):
    """The files right in a crate's specs/ or proofs/, as (crate, folder, name)."""
    return {(path.parts[-3], path.parts[-2], path.stem) for part in ("specs", "proofs")
            for path in (tree / "crates").glob(f"*/{part}/*.antt") if path.stem != "Lib"}


def moved(old, new):
    """What is right in proofs/ and was not: (crate, name), each with the file of OLD that it comes from."""
    were, are = files(old), files(new)
    found = {}
    for crate, part, name in sorted(are - were):
        if part == "proofs":
            first = [one for one in (name, name.removesuffix("Laws")) if (crate, "specs", one) in were]
            found[crate, name] = first[0] if first else "?"
    return found


def names(text):
    """The public names that a file declares, but for the fields of its records."""
    public, record = [], None
    for line in text.splitlines():
        indent = len(line) - len(line.lstrip())
        if not line.strip() or (record is not None and indent > record):
            continue
        record = indent if re.match(r" *(pub )?(record|data) ", line) else None
        if found := DECLARED.match(line):
            public.append(found[1])
    return public


def main(old, new, *words):
    old, new = Path(old), Path(new)
    found = moved(old, new)
    if words[:1] == ("--lay-back",):
        to = Path(words[1])
        shutil.copytree(new / "crates", to / "crates", ignore=shutil.ignore_patterns("out"))
        for crate, name in found:
            back = to / "crates" / crate / "specs" / f"{name}.antt"
            if back.exists():
                sys.exit(f"moved: there is a {crate}/specs/{name}.antt")
            (to / "crates" / crate / "proofs" / f"{name}.antt").rename(back)
        return
    crate = None
    total = 0
    for (its, name), first in found.items():
        if its != crate:
            crate = its
            print(f"\n**{crate}**\n")
        public = names((new / "crates" / crate / "proofs" / f"{name}.antt").read_text())
        total += len(public)
        head = f"- {name}" + (f" (of {first}, whose definitions stay)" if first != name else "")
        said = ", ".join(f"`{one}`" for one in public)
        print("\n".join(textwrap.wrap(f"{head}: {said}", 120, subsequent_indent="  ", break_long_words=False,
                                      break_on_hyphens=False)))
    print(f"\n{len(found)} files, {total} public names")


if __name__ == "__main__":
    main(*sys.argv[1:])
