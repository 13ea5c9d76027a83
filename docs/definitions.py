#!/usr/bin/env python3
"""Prints docs/DEFINITIONS.md from the comments in specs: docs/definitions.py >docs/DEFINITIONS.md

A section a crate in the order of crates.txt. The meaning of a word is the comment above its definition; definitions
that follow without a comment of their own share it, and its row. Where they are the first of a part of the file, the
title of that part stands for it.
Words of `specs/steps` are the crate's own and have none.
"""
import re
from pathlib import Path

TOP = Path(__file__).resolve().parent.parent
DEFINES = re.compile(r"(?:(?:abbrev|unfoldable|opaque) pub|pub record) ([\w'-]+)")
HEAD = """# Definitions

The words that contracts cite, each with the file that defines it and the comment that stands above it there; words
that share a comment have one row. The page is what `docs/definitions.py` prints, so a meaning is changed in specs. A
section is a crate, in the order of the list of crates. Numbers in definitions have no upper bound; `a - b` is 0 where
b is greater.
"""


def crates():
    lines = (TOP / "crates.txt").read_text().splitlines()
    return [line.split(":")[0] for line in lines if line and not line.startswith("#")]


def words(path):
    """The words that a file defines, those that share a comment together, with the comment."""
    shared, comment, fresh = [], [], False
    for line in path.read_text().splitlines():
        if line.startswith("-- ---- "):
            yield shared, " ".join(comment)
            shared, comment, fresh = [], [f'under "{line[8:]}"'], False
        elif line.startswith("-- "):
            if not fresh:
                yield shared, " ".join(comment)
                shared, comment = [], []
            comment.append(line[3:])
            fresh = True
        elif line.strip():
            shared += DEFINES.findall(line)
            fresh = False
    yield shared, " ".join(comment)


def rows(crate):
    folder = TOP / "crates" / crate / "specs"
    for path in sorted(folder.glob("**/*.antt")):
        file = path.relative_to(folder).with_suffix("").as_posix()
        if file.startswith("steps/"):
            continue
        for shared, text in words(path):
            if shared:
                names = ", ".join(f"`{word}`" for word in shared)
                text = text.replace("|", "\\|")
                yield f"| {names} | {file} | {text} |"


def main() -> None:
    print(HEAD, end="")
    for crate in crates():
        lines = list(rows(crate)) if (TOP / "crates" / crate / "specs").is_dir() else []
        if lines:
            print(f"\n## `{crate}`\n\n| word | file | meaning |\n|---|---|---|", *lines, sep="\n")


if __name__ == "__main__":
    main()
