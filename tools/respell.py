#!/usr/bin/env python3
"""Spells this repository's own definitions and lemmas as today's Rattle does: words in snake case, types in camel case.

usage: tools/respell.py        at the top of the repository, once, after the kit's port.py

tools/spelling.tsv has a row for each name: old, a tab, new. Only names that stand in it turn, as whole words:
  .antt   in code, and in a comment between backticks; a label that Rattle makes, behind the head of an answer (c.x), stays
  .rt     outside strings and comments; a function of src/ has no dash, so none of its names is in the table
  .edit   the texts of an edit of specs/ or proofs/, and the clauses of an edit of src/
It says which files changed, and each file in which two names would fall together.
"""

import os
import re
import sys

NAME = r"[^\s(){}.;,@\"«»`]+"
WORD = re.compile(rf"((?<![^\s(){{}};,])(?:c|l)\.)?({NAME})")
QUIET = {
    ".antt": re.compile(r'"(?:[^"\\\n]|\\.)*"|(?<![^\s(){}.;,@"«»])--[^\n]*'),
    ".rt": re.compile(r'//[^\n]*|b?"(?:\\.|[^"\\])*"'),
}
SPAN = re.compile(r"`[^`\n]+`")


def table():
    with open(os.path.join("tools", "spelling.tsv"), encoding="utf-8") as f:
        return dict(line.rstrip("\n").split("\t") for line in f)


def turn(text, names, answers):
    """The text with each name of the table respelled."""

    def word(m):
        label, name = m[1] or "", m[2]
        return label + (name if label and answers else names.get(name, name))

    return WORD.sub(word, text)


def turn_file(text, kind, names, answers):
    """The code of a file respelled, and of its comments what stands between backticks."""
    done, at = [], 0
    for m in QUIET[kind].finditer(text):
        done.append(turn(text[at : m.start()], names, answers))
        quiet = m[0]
        done.append(SPAN.sub(lambda s: turn(s[0], names, answers), quiet) if quiet[0] in "-/" else quiet)
        at = m.end()
    done.append(turn(text[at:], names, answers))
    return "".join(done)


def fall_together(text, names):
    found = set(re.findall(NAME, text))
    return sorted(old for old in found & set(names) if names[old] in found)


def main():
    names = table()
    changed = 0
    for folder, folders, files in os.walk("crates"):
        folders[:] = sorted(f for f in folders if f != "out")
        for file in sorted(files):
            path = os.path.join(folder, file)
            kind = os.path.splitext(file)[1]
            if kind not in (".antt", ".rt", ".edit"):
                continue
            with open(path, encoding="utf-8") as f:
                text = f.read()
            for old in fall_together(text, names):
                print(f"look: {path}: {old} becomes {names[old]}, which the file has already")
            answers = file in ("Answers.antt", "Invariants.antt")
            new = turn(text, names, False) if kind == ".edit" else turn_file(text, kind, names, answers)
            if new != text:
                with open(path, "w", encoding="utf-8") as f:
                    f.write(new)
                changed += 1
    print(f"respell: {changed} files changed")
    return 0


if __name__ == "__main__":
    sys.exit(main())
