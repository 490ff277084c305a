#!/usr/bin/env python3
"""Brings the repository's own definitions and lemmas to snake case: walkFrom to walk_from, getD-all to get_or-all.

Run once, at the top of the repository, just after port.py. It takes the names that files of specs/ and proofs/ declare (definitions,
lemmas, fields of records) and turns each that has a capital inside and none in front, wherever it stands as a whole word: in files of
specs/ and proofs/, in clauses and comments of src/, in must-fail edits, and in README.md and docs/. Text between double quotes in src/
stays. A name between dashes is turned like one alone, so that length-jobBytes stays beside job_bytes.
"""
import glob
import re

HEAD = re.compile(r"\s*(?:abbrev |unfoldable |pub |private )*([^\s:(){}]+)\s*:\s")
WORD = re.compile(r"[A-Za-z_0-9'αμλ][A-Za-z0-9_'+*∷→↔≤≡-]*")
CAPITAL = re.compile(r"([a-z0-9])([A-Z])(?![A-Z])")

# One name that would fall together with another in its file.
OTHER = {"list_at": "list_at_lem"}


def snake(name):
    return CAPITAL.sub(lambda m: m.group(1) + "_" + m.group(2).lower(), name.replace("getD", "get_or"))


def is_camel(name):
    return not re.match(r"[A-Z]", name) and re.search(r"[a-z0-9][A-Z]", name)


def declared(paths):
    heads = (HEAD.match(line) for path in paths for line in open(path))
    return {m.group(1) for m in heads if m}


# The new name of a word: also of one that port.py had turned where it is declared, and not in comments and pages.
def turned_word(word, names):
    if word in OTHER:
        return OTHER[word]
    if is_camel(word) and (word in names or snake(word) in names):
        return snake(word)
    return word


def turned(text, names):
    return WORD.sub(lambda m: turned_word(m.group(0), names), text)


def turned_source(text, names):
    parts = re.split(r'("(?:[^"\\\n]|\\.)*")', text)
    return "".join(p if i % 2 else turned(p, names) for i, p in enumerate(parts))


def main():
    antt = glob.glob("crates/*/specs/**/*.antt", recursive=True) + glob.glob("crates/*/proofs/**/*.antt", recursive=True)
    names = declared(antt)
    pages = ["README.md"] + glob.glob("docs/*.md") + glob.glob("crates/*/must-fail/*.edit")
    changed = 0
    for path in antt + pages:
        text = open(path).read()
        new = turned(text, names)
        if new != text:
            open(path, "w").write(new)
            changed += 1
    for path in glob.glob("crates/*/src/*.rt"):
        text = open(path).read()
        new = turned_source(text, names)
        if new != text:
            open(path, "w").write(new)
            changed += 1
    print(f"{changed} files")


main()
