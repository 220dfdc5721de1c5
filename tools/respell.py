#!/usr/bin/env python3
"""Brings this repository's own definitions and lemmas to snake case, after port.py has run.

usage: python3 tools/respell.py        at the top of the repository

A word that begins in lower case and has a capital inside, such as `crcStep`, is one of our definitions, fields, constructors or lemmas, or a
part of a lemma's name between dashes: no function of src/, no exported name and no string is spelled so (seen before this ran; `two_words`
stops where a string is). Each becomes `crc_step`. A definition that mirrors a function of src/ then has that function's name, as the
library's own have. Files: sources, definitions, proofs and edits of crates/, README.md and docs/.
"""
import glob
import re

WORD = re.compile(r"(?<![\w'])([a-z][a-z0-9]*(?:[A-Z][a-z0-9]*)+)(?![\w'])")
STRING = re.compile(r'"(?:[^"\\]|\\.)*"')


def snake(word):
    return re.sub(r"[A-Z]", lambda m: "_" + m.group(0).lower(), word)


def main():
    code = [f for end in ("antt", "rt") for f in glob.glob(f"crates/**/*.{end}", recursive=True) if "/out/" not in f]
    edits = glob.glob("crates/*/must-fail/*.edit")
    pages = ["README.md"] + glob.glob("docs/**/*.md", recursive=True)
    words = set()
    for f in code:
        with open(f, encoding="utf-8") as it:
            text = it.read()
        words |= set(WORD.findall(text))
        if f.endswith(".rt"):
            two_words = [s for s in STRING.findall(text) if WORD.search(s)]
            if two_words:
                raise SystemExit(f"{f}: a string holds such a word: {two_words[0]}")
    for f in code + edits + pages:
        with open(f, encoding="utf-8") as it:
            text = it.read()
        new = WORD.sub(lambda m: snake(m.group(1)) if m.group(1) in words else m.group(0), text)
        if new != text:
            with open(f, "w", encoding="utf-8") as it:
                it.write(new)
    print(f"respell: {len(words)} words")


main()
