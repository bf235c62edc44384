#!/usr/bin/env python3
"""Brings the repository's own definitions, fields, constructors and lemmas to today's spelling: words in snake case.

usage: tools/respell.py [FOLDER]     after port.py, once, at the top of the repository (or of FOLDER)

A word that begins with a small letter and has capitals, as sectorsFor or codeOf-length, becomes sectors_for or code_of-length,
in .antt files, in .rt files (where only clauses, ghost items and comments have such words), in must-fail edits, and in the
backquotes of README.md and docs/. Types and modules begin with a capital and stay. Names of functions have no capitals and stay.
A lemma that would then have the name of the definition that it speaks of gets _lem behind it.
It prints each word that falls together with another one of its file, but for the names of functions of src/.
"""
import os
import re
import sys

# lemmas that would have the name of their definition
LEMMAS = """held_all are_all held_fits in_bytes plain_step by_answer in_use one_more entry_done goes_on walked_to row_next hold_at
row_done""".split()
WORD = re.compile(r"(?<!\\)\b[A-Za-z_][\w'\-]*")
HEX = re.compile(r"x[0-9A-F]+\b")


def part(word):
    if word == "getD":
        return "get_or"
    if not re.match(r"[a-z_]", word) or HEX.match(word):
        return word
    return re.sub(r"(?<=[a-z0-9_])[A-Z]", lambda m: "_" + m.group().lower(), word)


def turned(word):
    return "-".join(part(p) for p in word.split("-"))


def turn(text):
    return WORD.sub(lambda m: turned(m.group()), text)


def apart(path, text):
    """A proof file's lemmas, where it makes or takes them, called otherwise than the definitions that they speak of."""
    if "/proofs/" not in path or os.path.basename(path) in ("Proof.antt", "Answers.antt"):
        return text
    for word in LEMMAS:
        made = re.search(rf"^ *(?:pub )?{word} :", text, re.M)
        taken = re.search(rf"^use Rattle\.\w+\.proofs\.[A-Z]\w*\.\{{[^}}]*\b{word}\b", text, re.M)
        if made or taken:
            text = re.sub(rf"(?<!proofs\.)(?<![\w'\-]){word}(?![\w'\-])", word + "_lem", text)
    return text


def turn_quoted(text):
    """In a page, words in backquotes alone."""
    return re.sub(r"`[^`\n]*`", lambda m: turn(m.group()), text)


def files(top):
    for folder, folders, names in os.walk(os.path.join(top, "crates")):
        folders[:] = sorted(f for f in folders if f not in ("out", "data"))
        for name in sorted(names):
            if name.endswith((".antt", ".rt", ".edit")):
                yield os.path.join(folder, name), turn
    for folder in (top, os.path.join(top, "docs")):
        for name in sorted(os.listdir(folder)):
            if name.endswith(".md"):
                yield os.path.join(folder, name), turn_quoted


def main():
    top = sys.argv[1] if len(sys.argv) > 1 else os.path.dirname(os.path.dirname(os.path.abspath(__file__)))
    for path, how in files(top):
        with open(path, encoding="utf-8") as file:
            before = file.read()
        text = apart(path, before)
        words = set(WORD.findall(re.sub(r"proofs\.\w+\.", "", text)))
        for word in sorted(words):
            if turned(word) != word and turned(word) in words and path.endswith(".antt") and not path.endswith("Proof.antt"):
                print(f"together: {os.path.relpath(path, top)}: {word} and {turned(word)}")
        new = how(text)
        if new != before:
            with open(path, "w", encoding="utf-8") as file:
                file.write(new)


if __name__ == "__main__":
    main()
