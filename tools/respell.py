#!/usr/bin/env python3
"""Brings the names of definitions and lemmas to the spelling of today's Rattle: words in snake case, types and modules in
camel case. Run once at the top of the repository, after the toolchain's own script; a second run changes nothing.

It goes through the definitions, lemmas and answers (.antt), the ghost text of the sources (.rt) and the must-fail edits. No
identifier of the code has a capital inside, so that a word such as `chainRule` is a definition's wherever it stands."""

import re
import sys
from pathlib import Path

# A word: letters, digits and marks of which names are made; a dash joins words.
WORD = re.compile(r"(?<![A-Za-z0-9_'ℕℤᴰ·])[a-z][a-z0-9]*(?:[A-Z][A-Za-z0-9]*)+(?![A-Za-z0-9_])")

# Names that the libraries spell anew in another way.
OTHER = {"getD": "get_or"}

# Lemmas whose name another word would take, and what they are called instead, by the text in which they stand.
APART = {"crates/call_locate/proofs/CallLaws.antt": {"found_of": "located_found"}}

STRING = re.compile(r'b?"(?:[^"\\]|\\.)*"')


def snake(word):
    """A word in snake case."""
    if word in OTHER:
        return OTHER[word]
    return re.sub(r"(?<=[a-z0-9])([A-Z]+)", lambda m: "_" + m.group(1).lower(), word)


def respelled(text):
    """A text with its words in snake case, strings left alone."""
    out = []
    at = 0
    for m in STRING.finditer(text):
        if "\n" in m.group(0):
            continue
        out.append(WORD.sub(lambda w: snake(w.group(0)), text[at : m.start()]))
        out.append(m.group(0))
        at = m.end()
    out.append(WORD.sub(lambda w: snake(w.group(0)), text[at:]))
    return "".join(out)


def files(top):
    """The texts that name definitions and lemmas."""
    for kind in ("src/**/*.rt", "specs/**/*.antt", "proofs/**/*.antt", "must-fail/*.edit"):
        yield from sorted(p for p in top.glob("crates/*/" + kind) if p.is_file())


def together(top):
    """Files where a new spelling is also another name's."""
    for path in files(top):
        text = path.read_text()
        plain = set(re.findall(r"[A-Za-z_][A-Za-z0-9_']*", text))
        for word in sorted(set(WORD.findall(text))):
            if snake(word) in plain:
                yield path, word


def main():
    top = Path(__file__).resolve().parent.parent
    if sys.argv[1:] == ["--together"]:
        for path, word in together(top):
            print(f"{path.relative_to(top)}: {word} becomes {snake(word)}, which stands there")
        return
    changed = 0
    for path in files(top):
        text = path.read_text()
        new = text
        for old, name in APART.get(str(path.relative_to(top)), {}).items():
            if WORD.search(text):
                new = re.sub(rf"(?<![A-Za-z0-9_.]){old}(?![A-Za-z0-9_'])", name, new)
        new = respelled(new)
        if new != text:
            path.write_text(new)
            changed += 1
    print(f"{changed} files respelled")


if __name__ == "__main__":
    main()
