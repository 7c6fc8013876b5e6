#!/usr/bin/env python3
"""Writes the manual pages into a folder: chartkey.1, overlay_log.1, jirdtungsten.3, and helm-display.1 if that is built. What they say
is what the programs' own `--help` and the comments of the headers say.

usage: man.py FOLDER
It fails when a program does not tell its use."""

import os
import re
import subprocess
import sys

ROOT = os.path.dirname(os.path.dirname(os.path.abspath(__file__)))
HEADERS = ("jirdtungsten.h", "jirdtungsten_charts.h")
LOG = """It reads commands from standard input and prints document 01's log of them; it has no options and reads no file.
`chartkey --bytes PAPER` makes such a stream of a paper, and `chartkey PAPER` runs it and reads its log.
The log is worked out by proved code; TRUST.md in share/doc/jirdtungsten says what is trusted."""


def read(*names):
    with open(os.path.join(ROOT, *names), encoding="utf-8") as f:
        return f.read()


def escaped(text):
    """Text as the formatter takes it."""
    text = text.replace("\\", "\\e").replace("-", "\\-")
    return re.sub(r"^(?=[.'])", r"\\&", text, flags=re.M)


def kept(text):
    """Lines that stay as they are."""
    return f".nf\n{escaped(text.strip())}\n.fi\n"


def page(name, section, says, parts):
    version = re.search(r'JIRD_VERSION "(.*?)"', read("include", HEADERS[0]))[1]
    text = f'.TH {name.upper()} {section} "" "jirdtungsten {version}"\n.SH NAME\n{escaped(name)} \\- {escaped(says)}\n'
    return text + "".join(f".SH {heading}\n{part}" for heading, part in parts)


def program_page(name, says, words):
    done = subprocess.run([*words, "--help"], stdout=subprocess.PIPE, text=True, cwd=ROOT)
    if done.returncode != 0 or not done.stdout:
        sys.exit(f"{name} --help ended with status {done.returncode}")
    return page(name, 1, says, [("USE", kept(done.stdout)), ("SEE ALSO", "overlay_log(1), jirdtungsten(3)\n")])


def uncommented(comment):
    return "\n".join(re.sub(r"^ \* ?", "", line) for line in comment.strip().split("\n"))


def library_page():
    """The duties, then every prototype with the comment above it."""
    duties = uncommented(re.match(r"/\*(.*?)\*/", read("include", HEADERS[0]), re.S)[1])
    parts = [("SYNOPSIS", kept("\n".join(f"#include <{name}>" for name in HEADERS) + "\ncc FILE.c $(pkg-config --cflags --libs jirdtungsten)"))]
    parts.append(("DESCRIPTION", kept(duties)))
    for name in HEADERS:
        for comment, prototype in re.findall(r"/\*((?:(?!\*/).)*)\*/\n(jird_\w+ jird_\w+\([^;{]*;)", read("include", name), re.S):
            parts.append((re.search(r" (jird_\w+)", prototype)[1], kept(f"{prototype}\n\n{uncommented(comment)}")))
    return page("jirdtungsten", 3, "charts of triangles: load, edit, locate, window, overlay", parts)


def main():
    folder = sys.argv[1]
    display = os.path.join(ROOT, "target", "bin", "helm-display")
    pages = {"chartkey.1": program_page("chartkey", "the key of an examination paper", [sys.executable, "chartkey"])}
    about = [("DESCRIPTION", kept(LOG)), ("SEE ALSO", "chartkey(1), jirdtungsten(3)\n")]
    pages["overlay_log.1"] = page("overlay_log", 1, "the proved chart-overlay engine on a stream of commands", about)
    pages["jirdtungsten.3"] = library_page()
    if os.path.isfile(display):
        pages["helm-display.1"] = program_page("helm-display", "draws two charts, their key and the cutter head", [display])
    os.makedirs(folder, exist_ok=True)
    for name, text in pages.items():
        with open(os.path.join(folder, name), "w", encoding="utf-8") as f:
            f.write(text)


if __name__ == "__main__":
    main()
