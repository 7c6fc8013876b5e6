#!/usr/bin/env python3
"""Makes docs/MAP.md: the storeys of the house, the crates of each, and what stands on what, from crates.txt and the texts of the
crates (src/, specs/ and proofs/, without their comments).

usage: map.py            writes docs/MAP.md
       map.py --check    fails when docs/MAP.md is not what the tree gives

Either way it fails when
- a crate's name has no storey, a storey depends on a later one, or a crate on one that crates.txt lists after it;
- a crate names another in its texts that its line of crates.txt does not list;
- a line lists a crate that no text of its crate names. A few such are needed, since a value of their type, or their C functions,
  pass through: they stand in PASSING, each with the crate that it comes through and its type, and each is looked at."""

import os
import re
import sys

import crates
from crates import ROOT

PAGE = os.path.join(ROOT, "docs", "MAP.md")
# the storeys, from the bottom up: the first word of a crate's name, and what the storey is
STOREYS = {
    "theory": "mathematics that knows no chart",
    "spec": "document 01 as definitions, which a reader must believe",
    "laws": "laws of these definitions",
    "base": "code that all calls share",
    "quadtree": "the quadtree of a table",
    "chart": "charts judged and changed",
    "edit": "edits of plain tables",
    "read": "charts read by keys",
    "overlay": "what an overlay lists",
    "window": "what lies in a window",
    "call": "the public calls",
    "replay": "lists of calls, and demand 3 as running code",
    "log": "the command program, from bytes to bytes",
    "export": "the calls for C, on numbers and slices",
    "test": "test programs",
}
NAMED = {"overlay_log": "log"}  # the command program, which is named by what it prints first
KIT = ["itoa"]  # the kit's libraries that crates.txt lists, but for std
# what a crate lists and does not name: the crate that it comes through, and the type of the values that pass; C functions have none
PASSING = {
    "call_overlay": {"base_boxes": ("overlay_candidates", "BoxTable")},
    "call_soundness": {"base_geometry": ("base_boxes", "Bounds")},
    "export_charts": {"read_cells": ("call_locate", "Part")},
    "overlay_pairs": {"base_geometry": ("base_boxes", "Bounds")},
    "test_support": {"spec_plane": ("base_answers", "Position")},
    "test_changes": {"spec_calls": ("test_support", "ChartMut")},
    "test_readers": {"spec_charts": ("test_support", "Refusal"), "base_answers": ("test_support", "Overlaid")},
    "test_replay": {"spec_charts": ("test_support", "Refusal")},
}
NEEDS = crates.needs()
faults = []


def storey(name):
    return NAMED.get(name) or name.split("_")[0]


# ---- the texts of a crate


def read(*path):
    with open(os.path.join(ROOT, *path), encoding="utf-8") as f:
        return f.read()


def code_of(name, parts=("src", "specs", "proofs")):
    """The texts of a crate, without comments."""
    found = []
    for part in parts:
        for folder, folders, files in os.walk(os.path.join(ROOT, "crates", name, part)):
            folders.sort()
            for file in sorted(files):
                comment = {".rt": r"//.*", ".antt": r"(^|\s)--(\s.*|$)"}.get(os.path.splitext(file)[1])
                if comment:
                    found.append(re.sub(comment, "", read(folder, file), flags=re.M))
    return "\n".join(found)


def named(name):
    """The crates and libraries of the kit that the texts of a crate name: `X::f` in code, `Rattle.X.` in logic."""
    text = code_of(name)
    words = set(re.findall(r"(?<![\w:·])(\w+)::", text)) | set(re.findall(r"Rattle\.(\w+)", text))
    return words & {*NEEDS, *KIT} - {name}


def said(*path):
    """The first sentence of the comment that a source file begins with."""
    lines = re.match(r"(?:// ?.*\n)*", read(*path)).group().split("\n")
    text = " ".join(l[2:].strip() for l in lines[: lines.index("//") if "//" in lines else None])
    if not text.strip():
        faults.append(f"{'/'.join(path)}: it does not begin with what it holds")
    return re.match(r".*?(?:\.(?= |$)|$)", text.strip()).group()


def root_file(name):
    return "main.rt" if crates.is_program(name) else "lib.rt"


def modules(name):
    """The modules of a crate, each with its first sentence."""
    found = re.findall(r"^(?:pub )?mod (\w+);", read("crates", name, "src", root_file(name)), re.M)
    return {module: said("crates", name, "src", module + ".rt") for module in found}


# ---- what must hold


def judge():
    order = list(STOREYS)
    before = set(KIT)
    folders = set(os.listdir(os.path.join(ROOT, "crates")))
    for name in sorted(folders ^ set(NEEDS)):
        faults.append(f"{name}: in {'crates/' if name in folders else 'crates.txt'} alone")
    for name, listed in NEEDS.items():
        if storey(name) not in STOREYS:
            faults.append(f"{name}: no such storey")
        for d in listed:
            if d not in before:
                faults.append(f"{name}: needs {d}, which stands after it in crates.txt or nowhere")
            elif d not in KIT and {storey(name), storey(d)} <= set(order) and order.index(storey(d)) > order.index(storey(name)):
                faults.append(f"{name}: needs {d}, and {storey(d)} is a later storey than {storey(name)}")
        names = named(name)
        for d in sorted(names - set(listed)):
            faults.append(f"{name}: names {d}, and its line of crates.txt does not list it")
        for d in sorted(set(listed) - names - set(PASSING.get(name, ()))):
            faults.append(f"{name}: lists {d}, and no text of it names that")
        for d in sorted(set(PASSING.get(name, ())) - (set(listed) - names)):
            faults.append(f"{name}: {d} stands in PASSING, and is named or not listed")
        before.add(name)
    for name, passing in PASSING.items():
        for d, (through, kind) in passing.items():
            judge_passing(name, d, through, kind)


def judge_passing(name, d, through, kind):
    """A type comes from its crate through one that names it to one that does not."""
    if through not in NEEDS.get(name, ()) or d not in NEEDS.get(through, ()):
        faults.append(f"{name}: {d} does not come through {through}")
    elif kind and not re.search(rf"^pub (struct|enum) {kind}\b", code_of(d, ["src"]), re.M):
        faults.append(f"{name}: {d} has no type {kind}")
    elif kind and not re.search(rf"\b{kind}\b", code_of(through, ["src"])):
        faults.append(f"{name}: {through} does not name {d}'s type {kind}")


# ---- the page


def direct():
    """The storeys that each storey stands on directly."""
    found = {s: [] for s in STOREYS}
    for name, listed in NEEDS.items():
        found[storey(name)] += [storey(d) for d in listed if d in NEEDS]
    return {s: [t for t in STOREYS if t in on and t != s] for s, on in found.items()}


def reduced(on):
    """The same without those that another of them stands on, by any way."""

    def below(s):
        return set(on[s]).union(*(below(t) for t in on[s]))

    return {s: [t for t in ts if not any(t in below(u) for u in ts)] for s, ts in on.items()}


def picture(on):
    """The house in text: a line for each storey, the highest first, with its crates and what it stands on."""
    inside = {s: " ".join(short(n) for n in NEEDS if storey(n) == s) for s in STOREYS}
    wide = max(map(len, inside.values()))
    for s in reversed(STOREYS):
        yield f"{s:>9} | {inside[s]:<{wide}} | on {' '.join(on[s]) or 'nothing'}"


def short(name):
    """A crate's name without its storey."""
    return name.split("_", 1)[-1]


def stands_on(name):
    """What a crate stands on directly, by storeys; what passes through is marked with where it comes from."""
    on, passing = {}, PASSING.get(name, {})
    for d in NEEDS[name]:
        through = f" (through {passing[d][0]}{': `' + passing[d][1] + '`' if passing[d][1] else ''})" if d in passing else ""
        on.setdefault(storey(d) if d in NEEDS else "the kit", []).append((short(d) if d in NEEDS else d) + through)
    return "; ".join(f"{s}: {', '.join(ds)}" for s, ds in on.items()) or "nothing"


def crate_lines(name):
    yield f"- **`{name}`**: {said('crates', name, 'src', root_file(name))}"
    for module, sentence in modules(name).items():
        yield f"  - module `{module}`: {sentence}"
    yield f"  - on {stands_on(name)}"


def page():
    on = direct()
    yield "# Map of the storeys"
    yield ""
    yield "Made by `make map` from crates.txt and the texts of the crates; `make test` fails when it is not what they give. Do not edit it."
    yield ""
    yield "A crate's name begins with its storey. No storey stands on a later one. The storeys, the highest first, with their crates and"
    yield "with the storeys that each stands on directly:"
    yield ""
    yield "```text"
    yield from picture(on)
    yield "```"
    yield ""
    yield "The same without what follows from the rest:"
    yield ""
    yield "```mermaid"
    yield "flowchart BT"
    for s, ts in reduced(on).items():
        yield from (f"    {t} --> {s}" for t in ts)
    yield "```"
    for s, sentence in STOREYS.items():
        yield ""
        yield f"## {s}: {sentence}"
        yield ""
        for name in NEEDS:
            if storey(name) == s:
                yield from crate_lines(name)


def main():
    judge()
    text = "" if faults else "".join(line + "\n" for line in page())
    if not faults and sys.argv[1:] == ["--check"]:
        if not os.path.isfile(PAGE) or read(PAGE) != text:
            faults.append("docs/MAP.md is not what the tree gives: make map")
    elif not faults:
        os.makedirs(os.path.dirname(PAGE), exist_ok=True)
        with open(PAGE, "w", encoding="utf-8") as f:
            f.write(text)
    listed = sum(map(len, NEEDS.values()))
    print("\n".join(faults) if faults else f"{len(NEEDS)} crates in {len(STOREYS)} storeys, {listed} direct dependencies")
    sys.exit(1 if faults else 0)


main()
