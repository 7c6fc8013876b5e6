"""The crates, as crates.txt lists them, and small repositories of some of them."""

import os
import shutil

ROOT = os.path.dirname(os.path.dirname(os.path.abspath(__file__)))


def needs(root=ROOT):
    """The crates in their order, each with the crates that its line names."""
    with open(os.path.join(root, "crates.txt"), encoding="utf-8") as f:
        lines = [line.split("#")[0].split(":") for line in f]
    return {name.split()[0]: rest[0].split() for name, *rest in lines if name.strip()}


def below(names):
    """Crates and all that they depend on, in the order of crates.txt."""
    direct, found, more = needs(), set(), set(names)
    while more:
        found |= more
        more = {d for c in more for d in direct.get(c, ())} - found
    return [c for c in direct if c in found]


def is_program(name):
    return os.path.isfile(os.path.join(ROOT, "crates", name, "src", "main.rt"))


def write(path, text):
    os.makedirs(os.path.dirname(path), exist_ok=True)
    with open(path, "w", encoding="utf-8") as f:
        f.write(text)


def copy(folder, names, more):
    """Makes a folder a repository of some crates, and of further crates, each with what it needs, whose texts are still to be
    written. What rt kept of the same crates elsewhere on the machine serves there, so that they are not proved again."""
    shutil.rmtree(folder, ignore_errors=True)
    for c in names:
        shutil.copytree(os.path.join(ROOT, "crates", c), os.path.join(folder, "crates", c), ignore=shutil.ignore_patterns("out"))
    with open(os.path.join(ROOT, "crates.txt"), encoding="utf-8") as f:
        lines = [line for line in f if line.split(":")[0].split()[:1] and line.split(":")[0].split()[0] in names]  # as they stand: a proof is known by its line too
    lines += [" ".join([c + ":", *on]) + "\n" for c, on in more.items()]
    write(os.path.join(folder, "crates.txt"), "".join(lines))
