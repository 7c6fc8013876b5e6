#!/usr/bin/env python3
"""Reads what rt ci printed, and fails where a verdict does not mean what it should.

usage: verdicts.py LOG

Crates: each crate of crates.txt was proved in this run, once, with one `logic=proved` line of its own whose words are all known here,
or is kept from an earlier run on this machine over the same files; each program ran, as both compilers make it. Nothing rests on an axiom,
but a program, which reads and writes by the kit's libraries, on what these state of some functions of C (REACHED).

Must-fail edits: each file below a must-fail/ folder is one that rt tries (crates/NAME/must-fail/LABEL.edit), and each edit was
refused, once. An edit starts with a sentence, `# ..`, and goes on with `file:`, `old:` and `new:` lines alone, for src/ and specs/.
Beside an edit of specs/ it may change a proof to go with it, but no example.

What an edit shows: the first error, of which rt prints the beginning, is a fact that fails. The reasons are listed in FACTS, everything
else fails: a name that is not there, text that does not parse, a field or a requirement that another shape of the code would have. A type
that does not fit can also come from a proof that no longer fits its code, so beyond that an edit of src/ keeps the operators, calls,
keywords and types of the code, each as often as before, and changes operands alone: constants, variables, fields, enum variants. A
comparison may become strict or not strict (< and <=, > and >=). It may become another comparison where a goal is open that the
prover decides by numbers (`omega`, `search`). An edit with other operators says with what operands its crate is proved: a line
`# proved with: TEXT` for its last `new:` text, with the same operators.

Sums: src/ has no word by which a sum wraps (`wrapping_`, `overflowing_`, `Wrapping`), but where WRAPS names the file and the word, since a
document says that this sum does."""

import collections
import glob
import os
import re
import sys

import crates
from crates import ROOT, is_program

# the words of a `logic=proved` line
WORDS = r"functions=\d+|target=x86_64-unknown-linux-gnu|cpu=x86-64-v2|sum=[0-9a-f]+|native=nat,char,string|(logic|libraries)-built=trusted|statements=trusted"
# what a program reaches of C, by the kit's libraries, and how a line of what is linked tells it
REACHED = {"libc": {"libc::lseek", "libc::read", "libc::write"}, "os": {"os::c::rattle_errno"}}
AXIOMS = r"axioms (\w+): (?:none reached|(.+) \(\d+) of the \d+ declared\)?"
# why a fact fails, as the first error says after its name
FACTS = {
    "types": r"(as printed|computed as far as they go), the two (types|values|sides|indices) (first differ|differ only|are) |expected type `|computed as a goal is, one side reads ",
    "omega": r"`omega`: .*does not follow from what it read|`omega`: the goal does not follow",
    "search": r"`search`: no proof of |`grind`: ",
    "rw": r"give a proof of that as the last argument, `rw L t`|`rw`: no occurrence of the path's (left|right) endpoint in ",
    "simp": r"give a proof of that as the last argument, `simp L t`|`simp`: no equation of the list (can be applied|has an instance)",
    "cc": r"`cc`: the equations do not join |list the missing equation with its arguments, or rewrite by `rw` or `simp`",
}
# a goal of the code that stays open, as rt's note says
OPEN = r"note: (\S+?):\d+:\d+: it is not proved that .*"
# the files of computed examples
EXAMPLES = r"\w*Examples\.antt|MarkedCases\.antt"
# file and word of each sum that wraps because a document says so: none yet. Document 02's practice charts will keep theirs to 32 bits
WRAPS = set()
KEYWORDS = "as break const continue else enum fn for ghost if impl in let loop match mut pub return struct use while".split()
TYPES = "bool u8 u16 u32 u64 usize i8 i16 i32 i64 isize".split()
faults = []


def read(path):
    with open(path, encoding="utf-8", errors="replace") as f:
        return f.read()


# ---- crates


def judge_crate(name, lines):
    """What was printed for a crate before its verdict."""
    verdicts = [l for l in lines if l.startswith("logic=")]
    if len(verdicts) != 1 or not verdicts[0].startswith("logic=proved "):
        faults.append(f"{name}: not one line logic=proved before its verdict: {verdicts}")
        return
    for word in verdicts[0].split()[1:]:
        if not re.fullmatch(WORDS + (r"|axioms=\d+" if is_program(name) else ""), word):
            faults.append(f"{name}: {word} in its verdict")
    for line in [l for l in lines if l.startswith("axioms")]:
        found = re.fullmatch(AXIOMS, line)
        reached = set(found.group(2).split(", ")) if found and found.group(2) else set()
        if not found or reached and not (is_program(name) and reached <= REACHED.get(found.group(1), set())):
            faults.append(f"{name}: {line}")


def judge_crates(text):
    names, lines, seen, ran = list(crates.needs()), [], [], collections.Counter()
    for line in text.split("\n"):
        done = re.fullmatch(r"rt: (\w+) (proved|is kept: an earlier run on this machine proved the same files .*)", line)
        if line.startswith("== "):
            lines = []
        elif done:
            seen.append(done.group(1))
            if done.group(2) == "proved":
                judge_crate(done.group(1), lines)
            lines = []
        else:
            lines.append(line)
        run = re.match(r"rt: (\w+) ran\b.*, and wrote what its file stdout has", line)
        if run:
            ran[run.group(1)] += 1
        if re.match(r"rt: .*(NOT PROVED|NOT REFUSED|NOT TRIED|BAD EDIT|FAILED)", line):
            faults.append(line[:300])
    if sorted(seen) != sorted(names):
        faults.append(f"the crates proved are not those of crates.txt: {sorted(set(seen) ^ set(names)) or 'one of them twice'}")
    if ran != collections.Counter({n: 2 for n in names if is_program(n)}):
        faults.append(f"the programs that ran are {ran}")
    return len(names)


# ---- must-fail edits


def edits():
    """The edits that rt tries, as NAME/LABEL, from all files below must-fail/ folders."""
    names = list(crates.needs())
    for folder, folders, files in os.walk(ROOT):
        folders[:] = sorted(f for f in folders if f not in (".git", "target"))
        where = os.path.relpath(folder, ROOT).split(os.sep)
        if "must-fail" not in where:
            continue
        tried = len(where) == 3 and where[0] == "crates" and where[1] in names
        for name in sorted(files):
            path = os.path.join(folder, name)
            if tried and re.fullmatch(r"[^.].*\.edit", name) and not os.path.islink(path):
                yield f"{where[1]}/{name[:-5]}"
            else:
                faults.append(f"{os.path.relpath(path, ROOT)}: rt does not try it")


def replacements(label):
    """The file, old and new text of each replacement of an edit, and the text with which its crate is proved, if it says so."""
    name, edit = label.split("/")
    lines = read(os.path.join(ROOT, "crates", name, "must-fail", edit + ".edit")).rstrip("\n").split("\n")
    if not re.match(r"# \S", lines[0]):
        faults.append(f"must-fail {label}: its first line does not say what it breaks")
    found, file, old, proved = [], None, None, None
    for line in lines[1:]:
        if re.match(r"file: (src|specs|proofs)/", line):
            file = line[len("file: ") :]
        elif line.startswith("old: ") and file and old is None:
            old = line[len("old: ") :]
        elif re.match(r"new:( |$)", line) and old is not None:
            found.append((file, old, line[len("new: ") :]))
            old = None
        elif line.startswith("# proved with: ") and proved is None:
            proved = line[len("# proved with: ") :]
        else:
            faults.append(f"must-fail {label}: a line that does not belong there: {line}")
    folders = {file.split("/")[0] for file, _, _ in found}
    if not found or old is not None or folders == {"proofs"} or folders >= {"proofs", "src"}:
        faults.append(f"must-fail {label}: not old and new texts of src/, of specs/, or of specs/ and a proof that goes with it")
    if any(re.fullmatch(EXAMPLES, os.path.basename(file)) for file, _, _ in found):
        faults.append(f"must-fail {label}: it changes an example")
    return found, proved


def failing(label, told):
    """The file and the law at which an edit was refused, with the kind of its fact; none when that is no fact."""
    error = re.match(r"(\S+?):\d+:\d+: error: `([^`]+)`: (.*)", told)
    kinds = [kind for kind, pattern in FACTS.items() if error and re.match(pattern, error.group(3))]
    if kinds:
        return os.path.basename(error.group(1)), error.group(2), kinds[0]
    goal = re.match(OPEN, told)
    if goal:
        return os.path.basename(goal.group(1)), "a goal of the code", "search"
    faults.append(f"must-fail {label}: refused, but not at a fact: {told[:400]}")
    return None


def code_shape(text, loose):
    """The operators, calls, keywords and types of a piece of code, each with how often it stands there. Operands do not count:
    names, fields, numbers, enum variants. Strict and not strict comparisons count as one, with `loose` all comparisons."""
    shape = collections.Counter()
    tokens = re.findall(r"[A-Za-z_]\w*(?:::[A-Za-z_]\w*)*|\d\w*|<<|>>|[<>=!]=|&&|\|\||[-+*/%&|^]=|[-=]>|\.\.=?|\S", text)
    for token, after in zip(tokens, tokens[1:] + [""]):
        if re.match(r"[A-Za-z_]", token):
            variant = re.match(r"[A-Z]", token.split("::")[-1])
            if token in KEYWORDS or token in TYPES:
                shape[token] += 1
            elif after == "(" and not variant or after == "{" and variant:
                shape[token + after] += 1
        elif token in ("<", "<=", ">", ">=", "==", "!="):
            shape["comparison" if loose else token[0] if token[0] in "<>" else token] += 1
        elif not re.match(r"\d", token) and token not in "(),;:.":
            shape[token] += 1
    return shape


def changed(before, after):
    return ", ".join(f"{sign}{token}" for sign, part in (("-", before - after), ("+", after - before)) for token in part.elements())


def judge_edit(label, told):
    (pairs, proved), place = replacements(label), failing(label, told)
    if all(old == new for _, old, new in pairs):
        faults.append(f"must-fail {label}: it changes nothing")
    if not place:
        return
    _, law, kind = place
    loose = kind in ("omega", "search")
    before, after = collections.Counter(), collections.Counter()
    for file, old, new in pairs:
        if file.startswith("src/"):
            before += code_shape(old, loose)
            after += code_shape(new, loose)
    if before != after:
        last = pairs[-1][2]
        if not proved or proved == last or code_shape(proved, False) != code_shape(last, False):
            faults.append(f"must-fail {label}: other operators or calls: {changed(before, after)} (refused at {law}: {kind})")


def judge_edits(text):
    labels = list(edits())
    told = re.findall(r"^rt: must-fail (\S+)\.edit: refused, as it must be(?:: (.*)| \((.*))?$", text, re.M)
    refused = [label for label, *_ in told]
    if sorted(refused) != sorted(labels):
        faults.append(f"the edits refused are not those there: {sorted(set(refused) ^ set(labels)) or 'one of them twice'}")
    for label, said, weakly in told:
        if label in labels:
            judge_edit(label, said or weakly)
    return len(labels)


def judge_sums():
    """The words by which a sum wraps stand in src/ where WRAPS has them, and nowhere else."""
    found = set()
    for path in glob.glob(os.path.join(ROOT, "crates", "*", "src", "**", "*.rt"), recursive=True):
        words = re.findall(r"\b(?:(?:wrapping|overflowing)_\w+|Wrapping)\b", read(path))
        found |= {(os.path.relpath(path, ROOT), word) for word in words}
    for file, word in sorted(found - WRAPS):
        faults.append(f"{file}: {word}, by which a sum may wrap: say checked_ or saturating_, or name it in WRAPS with the document's sentence")
    for file, word in sorted(WRAPS - found):
        faults.append(f"WRAPS names {word} in {file}, which has no such word")


def main():
    text = read(sys.argv[1])
    judge_sums()
    proved, tried = judge_crates(text), judge_edits(text)
    if not proved or not tried:
        faults.append(f"{proved} crates, {tried} must-fail edits")
    *_, ok, last = text.rstrip("\n").split("\n")
    if not re.match(rf"rt: ok; handles allowed: none; must-fail edits: {tried} refused(;|$)", ok):
        faults.append(f"the line before the last is not that {tried} must-fail edits are refused, with no handle: {ok[:200]}")
    if last != f"{proved + tried} passed, 0 failed":
        faults.append(f"the log does not end with {proved + tried} passed, 0 failed: {last[:200]}")
    print("\n".join(faults) if faults else f"{proved} crates, {tried} must-fail edits, each refused at a fact")
    sys.exit(1 if faults else 0)


main()
