#!/usr/bin/env python3
"""Makes small wrong versions, mutants, of the definitions in crates/*/specs, one at a time, and tells which of them the proofs
and the examples accept.

usage: mutants.py [--crates A,B] [--only REGEX] [--max N] [--jobs 1|2] [--minutes M] [--out FILE.tsv] [--resume] [--list]

A mutant changes one place of one definition: a comparison, an operand, a coordinate, a corner, a chart, an order, a constant,
a constructor, a variable; a part or row is dropped, negated or doubled; two arguments, fields, rows, cases or elements change
places; of a number its lowest 8, 9, 16 or 32 bits are left (part); in a record that is built a field gets what another of its
type gets (copy field); a record that states something, which is one with parameters, states it without one of its fields, and
no record of that type that is built has it, in any crate (drop field). It is judged in these steps:
 1. on the examples of its crate that name the definition, many mutants in one check; then on its whole crate. An error in
    specs/ itself: invalid, it is no definition. Any other refusal: killed.
 2. what passes is tried on the crates above whose texts name the definition, or one that is made of it, in the order of
    crates.txt, until one refuses it, or a crate between, which rt builds first; programs are left out, which state nothing of
    their own. Last come the executed cases, for the crates up to spec_log, the last one of definitions: those that
    tests/definitions.py draws, as crates of their own.
A field that is dropped is used by a proof where it is refused; it is not tried on examples in copies of their own.
A check is `rt check` in the crate's folder, over what earlier checks there kept. In step 1 it may take 4 times the processor
time that the right definition takes, where its file has become another and all that names it is checked again, at least 20 s;
in step 2 each crate may take 900 s; and 4 GB. A check of many mutants that takes more is done again for each of them. A mutant
whose check alone takes more, or meets a limit of the prover's own, has the verdict 'does not end': what is shown of the right
definition in a part of that time is not shown of it. It counts as refused, and the report counts it apart.

What passes all of it is a survivor: write an example or a law that refuses it. A mutant that is the same function has a row in
tests/mutants-same.tsv (file, definition, mutant, why) and is not run; a row that names no mutant is an error. A row with `% 2^k`
is about the parts of 8, 9, 16 and 32 bits.

The work goes on in copies below a temporary folder; the repository is only read. FILE.tsv gets a row for each mutant as the
run goes on; with --resume those that it has as refused or invalid are not judged again. --only looks at 'file definition kind'.
--max takes a part, drawn at random. --list prints the mutants and stops. With make: make mutants OPTIONS="--crates spec_plane".
Exit status: 0 when no survivor is left among the mutants judged, 1 otherwise."""

import argparse
import collections
import concurrent.futures
import os
import queue
import random
import re
import resource
import shutil
import signal
import subprocess
import sys
import tempfile
import threading
import time

from crates import ROOT, copy, is_program, needs
from definitions import TRIALS  # the crates that it makes of the executed cases

TEXTS = (("specs", ".antt"), ("proofs", ".antt"), ("src", ".rt"))  # the texts of a crate
SAME = os.path.join(ROOT, "tests", "mutants-same.tsv")
CASES = ["7", "4"]  # seed and count of the executed cases
AT_ONCE = 24  # mutants in one check of the examples
TIMES, LEAST = 4, 20  # a check of the own crate may take so many times what it takes as things stand, and at least so many seconds
LONGEST = 900  # seconds that a check of a crate above may take
MEMORY = 6 << 20  # kilobytes of data for one check; some 2 GB of it are set aside, not used
STOPPED = [3, *(256 - s for s in (signal.SIGKILL, signal.SIGXCPU, signal.SIGABRT))]  # a limit: of the prover, of time, of memory
REFUSED = ("killed", "does not end")
EXAMPLES = re.compile(r"/proofs/(\w*)(Examples|Cases)\.antt")
COPIED = re.compile(r"/proofs/\w*(Examples|Cases|Evaluate|Written)\.antt")  # the examples, what they unfold together and how they write results

# ---- reading definitions

TOKEN = re.compile(r"\[\]|[()\[\]{};,]|[^\s()\[\]{};,]+")
OPERATORS = set("&& || ∷ ++ + - * / % ^ -ℤ +ℤ *ℤ < ≤ ≡ → ×".split())
HEAD = re.compile(r"^( *)(?:(?:unfoldable|abbrev) )?pub (?:(record|data) )?([^\s:({]+)|^ *(use|module)\b", re.M)
Definition = collections.namedtuple("Definition", "name is_record clauses")  # a clause: right side, variables with types


class Item:
    """A word, or a pair of brackets with what stands in it; as "." a value with its projections, as t.a or (f t).a."""

    def __init__(self, text, start, end, bracket=""):
        self.text, self.start, self.end, self.bracket, self.items = text, start, end, bracket, []


def projected(value, fields, at):
    """The value with its projections, as .a.x, which stand at this place."""
    whole = Item(None, value.start, at + len(fields), ".")
    whole.items = [value] + [Item(p.group(), at + p.start(), at + p.end()) for p in re.finditer(r"\.[^.]+", fields)]
    return whole


def items_of(text, start, end):
    top = Item(None, start, end)
    stack, modules = [top], set(re.findall(r"^use \S+ as (\w+)$", text, re.M))
    code = re.sub(r"(^|\s)--(?=\s|$)[^\n]*", lambda m: m.group(1).ljust(len(m.group())), text[start:end])
    for m in TOKEN.finditer(code):
        word, a, b = m.group(), start + m.start(), start + m.end()
        if word in "({[":
            stack[-1].items.append(Item(None, a, b, word))
            stack.append(stack[-1].items[-1])
        elif word in ")}]" and len(stack) > 1:
            stack.pop().end = b
        elif len(word) > 1 and word.endswith(".") and not word.startswith("."):  # the dot of a lambda
            stack[-1].items += [Item(word[:-1], a, b - 1), Item(".", b - 1, b)]
        elif re.match(r"\.[^.]", word) and stack[-1].items and stack[-1].items[-1].end == a:
            stack[-1].items.append(projected(stack[-1].items.pop(), word, a))
        elif re.match(r"[^.]+\.[^.]", word) and word.split(".")[0] not in modules:
            at = word.index(".")
            stack[-1].items.append(projected(Item(word[:at], a, a + at), word[at:], a + at))
        else:
            stack[-1].items.append(Item(word, a, b))
    return top.items


def words_in(items):
    for i in items:
        yield from words_in(i.items) if i.bracket else [i.text]


def type_of(items):
    return " ".join(words_in(items))


def split_by(run, operator):
    parts = [[]]
    for i in run:
        if i.text == operator:
            parts.append([])
        else:
            parts[-1].append(i)
    return parts


def bind(item, kind, scope, constructors):
    """Puts the variables of a pattern into the scope, with their types where the type matched or the constructor tells them."""
    if not item.bracket:
        if re.fullmatch(r"[a-z][\w']*", item.text) and item.text not in constructors:
            scope[item.text] = kind
        return
    parts = split_by(item.items, "∷")
    for k, part in enumerate(parts):
        inner, head = "", part[0].text if part else ""
        if len(parts) > 1:
            inner = kind if k == len(parts) - 1 else kind[5:] if kind.startswith("List ") else ""
        taken = [kind[7:]] if head == "some" and kind.startswith("Option ") else constructors.get((head or "").rsplit(".", 1)[-1], ())[:-1]
        for i, known in zip(part, ["", *taken] if len(taken) == len(part) - 1 > 0 else [inner] * len(part)):
            bind(i, known, scope, constructors)


def declared(items):
    """The variables of groups such as (n m : ℕ), with their types."""
    groups = [split_by(i.items, ":") for i in items if i.bracket == "("]
    return {n.text: type_of(g[1]) for g in groups if len(g) > 1 for n in g[0] if n.text}


def definitions_of(text, constructors):
    """The definitions of a file, each with the clauses of its cases; of a record, the types of its fields."""
    heads, out, outer = [], [], {}
    for m in HEAD.finditer(text):
        field = heads and heads[-1].group(2) == "record" and m.group(3) and len(m.group(1)) > len(heads[-1].group(1))
        if not field or re.match(r" *(unfoldable|abbrev)", m.group()):
            heads.append(m)
    for m, end in zip(heads, [h.start() for h in heads[1:]] + [len(text)]):
        start, name, items = m.end(), m.group(3), items_of(text, m.end(), end)
        if m.group(4) == "module":
            outer = declared(items)
        if not name or m.group(2) == "data" or name == "mod":
            continue
        scope, clauses = dict(outer) if m.group(1) else {}, []
        if m.group(2) == "record":
            scope.update(declared(items))
            rows = [(start + r.start(), start + r.end()) for r in re.finditer(r"^ +pub \S+ :", text[start:end], re.M)]
            for (_, a), b in zip(rows, [s for s, _ in rows[1:]] + [end]):
                clauses.append((items_of(text, a, b), scope | declared(items_of(text, a, b))))
        else:
            rows = [start + r.start() for r in re.finditer(r"^%s%s(?= )" % (m.group(1), re.escape(name)), text[start:end], re.M)]
            typed = split_by(items_of(text, start, rows[0]) if rows else [], ":")[-1]
            kinds = [a for a in split_by(typed, "→") if not (a and a[0].bracket == "{")]
            for a, b in zip(rows, rows[1:] + [end]):
                left, *right = split_by(items_of(text, a, b), "=")
                mine = dict(scope)
                for pattern, kind in zip(left[1:], kinds):
                    bind(pattern, type_of(kind), mine, constructors)
                if right and right[0]:
                    clauses.append((items_of(text, right[0][0].start, b), mine))
        out.append(Definition(name, bool(m.group(2)), clauses))
    return out


def brackets_in(items):
    for i in items:
        yield from [i, *brackets_in(i.items)] if i.bracket else []


def expressions(right):
    """(role, run of items, item before the brackets around it) of each expression, label, pattern, binder and type."""
    before = {id(i): previous for group in [right, *(g.items for g in brackets_in(right))] for previous, i in zip([None] + group, group)}
    for bracket, items in [(None, right), *((g, g.items) for g in brackets_in(right))]:
        run, role = [], "binder" if bracket and bracket.bracket == "(" and any(i.text == ":" for i in items) else "expression"
        for item in items + [Item(";", 0, 0)]:
            word = item.text
            if not (word in ("λ", "let", "=", "↦", ";", ",", "|", "in") or word in (".", ":") and role == "binder"):
                run.append(item)
                continue
            label = word == "=" and role == "expression" and bracket and bracket.bracket == "{"
            if run:
                yield "pattern" if word == "↦" else "label" if label else role, run, before.get(id(bracket))
            run, role = [], {"λ": "binder", "let": "binder", ":": "type"}.get(word, "expression")


# ---- mutants

SWAPS = collections.defaultdict(list, {"*": ["+"], "*ℤ": ["+ℤ"], "^": ["*"]})  # names that take each other's place
for pair in "leb ltb, le_z lt_z, && ||, true false, min max, take drop, any all, + -, +ℤ -ℤ, / %, < ≤".split(", "):
    one, other = pair.split()
    SWAPS[one].append(other)
    SWAPS[other].append(one)
COMPARISONS = {"leb", "ltb", "le_z", "lt_z"}
SYMMETRIC = {"eqb", "same_point", "same_cell", "overlaps", "interiors_meet", "apart", "min", "max"}  # swapped arguments: the same
ORDERED = {"-", "-ℤ", "/", "%", "^", "++", "<", "≤"}  # operators whose operands change places
ARITHMETIC = {"+", "-", "*", "/", "%", "^"}  # operators between numbers that give a number
PARTS = (8, 9, 16, 32)  # of a number, so many of its lowest bits
LONGEST_LIST = 16  # the length of no list is tried beyond so many bits
TAKES = {f: ["ℕ", "ℕ", "Bool"] for f in ("leb", "ltb", "eqb")} | {f: ["ℕ", "ℕ", "ℕ"] for f in ("min", "max")}
TAKES |= {"suc": ["ℕ", "ℕ"], "pos": ["ℕ", "ℤ"], "length": ["", "ℕ"], "nat_abs": ["ℤ", "ℕ"], "get_or": ["", "ℕ", "", ""]}
TAKES |= {"take": ["ℕ", "", ""], "drop": ["ℕ", "", ""], "replicate": ["ℕ", "", ""], "set": ["", "ℕ", "", ""]}
NUMBERS = {"ℕ", "u8", "u16", "u32", "u64", "usize"}


class Mutant:
    def __init__(self, crate, file, line, definition, kind, text, shown):
        self.crate, self.file, self.line, self.definition = crate, file, line, definition
        self.kind, self.text, self.shown, self.verdict, self.where, self.passed = kind, text, shown, "", "", []
        self.key, self.dropped = (file, definition, shown), None  # dropped: the fields of a record, and the one left out
        self.keys = {self.key, (file, definition, re.sub(r"%% (%s)\)" % "|".join(str(2**k) for k in PARTS), "% 2^k)", shown))}

    def texts(self, root, crates):
        """The texts of these crates that it changes, by their paths."""
        own = os.path.join(root, "crates", self.file)
        found = {own: self.text}
        for part, ending, c in [(p, e, c) for c in crates for p, e in TEXTS if self.dropped]:
            for path in sources(ending, part, root, c):
                right = read(path)
                wrong = edited(right, rows_of_field(right, *self.dropped))
                if path != own and wrong != right:
                    found[path] = wrong
        return found

    def row(self):
        return "\t".join([*self.key, self.kind, self.verdict or "passes", self.where, " ".join(self.passed)])


class Names:
    """What the sources say of names: the next constructor or definition of the same type, records, Bool functions, numbers."""

    def __init__(self):
        self.after, self.records, self.variants = {}, [], {}
        self.constructors = dict.fromkeys(("zero", "true", "false", "none", "some"), ()) | {"suc": ["ℕ", "ℕ"]}
        self.bools, self.numbers, self.takes = COMPARISONS | {"eqb"}, set(), {}
        for path in sources(".antt", "specs"):
            text, same = read(path), collections.defaultdict(list)
            for m in re.finditer(r"^pub data (\S+).*\n((?: +.*\n)+)", text, re.M):
                for words, kind in re.findall(r"^ +([^:\n]*?) : (.*)$", m.group(2), re.M):
                    same[m.group(1), kind] += words.split()
                    self.constructors |= dict.fromkeys(words.split(), () if "(" in kind else kind.split(" → "))
            for m in re.finditer(r"^pub record (\S+).*\n((?: +.*\n)+)", text, re.M):
                self.records.append((m.group(1), re.findall(r"^ +pub (\S+) : (.*)$", m.group(2), re.M)))
            for name, kind in re.findall(r"^ *(?:unfoldable|abbrev) pub (\S+) : (.*)$", text, re.M):
                same[kind].append(name)
                self.takes[name] = [] if "(" in kind else re.sub(r"^\{[^}]*\} → ", "", kind).split(" → ")
                (self.bools if kind.endswith("→ Bool") else self.numbers if kind == "ℕ" else set()).add(name)
            for group in same.values():
                self.after.update({a: b for a, b in zip(group, group[1:] + group[:1]) if a != b})
        for path in sources(".rt", "src"):
            for m in re.finditer(r"^pub struct (\w+)[^{;]*\{([^}]*)\}", read(path), re.M):
                self.records.append((m.group(1), re.findall(r"pub (\w+): ([^,\n]*)", m.group(2))))
            for m in re.finditer(r"^pub enum (\w+)[^{;]*\{([^}]*)\}", read(path), re.M):
                self.variants[m.group(1)] = re.findall(r"^ +(\w+)(\(\w+\))?,", m.group(2), re.M)
                holds = lambda kind: ["ℕ" if kind[1:-1] in NUMBERS else kind[1:-1]] if kind else []
                self.constructors |= {v: [*holds(kind), m.group(1)] for v, kind in self.variants[m.group(1)]}
        self.number_fields = {n for _, fields in self.records for n, kind in fields if kind in NUMBERS}

    def fields_like(self, name, text):
        """The other fields of the same type, in the records that the text names."""
        records = [fields for record, fields in self.records if re.search(r"\b%s\b" % record, text)]
        return sorted({n for fields in records for n, kind in fields if n != name and (name, kind) in fields})

    def next_variant(self, word, text):
        """The next variant of the enum that the text has the word from, of those that hold the same."""
        *alias, last = word.rsplit(".", 1)
        line = r"declared\.(\w+)\.TheVariants" + (r" as %s$" % re.escape(alias[0]) if alias else r"\.\{[^}]*\b%s\b" % re.escape(last))
        found = re.search(line, text, re.M)
        variants = self.variants.get(found.group(1), []) if found else []
        alike = [v for v, kind in variants if (last, kind) in variants]
        return dict(zip(alike, alike[1:] + alike[:1])).get(last)

    def taken(self, name):
        """The types of what the name takes and, last, of what it gives; "" is unknown."""
        return self.takes.get(name) or self.constructors.get((name or "").rsplit(".", 1)[-1]) or TAKES.get(name) or [""]

    def alike(self, labels, one, other):
        """Whether two fields have the same type, in a record with these fields, if there is any."""
        records = [dict(fields) for _, fields in self.records if {n for n, _ in fields} == labels]
        return not records or any(kinds[one] == kinds[other] for kinds in records)


def bring(text, name, beside):
    """The text with the name brought in, by the use line that brings another. None where there is no such line."""
    if re.search(r"^ *(?:(?:unfoldable|abbrev) )?pub %s |^ +(?:\S+ )*%s (?:\S+ )*: " % ((re.escape(name),) * 2), text, re.M):
        return text
    lines = [(m, {w.strip().strip("◌") for w in m.group(1).split(",")}) for m in re.finditer(r"^use \S+\.\{([^}]*)\}", text, re.M)]
    if any(name in names for _, names in lines):
        return text
    written = "◌" + name + "◌" if name in OPERATORS else name
    ends = [m.end(1) for m, names in lines if beside in names]
    return text[: ends[0]] + ", " + written + text[ends[0] :] if ends else None


def edited(text, edits):
    for a, b, new in sorted(edits, reverse=True):
        text = text[:a] + new + text[b:]
    return text


def rows_of_field(text, fields, name):
    """The edits that leave the field out wherever a record with these fields is built."""
    code, found = re.sub(r"//[^\n]*", lambda m: " " * len(m.group()), text), []
    groups = list(brackets_in(items_of(code, 0, len(code)))) if re.search(r"\b%s =" % re.escape(name), text) else []
    for group in [g for g in groups if g.bracket == "{" and re.search(r"record\s*$", code[: g.start])]:
        rows = [r for r in split_by(group.items, ";") if r]
        if sorted(r[0].text or "" for r in rows) == sorted(fields):
            k = next(k for k, r in enumerate(rows) if r[0].text == name)
            found.append((rows[k][0].start, rows[k + 1][0].start, "") if k + 1 < len(rows) else (rows[k - 1][-1].end, rows[k][-1].end, ""))
    return found


def mutants_of(crate, path, names):
    text, out, seen = read(path), [], set()
    file = os.path.relpath(path, os.path.join(ROOT, "crates"))
    shown_before, one_line = collections.Counter(), lambda t: re.sub(r"\s+", " ", t).strip()
    span = lambda run: (run[0].start, run[-1].end)
    code = lambda run: text[run[0].start : run[-1].end]
    exchange = lambda p, q: [(*span(p), code(q)), (*span(q), code(p))]

    def add(kind, edits, need=None, beside=None, elsewhere=()):
        new = bring(edited(text, [*edits, *elsewhere]), need, beside) if need else edited(text, [*edits, *elsewhere])
        if new in (None, text) or new in seen:
            return False
        seen.add(new)
        a, b = min(e[0] for e in edits), max(e[1] for e in edits)
        lo, hi = max(text.rfind("\n", 0, a) + 1, a - 30), min((text.find("\n", b) + 1 or len(text) + 1) - 1, b + 12)
        lo = next((k for k in range(lo, a) if text[k] == " "), lo)
        shown = one_line(text[lo:hi]) + "  =>  " + one_line(edited(text[lo:hi], [(x - lo, y - lo, n) for x, y, n in edits]))
        shown_before[d.name, shown] += 1
        again = shown_before[d.name, shown]
        shown += f"  ({again})" if again > 1 else ""
        out.append(Mutant(crate, file, text.count("\n", 0, a) + 1, d.name, kind, new, shown))
        return True

    def change_words(run, scope, scoped):
        for item, following in zip(run, run[1:] + [None]):
            w, here = item.text or "", (item.start, item.end)
            for other in SWAPS[w]:
                add("name", [(*here, other)], other, w)
            if re.fullmatch(r"\d+", w):
                for n in {int(w) + 1, max(int(w) - 1, 0)}:
                    add("constant", [(*here, str(n))])
            if w in names.numbers or scope.get(w) == "ℕ":
                add("one more", [(*here, f"(suc {w})")], "suc", "ℕ")
            for field in names.fields_like(w[1:], text) if w.startswith(".") else ():
                add("field", [(*here, "." + field)])
            for v in sorted(scoped - {w}) if w in scoped else ():
                if scope.get(v, "") == scope.get(w, ""):
                    add("variable", [(*here, v)])
            last = w.rsplit(".", 1)[-1]
            new = last[:1].isupper() and names.next_variant(w, text) or names.after.get(last)
            if new and last not in scoped and not w.startswith("."):
                add("next of its type", [(*here, w[: len(w) - len(last)] + new)], *([new, w] if last == w else []))
            if w in ("suc", "not") and following:
                add("drop " + w, [(item.start, following.start, "")])

    def change_parts(run):
        either = split_by(run, "||")
        for parts in [either] + [split_by(p, "&&") for p in either]:
            if len(parts) > 1 and all(parts):
                for p, q in zip(parts, parts[1:]):
                    add("drop part", [(p[0].start, q[0].start, "")])
                add("drop part", [(parts[-2][-1].end, parts[-1][-1].end, "")])
        parts = split_by(run, "∷")
        if len(parts) > 1 and all(parts):
            for p, q in zip(parts, parts[1:-1]):
                add("swap elements", exchange(p, q))
            for p, q in zip(parts, parts[1:]):
                add("drop element", [(p[0].start, q[0].start, "")])
            add("double element", [(parts[-1][0].start,) * 2 + (code(parts[-2]) + " ∷ ",)])
        found = [i.text for i in run if i.text in OPERATORS]
        if len(found) == 1 and found[0] in ORDERED:
            add("swap operands", exchange(*split_by(run, found[0])))

    def change_call(call, scope, negated):
        head, arguments = call[0].text, call[1:]
        if head in names.bools and arguments and not negated:
            add("negate", [(*span(call), f"(not ({code(call)}))")], "not", "Bool")
        if head in ("cond", "refuse_if") and len(arguments) == 3:
            add("drop row", [(*span(call), code(arguments[2:]))])
            if head == "cond":
                add("swap rows", exchange(arguments[1:2], arguments[2:]))
            inner = arguments[2].items
            if len(inner) == 4 and inner[0].text == head:
                add("swap rows", exchange(arguments[:2], inner[1:3]))
                add("swap conditions", exchange(arguments[:1], inner[1:2]))
        elif head and head not in SYMMETRIC | {"elim", "record"}:
            taken = names.takes.get(head, [])
            for k, (p, q) in enumerate(zip(arguments, arguments[1:])):
                plain = "[" not in (p.bracket, q.bracket) and not any((i.text or "").startswith(".") for i in (p, q))
                if len(taken) > k + 2:
                    alike = taken[k] == taken[k + 1]
                else:
                    alike = p.bracket and q.bracket or head in COMPARISONS or p.text in scope and scope[p.text] == scope.get(q.text)
                if plain and alike and code([p]) != code([q]):
                    add("flip comparison" if head in COMPARISONS else "swap arguments", exchange([p], [q]))

    def is_number(run, scope):
        """Whether the run is known to be a number."""
        words = {i.text for i in run}
        if words & OPERATORS:
            return words & OPERATORS <= ARITHMETIC
        if len(run) == 1 and run[0].bracket:
            return run[0].bracket in ("(", ".") and bool(run[0].items) and is_number(run[0].items, scope)
        last, head = run[-1].text or "", run[0].text
        if last.startswith("."):
            return last[1:] in names.number_fields
        return scope.get(head) == "ℕ" if len(run) == 1 else names.taken(head)[-1] == "ℕ"

    def take_part(term, scoped):
        """Parts of the number that the term is, if it has a variable and is no successor, difference, quotient or remainder."""
        inner = term[0].items if len(term) == 1 and term[0].bracket in ("(", ".") else term
        words = {i.text for i in inner}
        if not scoped & set(words_in(inner)) or words & {"suc", "-", "/", "%", "λ", "let", "elim", "record"}:
            return
        written = f"({code(inner)})" if words & OPERATORS else code(inner)
        beside, first = re.search(r"^use Rattle\.std\.specs\.Prelude\.\{([^,}]*)", text, re.M), re.search(r"^use ", text, re.M).start()
        line = "use Rattle.std.specs.Prelude.{◌%◌}\n"
        brought = ("%", beside.group(1).strip("◌")) if beside else (None, None, [(first, first, line)])
        for k in PARTS:
            if inner[0].text != "length" or k <= LONGEST_LIST:
                add("part", [(*span(term), f"({written} % {2**k})")], *brought)

    def change_numbers(run, scope, scoped, is_result, is_argument):
        """Parts of its operands and arguments that are numbers, and of the whole run, unless it is an argument itself."""
        cuts = [-1] + [k for k, i in enumerate(run) if i.text in OPERATORS] + [len(run)]
        for a, b in zip(cuts, cuts[1:]):
            call = run[a + 1 : b]
            applied = [i for i in call if not (i.text or "").startswith(".")]
            arguments = [i for i in applied[1:] if i.bracket != "{"]
            taken = names.taken(applied[0].text if applied else "")
            for k, i in enumerate(arguments):
                if k < len(taken) - 1 and taken[k] == "ℕ" or is_number([i], scope):
                    take_part([i], scoped)
            beside = {run[k].text for k in (a, b) if 0 <= k < len(run)}
            if call and beside and (beside & (ARITHMETIC | {"<", "≤"}) or is_number(call, scope)):
                take_part(call, scoped)
        if is_result or not is_argument and is_number(run, scope):
            take_part(run, scoped)

    for d in definitions_of(text, names.constructors):
        for right, scope in d.clauses:
            runs = list(expressions(right))
            scoped = set(scope) | {w for role, run, _ in runs if role == "binder" for w in words_in(run)}
            bracketed = [g.items for g in brackets_in(right) if g.bracket in ("(", ".")]
            is_result = lambda run: not d.is_record and run == right and names.taken(d.name)[-1] == "ℕ"
            for run, before in [(run, before) for role, run, before in runs if role == "expression"]:
                change_words(run, scope, scoped)
                change_parts(run)
                change_numbers(run, scope, scoped, is_result(run), run in bracketed)
                cuts = [-1] + [k for k, i in enumerate(run) if i.text in OPERATORS] + [len(run)]
                for a, b in zip(cuts, cuts[1:]):
                    if b - a > 1:
                        change_call(run[a + 1 : b], scope, before is not None and before.text == "not")
            for group in brackets_in(right):
                fields = [p for p in split_by(group.items, ";") if len(p) > 2 and p[1].text == "="]
                labels = {p[0].text for p in fields}
                for k, p in enumerate(fields):
                    for q in [q for q in fields[k + 1 :] if code(q[2:]) != code(p[2:])]:
                        add("swap fields", exchange(p[:1], q[:1]))
                    for q in [q for q in fields[k + 1 :] + fields[:k] if names.alike(labels, p[0].text, q[0].text)][:1]:
                        add("copy field", [(*span(p[2:]), code(q[2:]))])
                cases = [split_by(p, "↦")[1:] for p in split_by(group.items, "|")]
                cases = [c[0] for c in cases if c and c[0]]
                for p, q in zip(cases, cases[1:]):
                    add("swap cases", exchange(p, q))
        for (p, here), (q, there) in zip(d.clauses, d.clauses[1:]) if not d.is_record else ():
            if not set(words_in(p)) & (set(here) - set(there)) | set(words_in(q)) & (set(there) - set(here)):
                add("swap cases", exchange(p, q))
        for stated in re.finditer(r"^pub record %s \(.*\n((?: +.*\n)+)" % re.escape(d.name), text, re.M) if d.is_record else ():
            rows = [(m.group(1), stated.start(1) + m.start()) for m in re.finditer(r"^ +pub (\S+) :", stated.group(1), re.M)]
            fields = [name for name, _ in rows]
            for (name, a), b in zip(rows, [start for _, start in rows[1:]] + [stated.end()]):
                if len(rows) > 1 and add("drop field", [(a, b, "")], elsewhere=rows_of_field(text, fields, name)):
                    out[-1].dropped = (fields, name)
    return out


# ---- the repository


def read(path):
    with open(path, encoding="utf-8") as f:
        return f.read()


def write(path, text):
    with open(path + ".new", "w", encoding="utf-8") as f:
        f.write(text)
    os.replace(path + ".new", path)


def sources(ending, part, root=ROOT, crate=""):
    for folder, folders, files in os.walk(os.path.join(root, "crates", crate)):
        folders.sort()
        if f"{os.sep}{part}{os.sep}" in folder + os.sep:
            yield from (os.path.join(folder, f) for f in sorted(files) if f.endswith(ending))


def below(crates, name):
    """What a crate depends on, by any way."""
    found, more = set(), {name}
    while more:
        more = {d for c in more for d in crates.get(c, ())} - found
        found |= more
    return found


class Reach:
    """Which crates name a definition, or a definition that is made of it."""

    def __init__(self, root, crates):
        self.named, self.crates = {}, crates
        self.made_of = made_of(read(p) for c in crates for p in sources(".antt", "specs", root, c))
        for c in crates:
            self.named[c] = set().union(*(words_of(read(p)) for part, ending in TEXTS for p in sources(ending, part, root, c)))

    def above(self, crate, name):
        known, more = {name}, {name}
        while more:
            more = {d for d, ws in self.made_of.items() if d not in known and ws & more}
            known |= more
        return [c for c in self.crates if crate in below(self.crates, c) and self.named[c] & known]


def words_of(text):
    return set(re.findall(r"[^\s()\[\]{};,.|λ]+", re.sub(r"(^|\s)--\s.*", "", text)))


def examples_of(text, names):
    """A file of examples with those only that have one of the names, and with the rest of what it has; None is every name. An
    example is shown by computing. Lines keep their numbers."""
    left = lambda b: names is None or words_of(b) & names or not re.search(r"= \(?refl[^\n]*\s*$", b)
    return "\n\n".join(b if left(b) else "\n" * b.count("\n") for b in text.split("\n\n"))


def made_of(texts):
    """Of each definition in the texts, the words that it is made of."""
    made = collections.defaultdict(set)
    for text in texts:
        heads = [m for m in HEAD.finditer(text) if m.group(3)]
        for m, end in zip(heads, [h.start() for h in heads[1:]] + [len(text)]):
            made[m.group(3)] |= words_of(text[m.end() : end])
    return made


class Place:
    """A copy of the repository, its libraries proved, in which definitions are made wrong and right again."""

    def __init__(self, root, crates):
        self.root, self.crates, self.sure = root, crates, set()  # sure: proved as they stand
        self.seconds, self.mixed = {}, {}  # what a check takes as things stand, and what fails in a right copy

    def check(self, crate, limit):
        """None when the crate is proved; else what was printed, 'does not end' or 'no verdict'. rt builds what stands below it first,
        where that has changed. The limits are of each of its processes."""
        words = ["sh", "-c", f'ulimit -S -t {limit:.0f} && ulimit -d {MEMORY} && exec "$@"', "sh", "rt", "check", "--jobs", "1"]
        p = subprocess.run(words, cwd=os.path.join(self.root, "crates", crate), stdin=subprocess.DEVNULL, stdout=subprocess.PIPE,
                           stderr=subprocess.STDOUT, text=True, errors="replace")  # fmt: skip
        return None if p.returncode == 0 else p.stdout if p.returncode == 1 else "does not end" if p.returncode in STOPPED else "no verdict"

    def most(self, what, check):
        """The seconds that a check may take, from what it takes as things stand; `check` does that, the first time."""
        if what not in self.seconds:
            spent = lambda: sum(resource.getrusage(resource.RUSAGE_CHILDREN)[:2])
            before = spent()
            check()
            self.seconds[what] = spent() - before
        return max(LEAST, TIMES * self.seconds[what])

    def prove(self, crates):
        for c in crates:
            if self.check(c, LONGEST) is not None:
                sys.exit(f"the repository as it stands is not proved: {c}")

    def anew(self, file):
        """A check of a crate as it stands, but for a file of definitions that has one more, so that what names the file is checked again."""
        path = os.path.join(self.root, "crates", file)
        right = read(path)
        write(path, right + "\nabbrev pub OneMore : Type 1\nOneMore = Type 0\n")
        self.check(file.split("/")[0], LONGEST)
        write(path, right)

    def screen(self, batch):
        """The examples that name their definitions on mutants of one file, in one check: each mutant has a copy of its file, of
        the files made of it and of those examples; where none names it, of those that name a definition made of it. An example
        that fails in a right copy mixes copies with laws, and shows nothing."""
        crate, file = batch[0].crate, batch[0].file
        limit = self.most(file, lambda: self.mixed.update({file: self.copied(crate, file, [None], LONGEST)[1][0]}))
        printed, failed = self.copied(crate, file, batch, max(limit, 2 * len(batch)))
        if printed in ("does not end", "no verdict") and len(batch) > 1:
            for m in batch:
                self.screen([m])
        elif printed == "does not end":
            batch[0].verdict, batch[0].where = printed, crate + "/proofs"
        for k, m in enumerate(batch):
            new = [f for f in failed[k] if f not in self.mixed[file]]
            if new:
                invalid = any(f[0] for f in new)
                m.verdict, m.where = ("invalid", "") if invalid else ("killed", new[0][1])

    def copied(self, crate, file, batch, limit):
        """What a check prints with a copy for each mutant, None for a right one, and what fails in each copy."""
        texts = {p: read(p) for part in ("specs", "proofs") for p in sources(".antt", part, self.root, crate)}
        module, folder = lambda p: os.path.basename(p)[:-5], lambda p: os.path.dirname(p)
        names = lambda ps: re.compile(r"(Rattle\.%s\.(?:specs|proofs)\.)(%s)\b" % (crate, "|".join(map(module, ps))))
        right, made, failed = os.path.join(self.root, "crates", file), [], collections.defaultdict(list)
        copied = [right]
        for _ in texts:
            may = [p for p in texts if folder(p) == folder(right) or COPIED.search(p)]
            copied += [p for p in may if p not in copied and names(copied).search(texts[p])]
        made_there = made_of(texts[p] for p in texts if folder(p) == folder(right))
        for k, m in enumerate(batch):
            needed, wanted, more = [], set(), {m.definition} if m else None
            while not needed and more != wanted:
                wanted = more
                shown = {p: examples_of(texts[p], wanted) for p in copied if EXAMPLES.search(p)}
                needed = [p for p in shown if shown[p] != examples_of(texts[p], set())]
                more = wanted and wanted | {d for d in made_there if made_there[d] & wanted}
            needed.append(right)
            for _ in texts:
                needed += [p for p in copied if p not in needed and any(names([p]).search(texts[q]) for q in needed)]
            for p in needed:
                made.append(os.path.join(folder(p), f"Copy{k}{module(p)}.antt"))
                write(made[-1], names(copied).sub(r"\g<1>Copy%d\2" % k, m.text if m and p == right else shown.get(p, texts[p])))
        nodes = {os.path.join(folder(p), "Lib.antt") for p in made}
        for node in nodes:
            write(node, texts[node] + "".join(f"pub mod {module(p)}\n" for p in made if folder(p) == folder(node)))
        printed = self.check(crate, limit)
        for p in made:
            os.remove(p)
        for node in nodes:
            write(node, texts[node])
        error = r"^(?:\./)?(specs|proofs)/Copy(\d+)(\S+?:\d+):\d+: error: (?:`([^`]*)`)?"
        for part, k, place, name in re.findall(error, printed or "", re.M):
            failed[int(k)].append((part == "specs", f"{crate}/{part}/{place} {name}"))
        return printed, failed

    def judge(self, m, above):
        """The mutant on its own crate; or, given the crates above, on those."""
        limit = self.most(f"all of {m.file}", lambda: self.anew(m.file)) if above is None else LONGEST
        wrong = m.texts(self.root, [m.crate, *(above or ())])
        right = {path: read(path) for path in wrong}
        for path in wrong:
            write(path, wrong[path])
        for c in above or [m.crate]:
            if not m.verdict:
                self.conclude(m, c, self.check(c, limit))
        for path in right:
            write(path, right[path])
        refused = m.where.split("/")[0]
        if above and m.verdict and refused not in self.sure:
            if self.check(refused, LONGEST) is not None:
                sys.exit(f"the repository as it stands is not proved: {refused}")
            self.sure.add(refused)

    def conclude(self, m, crate, printed):
        if printed is None:
            m.passed += [crate] if crate not in m.passed else []
        elif printed in ("does not end", "no verdict"):
            m.verdict, m.where = printed if printed == "does not end" else "undecided", crate
        else:
            between = re.search(r"^rt: the library (\w+) did not build", printed, re.M)
            crate = between.group(1) if between else crate
            errors = re.findall(r"^(?:\./)?(\S+?:\d+):\d+: error: (?:`([^`]*)`)?", printed, re.M)
            found = [f"{crate}/{f} {name}" for f, name in errors]
            invalid = crate == m.crate and any(f.startswith(crate + "/specs/") for f in found)
            examples = [f for f in found if EXAMPLES.search(f)]
            m.verdict, m.where = ("invalid", "") if invalid else ("killed", (examples + found + [crate])[0])


def prepare(work, crates, chosen, jobs):
    """The copies, with the chosen crates proved; rt begins with what it kept of them elsewhere on the machine."""
    first = os.path.join(work, "0")
    copy(first, list(crates), {})
    Place(first, crates).prove(chosen)
    for k in range(1, jobs):
        shutil.copytree(first, os.path.join(work, str(k)))
    return [Place(os.path.join(work, str(k)), crates) for k in range(jobs)]


def add_cases(work, places, crates):
    """The crates with those of the executed cases."""
    root, made = os.path.join(work, "cases"), os.path.join(work, "definitions")
    for part in ("crates", "tests", "model"):
        shutil.copytree(os.path.join(ROOT, part), os.path.join(root, part), ignore=shutil.ignore_patterns("out"))
    shutil.copyfile(os.path.join(ROOT, "crates.txt"), os.path.join(root, "crates.txt"))
    os.makedirs(os.path.join(root, "target", "model"))
    model = ["rustc", "--edition", "2021", "-O", "-o", "target/model/model", "model/main.rs"]
    for words in (model, [sys.executable, "tests/definitions.py", *CASES, made]):
        if subprocess.run(words, cwd=root, stdout=subprocess.DEVNULL).returncode:
            sys.exit("the executed cases do not agree with the model on the repository as it stands")
    stand_on = needs(made)
    more = crates | {t: stand_on[t] for t in TRIALS}
    for p in places:
        for t in TRIALS:
            shutil.copytree(os.path.join(made, "crates", t), os.path.join(p.root, "crates", t), ignore=shutil.ignore_patterns("out"))
        lines = "".join(f"{t}: {' '.join(stand_on[t])}\n" for t in TRIALS)
        write(os.path.join(p.root, "crates.txt"), read(os.path.join(p.root, "crates.txt")) + lines)
        p.crates = more
    return more


# ---- the run


class Run:
    def __init__(self, out, minutes):
        self.began, self.out, self.judged = time.time(), out, []
        self.until, self.lock = self.began + 60 * minutes, threading.Lock()
        self.others = []  # rows of the file about mutants that are not chosen now

    def say(self, text):
        print(f"[{time.time() - self.began:.0f} s] {text}", flush=True)

    def save(self):
        if self.out:
            head = "file\tdefinition\tmutant\tkind\tverdict\twhere\tpassed"
            write(self.out, "\n".join([head, *self.others] + [m.row() for m in self.judged]) + "\n")

    def each(self, step, places, batches, work):
        """Does the work on every batch of mutants, at a place that is free, and says how it goes on."""
        free, start, done, total = queue.Queue(), time.time(), [], sum(map(len, batches))
        for p in places:
            free.put(p)

        def one(batch):
            if time.time() < self.until:
                place = free.get()
                try:
                    work(place, batch)
                finally:
                    free.put(place)
                with self.lock:
                    for m in batch:
                        done.append(m)
                        left = (time.time() - start) / len(done) * (total - len(done))
                        verdict = f"{m.verdict} {m.where}" if m.verdict else "passes " + " ".join(m.passed)
                        went = f"{step}, {len(done)} of {total}, about {left:.0f} s left"
                        self.say(f"{went}: {m.file}:{m.line} {m.definition}: {m.shown}: {verdict}")
                    self.judged += [m for m in batch if m.verdict]
                    self.save()

        with concurrent.futures.ThreadPoolExecutor(len(places)) as pool:
            try:
                list(pool.map(one, batches))
            except BaseException:  # an interruption: what waits is not begun
                self.until = 0
                raise
        return [m for m in done if not m.verdict]


def main():
    o = argparse.ArgumentParser(description=__doc__, formatter_class=argparse.RawDescriptionHelpFormatter, usage=argparse.SUPPRESS)
    for name in ("--crates", "--only", "--out"):
        o.add_argument(name, default="")
    o.add_argument("--max", type=int)
    o.add_argument("--jobs", type=int, default=1, choices=(1, 2))
    o.add_argument("--minutes", type=float, default=1e6)
    for name in ("--resume", "--list"):
        o.add_argument(name, action="store_true")
    o = o.parse_args()
    os.nice(10)
    signal.signal(signal.SIGTERM, lambda *_: sys.exit(1))  # the copies are removed
    run, names = Run(o.out, o.minutes), Names()
    crates = {c: d for c, d in needs().items() if not is_program(c)}
    every = [m for c in crates for p in sources(".antt", "specs", ROOT, c) for m in mutants_of(c, p, names)]
    same = {tuple(l.split("\t")[:3]) for l in read(SAME).split("\n") if l and not l.startswith("#")}
    lost = same - {key for m in every for key in m.keys}
    if lost:
        sys.exit("tests/mutants-same.tsv has rows that name no mutant:\n" + "\n".join("\t".join(k) for k in sorted(lost)))
    chosen = o.crates.split(",") if o.crates else list(crates)
    if not set(chosen) <= set(crates):
        sys.exit("no such library: " + " ".join(set(chosen) - set(crates)))
    mutants = [m for m in every if m.crate in chosen and re.search(o.only, f"{m.file} {m.definition} {m.kind}")]
    known = [m for m in mutants if m.keys & same]
    definitions = {(m.file, m.definition) for m in mutants}
    run.say(f"{len(mutants)} mutants of {len(definitions)} definitions, {len(known)} known to be the same function")
    if o.list:
        print("\n".join(f"{m.file}\t{m.definition}\t{m.shown}\t{m.kind}" for m in mutants))
        return
    rows = [l.split("\t") for l in read(o.out).split("\n")[1:] if l] if o.resume and os.path.exists(o.out) else []
    chosen_now, all_keys = {m.key for m in mutants}, {m.key for m in every}
    run.others = ["\t".join(r) for r in rows if tuple(r[:3]) in all_keys - chosen_now]
    earlier = {tuple(r[:3]): r for r in rows if r[4] in (*REFUSED, "invalid")}
    for m in mutants:
        if m.key in earlier and not m.keys & same:
            m.verdict, m.where = earlier[m.key][4:6]
            run.judged.append(m)
    todo = [m for m in mutants if not m.verdict and not m.keys & same]
    if o.max is not None and o.max < len(todo):
        todo = [todo[k] for k in sorted(random.Random(1).sample(range(len(todo)), o.max))]
    with tempfile.TemporaryDirectory(prefix="mutants-") as work:
        places = prepare(work, crates, [c for c in chosen if any(m.crate == c for m in todo)], o.jobs)
        run.say(f"the crates are proved as they stand; {len(todo)} mutants to judge")
        shown = [c for c in chosen if any(EXAMPLES.search(p) for p in sources(".antt", "proofs", ROOT, c))]
        batches, left = [], [m for m in todo if m.crate not in shown or m.dropped]
        for m in [m for m in todo if m.crate in shown and not m.dropped]:
            if not batches or batches[-1][0].file != m.file or len(batches[-1]) == AT_ONCE:
                batches.append([])
            batches[-1].append(m)
        left += run.each("examples", places, batches, lambda p, batch: p.screen(batch))
        left = run.each("own crate", places, [[m] for m in left], lambda p, batch: p.judge(batch[0], None))
        reach, order = Reach(places[0].root, crates), list(crates)
        for p in places if left else ():
            p.prove(list(crates))
        cut = order.index("spec_log") + 1
        for step, some in [("crates above", order), ("executed cases", TRIALS)]:
            if step == "executed cases" and any(not m.verdict and m.crate in order[:cut] for m in left) and time.time() < run.until:
                run.say("preparing the executed cases")
                reach = Reach(places[0].root, add_cases(work, places, crates))
            tried = lambda m: [c for c in reach.above(m.crate, m.definition) if c in some]
            run.each(step, places, [[m] for m in left if not m.verdict and tried(m)], lambda p, batch: p.judge(batch[0], tried(batch[0])))
        for m in [m for m in left if not m.verdict]:
            m.verdict = "survived" if time.time() < run.until else "undecided"
            run.judged.append(m)
    run.save()
    print(f"\n{len(run.judged)} of {len(mutants)} judged in {time.time() - run.began:.0f} s, {len(known)} known to be the same function")
    print("by crate: judged, invalid, killed by its own examples, by its own laws, above, does not end, undecided, survived")
    for c in crates:
        mine = [m for m in run.judged if m.crate == c]
        count = collections.Counter(m.verdict for m in mine)
        own = [m for m in mine if m.verdict == "killed" and m.where.split("/")[0] == c]
        shown = sum(bool(EXAMPLES.search(m.where)) for m in own)
        if mine:
            others = [count[v] for v in ("does not end", "undecided", "survived")]
            ways = [count["invalid"], shown, len(own) - shown, count["killed"] - len(own), *others]
            print(f"  {c}: {len(mine)}, " + ", ".join(map(str, ways)))
    left = [m for m in run.judged if m.verdict in ("survived", "undecided")]
    for m in left:
        print(f"{m.verdict}: {m.file}:{m.line} {m.definition} ({m.kind}): {m.shown}")
    sys.exit(1 if left else 0)


if __name__ == "__main__":
    try:
        main()
        sys.stdout.flush()
    except BrokenPipeError:  # who reads has seen enough
        os.dup2(os.open(os.devnull, os.O_WRONLY), sys.stdout.fileno())
        sys.exit(141)
