#!/usr/bin/env python3
"""Checks docs/CLAIMS.md, which says how it is read: the demands, document 01 and document 02, sentence by sentence, each with
what says it and what holds it. Refused are:

- a changed word: each row has the hash of its sentence, and the words of each part have the digest of tests/PART.sha256;
- a missing row: ids count from 1, and the digest is that of the whole text;
- a number of rows, or of rows that are later, that is not the one that the part says;
- an empty column in a row that is not later;
- a name that the file does not define. Logic defines by a signature, a record or data declaration, a field or a constructor, at
  the top or inside a module, record or data, never local to a proof; code by fn, struct, enum or const; Python by def or class; C by a function's first line; a
  case by its `name:` line; a page by a heading or the bold words that start a paragraph;
- more than one definition under `said by`, a definition or a page under `held by`, a name twice in a row;
- a row that its kind does not fit: a definition is said by one, a contract by code; a law or theorem is held by a proved fact, an
  example by a computed one, a test by a must-fail edit or a test;
- an `as` to a row that is not there or is later, or round in a circle;
- code in a row where nothing runs yet;
- a changed row whose successor is missing, is later, or belongs to another request;
- a request that is carried before an earlier one, and one without its note, docs/landings/NN-NAME.md with the headings of LANDING;
- a public call that no contract row says, that has no `ensures`, or that has a `requires`; an exported function that has one.

usage: claims.py [PART=TEXT]..    also compares the parts demands, document-01, document-02 with their original texts"""

import collections
import glob
import hashlib
import os
import re
import sys

ROOT = os.path.dirname(os.path.dirname(os.path.abspath(__file__)))
PAGE = "docs/CLAIMS.md"
HEADER = ["id", "hash", "sentence", "kind", "said by", "held by"]
# each part of the page: the name of its text, and what its ids look like, a group and a number in it
PARTS = {
    "The three demands": ("demands", r"(D[1-3])\.(\d+)"),
    "Document 01": ("document-01", r"([A-Z])(\d+)"),
    "Document 02": ("document-02", r"(Q\d+)\.(\d+)"),
}
KINDS = "definition law theorem example contract test form later".split()
KIND = re.compile(r"(\w+)(, nothing runs yet)?(?:, changed by request (\d+) \((Q\d+\.\d+)\))?")
# `name`, `name` in `path`, or the path of an edit
ITEM = re.compile(r"(?:(`[^`]+`(?:, `[^`]+`)*) in )?`([^`]+)`")
AS = re.compile(r"as ([A-Z]\d+(?:\.\d+)?)")
# the files of computed examples
EXAMPLES = re.compile(r"\w*Examples\.antt|MarkedCases\.antt")
Row = collections.namedtuple("Row", "line part id hash sentence kind quiet request successor said held")
faults = []


def read(path):
    with open(os.path.join(ROOT, path), encoding="utf-8") as f:
        return f.read()


def digest(text):
    return hashlib.sha256(text.encode("utf-8")).hexdigest()


# ---- the page


def row(number, part, cells):
    name, mark, sentence, kind, said, held = cells
    found = KIND.fullmatch(kind)
    if not found or found.group(1) not in KINDS or (found.group(1) == "later" and kind != "later"):
        faults.append(f"line {number}, {name}: no such kind: {kind}")
        found = KIND.fullmatch("form")
    return Row(number, part, name, mark, sentence, found.group(1), bool(found.group(2)), found.group(3), found.group(4), said, held)


def page():
    """The rows by id in their order, and how many rows and later ones each part says to have."""
    rows, said, part = {}, {}, None
    for number, line in enumerate(read(PAGE).split("\n"), 1):
        if line.startswith("## "):
            part = line[3:].strip()
            if part not in PARTS:
                faults.append(f"line {number}: no such part: {part}")
        count = re.match(r"(\d+) rows, (\d+) later\b", line)
        if count:
            said.setdefault(part, []).append((int(count.group(1)), int(count.group(2))))
        if not line.startswith("|") or re.fullmatch(r"[|-]+", line):
            continue
        cells = [c.strip() for c in re.split(r"(?<!\\)\|", line)]
        if cells[0] or cells[-1] or len(cells) != len(HEADER) + 2 or part not in PARTS:
            faults.append(f"line {number}: not a row of {len(HEADER)} cells in a part")
        elif cells[1:-1] != HEADER:
            if cells[1] in rows:
                faults.append(f"line {number}: the id {cells[1]} repeats")
            rows[cells[1]] = row(number, part, cells[1:-1])
    return rows, said


# ---- where names are defined, and as what


def in_logic(path, text):
    """The names that a file of the logic declares. A line further in counts when the line that it stands under, the nearest
    one above that is less far in, opens a module, a record or a data declaration. In proofs/, a signature that nothing opens is
    a fact."""
    names, above = {}, []
    plain = "fact" if "/proofs/" in path else "definition"
    for line in text.split("\n"):
        line = re.sub(r"(^|\s)--(\s.*|$)", "", line).rstrip()
        bare = line.lstrip()
        if not bare:
            continue
        depth = len(line) - len(bare)
        while above and above[-1][0] >= depth:
            above.pop()
        if all(opens for _, opens, _ in above):
            head = re.match(r"(?:(?:pub|unfoldable|abbrev|record|data) )*", bare).group(0)
            # names, then a telescope, then a colon of its own
            found = re.match(r"([^\s(){};:=→λ]+(?: [^\s(){};:=→λ]+)*)((?: (?:\{[^{}]*\}|\([^()]*\)))*) :(?: |$)", bare[len(head) :])
            given = re.search(r"\b(unfoldable|abbrev|record|data) ", head) or any(data for _, _, data in above)
            if found:
                names.update(dict.fromkeys(found.group(1).split(), "definition" if given else plain))
            elif re.search(r"\b(record|data) ", head):
                names[bare[len(head) :].split()[0]] = "definition"
        opens = re.match(r"(?:pub )?(module|record|data) ", bare)
        above.append((depth, opens is not None, opens is not None and opens.group(1) != "module"))
    return names


def in_code(path, text):
    text = re.sub(r"//.*", "", text)
    found = re.findall(r'^\s*(?:pub )?(?:extern "C" )?(?:ghost )?(fn|struct|enum|const) (\w+)', text, re.M)
    run = "test" if path.startswith("crates/test_") else "contract"
    return {name: run if word == "fn" else "definition" for word, name in found}


def defined(path):
    """The names that a file defines, each with what it is."""
    end, text = os.path.splitext(path)[1], read(path)
    if end == ".antt":
        return in_logic(path, text)
    if end == ".rt":
        return in_code(path, text)
    if end == ".py":
        return dict.fromkeys(re.findall(r"^\s*(?:def|class) (\w+)", text, re.M), "test")
    if end == ".c":
        return dict.fromkeys(re.findall(r"^\w[\w *]*?\b(\w+)\([^;{}]*\) \{$", text, re.M), "tool")
    if end == ".txt":
        return dict.fromkeys(re.findall(r"^name: (.+)$", text, re.M), "test")
    if end == ".md":
        heads = re.findall(r"^#+ (.+?)\s*$", text, re.M)
        return dict.fromkeys(heads + re.findall(r"^(?:- |\d+\. |\| )?\*\*([^*]+?)[.:]?\*\*", text, re.M), "page")
    return {}


# ---- what a row cites


def cited(label, cell):
    """What a cell names: the name, its file, and what it is."""
    found = []
    for item in cell.split("; "):
        parts = ITEM.fullmatch(item)
        if not parts:
            faults.append(f"{label}: names nothing: {item!r}")
            continue
        names, path = parts.groups()
        if not os.path.isfile(os.path.join(ROOT, path)):
            faults.append(f"{label}: no file {path}")
        elif path.endswith(".edit") or names is None:
            if names is not None or not re.fullmatch(r"crates/\w+/must-fail/\w+\.edit", path):
                faults.append(f"{label}: an edit goes by its path alone, nothing else does: {item}")
            found.append((path, path, "edit"))
        else:
            known = defined(path)
            for name in re.findall(r"`([^`]+)`", names):
                if name not in known:
                    faults.append(f"{label}: {name} is not defined in {path}")
                found.append((name, path, known.get(name, "unknown")))
    return found


def followed(rows, row, column):
    """The cell of a row, behind all `as`."""
    seen = []
    cell = getattr(row, column)
    while AS.fullmatch(cell):
        to = AS.fullmatch(cell).group(1)
        if to in seen or to == row.id:
            faults.append(f"line {row.line}, {row.id}: `{column} by` goes round in a circle at {to}")
            return ""
        if to not in rows or rows[to].kind == "later":
            faults.append(f"line {row.line}, {row.id}: `{column} by` leads to {to}, which is not there or later")
            return ""
        seen.append(to)
        cell = getattr(rows[to], column)
    return cell


def fits(label, row, said, held):
    """What is cited fits its column and the row's kind."""
    kinds, holds = [k for _, _, k in said], [k for _, _, k in held]
    if len(said) > 1 and not set(kinds) <= {"contract", "test"}:
        faults.append(f"{label}: said by more than one definition")
    if "fact" in kinds or "edit" in kinds:
        faults.append(f"{label}: said by a fact or an edit")
    for name, _, kind in held:
        if kind in ("definition", "page"):
            faults.append(f"{label}: {name} holds nothing: it is a {kind}")
    twice = [name for (name, _), n in collections.Counter((n, p) for n, p, _ in said + held).items() if n > 1]
    if twice:
        faults.append(f"{label}: cited twice: {', '.join(twice)}")
    if row.quiet:
        for name, path, _ in said + held:
            if path.endswith(".rt"):
                faults.append(f"{label}: nothing runs yet, and {name} in {path} is code")
    computed = [EXAMPLES.fullmatch(os.path.basename(path)) is not None for _, path, kind in held if kind == "fact"]
    right = {
        "definition": "definition" in kinds,
        "contract": set(kinds) == {"contract"},
        "law": False in computed,
        "theorem": False in computed,
        "example": True in computed,
        "test": "edit" in holds or "test" in holds,
        "form": True,
    }
    if "unknown" not in kinds + holds and not right[row.kind]:
        faults.append(f"{label}: what it cites makes no {row.kind}")


def carried(rows):
    """Every row's columns; the contracts that the contract rows say."""
    said_calls = set()
    for r in rows.values():
        label = f"line {r.line}, {r.id}"
        if r.kind == "later":
            continue
        if not r.said or not r.held:
            faults.append(f"{label}: not later, and an empty column")
            continue
        cells = [followed(rows, r, "said"), followed(rows, r, "held")]
        if "" in cells:
            continue
        said, held = [cited(label, cell) for cell in cells]
        fits(label, r, said, held)
        if r.kind == "contract":
            said_calls |= {(name, path) for name, path, _ in said}
        if r.successor:
            to = rows.get(r.successor)
            if to is None or to.kind == "later" or not r.successor.startswith(f"Q{r.request}."):
                faults.append(f"{label}: {r.successor} is missing, later or not of request {r.request}")
    return said_calls


# ---- public calls and exported functions


def functions(path, opening):
    """The functions of a file that open so, each with its text."""
    code = re.sub(r"//.*", "", read(path))
    for found in re.finditer(rf"^( *){opening}fn (\w+).*?^\1}}", code, re.M | re.S):
        yield found.group(2), found.group(0)


def public_calls(said_calls):
    """Every public call is said by a contract row and has a contract that asks nothing; nor does an exported function's."""
    paths = sorted(glob.glob("crates/*/src/**/*.rt", root_dir=ROOT, recursive=True))
    public = [path for path in paths if re.fullmatch(r"crates/call_\w+/src/lib\.rt", path)]
    calls = [(path, name, text) for path in public for name, text in functions(path, "pub ")]
    for path, name, text in calls:
        if (name, path) not in said_calls:
            faults.append(f"{name} in {path}: a public call, and no contract row says it")
        if not re.search(r"\bensures\b", text):
            faults.append(f"{name} in {path}: a public call without a contract")
    exported = [(path, name, text) for path in paths for name, text in functions(path, '(?:pub )?extern "C" ')]
    for path, name, text in calls + exported:
        if re.search(r"\brequires\b", text):
            faults.append(f"{name} in {path}: asks something of its caller")
    return len(calls)


# ---- the landings

# what the note of a landing has: the check's time before and after, what moved and what stayed
LANDING = ["Time of the check", "Moved", "Stayed"]


def landings(rows):
    """How many requests are carried: the first ones, each with its note and no other. A note says what moved and stayed of
    definitions, promises and proofs."""
    later = sorted({int(r.id[1:].split(".")[0]) for r in rows if r.kind == "later" and not r.id.startswith("Q0.")})
    requests = sorted({int(r.id[1:].split(".")[0]) for r in rows} - {0})
    done = [k for k in requests if k not in later]
    if done != requests[: len(done)]:
        faults.append(f"Document 02: requests {done} are carried, and they come in their order")
    notes = sorted(glob.glob("docs/landings/*", root_dir=ROOT))
    numbers = [re.fullmatch(r"docs/landings/(\d\d)-[a-z-]+\.md", note) for note in notes]
    if [found and int(found.group(1)) for found in numbers] != done:
        faults.append(f"docs/landings: notes {notes} for the requests {done}")
    for note in notes:
        text = read(note)
        headings = re.findall(r"^## (.*)$", text, re.M)
        missing = [h for h in LANDING if h not in headings]
        missing += [f"{part} under {h}" for h in LANDING[1:] for part in ("Definitions", "Promises", "Proofs")
                    if not re.search(rf"^## {h}\n(?:(?!## ).*\n)*?\*\*{part}", text, re.M)]
        if missing:
            faults.append(f"{note}: no {', no '.join(missing)}")
    return len(done)


# ---- the whole texts


def words(text):
    """A text on one line, without its bars."""
    return " ".join(text.replace("|", " ").split())


def bare(part, text):
    """The words of a text, without its headings, titles, fences, rules and list marks; of the demands the three alone."""
    lines = [re.sub(r"^> ?", "", l) for l in text.split("\n")]
    if part == "demands":
        lines = [l for l in lines if re.match(r"[1-3]\. ", l)]
    lines = [re.sub(r"^(- |\d+\. |\*\*[^*]+\*\* )", "", l) for l in lines if not re.match(r"#|```|\|-", l)]
    return words("\n".join(lines))


def whole(title, rows, text):
    """A part's rows are its text, whole and in its order."""
    part = PARTS[title][0]
    quoted = words("\n".join(r.sentence.replace("\\|", "|") for r in rows))
    right = read(f"tests/{part}.sha256").split()[0]
    if digest(quoted) != right:
        faults.append(f"{title}: the rows are not the text, whole and in its order: another digest than tests/{part}.sha256")
    if text is not None:
        original = bare(part, text)
        if digest(original) != right:
            faults.append(f"{title}: another text is given: another digest than tests/{part}.sha256")
        if quoted != original:
            k = len(os.path.commonprefix([quoted, original]))
            parted = [t[max(0, k - 40) : k + 40] for t in (quoted, original)]
            faults.append(f"{title}: not the text from here on: {parted[0]!r}, {parted[1]!r}")


def counted(title, rows, said):
    """Ids count from 1 in each group, and the part says how many rows it has and how many are later."""
    last = collections.Counter()
    for r in rows:
        label = f"line {r.line}, {r.id}"
        found = re.fullmatch(PARTS[title][1], r.id)
        if not found or int(found.group(2)) != last[found.group(1)] + 1:
            faults.append(f"{label}: not the next id")
        if found:
            last[found.group(1)] = int(found.group(2))
        if not words(r.sentence.replace("\\|", "|")):
            faults.append(f"{label}: no sentence")
        if r.hash != digest(r.sentence)[:8]:
            faults.append(f"{label}: the hash is {r.hash}, that of the sentence {digest(r.sentence)[:8]}")
    right = [(len(rows), sum(r.kind == "later" for r in rows))]
    if said != right:
        faults.append(f"{title}: rows and later rows are {right[0]}, and it says {said}")


def main():
    given = dict(a.split("=", 1) for a in sys.argv[1:])
    texts = {}
    for part, path in given.items():
        if part not in [name for name, _ in PARTS.values()]:
            sys.exit(f"no such part: {part}")
        with open(path, encoding="utf-8") as f:
            texts[part] = f.read()
    rows, said = page()
    for title, (part, _) in PARTS.items():
        own = [r for r in rows.values() if r.part == title]
        counted(title, own, said.get(title))
        whole(title, own, texts.get(part))
    calls = public_calls(carried(rows))
    landings([r for r in rows.values() if r.part == "Document 02"])
    if faults:
        print("\n".join(faults))
        sys.exit(1)
    kinds = collections.Counter(r.kind for r in rows.values())
    print(f"{len(rows)} rows, the texts whole, {calls} public calls: " + ", ".join(f"{kinds[k]} {k}" for k in KINDS))


if __name__ == "__main__":
    main()
