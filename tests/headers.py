#!/usr/bin/env python3
"""Compares the headers of include/ with the exports of crates/export_helm and crates/export_charts, and with the definitions.

usage: headers.py            compares, compiles the headers by themselves, and then tries the wrong headers below
       headers.py --write    writes the enums of numbers and of positions, and the words of both, into the headers

Read of both and compared: the names of the exports and in which header they stand, the order, names and widths of parameters, const
against `&` and `&mut`, what is returned, the structs field by field. Of the definitions: the numbers by `row_of`, the positions by
`position_number`, the lengths and limits. The enums come from these two, and the words from frontend/numbers.py and frontend/commands.py;
the headers must have them as they would be written now.
It fails on any difference, on text in a header that it does not understand, on a warning of the C or C++ compiler, and when a wrong
header is not noticed."""

import hashlib
import os
import re
import subprocess
import sys
import tempfile
from collections import namedtuple

ROOT = os.path.dirname(os.path.dirname(os.path.abspath(__file__)))
sys.path.insert(0, ROOT)
from frontend import VERSION, commands, numbers

HELM, CHARTS = "jirdtungsten.h", "jirdtungsten_charts.h"
CRATES = {HELM: "export_helm", CHARTS: "export_charts"}
NUMBERS = "crates/spec_charts/specs/Refusals.antt"
POSITIONS = "crates/spec_plane/specs/Position.antt"


def read(*names):
    with open(os.path.join(ROOT, *names), encoding="utf-8") as f:
        return f.read()


# ---- the parts that are written


def constant(name):
    """The constant that a definition's case has in C: ON_AB of OnAb."""
    return re.sub(r"(?<=[a-z])(?=[A-Z])", "_", name).upper()


def number_rows():
    """Constant, number and words of each number, from the definition of the table of numbers."""
    found = re.findall(r"^row_of \(?(\w+)(?: \w+\))? = (?:alone|record \{ number =) (\d+)", read(NUMBERS), re.M)
    return [(constant(name), int(n), numbers.called(int(n))) for name, n in [("Done", 0), *found]]


def position_rows():
    """The same of each position, from the definition of its number; the words are those of chartkey's keys. No key has outside."""
    found = re.findall(r"^position_number (\w+) = (\d+)$", read(POSITIONS), re.M)
    if not found:
        sys.exit(f"{POSITIONS} has no `position_number NAME = NUMBER`: tell POSITIONS where it is now")
    words = {k: commands.for_people(commands.POSITION, k) for k in range(len(commands.POSITIONS))}
    return [(constant(name), int(n), words.get(int(n), name.lower())) for name, n in found]


def enum_text(rows, name):
    lines = [f"    JIRD_{called} = {number}{',' if k + 1 < len(rows) else ''}" for k, (called, number, _) in enumerate(rows)]
    wide = max(map(len, lines))
    lines = [f"{line:{wide}} /* {words} */" for line, (_, _, words) in zip(lines, rows)]
    return "typedef enum {\n" + "\n".join(lines) + f"\n}} {name};\n"


def words_text(rows, name, parameter, other):
    lines = [f'    case JIRD_{called}:\n        return "{words}";' for called, _, words in rows]
    body = "\n".join(lines) + f'\n    default:\n        return "{other}";'
    return f"static inline const char *{name}(uint32_t {parameter}) {{\n    switch ({parameter}) {{\n{body}\n    }}\n}}\n"


# the parts of each header that are written, by the word that marks them
PARTS = {
    HELM: {
        "numbers": lambda: enum_text(number_rows(), "jird_number"),
        "positions": lambda: enum_text(position_rows(), "jird_position"),
    },
    CHARTS: {
        "words": lambda: words_text(number_rows(), "jird_words", "number", "no number that a call gives"),
        "words of positions": lambda: words_text(position_rows(), "jird_position_words", "position", "no position that a call gives"),
    },
}


def written(name, text):
    """The header with its parts as they would be written now."""
    for mark, part in PARTS[name].items():
        found = re.fullmatch(rf"(.*\* {mark}: written by tests/headers.py --write \*/\n)(.*)(/\* {mark}: end \*/\n.*)", text, re.S)
        if not found:
            sys.exit(f"include/{name}: the marks around `{mark}` are missing")
        text = found[1] + part() + found[3]
    return text


def write():
    for name in PARTS:
        text = written(name, read("include", name))
        with open(os.path.join(ROOT, "include", name), "w", encoding="utf-8") as f:
            f.write(text)


# ---- what a header says

# functions by name: what is returned, and the parameters as (type, name); structs by name: the fields as (type, name)
Said = namedtuple("Said", "functions structs constants defines chart inlines odd")
TYPES = {"u8": "uint8_t", "u16": "uint16_t", "u32": "uint32_t", "u64": "uint64_t", "usize": "size_t"}
NAME = r"[A-Za-z_]\w*"
# the lines of a header that say nothing of the exports
PLAIN = r'#ifndef \w+_H|#define \w+_H|#include (<std(def|int)\.h>|"jirdtungsten\.h")|#ifdef __cplusplus|#endif|extern "C" \{|\}'


def taken(pattern, text):
    """What matches in the text, and the text without it."""
    return re.findall(pattern, text, re.S | re.M), re.sub(pattern, "", text, flags=re.S | re.M)


def typed(text):
    """`const uint16_t *table` as (type, name); the blanks do not count."""
    found = re.fullmatch(rf"((?:const )?{NAME}(?: ?\*)?) ?({NAME})", " ".join(text.split()))
    return (found[1].replace(" *", "*"), found[2]) if found else (None, text.strip())


def fields_of(body):
    """The fields of a struct, without arrays."""
    fields = []
    for line in filter(str.strip, body.split(";")):
        kind, names = (line.split(None, 1) + [""])[:2]
        fields += [typed(f"{kind} {name}") for name in names.split(",")]
    return fields


def constants_of(bodies):
    return [(name, int(value)) for body in bodies for name, value in re.findall(rf"({NAME}) = (\d+)", body)]


def in_header(text):
    """What a header says; `odd` is what is left of it that is not understood."""
    text = re.sub(r"/\*.*?\*/", "", text, flags=re.S)
    inlines, text = taken(r"^static inline [^;{]*\{.*?^\}$", text)
    defines, text = taken(rf"^#define ({NAME}) (\S+) *$", text)
    enums, text = taken(rf"^(?:typedef )?enum \{{(.*?)\}}(?: {NAME})?;$", text)
    structs, text = taken(rf"^typedef struct \{{(.*?)\}} ({NAME});$", text)
    functions, text = taken(rf"^({NAME}) ({NAME})\(([^()]*)\);$", text)
    chart = [body for body, name in structs if name == "jird_chart"]
    shapes = [(name, fields_of(body)) for body, name in structs if name != "jird_chart"]
    prototypes = [(name, (gives, [typed(p) for p in parameters.split(",")])) for gives, name, parameters in functions]
    odd = [line for line in text.split("\n") if line.strip() and not re.fullmatch(PLAIN, line)]
    for kind, named in (("prototype", prototypes), ("struct", shapes)):
        odd += [f"{kind} {name} twice" for name in {n for n, _ in named} if [n for n, _ in named].count(name) > 1]
    return Said(dict(prototypes), dict(shapes), dict(constants_of(enums)), dict(defines), "".join(chart), inlines, odd)


# ---- what a source exports


def slices(parameter):
    """The C parameters of one of a source: a slice is a pointer and a length."""
    name, kind = (part.strip() for part in parameter.split(":", 1))
    found = re.fullmatch(r"&(mut )?\[(\w+)\]", kind)
    if found:
        return [(f"{'' if found[1] else 'const '}{TYPES.get(found[2], found[2])}*", name), ("size_t", f"{name}_length")]
    return [(TYPES.get(kind, kind), name)]


def in_source(text):
    """The functions and structs that a source has for C, with the source's own names of structs."""
    text = re.sub(r"//[^\n]*", "", text)
    found = re.findall(r'#\[unsafe\(no_mangle\)\]\s*pub extern "C" fn (\w+)\(([^()]*)\)\s*(?:->\s*(\w+))?', text)
    functions = {
        name: (TYPES.get(gives, gives or "void"), [c for p in parameters.split(",") if p.strip() for c in slices(p)])
        for name, parameters, gives in found
    }
    structs = {}
    for name, body in re.findall(r"#\[repr\(C\)\]\s*(?:#\[[^\]]*\]\s*)*pub struct (\w+) \{([^}]*)\}", text):
        pairs = re.findall(r"(\w+)\s*:\s*(\w+)", body)
        structs[name] = [(TYPES.get(kind, kind), field) for field, kind in pairs]
    if len(found) != len(re.findall(r'extern "C" fn', text)):
        sys.exit("a source has an exported function that this test does not understand")
    return functions, structs


# ---- the comparison


def same_parameters(name, ours, theirs):
    """Where the parameters of a prototype differ from the export's."""
    if len(ours) != len(theirs):
        yield f"{name} has {len(ours)} parameters, and the export {len(theirs)}"
    for k, (a, b) in enumerate(zip(ours, theirs), 1):
        if a != b:
            yield f"{name}, parameter {k}: `{a[0]} {a[1]}`, and in the export `{b[0]} {b[1]}`"


def same_exports(header, said, functions, structs):
    """Where a header differs from its crate."""
    for name in sorted(set(said.functions) ^ set(functions)):
        yield f"{header}: {name} " + ("is no export" if name in said.functions else "has no prototype")
    names = {}
    for name in sorted(set(said.functions) & set(functions)):
        (gives, ours), (given, theirs) = said.functions[name], functions[name]
        yield from same_parameters(f"{header}: {name}", ours, theirs)
        if names.setdefault(gives, given) != given or list(names.values()).count(given) > 1 and given in structs:
            yield f"{header}: {name} gives {gives}, and the export {given}"
    for name in sorted(set(said.structs) ^ set(names)):
        yield f"{header}: {name} is the answer of no prototype, or no struct of this header"
    for name, given in sorted(names.items()):
        if said.structs.get(name) != structs.get(given):
            yield f"{header}: {name} is {said.structs.get(name)}, and {given} of the source {structs.get(given)}"


# ---- the inline functions


# lists whose length has another name than theirs
LENGTHS_OF = {"list": "window"}


def passed(parameters):
    """What an inline function passes on for the parameters of a prototype, and its own parameters beside the chart."""
    arguments, own, after_pointer = [], [], False
    for kind, name in parameters:
        base, whose = re.sub(r"[01]$", "", name), {"0": "bed", "1": "design"}.get(name[-1], "c")
        if after_pointer:
            arguments.append(length)
        elif base in ("table", "keys", "levels", "items"):
            arguments.append(f"{whose}->{base}")
            length = f"JIRD_{'TABLE' if base == 'table' else 'ENTRIES'}_LENGTH"
        elif base in ("triangles", "entries"):
            arguments.append(f"{whose}->{base}")
        else:
            arguments.append(name)
            own.append(f"{kind} {name}" + (", size_t length" if name == "numbers" else ""))
            length = "length" if name == "numbers" else f"JIRD_{LENGTHS_OF.get(name, name).upper()}_LENGTH"
        after_pointer = kind.endswith("*") and not after_pointer
    return arguments, own


def inline_text(name, gives, parameters):
    """The inline function over charts that calls a prototype."""
    arguments, own = passed(parameters)
    charts = ["bed", "design"] if name == "jird_overlay" else ["c"]
    call = f"{name}({', '.join(arguments)})"
    body = f"return {call};"
    if gives == "jird_changed":
        body = f"jird_changed r = {call}; c->triangles = r.triangles; c->entries = r.entries; return r;"
    chart = "jird_chart *" if gives == "jird_changed" else "const jird_chart *"
    heads = ", ".join([f"{chart}{c}" for c in charts] + own)
    return f"static inline {gives} {name.replace('jird_', 'jird_chart_')}({heads}) {{ {body} }}"


def same_inlines(said):
    """Where the inline functions are not the calls on a chart's own buffers, one for each."""

    def plain(text):
        return re.sub(r"\s+|(?<=\W) | (?=\W)", "", text)

    wanted = {plain(inline_text(name, *f)): name for one in said.values() for name, f in one.functions.items()}
    for text in said[CHARTS].inlines + said[HELM].inlines:
        if plain(text) not in wanted and not re.match(r"static inline const char \*jird_(position_)?words\(", text):
            yield f"{CHARTS}: not the call on a chart's own buffers: {' '.join(text.split())[:80]} .."
        wanted.pop(plain(text), None)
    yield from (f"{CHARTS}: no inline function over a chart for {name}" for name in wanted.values())


# ---- constants and types

# constants of the headers: the file and the definition that each comes from
LIMITS = {
    "JIRD_TABLE_LENGTH": ("crates/spec_charts/specs/Table.antt", "table_length"),
    "JIRD_MOST_TRIANGLES": ("crates/spec_charts/specs/Table.antt", "max_triangles"),
    "JIRD_ENTRIES_LENGTH": ("crates/spec_charts/specs/Cells.antt", "max_entries"),
    "JIRD_PAIRS_LENGTH": ("crates/spec_calls/specs/Buffers.antt", "pairs_length"),
    "JIRD_WINDOW_LENGTH": ("crates/spec_window/specs/Window.antt", "window_length"),
    "JIRD_MOST_PAIRS": ("crates/spec_charts/specs/Overlay.antt", "max_pairs"),
    "JIRD_EMPTY_CELL": ("crates/theory_orthtree/specs/Entries.antt", "empty_mark"),
    "JIRD_NOWHERE": ("crates/base_answers/specs/Outcomes.antt", "found_number none"),
}


def defined(name, definition):
    """The number that a definition is."""
    found = re.search(rf"^{definition} = (\d+)", read(name), re.M)
    if not found:
        sys.exit(f"{name} has no `{definition} = NUMBER`: tell LIMITS where it is now")
    return int(found[1])


def stacks(text):
    """The KB of stack that a header says of each prototype."""
    found = re.findall(rf"/\*((?:(?!\*/).)*)\*/\n{NAME} ({NAME})\(", text, re.S)
    return {name: int(said) for comment, name in found for said in re.findall(r"Stack: at most (\d+) KB\.", " ".join(comment.split()))}


def same_constants(texts, said):
    """Where enums and limits differ from the definitions."""
    wanted = {name: defined(*place) for name, place in LIMITS.items()}
    wanted.update((f"JIRD_{name}", number) for name, number, _ in number_rows() + position_rows())
    wanted["JIRD_MOST_STACK"] = 1024 * max(kb for text in texts.values() for kb in stacks(text).values())
    ours = {name: value for one in said.values() for name, value in one.constants.items()}
    for name in sorted(set(ours) | set(wanted)):
        if ours.get(name) != wanted.get(name):
            yield f"{name} is {ours.get(name)}, and by the definitions {wanted.get(name)}"
    if said[HELM].defines.get("JIRD_VERSION") != f'"{VERSION}"':
        yield f"JIRD_VERSION is {said[HELM].defines.get('JIRD_VERSION')}, and in frontend/__init__.py {VERSION}"


# what the types and prototypes of each JIRD_ABI are
ABIS = {"1": "ee9e360e70d40723", "2": "8ecd9dce6a9202d8", "3": "96ef36a54773dba9", "4": "c4a16c1cc44ab6f8", "5": "4af86e6a463c8090"}


def same_abi(said):
    """Whether JIRD_ABI is that of the types and prototypes."""
    constants = {name: value for one in said.values() for name, value in one.constants.items() if name != "JIRD_MOST_STACK"}
    parts = [constants] + [(said[name].functions, said[name].structs, said[name].chart) for name in sorted(said)]
    digest = hashlib.sha256(repr(parts).encode()).hexdigest()[:16]
    if ABIS.get(said[HELM].defines.get("JIRD_ABI")) != digest:
        yield f"types, prototypes or constants are others than those of JIRD_ABI: raise it, and store `{digest}` for it in ABIS"


def same_chart(said):
    """Where the chart type differs from what the calls take."""
    lists = [(kind.removeprefix("const ").rstrip("*"), name) for kind, name in said[HELM].functions.get("jird_locate", (None, []))[1][:8:2]]
    wanted = "".join(f"{kind} {name}[JIRD_{'TABLE' if name == 'table' else 'ENTRIES'}_LENGTH];" for kind, name in lists)
    if "".join(said[CHARTS].chart.split()) != "".join((wanted + "size_t triangles, entries;").split()):
        yield f"{CHARTS}: jird_chart has other buffers or counts than the calls take"


def faults(texts, sources):
    """Every difference between the headers' texts and the sources."""
    said = {name: in_header(text) for name, text in texts.items()}
    for name, text in texts.items():
        functions, structs = in_source(sources[name])
        yield from (f"{name}: not understood: {line}" for line in said[name].odd)
        yield from same_exports(name, said[name], functions, structs)
        yield from (f"{name}: the stack of {f} is not said" for f in sorted(set(said[name].functions) - set(stacks(text))))
        if written(name, text) != text:
            yield f"{name}: the {' or the '.join(PARTS[name])} are not current; `python3 tests/headers.py --write` writes them"
    if sorted(said[HELM].functions) != ["jird_locate", "jird_overlay", "jird_window"]:
        yield f"{HELM}: it has locate, window and overlay, and nothing else"
    yield from same_constants(texts, said)
    yield from same_chart(said)
    yield from same_inlines(said)
    yield from same_abi(said)


def other_exports(named):
    """Exports of other crates, which stand in no header."""
    for crate in sorted(os.listdir(os.path.join(ROOT, "crates"))):
        folder = os.path.join(ROOT, "crates", crate, "src")
        for name in sorted(os.listdir(folder)) if crate not in CRATES.values() and os.path.isdir(folder) else ():
            for function in re.findall(r'extern "C" fn (\w+)\(', read(folder, name)):
                if function in named or function.startswith("jird_"):
                    yield f"crates/{crate} exports {function}"


# ---- wrong headers

LENGTHS = "size_t triangles, size_t entries, "
CLOSED = "\n#ifdef __cplusplus\n}"
TRIANGLE = "    uint32_t triangle; /* JIRD_NOWHERE if none, and at a refusal */"
POINT = LENGTHS + "uint16_t x, uint16_t y"
INSERT = "jird_changed jird_insert(\n    "
WINDOW = "uint16_t left, uint16_t top, uint16_t right, uint16_t bottom"
LIST = "    uint16_t *list, size_t list_length"
LISTED = "    size_t listed; /* how many triangles are in the list */"
# the kind of fault, the header, a text that is in it (its first place is meant), and what stands there instead
WRONG = [
    ("a name", HELM, "jird_located jird_locate(", "jird_located jird_find("),
    ("another name", CHARTS, "jird_measured jird_doubled_area(", "jird_measured jird_area("),
    ("the insert by another name", CHARTS, INSERT, INSERT.replace("insert", "add")),
    ("two parameters exchanged", HELM, POINT, LENGTHS + "uint16_t y, uint16_t x"),
    ("x and y of an insert exchanged", CHARTS, POINT, LENGTHS + "uint16_t y, uint16_t x"),
    ("the window by another name", HELM, "jird_windowed jird_window(", "jird_windowed jird_inside("),
    ("top and right of a window exchanged", HELM, WINDOW, "uint16_t left, uint16_t right, uint16_t top, uint16_t bottom"),
    ("left and right of a window exchanged", HELM, WINDOW, "uint16_t right, uint16_t top, uint16_t left, uint16_t bottom"),
    ("the window after the list", HELM, f"{WINDOW},\n{LIST}", f"\n{LIST}, {WINDOW}"),
    ("a window without its bottom", HELM, WINDOW, "uint16_t left, uint16_t top, uint16_t right"),
    ("a wider window", HELM, WINDOW, WINDOW.replace("uint16_t right", "uint32_t right")),
    ("a wider list", HELM, LIST, LIST.replace("uint16_t", "uint32_t")),
    ("a list without its length", HELM, LIST, "    uint16_t *list"),
    ("a const too many in a window", HELM, LIST, LIST.replace("uint16_t", "const uint16_t")),
    ("two counts exchanged", CHARTS, LENGTHS + "size_t i, size_t j", "size_t entries, size_t triangles, size_t i, size_t j"),
    ("two buffers exchanged", CHARTS, "const uint16_t *numbers, size_t numbers_length,\n    uint16_t *table, size_t table_length,",
     "uint16_t *table, size_t table_length,\n    const uint16_t *numbers, size_t numbers_length,"),
    ("a pointer and its length exchanged", HELM, "uint16_t *pairs, size_t pairs_length", "size_t pairs_length, uint16_t *pairs"),
    ("a parameter too few", CHARTS, LENGTHS + "size_t i, size_t j", LENGTHS + "size_t i"),
    ("an insert into a numbered triangle", CHARTS, POINT, LENGTHS + "size_t i, uint16_t x, uint16_t y"),
    ("a parameter too many", HELM, "size_t pairs_length);", "size_t pairs_length, size_t most);"),
    ("a narrower buffer", HELM, "const uint32_t *keys,", "const uint16_t *keys,"),
    ("a wider number", HELM, "uint16_t x, uint16_t y", "uint32_t x, uint16_t y"),
    ("a narrower length", HELM, "size_t pairs_length", "uint32_t pairs_length"),
    ("a signed number", CHARTS, "size_t i, size_t j", "size_t i, ptrdiff_t j"),
    ("no pointer", CHARTS, "    uint8_t *levels, size_t", "    uint8_t levels, size_t"),
    ("a const missing", HELM, "const uint8_t *levels1", "uint8_t *levels1"),
    ("a const too many", HELM, "uint16_t *pairs", "const uint16_t *pairs"),
    ("a const too many in a load", CHARTS, "table_length, uint32_t *keys", "table_length, const uint32_t *keys"),
    ("a const too many in an insert", CHARTS, f"{INSERT}uint16_t *table", f"{INSERT}const uint16_t *table"),
    ("another answer", CHARTS, "jird_changed jird_flip(", "jird_part jird_flip("),
    ("no answer", CHARTS, "jird_sounded jird_soundness(", "void jird_soundness("),
    ("fields in another order", HELM, "    uint32_t number;\n    uint32_t triangle;", "    uint32_t triangle;\n    uint32_t number;"),
    ("fields of a part in another order", CHARTS, "    size_t start;\n    size_t length;", "    size_t length;\n    size_t start;"),
    ("a field of another width", CHARTS, "uint64_t area;", "uint32_t area;"),
    ("a field of another width in an answer of counts", HELM, "size_t meetings;", "uint32_t meetings;"),
    ("a narrower number listed", HELM, "size_t listed;", "uint32_t listed;"),
    ("number and listed in another order", HELM, f"    uint32_t number;\n{LISTED}", f"{LISTED}\n    uint32_t number;"),
    ("the number listed missing", HELM, LISTED, ""),
    ("the answer of an overlay for a window", HELM, "jird_windowed jird_window(", "jird_overlaid jird_window("),
    ("a field missing", CHARTS, "    size_t entries;\n", ""),
    ("a field too many", HELM, "    uint32_t triangle;", "    uint32_t place;\n    uint32_t triangle;"),
    ("triangle and position in another order", HELM, f"{TRIANGLE}\n    uint32_t position;", f"    uint32_t position;\n{TRIANGLE}"),
    ("a position of another width", HELM, "uint32_t position;", "uint8_t position;"),
    ("a wider position", HELM, "uint32_t position;", "size_t position;"),
    ("the position missing", HELM, "    uint32_t position;", "    //"),
    ("an enum value", HELM, "JIRD_NO_FLIP = 9", "JIRD_NO_FLIP = 8"),
    ("document 02's number by another", HELM, "JIRD_AT_CORNER = 14", "JIRD_AT_CORNER = 13"),
    ("document 02's number missing", HELM, "    JIRD_AT_CORNER = 14, ", "    //"),
    ("document 02's last number by another", HELM, "JIRD_EMPTY_WINDOW = 15", "JIRD_EMPTY_WINDOW = 16"),
    ("document 02's last number missing", HELM, "    JIRD_EMPTY_WINDOW = 15 ", "    //"),
    ("a number too many", HELM, "    JIRD_EMPTY_WINDOW = 15 ", "    JIRD_NO_CELL = 16,\n    JIRD_EMPTY_WINDOW = 15 "),
    ("a row of the enum missing", HELM, "    JIRD_TABLE_FULL = 10, ", "    //"),
    ("another number of a position", HELM, "JIRD_OUTSIDE = 7", "JIRD_OUTSIDE = 8"),
    ("two corners exchanged", HELM, "JIRD_AT_A = 4,   /* at corner a */\n    JIRD_AT_B = 5",
     "JIRD_AT_B = 4,   /* at corner a */\n    JIRD_AT_A = 5"),
    ("sides from 0", HELM, "JIRD_INSIDE = 0, /* inside */\n    JIRD_ON_AB = 1", "JIRD_ON_AB = 0, /* inside */\n    JIRD_INSIDE = 1"),
    ("a position missing", HELM, "    JIRD_ON_CA = 3, ", "    //"),
    ("a position too many", HELM, "    JIRD_OUTSIDE = 7 ", "    JIRD_NEAR = 8,\n    JIRD_OUTSIDE = 7 "),
    ("the positions by another name", HELM, "} jird_position;", "} jird_places;"),
    ("a constant", HELM, "JIRD_PAIRS_LENGTH = 8192", "JIRD_PAIRS_LENGTH = 4096"),
    ("a shorter list", HELM, "JIRD_WINDOW_LENGTH = 512", "JIRD_WINDOW_LENGTH = 511"),
    ("the mark", HELM, "JIRD_NOWHERE = 65535", "JIRD_NOWHERE = 65536"),
    ("another version", HELM, "#define JIRD_VERSION \"1", "#define JIRD_VERSION \"2"),
    ("another ABI number", HELM, "#define JIRD_ABI 5", "#define JIRD_ABI 6"),
    ("the ABI number of before", HELM, "#define JIRD_ABI 5", "#define JIRD_ABI 4"),
    ("a constant too many", HELM, "    JIRD_MOST_PAIRS = 4096,", "    JIRD_MOST_PAIRS = 4096,\n    JIRD_MOST_CELLS = 16384,"),
    ("less stack said over all than of a call", HELM, "JIRD_MOST_STACK = 262144", "JIRD_MOST_STACK = 65536"),
    ("no stack said", CHARTS, " Stack: at most 16 KB.", ""),
    ("a prototype missing", CHARTS, "jird_part jird_cell(", "/* jird_part jird_cell("),
    ("a prototype too many", HELM, CLOSED, "\nsize_t build_table(const uint16_t *table, size_t table_length);\n" + CLOSED),
    ("a prototype twice", CHARTS, CLOSED, "\njird_part jird_cell(size_t triangles);\n" + CLOSED),
    ("a chart with shorter lists", CHARTS, "uint8_t levels[JIRD_ENTRIES_LENGTH]", "uint8_t levels[JIRD_TABLE_LENGTH]"),
    ("a chart with wider lists", CHARTS, "uint16_t items[JIRD", "uint32_t items[JIRD"),
    ("an inline function with counts exchanged", CHARTS, "c->triangles, c->entries, i, j", "c->entries, c->triangles, i, j"),
    ("an inline function with x and y exchanged", CHARTS, "c->triangles, c->entries, x, y", "c->triangles, c->entries, y, x"),
    ("an inline function with a longer length", CHARTS, "c->table, JIRD_TABLE_LENGTH", "c->table, JIRD_ENTRIES_LENGTH"),
    ("an inline function that keeps an old count", CHARTS, "    c->entries = r.entries;\n", ""),
    ("an inline function of another call", CHARTS, "r = jird_take_out(", "r = jird_flip("),
    ("an inline insert that is a take-out", CHARTS, "r = jird_insert(", "r = jird_take_out("),
    ("an inline window with left and right exchanged", CHARTS, "left, top, right, bottom, list", "right, top, left, bottom, list"),
    ("an inline window with a longer list", CHARTS, "list, JIRD_WINDOW_LENGTH", "list, JIRD_PAIRS_LENGTH"),
    ("an inline window that may change its chart", CHARTS, "const jird_chart *c, uint16_t left", "jird_chart *c, uint16_t left"),
    ("an inline overlay of one chart", CHARTS, "design->table, JIRD", "bed->table, JIRD"),
    ("an inline function by another name", CHARTS, "jird_chart_cell(", "jird_cell_of("),
    ("something left out by the preprocessor", CHARTS, "static inline jird_part", "#if 0\nstatic inline jird_part"),
    ("other words", CHARTS, "over 4,096 pairs", "over 4,000 pairs"),
    ("other words of document 02's number", CHARTS, "is a corner already", "is an end already"),
    ("other words of document 02's last number", CHARTS, "its bottom less than", "its bottom not more than"),
    ("other words of a position", CHARTS, '"on side bc"', '"on side cb"'),
    ("a declaration that is no prototype", HELM, CLOSED, "\nextern int jird_errors;\n" + CLOSED),
]
# the same of a source: what is exported and the header does not have
WRONG_SOURCES = [
    ("an export without a prototype", HELM, '#[unsafe(no_mangle)]\npub extern "C" fn jird_more(x: u16) -> u16 {\n    x\n}\n'),
    ("an export of charts without a prototype", CHARTS, '#[unsafe(no_mangle)]\npub extern "C" fn jird_more(table: &[u16]) -> usize {\n    0\n}\n'),
]


def tried(texts, sources):
    """The wrong headers that are not noticed."""
    for kind, name, old, new in WRONG:
        text = texts[name]
        if kind == "a prototype missing":
            text = re.sub(r"(jird_part jird_cell\([^;]*;)", r"\1 */", text)
        if old not in text:
            yield f"the wrong header `{kind}` cannot be made: {name} has no `{old}`"
        elif not any(True for _ in faults({**texts, name: text.replace(old, new, 1)}, sources)):
            yield f"a wrong header is not noticed: {kind}"
    for kind, name, more in WRONG_SOURCES:
        if not any(True for _ in faults(texts, {**sources, name: sources[name] + more})):
            yield f"a wrong source is not noticed: {kind}"


STRICT = ["-Wall", "-Wextra", "-Wpedantic", "-Wconversion", "-Wsign-conversion", "-Wshadow", "-Werror", "-fsyntax-only"]


def compiled(name):
    """What the compilers say of a header by itself, included twice."""
    for compiler, suffix in ((["cc", "-std=c11"], ".c"), (["c++", "-std=c++17", "-Wold-style-cast"], ".cpp")):
        with tempfile.NamedTemporaryFile("w", suffix=suffix) as f:
            f.write(f'#include "{name}"\n#include "{name}"\n')
            f.flush()
            words = [*compiler, *STRICT, "-I", os.path.join(ROOT, "include"), f.name]
            done = subprocess.run(words, stdout=subprocess.PIPE, stderr=subprocess.STDOUT, text=True)
        if done.returncode != 0:
            yield f"{name} by {compiler[0]}: {done.stdout}"


def main():
    if sys.argv[1:] == ["--write"]:
        write()
        return 0
    texts = {name: read("include", name) for name in CRATES}
    sources = {name: read("crates", crate, "src", "lib.rt") for name, crate in CRATES.items()}
    found = list(faults(texts, sources))
    named = [name for text in texts.values() for name in in_header(text).functions]
    found += list(other_exports(named)) + [fault for name in CRATES for fault in compiled(name)]
    found = found or list(tried(texts, sources))
    for fault in found:
        print(fault)
    if found:
        return 1
    print(f"{len(named)} exports as their headers say; {len(WRONG)} wrong headers and {len(WRONG_SOURCES)} wrong sources are noticed")
    return 0


if __name__ == "__main__":
    sys.exit(main())
