"""The commands of a paper: one row for each command of document 01's program.

Parser, translator both ways, reader of the log, forms, help and schema go by these rows and know no command by its name. A request
that changes a command moves its row: what it is written with, what it prints, with which numbers it is refused, and what becomes of
the count of triangles."""

from collections import namedtuple

CHARTS = ("bed", "design")
MOST = 65535  # the largest 16-bit number, and the mark for nowhere
MOST_WAITING = 512
HEADING = "overlay log"

# ---- operands: kind, name in JSON (None: of an answer), how help writes it, what each of its numbers or names is, and the names
Operand = namedtuple("Operand", "kind name letter what names", defaults=((),))
# how many 16-bit numbers each kind has; a chart is one byte
WIDTHS = {"number": 1, "point": 2}


def number(name, letter, what="a triangle's number"):
    return Operand("number", name, letter, what)


def point(name, letter):
    return Operand("point", name, letter, "a coordinate")


CHART = Operand("chart", "chart", "CHART", "chart", CHARTS)

# ---- what follows a word of an answer: a number, or one of some names
N = number(None, "N", "the number expected")
SIDE = Operand("name", None, "SIDE", "side", ("ab", "bc", "ca"))
CORNER = Operand("name", None, "CORNER", "corner", ("a", "b", "c"))

# ---- values that have words: a word, and which of the names that it takes
Said = namedtuple("Said", "word takes which", defaults=(None, None))


def said(word, takes=None):
    """The values that a word stands for: one, or one for each name that it takes."""
    return tuple(Said(word, takes, k) for k in range(len(takes.names))) if takes else (Said(word),)


POSITIONS = said("inside") + said("on", SIDE) + said("at", CORNER)  # of a point in a triangle that holds it, from 0

# ---- what is printed after the number 0. A field has its name in JSON, its word after `expect`, least and most (TRIANGLES: below the
# chart's count), the words for one and for many, and the value that means nothing with its word; such a value ends the line. A field
# whose values have words has these alone.
Field = namedtuple("Field", "name word least most one many mark nothing values", defaults=(None, None, ()))


def in_words(name, values):
    """A field whose values, from 0, have words."""
    return Field(name, None, 0, len(values) - 1, None, None, values=values)


TRIANGLES = "triangles"
ENTRIES = Field("entries", "entries", 1, 16384, "{} entry", "{} entries")
FOUND = Field("found", "triangle", 0, TRIANGLES, "triangle {}", "triangle {}", MOST, "nowhere")
POSITION = in_words("position", POSITIONS)
PAIRS = Field("pairs", "pairs", 0, 4096, "{} pair", "{} pairs")
MEETINGS = Field("meetings", "meetings", 1, 32767, "{} meeting", "{} meetings")


def most_of(field):
    """The largest value of a field: a chart has no more triangles than can wait."""
    return MOST_WAITING - 1 if field.most == TRIANGLES else field.most


# ---- what becomes of the count of triangles: the least and the most that come to the chart, or None where it changes no chart
WAITS = "waits"  # one more waits; at MOST_WAITING it is dropped and refused. Nothing is printed when it waits
LOADS = "loads"  # the chart has what waits, and nothing waits

# lists: the field that counts the lines of pairs below the answer
Command = namedtuple("Command", "byte word operands prints refusals count lists", defaults=(None, None))
COMMANDS = (
    Command(1, "triangle", (point("a", "A"), point("b", "B"), point("c", "C")), (), (4,), WAITS),
    Command(2, "load", (CHART,), (ENTRIES,), (5, 11), LOADS),
    Command(3, "insert", (CHART, point("point", "P")), (ENTRIES,), (7, 10, 11, 14), (1, 2)),
    Command(4, "take-out", (CHART, point("point", "P")), (ENTRIES,), (8, 11), (-2, -2)),
    Command(5, "flip", (CHART, number("i", "I"), number("j", "J")), (ENTRIES,), (6, 9, 11), (0, 0)),
    Command(6, "locate", (CHART, point("point", "P")), (FOUND, POSITION), ()),
    Command(7, "overlay", (), (PAIRS, MEETINGS), (12,), None, PAIRS),
)

# a command of a paper: its row, the values of its operands, its line, and where it was written if that is another file
Call = namedtuple("Call", "row values line where", defaults=(None,))


def by_word(word):
    return next((row for row in COMMANDS if row.word == word), None)


def by_byte(byte):
    return next((row for row in COMMANDS if row.byte == byte), None)


def waiting_row():
    """The row of what `triangles` has many of."""
    return next(row for row in COMMANDS if row.count == WAITS)


def form(row):
    """How the command is written, with letters for its operands."""
    return " ".join([row.word] + [operand.letter for operand in row.operands])


def chart_of(call):
    """The number of the chart that a command names, or None."""
    return next((v for operand, v in zip(call.row.operands, call.values) if operand.kind == "chart"), None)


def written(row, values):
    """The command as a line of a paper."""
    return " ".join([row.word] + [shown(operand, value) for operand, value in zip(row.operands, values)])


def shown(operand, value):
    if operand.names:
        return operand.names[value]
    return "{},{}".format(*value) if operand.kind == "point" else str(value)


# ---- printed values in words


def for_people(field, value):
    """A printed value for people."""
    if field.values:
        word, takes, which = field.values[value]
        return f"{word} {takes.what} {shown(takes, which)}" if takes else word
    return (field.one if value == 1 else field.many).format(value)


def worded(word, takes, value):
    """A word and what follows it, as they stand after `expect`."""
    return f"{word} {shown(takes, value)}" if takes else word


def in_answer(field, value):
    """A printed value as it stands after `expect`."""
    return worded(*field.values[value]) if field.values else worded(field.word, N, value)


def in_json(field, value):
    """A printed value in JSON."""
    return in_answer(field, value) if field.values and value is not None else value


def mark_of(row, values):
    """The field whose value is a mark, which ended the line; or None."""
    return next((field for field in row.prints if values[field.name] is None), None)


# ---- expectations: word, the field that it is about (None: the number returned), what follows the word, or None
Expectation = namedtuple("Expectation", "word field takes")
ACCEPTED = Expectation("accepted", None, None)
REFUSED = Expectation("refused", None, N)
# words that are no answers, and the word of the answer that is meant
MEANT = {**{value.takes.what: value.word for value in POSITIONS if value.takes}, "outside": FOUND.nothing}


def of_field(field):
    """What can be expected of a field."""
    words = [Expectation(value.word, field, value.takes) for value in field.values] or [Expectation(field.word, field, N)]
    return list(dict.fromkeys(words)) + ([Expectation(field.nothing, field, None)] if field.nothing else [])


def expectations(row):
    """What can be expected of a command."""
    return [ACCEPTED] + ([REFUSED] if row.refusals else []) + [e for field in row.prints for e in of_field(field)]


def all_expectations():
    """Each expectation once, in the order of the rows."""
    return list(dict.fromkeys(e for row in COMMANDS for e in expectations(row)))


def all_names():
    """The operands that are names, those of answers too, in the order of the rows."""
    operands = [operand for row in COMMANDS for operand in row.operands] + [e.takes for e in all_expectations() if e.takes]
    return list(dict.fromkeys(operand for operand in operands if operand.names))


def choice(names, word):
    """Names in a row, the last after a word."""
    return f"{', '.join(names[:-1])} {word} {names[-1]}"
