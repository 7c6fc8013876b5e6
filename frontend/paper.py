"""The parser of papers: text to commands and expectations. It tells all faults, and runs nothing."""

import difflib
import re
from collections import namedtuple

from . import commands, files
from .faults import ENOUGH, FAILED, WRONG, Fault, Faults, clean, short

MOST_COMMANDS = 100000
BLANKS = " \t"
TOKEN = re.compile(r'#|"[^"]*"?|[^ \t"#]+')
# blanks of other kinds and marks that nobody sees, which come with text from elsewhere
UNSEEN = re.compile("[\u00a0\u00ad\u1680\u180e\u2000-\u200f\u202f\u205f-\u2064\u3000\ufeff]")
POINT = re.compile(r"(\(?)([^,()]*),([^,()]*)(\)?)")
# how an insert was written before: with a triangle's number
SPLIT = re.compile(rf"split ({'|'.join(commands.CHARTS)}) [0-9]+ at ([0-9]+,[0-9]+|\([0-9]+,[0-9]+\))")
# the lines that are no command of the program, and how they are written
LINES = {
    "title": 'title "TEXT"',
    "id": 'id "TEXT"',
    "question": "question",
    "triangles": 'triangles "FILE.csv"',
    "expect": "expect ANSWER",
}

Token = namedtuple("Token", "text column")
# what is expected of the calls from first up to last (not included), and the column and length of its words
Expected = namedtuple("Expected", "place text wanted first last column length")


class Paper:
    """A paper that was read: its name, texts, commands, expectations and faults."""

    def __init__(self, name):
        self.name = clean(name)
        self.texts = {}
        self.calls = []
        self.expected = []
        self.faults = Faults()
        self.whole = True  # it was read to its end


class Stop(Exception):
    """Nothing more is read."""


def read(data, name, path=None):
    """The paper that the bytes say; the path is what the names of its tables are relative to."""
    reader = Reader(Paper(name), path)
    try:
        for number, text, fault in files.lines(data):
            reader.line(number, text, fault)
    except Stop:
        reader.paper.whole = False
    return reader.paper


class Place:
    """A line of a file, to which faults are added."""

    def __init__(self, faults, file, number, text):
        self.faults, self.file, self.number, self.text = faults, file, number, text

    def fault(self, column, length, message, hint=None, status=WRONG):
        self.faults.add(Fault(self.file, self.number, column, max(1, length), message, self.text, hint), status)
        if self.faults.count == ENOUGH:
            raise Stop

    def at(self, token, message, hint=None, status=WRONG):
        self.fault(token.column, len(token.text), message, hint, status)


def words(text):
    """The words of a line, up to its comment."""
    tokens = []
    for found in TOKEN.finditer(text):
        if found.group() == "#":
            break
        tokens.append(Token(found.group(), found.start() + 1))
    return tokens


def unseen(place, tokens):
    """Whether a word has a character that looks like a blank or like nothing, outside of texts; it is told."""
    for token in tokens:
        found = None if token.text.startswith('"') else UNSEEN.search(token.text)
        if found:
            what = f"U+{ord(found.group()):04X} looks like a blank or like nothing, and is neither"
            place.fault(token.column + found.start(), 1, what, "blanks are spaces and tabs")
            return True
    return False


def close(word, known):
    """A hint where a known word is like this one."""
    found = difflib.get_close_matches(word.lower(), known, 1) if len(word) <= 30 else []
    return f"did you mean `{found[0]}`?" if found else None


def unknown(tokens):
    """What is told of a line that begins with no command, and the hint or None."""
    word = tokens[0].text
    if word.lower() == "split":
        old = SPLIT.fullmatch(" ".join(token.text for token in tokens))
        hint = "write `insert {} {}`".format(*old.groups()) if old else "the lowest numbered triangle that holds the point is taken"
        return f"`{word}` is now `insert CHART P`, without a triangle's number", hint
    return f"unknown command `{short(word)}`", close(word, [row.word for row in commands.COMMANDS] + list(LINES))


def number(place, token, what, most=commands.MOST, hint=None):
    """The number of a token, or None after a fault; the hint is for one that is missing."""
    text = token.text
    digits = text.lstrip("0") or "0"
    if re.fullmatch(r"[0-9]+", text) and len(digits) <= 10 and int(digits) <= most:
        return int(digits)
    if not text:
        place.fault(token.column, 1, f"{what} is missing", hint)
    elif re.fullmatch(r"[-+]?[0-9]+", text):
        place.at(token, f"{what} is 0 to {most}, not {short(text)}")
    else:
        place.at(token, f"{what} is a whole number, not `{short(text)}`")
    return None


def point(place, token, what):
    """The point of a token, or None after a fault."""
    found = POINT.fullmatch(token.text)
    hint = "a point is x,y or (x,y) without a blank"
    if not found or bool(found.group(1)) != bool(found.group(4)):
        return place.at(token, f"`{short(token.text)}` is no point", hint)
    both = [number(place, Token(found.group(k), token.column + found.start(k)), what, hint=hint) for k in (2, 3)]
    return None if None in both else tuple(both)


def one_of(place, token, what, names):
    """Which of the names a token is, or None after a fault."""
    if token.text in names:
        return names.index(token.text)
    hint = close(token.text, names) or f"the {what}s are {commands.choice(names, 'and')}"
    place.at(token, f"`{short(token.text)}` is no {what}", hint)
    return None


def operand(place, wanted, token):
    """The value of an operand, or None after a fault."""
    if wanted.names:
        return one_of(place, token, wanted.what, wanted.names)
    return (point if wanted.kind == "point" else number)(place, token, wanted.what)


def quoted(place, token):
    """The text between quotes, or None after a fault."""
    if not token.text.startswith('"'):
        place.at(token, "a text stands between double quotes", f'"{short(token.text)}"')
    elif len(token.text) == 1 or not token.text.endswith('"'):
        place.at(token, "the text does not end: a double quote is missing")
    elif not token.text.strip('"' + BLANKS):
        place.at(token, "the text is empty")
    else:
        return token.text[1:-1]
    return None


class Reader:
    """Reads line after line into a paper."""

    def __init__(self, paper, path):
        self.paper, self.path = paper, path
        self.faults = paper.faults
        self.group = None  # first and last call of the command above, False where it could not be read
        self.seen = {}  # the lines of title, id and question
        self.tables = {}

    def line(self, line_number, text, fault):
        place = Place(self.faults, self.paper.name, line_number, text)
        if fault:
            self.group = False
            return place.fault(*fault)
        tokens = words(text)
        if unseen(place, tokens):
            self.group = False
        elif tokens:
            self.command(place, tokens)
        return None

    def command(self, place, tokens):
        head = tokens[0]
        row = commands.by_word(head.text)
        if row:
            self.group = False
            values = self.operands(place, row, tokens)
            if values is not None:
                self.add([commands.Call(row, values, place.number)], place, head)
        elif head.text in LINES:
            getattr(self, head.text)(place, tokens)
        else:
            self.group = False
            place.at(head, *unknown(tokens))

    def fits(self, place, tokens, count, form, hint=None):
        """Whether as many words follow the first as are wanted."""
        last = tokens[-1]
        hint = hint or f"written `{form}`"
        if len(tokens) <= count:
            missing = form.split()[len(tokens)]
            place.fault(last.column + len(last.text), 1, f"`{tokens[0].text}` ends too early: {missing} is missing", hint)
        elif len(tokens) > count + 1:
            place.at(tokens[count + 1], f"`{short(tokens[count + 1].text)}` is too much here", hint)
        return len(tokens) == count + 1

    def operands(self, place, row, tokens):
        """The values of a command, or None after faults."""
        whole = len(tokens) == len(row.operands) + 1
        values = []
        for wanted, token in zip(row.operands, tokens[1:]):
            values.append(operand(place, wanted, token))
            if values[-1] is None and not whole:
                return None
        if not self.fits(place, tokens, len(row.operands), commands.form(row)) or None in values:
            return None
        return tuple(values)

    def add(self, calls, place, head):
        """Commands of one line of the paper."""
        first = len(self.paper.calls)
        if first + len(calls) > MOST_COMMANDS:
            place.at(head, f"a paper has at most {MOST_COMMANDS} commands")
            raise Stop
        self.paper.calls += calls
        self.group = (first, len(self.paper.calls))

    # ---- the lines that are no command of the program

    def once(self, place, head):
        """Told once in a paper."""
        if head.text in self.seen:
            place.at(head, f"a second `{head.text}`; the first is in line {self.seen[head.text]}")
        self.seen.setdefault(head.text, place.number)

    def title(self, place, tokens):
        self.once(place, tokens[0])
        if self.fits(place, tokens, 1, LINES[tokens[0].text]):
            self.paper.texts[tokens[0].text] = quoted(place, tokens[1])

    id = title  # the same but for its word

    def question(self, place, tokens):
        self.once(place, tokens[0])
        self.fits(place, tokens, 0, LINES["question"])

    def triangles(self, place, tokens):
        self.group = False
        name = quoted(place, tokens[1]) if self.fits(place, tokens, 1, LINES["triangles"]) else None
        if name is None:
            return
        if name not in self.tables:
            self.tables[name] = self.table(place, tokens[1], name)
        if self.tables[name] is not None:
            row = commands.waiting_row()
            self.add([commands.Call(row, values, place.number, where) for values, where in self.tables[name]], place, tokens[0])

    def table(self, place, token, name):
        """Values and place of each line of a file of triangles, or None after faults."""
        path = files.beside(self.path, name)
        try:
            data = files.read(path, None)
        except files.Unreadable as e:
            return place.at(token, f"{short(name)}: {e}", status=FAILED)
        before = self.faults.count
        rows = []
        for line_number, text, fault in files.lines(data):
            values = table_row(Place(self.faults, clean(path), line_number, text), fault)
            if values:
                rows.append((values, f"{clean(name)}:{line_number}"))
            if len(rows) > MOST_COMMANDS:
                break
        return rows if self.faults.count == before else None

    def expect(self, place, tokens):
        if len(tokens) < 2:
            return self.fits(place, tokens, 1, LINES["expect"])
        known = commands.all_expectations()
        wanted = next((e for e in known if e.word == tokens[1].text), None)
        if not wanted:
            return place.at(tokens[1], f"unknown answer `{short(tokens[1].text)}`", answer_hint(tokens[1].text, known))
        if not self.fits(place, tokens, 2 if wanted.takes else 1, f"expect {answer_form(wanted)}", answer_written(wanted)):
            return None
        value = taken(place, wanted.takes, tokens[2]) if wanted.takes else None
        if self.group is None:
            return place.at(tokens[0], "no command stands above it")
        if self.group and (value is not None or not wanted.takes):
            self.hold(place, tokens, wanted, value)
        return None

    def hold(self, place, tokens, wanted, value):
        """An expectation that can be read, of a command that can be read: whether it can be met."""
        first, last = self.group
        row = self.paper.calls[first].row if first < last else commands.waiting_row()
        if wanted not in commands.expectations(row):
            can = ", ".join(map(answer_form, commands.expectations(row)))
            place.at(tokens[1], f"`{row.word}` never answers `{answer_form(wanted)}`", f"it can be {can}")
        elif wanted is commands.REFUSED and value not in row.refusals:
            can = ", ".join(map(str, row.refusals))
            place.at(tokens[2], f"`{row.word}` is never refused with {value}", f"its numbers are {can}")
        elif wanted.field and wanted.takes is commands.N and not wanted.field.least <= value <= commands.most_of(wanted.field):
            hint = f"it is {wanted.field.least} to {commands.most_of(wanted.field)}"
            place.at(tokens[2], f"`{row.word}` never answers `{wanted.word} {value}`", hint)
        else:
            text = commands.worded(wanted.word, wanted.takes, value)
            column, end = tokens[0].column, tokens[-1].column + len(tokens[-1].text)
            self.paper.expected.append(Expected(place, text, wanted, first, last, column, end - column))


def taken(place, wanted, token):
    """The value of what follows a word of an answer, or None after a fault; a number that no command answers is told later."""
    return operand(place, wanted, token) if wanted.names else number(place, token, wanted.what, 10**9)


def answer_form(wanted):
    return f"{wanted.word} {wanted.takes.letter}" if wanted.takes else wanted.word


def names_told(wanted):
    """What can be written for a letter."""
    return f"{wanted.letter} is {commands.choice(wanted.names, 'or')}"


def answer_written(wanted):
    """How an expectation is written."""
    names = f"; {names_told(wanted.takes)}" if wanted.takes and wanted.takes.names else ""
    return f"written `expect {answer_form(wanted)}`{names}"


def answer_hint(word, known):
    """What may be meant by a word that is no answer."""
    meant = next((e for e in known if e.word == commands.MEANT.get(word)), None)
    return answer_written(meant) if meant else close(word, [e.word for e in known]) or "expect " + " | ".join(map(answer_form, known))


def cells(text):
    """What stands between the commas of a line."""
    column = 1
    for part in text.split(","):
        yield Token(part.strip(BLANKS), column + len(part) - len(part.lstrip(BLANKS)))
        column += len(part) + 1


def table_hint(text):
    """What may have gone wrong with a line of a file of triangles."""
    if not re.search("[0-9]", text):
        return "a heading starts with #"
    marks = {'"': "it has quotes", ";": "it has semicolons", "\t": "it has tabs"}
    return next((f"{words}: save it with commas alone" for mark, words in marks.items() if mark in text), None)


def table_row(place, fault):
    """The values of a line of a file of triangles; None for a line without any, and after faults."""
    text = place.text.split("#")[0].rstrip(BLANKS)
    if fault:
        return place.fault(*fault)
    if not text:
        return None
    operands = commands.waiting_row().operands
    wanted = [o.what for o in operands for _ in range(commands.WIDTHS[o.kind])]
    found = list(cells(text))
    if unseen(place, found):
        return None
    if len(found) != len(wanted) or not re.search("[0-9]", text) or '"' in text:
        return place.fault(1, len(text), f"a line is {len(wanted)} numbers with commas between them", table_hint(text))
    numbers = [number(place, cell, what) for cell, what in zip(found, wanted)]
    if None in numbers:
        return None
    left = iter(numbers)
    return tuple((next(left), next(left)) if o.kind == "point" else next(left) for o in operands)
