"""Faults: where they stand, what is wrong, and how they are shown. At most LIMIT are kept, the others are counted."""

import re
import unicodedata
from collections import namedtuple

LIMIT = 20
ENOUGH = 1000  # faults of a paper, after which nothing more is read
WINDOW = 100  # the most characters of a line that are shown
WRONG, UNMET, FAILED = 2, 3, 4  # exit statuses
# control characters but tabs, separators of lines and paragraphs, marks that turn the direction of writing
UNPRINTED = re.compile("[\x00-\x08\x0a-\x1f\x7f-\x9f\u2028\u2029\u202a-\u202e\u2066-\u2069]")

# line, column, length and text are None for a fault of a whole file; length is how many characters have a caret
Fault = namedtuple("Fault", "file line column length message text hint", defaults=(None,))


def of_file(file, message, hint=None):
    """A fault that stands in no line."""
    return Fault(clean(file), None, None, None, clean(message), None, hint)


class Faults:
    """The faults found so far, and the exit status that they ask."""

    def __init__(self):
        self.kept = []
        self.count = 0
        self.status = 0

    def add(self, fault, status=WRONG):
        self.count += 1
        self.status = max(self.status, status)
        if len(self.kept) < LIMIT:
            self.kept.append(fault)


def clean(text):
    """Text that can be printed: what is no character of UTF-8, and what is not printed, become U+FFFD."""
    return UNPRINTED.sub("\ufffd", text.encode("utf-8", "surrogateescape").decode("utf-8", "replace"))


def short(text, most=40):
    """A word of a message, cut where it is long."""
    return clean(text if len(text) <= most else text[: most - 2] + "..")


def blanks(text):
    """As wide as the text: tabs stay tabs."""
    wide = {"W": "  ", "F": "  "}
    return "".join("\t" if c == "\t" else "" if unicodedata.combining(c) else wide.get(unicodedata.east_asian_width(c), " ") for c in text)


def window(fault):
    """The part of the line that is shown, what stands before the carets, and the carets."""
    at = fault.column - 1
    start = max(0, at - WINDOW // 2) if len(fault.text) > WINDOW else 0
    end = start + WINDOW
    head, tail = (".." if start else ""), (".." if len(fault.text) > end else "")
    carets = "^" * max(1, min(fault.length, end - at))
    return head + clean(fault.text[start:end]) + tail, head + clean(fault.text[start:at]), carets


def rendered(fault):
    """A fault as lines for people."""
    if fault.line is None:
        return f"{fault.file}: error: {fault.message}\n" + (f"  = {fault.hint}\n" if fault.hint else "")
    gutter = f"{fault.line:>5}"
    margin = " " * len(gutter)
    text, before, carets = window(fault)
    head = f"{fault.file}:{fault.line}:{fault.column}: error: {fault.message}"
    lines = [head, f"{gutter} | {text}", f"{margin} | {blanks(before)}{carets}"]
    return "\n".join(lines + ([f"{margin} = {fault.hint}"] if fault.hint else [])) + "\n"


def listed(faults, last=None):
    """All faults for people, and a last line."""
    more = faults.count - len(faults.kept)
    return "".join(map(rendered, faults.kept)) + (f"and {more} more\n" if more else "") + (f"{last}\n" if last else "")


def plural(n, word):
    return f"{n} {word}" if n == 1 else f"{n} {word}s"
