"""The reader of the program's log. It matches the log with the paper: heading, each command's number, each count, nothing left over.

It computes no answer. It counts: how many triangles wait, and how many a chart has. The log does not tell whether an insert added one
triangle or two, so a count has a least and a most; counting.py asks the program until they are the same."""

import re
from collections import namedtuple

from . import commands, numbers

# the answer of a call: the number, the values beside it by name, the pairs, the most triangles that each chart has after it, and for a
# number that names a triangle the call that wrote it
Step = namedtuple("Step", "call number values pairs counts written", defaults=(None,))
LINE = re.compile(rb"(?:0|[1-9][0-9]{0,9})(?: (?:0|[1-9][0-9]{0,9}))*")


class Misfit(Exception):
    """A line of the log that does not fit the paper."""

    def __init__(self, line, text, message):
        super().__init__(message)
        self.line, self.text, self.message = line, text, message


def read(log, calls, bounds=None):
    """The steps of a log, one for each call that prints, in their order; how many triangles wait; and the calls after which the chart's
    count is not told. The bounds are what else is known of counts: the least and the most after a call."""
    reader = Reader(log, bounds or {})
    reader.heading()
    steps = [step for step in map(reader.step, calls) if step]
    reader.end()
    return steps, reader.waiting, reader.untold


class Reader:
    """Reads the log line after line, and keeps the counts of triangles."""

    def __init__(self, log, bounds):
        self.lines = log.split(b"\n")
        self.at = 0
        self.waiting = 0
        self.written = []  # where the triangles that wait were written
        self.counts = [(0, 0)] * len(commands.CHARTS)  # the least and the most
        self.bounds = bounds  # by the call's id
        self.untold = {}  # by the call's id: the chart, the least and the most

    def misfit(self, message):
        text = self.lines[self.at - 1] if self.at <= len(self.lines) else b""
        return Misfit(self.at, text.decode("utf-8", "replace"), message)

    def next(self, of):
        """The next line; the last part of the log is what stands after its last line feed."""
        self.at += 1
        if self.at > len(self.lines) - 1:
            raise self.misfit(f"the log is cut: {of} is missing")
        return self.lines[self.at - 1]

    def heading(self):
        if self.next("its heading") != commands.HEADING.encode():
            raise self.misfit(f"the log does not begin with `{commands.HEADING}`")

    def end(self):
        if self.lines[self.at :] != [b""]:
            self.at += 1
            raise self.misfit("the log goes on after the last answer")

    def numbers(self, of):
        """The numbers of the next line."""
        line = self.next(of)
        if not LINE.fullmatch(line):
            what = "the program calls the stream bad" if line.startswith(b"bad ") else "no line of numbers"
            raise self.misfit(f"{what}, where {of} belongs")
        return [int(word) for word in line.split(b" ")]

    def step(self, call):
        """The answer of a command; None for one that came to wait."""
        row = call.row
        if row.count == commands.WAITS and self.waiting < commands.MOST_WAITING:
            self.waiting += 1
            self.written.append(call)
            return None
        of = f"the answer of `{commands.written(row, call.values)}` (line {call.line})"
        found = self.numbers(of)
        if found[0] != row.byte or len(found) < 2:
            raise self.misfit(f"another answer, where {of} belongs")
        if row.count == commands.WAITS and not found[1]:
            raise self.misfit(f"{of} must be a refusal: {commands.MOST_WAITING} wait")
        return self.accepted(call, found[2:], of) if found[1] == 0 else self.refused(call, found[1], found[2:], of)

    def refused(self, call, number, rest, of):
        if number not in call.row.refusals:
            raise self.misfit(f"`{call.row.word}` is never refused with {number}")
        beside = numbers.row_of(number).beside
        if len(rest) != (1 if beside else 0):
            raise self.misfit(f"another count of numbers than {of} has")
        if beside and rest[0] >= self.waiting:
            raise self.misfit(f"{of} names a triangle that is not there")
        written = self.written[rest[0]] if beside else None
        if call.row.count == commands.LOADS:
            self.empty()
        return Step(call, number, {beside: rest[0]} if beside else {}, None, self.most(), written)

    def empty(self):
        self.waiting = 0
        self.written = []

    def accepted(self, call, rest, of):
        chart = commands.chart_of(call)
        if call.row.count == commands.LOADS:
            self.counts[chart] = (self.waiting, self.waiting)
            self.empty()
        elif call.row.count:
            self.count(call, chart, of)
        values = self.fields(call.row, rest, chart, of)
        pairs = self.pairs(values[call.row.lists.name], of) if call.row.lists else None
        return Step(call, 0, values, pairs, self.most())

    def count(self, call, chart, of):
        """The chart's count of triangles after an accepted edit."""
        fewest, many = call.row.count
        low, high = self.bounds.get(id(call), (0, commands.MOST_WAITING))
        least, most = self.counts[chart]
        least, most = max(least + fewest, low), min(most + many, high)
        if least > most:
            raise self.misfit(f"no count of triangles fits {of}")
        if least < most and fewest < many:
            self.untold[id(call)] = (chart, least, most)
        self.counts[chart] = (least, most)

    def most(self):
        return tuple(most for _, most in self.counts)

    def fields(self, row, rest, chart, of):
        """The values that an accepted command prints. A mark is None, as are the fields after it, for which nothing stands there."""
        values = dict.fromkeys(field.name for field in row.prints)
        left = iter(rest)
        for field in row.prints:
            what, value = field.word or field.name, next(left, None)
            if value is None:
                raise self.misfit(f"another count of numbers than {of} has: its {what} is missing")
            if value == field.mark:
                break
            most = self.most()[chart] - 1 if field.most == commands.TRIANGLES else field.most
            if not field.least <= value <= most:
                raise self.misfit(f"{of} cannot have {value} as its {what}")
            values[field.name] = value
        for value in left:
            raise self.misfit(f"another count of numbers than {of} has: {value} is too much")
        return values

    def pairs(self, count, of):
        """The lines of pairs: ascending, none twice, of triangles that are there."""
        pairs, charts = [], self.most()
        for k in range(count):
            pair = tuple(self.numbers(f"pair {k + 1} of {count} of {of}"))
            if len(pair) != len(charts):
                raise self.misfit(f"no pair, where pair {k + 1} of {count} of {of} belongs")
            if any(i >= most for i, most in zip(pair, charts)):
                raise self.misfit("a pair of a triangle that is not there")
            if pairs and pair <= pairs[-1]:
                raise self.misfit("a pair that is not after the one before it")
            pairs.append(pair)
        return pairs
