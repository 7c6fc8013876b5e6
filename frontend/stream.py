"""Commands to document 01's stream of bytes and back, by the rows of the table of commands."""

from . import commands


def to_bytes(calls):
    """The stream of commands."""
    return b"".join(encoded(call) for call in calls)


def encoded(call):
    parts = [bytes([call.row.byte])]
    for operand, value in zip(call.row.operands, call.values):
        if operand.kind == "chart":
            parts.append(bytes([value]))
        else:
            parts += [n.to_bytes(2, "little") for n in (value if operand.kind == "point" else (value,))]
    return b"".join(parts)


def size(operand):
    return 1 if operand.kind == "chart" else 2 * commands.WIDTHS[operand.kind]


def decoded(data, operand):
    """The value of an operand from its bytes; None for a chart that is none."""
    if operand.kind == "chart":
        return data[0] if data[0] < len(commands.CHARTS) else None
    numbers = tuple(int.from_bytes(data[k : k + 2], "little") for k in range(0, len(data), 2))
    return numbers if operand.kind == "point" else numbers[0]


def from_bytes(data):
    """Row and values of each whole command; then, if the stream is damaged, None and the offset of the first that is not whole."""
    offset = 0
    while offset < len(data):
        row = commands.by_byte(data[offset])
        at = offset + 1
        values = []
        for operand in row.operands if row else ():
            part = data[at : at + size(operand)]
            values.append(decoded(part, operand) if len(part) == size(operand) else None)
            at += size(operand)
        if row is None or None in values:
            yield None, offset
            return
        yield row, tuple(values)
        offset = at


def as_paper(data):
    """The lines of a paper that says the stream, a damaged one as far as it is whole."""
    for row, values in from_bytes(data):
        yield commands.written(row, values) if row else f"# bad at {values}"
