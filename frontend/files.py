"""Reading papers, tables and streams, none longer than MOST_BYTES, and the lines of a text."""

import io
import os

from .faults import UNPRINTED

MOST_BYTES = 8 * 2**20
MOST_LINE = 4096  # characters of a line
MARK = b"\xef\xbb\xbf"  # a byte order mark
STREAM = "a paper is text; a stream of commands is read with --from-bytes"


class Unreadable(Exception):
    """A file that cannot be read, with why."""


def read(path, stdin):
    """The bytes of a file, or of standard input for None."""
    try:
        if path is None:
            if stdin is None:
                raise Unreadable("cannot read it: it is closed")
            data = stdin.read(MOST_BYTES + 1)
        else:
            with open(path, "rb") as f:
                data = f.read(MOST_BYTES + 1)
    except (OSError, ValueError) as e:
        raise Unreadable(f"cannot read it: {getattr(e, 'strerror', None) or e}") from None
    if len(data) > MOST_BYTES:
        raise Unreadable(f"it is longer than {MOST_BYTES} bytes")
    return data


def beside(paper, name):
    """The path of a file that a paper names: relative to the paper's folder."""
    return os.path.join(os.path.dirname(paper), name) if paper else name


def lines(data):
    """Number, text and fault of each line that is not empty. The fault is None, or column, length, message and hint of the first."""
    if data.startswith((b"\xff\xfe", b"\xfe\xff")):
        yield 1, data[:40].decode("utf-8", "replace"), (1, 1, "not UTF-8 text", "it begins as UTF-16 does: save it as UTF-8")
        return
    for number, line in enumerate(io.BytesIO(data[len(MARK) :] if data.startswith(MARK) else data), 1):
        line = line[:-2] if line.endswith(b"\r\n") else line[:-1] if line.endswith(b"\n") else line
        if line:
            yield (number, *decoded(line))


def decoded(line):
    """The text of a line, and its fault or None."""
    try:
        text = line.decode("utf-8")
    except UnicodeDecodeError as e:
        column = len(line[: e.start].decode("utf-8")) + 1
        return line.decode("utf-8", "replace"), (column, 1, f"not UTF-8 text: byte {line[e.start]:02X} in hexadecimal", STREAM)
    if len(text) > MOST_LINE:
        return text, (MOST_LINE + 1, 1, f"a line has at most {MOST_LINE} characters, not {len(text)}", None)
    found = UNPRINTED.search(text)
    if found:
        code = ord(found.group())
        return text, (found.start() + 1, 1, f"a character that is not printed: U+{code:04X}", STREAM if code < 9 else None)
    return text, None
