"""Pictures in PNG as rows of pixels, with the standard library alone: 8 bits, RGB or RGBA, not interlaced, as cairo writes them."""

import collections
import struct
import zlib

SIGNATURE = b"\x89PNG\r\n\x1a\n"
# rows of bytes, `channels` of them for each pixel
Picture = collections.namedtuple("Picture", "width height channels rows")


def chunks(data):
    """Name and content of each chunk; a picture that is cut or changed is a fault."""
    if not data.startswith(SIGNATURE):
        raise ValueError("no PNG")
    at = len(SIGNATURE)
    while at < len(data):
        (length,) = struct.unpack(">I", data[at : at + 4])
        name, content = data[at + 4 : at + 8], data[at + 8 : at + 8 + length]
        if len(content) < length or struct.pack(">I", zlib.crc32(name + content)) != data[at + 8 + length : at + 12 + length]:
            raise ValueError(f"chunk {name} is damaged")
        yield name, content
        at += 12 + length
    if name != b"IEND":
        raise ValueError("the picture has no end")


def decoded(data):
    """The picture in the bytes of a PNG."""
    parts = list(chunks(data))
    width, height, depth, kind, _, _, interlaced = struct.unpack(">IIBBBBB", parts[0][1])
    if depth != 8 or kind not in (2, 6) or interlaced:
        raise ValueError("not 8 bits RGB or RGBA")
    channels = {2: 3, 6: 4}[kind]
    raw = zlib.decompress(b"".join(content for name, content in parts if name == b"IDAT"))
    rows, above, size = [], bytes(width * channels), width * channels
    for y in range(height):
        start = y * (size + 1)
        above = unfiltered(raw[start], raw[start + 1 : start + 1 + size], above, channels)
        rows.append(above)
    return Picture(width, height, channels, rows)


def unfiltered(kind, line, above, channels):
    """One row, from its filter, its bytes and the row above."""
    if kind == 0:
        return line
    if kind == 2:
        return bytes((a + b) & 255 for a, b in zip(line, above))
    row = bytearray(line)
    for k in range(len(row)):
        left = row[k - channels] if k >= channels else 0
        if kind == 1:
            row[k] = (row[k] + left) & 255
        elif kind == 3:
            row[k] = (row[k] + (left + above[k]) // 2) & 255
        else:
            row[k] = (row[k] + nearest(left, above[k], above[k - channels] if k >= channels else 0)) & 255
    return bytes(row)


def nearest(a, b, c):
    """The filter of Paeth."""
    pa, pb, pc = abs(b - c), abs(a - c), abs(a + b - 2 * c)
    return a if pa <= pb and pa <= pc else b if pb <= pc else c


def pixel(picture, x, y):
    """Red, green and blue at a place."""
    k = x * picture.channels
    return tuple(picture.rows[y][k : k + 3])


def blocks(picture, size):
    """The mean colour of each block of so many pixels each way."""
    for top in range(0, picture.height - size + 1, size):
        for left in range(0, picture.width - size + 1, size):
            parts = [row[left * picture.channels : (left + size) * picture.channels] for row in picture.rows[top : top + size]]
            yield [sum(sum(part[c :: picture.channels]) for part in parts) / size**2 for c in range(3)]
