"""Pictures made small: a PNG of a browser, with 8 bits a channel, as one of a palette."""
import collections
import struct
import zlib

SIGNATURE = b"\x89PNG\r\n\x1a\n"
COARSE = 0xF8  # colours that differ in their last three bits are one


def chunks(data):
    at = len(SIGNATURE)
    while at < len(data):
        length, kind = struct.unpack(">I4s", data[at:at + 8])
        yield kind, data[at + 8:at + 8 + length]
        at += 12 + length


def predicted(method, left, up, corner):
    if method == 4:
        guess = left + up - corner
        return min((left, up, corner), key=lambda one: abs(guess - one))
    return (0, left, up, (left + up) // 2)[method]


def rows_of(data):
    """The rows of a picture, and how many bytes a pixel has."""
    parts = list(chunks(data))
    width, height, depth, colours = struct.unpack(">IIBB", parts[0][1][:10])
    step = {2: 3, 6: 4}[colours]
    assert depth == 8
    raw = zlib.decompress(b"".join(body for kind, body in parts if kind == b"IDAT"))
    before, size, rows = bytearray(width * step), width * step + 1, []
    for at in range(height):
        method, row = raw[at * size], bytearray(raw[at * size + 1:(at + 1) * size])
        if method:
            for k in range(len(row)):
                left, corner = (row[k - step], before[k - step]) if k >= step else (0, 0)
                row[k] = (row[k] + predicted(method, left, before[k], corner)) & 255
        rows.append(row)
        before = row
    return rows, step


def nearest(colour, palette):
    return min(range(len(palette)), key=lambda k: sum((a - b) ** 2 for a, b in zip(colour, palette[k])))


def chunk(kind, body):
    return struct.pack(">I", len(body)) + kind + body + struct.pack(">I", zlib.crc32(kind + body))


def small(data):
    """The same picture with the 256 colours that it has most."""
    rows, step = rows_of(data)
    pixels = [[(row[k], row[k + 1], row[k + 2]) for k in range(0, len(row), step)] for row in rows]
    counts = collections.Counter(pixel for row in pixels for pixel in row)
    groups = {}
    for colour, count in counts.most_common():
        groups.setdefault(tuple(part & COARSE for part in colour), colour)
    palette = list(groups.values())[:256]
    place = {colour: nearest(colour, palette) for colour in counts}
    lines = b"".join(b"\0" + bytes(place[pixel] for pixel in row) for row in pixels)
    head = struct.pack(">IIBBBBB", len(pixels[0]), len(pixels), 8, 3, 0, 0, 0)
    return SIGNATURE + chunk(b"IHDR", head) + chunk(b"PLTE", bytes(part for colour in palette for part in colour)) \
        + chunk(b"IDAT", zlib.compress(lines, 9)) + chunk(b"IEND", b"")
