"""Reading the PNG files that the tool writes: eight bits, red, green and blue; and what is drawn and written in them."""

import struct
import zlib

import numpy as np

INK, PAPER = (40, 40, 40), (255, 255, 255)
DEPTHS = np.array([[250, 247, 214], [207, 232, 201], [146, 209, 196], [88, 175, 191], [54, 132, 178], [46, 88, 153],
                   [31, 45, 108], [13, 16, 52]], dtype=float)
NOT_A_NUMBER = (230, 120, 20)

# Letters as they are drawn, with two pixels along a dot.
DOT, LETTER, TEXT = 2, 12, 14
LETTERS = dict(zip("0123456789-.emNa", zip(*(row.split() for row in """
.###. ..#.. .###. ##### ...#. ##### ..##. ##### .###. .###. ..... ..... ..... ..... #...# .....
#...# .##.. #...# ...#. ..##. #.... .#... ....# #...# #...# ..... ..... ..... ..... ##..# .....
#..## ..#.. ....# ..#.. .#.#. ####. #.... ...#. #...# #...# ..... ..... .###. ##.#. ##..# .###.
#.#.# ..#.. ..##. ..##. #..#. ....# ####. ..#.. .###. .#### ##### ..... #...# #.#.# #.#.# ....#
##..# ..#.. .#... ....# ##### ....# #...# .#... #...# ....# ..... ..... ##### #.#.# #..## .####
#...# ..#.. #.... #...# ...#. #...# #...# .#... #...# ...#. ..... .##.. #.... #.#.# #..## #...#
.###. .###. ##### .###. ...#. .###. .###. .#... .###. .##.. ..... .##.. .###. #.#.# #...# .####
""".split("\n") if row))))


def read(data):
    """The pixels as an array of rows, columns and colours."""
    assert data[:8] == b"\x89PNG\r\n\x1a\n"
    place, packed = 8, b""
    while place < len(data):
        size, name = struct.unpack(">I4s", data[place:place + 8])
        body = data[place + 8:place + 8 + size]
        (crc,) = struct.unpack(">I", data[place + 8 + size:place + 12 + size])
        assert crc == zlib.crc32(name + body)
        if name == b"IHDR":
            width, height, depth, colour, *_ = struct.unpack(">IIBBBBB", body)
            assert (depth, colour) == (8, 2)
        if name == b"IDAT":
            packed += body
        place += 12 + size
    rows = zlib.decompress(packed)
    return unfiltered(rows, width, height)


def unfiltered(rows, width, height):
    lines = np.frombuffer(rows, dtype=np.uint8).reshape(height, 3 * width + 1)
    picture = np.zeros((height, width, 3), dtype=np.uint8)
    above = np.zeros((width, 3), dtype=np.uint8)
    for line, row in zip(lines, picture):
        row[:] = above = unfiltered_row(line[0], line[1:].reshape(width, 3), above)
    return picture


def unfiltered_row(kind, raw, above):
    if kind < 3:
        return [raw, np.cumsum(raw, axis=0, dtype=np.uint8), raw + above][kind]
    row, left, corner = np.zeros_like(raw), [0] * 3, [0] * 3
    for x in range(len(raw)):
        guess = [predicted(kind, *near) for near in zip(map(int, left), map(int, above[x]), map(int, corner))]
        row[x] = left = [(int(value) + near) % 256 for value, near in zip(raw[x], guess)]
        corner = above[x]
    return row


def predicted(kind, left, up, corner):
    if kind == 3:
        return (left + up) // 2
    guess = left + up - corner
    return min((left, up, corner), key=lambda near: abs(guess - near))


def cell_origin(picture):
    """The first pixel inside the frame around the cells: past the first row with many dark pixels side by side."""
    dark = (picture == INK).all(axis=2)
    for y, row in enumerate(dark):
        ends = np.flatnonzero(np.diff(np.concatenate([[0], row, [0]])))
        for left, right in zip(ends[::2], ends[1::2]):
            if right - left >= LETTER:
                return y + 1, int(left) + 1
    raise AssertionError("no frame")


def bar_origin(picture):
    """The first pixel inside the frame around the bar, which is to the right of the cells' frame and as high."""
    top, left = cell_origin(picture)
    dark = (picture[top - 1] == INK).all(axis=1)
    past = left + int(np.flatnonzero(~dark[left:])[0])
    return top, past + int(np.flatnonzero(dark[past:])[0]) + 1


def colours(values, low, high):
    """The colour of each value on a scale."""
    values = np.asarray(values, dtype=float)
    reach = high / 2 - low / 2
    share = np.clip((values / 2 - low / 2) / reach, 0, 1) if reach > 0 else np.full(values.shape, 0.5)
    nan = np.isnan(values)
    along = np.where(nan, 0, share) * 7
    piece = np.minimum(along.astype(int), 6)
    mixed = DEPTHS[piece] + (DEPTHS[piece + 1] - DEPTHS[piece]) * (along - piece)[..., None]
    return np.where(nan[..., None], NOT_A_NUMBER, np.floor(mixed + 0.5)).astype(np.uint8)


def letter(picture, y, x):
    """The dots of the letter whose upper left corner is there, as seven rows; none where a pixel is not as its dot."""
    part = picture[y:y + TEXT, x:x + LETTER - DOT]
    if part.shape[:2] != (TEXT, LETTER - DOT):
        return None
    ink, paper = (part == INK).all(axis=2), (part == PAPER).all(axis=2)
    dots = ink[::DOT, ::DOT]
    if not (ink | paper).all() or not (ink == dots.repeat(DOT, 0).repeat(DOT, 1)).all():
        return None
    return tuple("".join(".#"[dot] for dot in row) for row in dots)


def text(picture, y, x):
    """The text that begins there, up to the first letter that the test does not know."""
    known = {dots: name for name, dots in LETTERS.items()}
    words = ""
    while name := known.get(letter(picture, y, x + LETTER * len(words))):
        words += name
    return words


def texts(picture, y, left, right):
    """The texts in a line of letters, each with its first pixel and the one past its last."""
    found, x = [], left
    while x < right:
        if words := text(picture, y, x):
            found.append((words, x, x + LETTER * len(words) - DOT))
            x += LETTER * len(words)
        else:
            x += 1
    return found
