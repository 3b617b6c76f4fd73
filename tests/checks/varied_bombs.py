"""Variable fonts made by hand whose metrics take many steps at coordinates: 65,535 glyphs share one outline, and what varies it.

Their axes have one tag, so that one wish puts all of them half way to their greatest value. The texts
are of one letter, down the page, where a run asks for both advances and the origin.
"""
import struct

from checks.bomb_tables import words

GLYPHS, LETTER = 65535, 2
WHOLE = 16384
# a contour of three points, no instructions
OUTLINE = words(1, 0, 0, 500, 500, 2, 0) + b"\1\1\1" + words(0, 500, 0, 0, 0, 500) + b"\0"


def longs(*numbers):
    return struct.pack(f">{len(numbers)}I", *numbers)


def sfnt(tables):
    """A font file of these tables."""
    place, head, body = 12 + 16 * len(tables), b"", b""
    for tag in sorted(tables):
        data = tables[tag]
        head += tag.encode() + longs(0, place + len(body), len(data))
        body += data + bytes(-len(data) % 4)
    return longs(0x10000) + words(len(tables), 0, 0, 0) + head + body


def by_turns(size):
    """Places at which every second glyph begins at 0 and ends at `size`, for `LETTER` too."""
    return longs(*[0, size] * (GLYPHS // 2 + 1))


def axes_of(count):
    """`fvar` of so many axes from 100 by 400 to 900."""
    axis = b"wght" + longs(100 << 16, 400 << 16, 900 << 16) + words(0, 256)
    return words(1, 0, 16, 2, count, 20, 0, 4 + 4 * count) + axis * count


def font_of(axes, tables, outline=OUTLINE):
    """A font of so many axes with these tables."""
    lines = words(1, 0, 800, 0xFF38, *[0] * 13, 1)
    metrics = words(600, 0) + bytes(2 * GLYPHS - 2)
    return sfnt({
        "head": words(1, 0) + bytes(14) + words(1000) + bytes(30) + words(1, 0), "hhea": lines, "vhea": lines,
        "maxp": words(1, 0, GLYPHS) + bytes(26), "hmtx": metrics, "vmtx": metrics,
        "cmap": words(0, 1, 3, 10) + longs(12) + words(12, 0) + longs(28, 0, 1, 0x61, 0x61, LETTER),
        "glyf": outline, "loca": by_turns(len(outline)), "fvar": axes_of(axes), **tables})


def gvar(axes, head, count, data=b"", shared=0):
    """`gvar` whose glyphs have `count` tuples with this header, and these data for all of them."""
    stored = words(count | shared, 4 + count * len(head)) + head * count + data
    places = by_turns(len(stored))
    at = 20 + len(places)
    return {"gvar": words(1, 0, axes, 0) + longs(at) + words(GLYPHS, 1) + longs(at) + places + stored}


def numbers(count):
    """So many numbers of points, and as many deltas in runs of one."""
    return words(0x8000 | count) + b"\0\1" * count + b"\0\1" * 3 * count


def store(axes, columns):
    """An Item Variation Store of one row, of so many columns of one region."""
    region = words(axes, 1) + words(0, WHOLE, WHOLE) * axes
    data = words(1, 0, columns, *[0] * columns) + b"\1" * columns
    return words(1) + longs(12) + words(1) + longs(12 + len(region)) + region + data


def rows(axes, columns):
    """`HVAR` and `VVAR` whose glyphs share a row."""
    table = words(1, 0) + longs(29, 24, 0, 0, 24) + b"\0\0\0\1\0" + store(axes, columns)
    return {"HVAR": table, "VVAR": table, "VORG": words(1, 0, 880, 0)}


def shifts(axes, columns):
    """`avar` of version 2 without segments, whose axes share a row."""
    at = 8 + 2 * axes + 8
    return {"avar": words(2, 0, 0, axes) + words(0) * axes + longs(at, at + 5) + b"\0\0\0\1\0" + store(axes, columns)}


PEAK = words(0, 0x8000, WHOLE)
OWN = words(0, 0xA000, WHOLE)
SPANS = words(0, 0xC000) + words(WHOLE) * 64 + words(1) * 64 + words(WHOLE) * 64
# components that say that the whole has their metrics, of the glyph itself
ITSELF = words(0xFFFF, 0, 0, 0, 0) + words(0x0222, LETTER, 0) * 20000
# how many axes, the tables, and the outline
VARIED = {
    "advances by peaks of 64 axes": (64, gvar(64, SPANS, 160), OUTLINE),
    "advances by tuples for all points": (1, gvar(1, PEAK, 4095, b"\0\1" * 200), OUTLINE),
    "advances by tuples for 2,000 points": (1, gvar(1, OWN, 4095, numbers(2000)), OUTLINE),
    "advances by tuples for 30,000 points": (1, gvar(1, OWN, 4095, numbers(30000)), OUTLINE),
    "advances by tuples for 8,000 points that they share": (
        1, gvar(1, PEAK, 4095, numbers(8000), 0x8000), OUTLINE),
    "advances of 20,000 components": (1, gvar(1, PEAK, 1, b"\0\1" * 200), ITSELF),
    "advances by rows of 4,096 columns": (1, rows(1, 4096), OUTLINE),
    "advances by rows of 128 columns of 63 axes": (63, rows(63, 128), OUTLINE),
    "advances by rows of 65,000 columns": (1, rows(1, 65000), OUTLINE),
    "4,000 axes shifted by rows of one column": (4000, shifts(4000, 1), OUTLINE),
    "4,000 axes shifted by rows of 65,000 columns": (4000, shifts(4000, 65000), OUTLINE),
}


def varied_bomb(name, length):
    """The font, a text, and options."""
    axes, tables, outline = VARIED[name]
    return font_of(axes, tables, outline), "a" * length, ["--direction=ttb", "--script=Latn", "--variations=wght=650"]
