#!/usr/bin/env python3
"""Makes the tests' fonts, of seven and eight glyphs of boxes, from nothing. It writes `tiny.ttf` beside itself and, as
text, to the crate `test_fonts`; to tests/fontshape, `first_shape` and `fill_paragraph` `tall.ttf`, which has metrics of vertical
lines, a dotted circle and its kerning in GPOS too; and to tests/fontshape `two.ttc`, a collection of both, `flat.ttf`, which has no outlines, `axes.ttf`, which has axes, two instances and `HVAR`, and `heavy.ttf`, whose A
has 65,536 points in few bytes, and whose B is made of 256 of itself. They are under this repository's licence.

Each glyph is a rectangle, except for the space, which is empty, and Aacute, which is made of two others.
"""
import os
import struct

UNITS_PER_EM = 1000
# name, advance, box (x from, y from, x to, y to), parts (glyph, x, y)
GLYPHS = [
    (".notdef", 500, (50, 0, 450, 700), ()),
    ("space", 250, None, ()),
    ("A", 600, (10, 0, 590, 700), ()),
    ("B", 640, (60, 0, 540, 700), ()),
    ("acutecomb", 300, (100, 750, 200, 850), ()),
    ("Aacute", 610, (20, 0, 600, 900), ((2, 10, 0), (4, 150, 50))),
    ("grinning", 610, (-30, -200, 970, 800), ()),  # shares the last advance: `hmtx` has six long metrics
]
LONG_METRICS = 6
PLANE_0 = {0x20: 1, 0x41: 2, 0x42: 3, 0xC1: 5, 0x301: 4}
WHOLE = {**PLANE_0, 0x1F600: 6}
PAIRS = {(2, 3): -50, (3, 2): -35}  # AB, BA
# what the tall font has besides: a dotted circle, and for each glyph how far it moves down and the room over its box
CIRCLE = ("dottedcircle", 610, (50, 0, 550, 500), ())
DOWN = [(900, 50), (910, 60), (920, 70), (None, 80), (None, 90), (None, 100), (None, 110), (None, 120)]
LONG_DOWN = 3
IN_GPOS = (2, 3, -80)  # AB
# the axes of the font of axes, and its named instances
AXES = [("wght", 100, 400, 900), ("opsz", 6, 6, 12.5)]
INSTANCES = [(400, 6), (700, 12.5)]
# how far each glyph grows at the greatest weight
GROWTHS = [0, 0, 100, 60, 0, 100, 0]
# by selector: characters that look as they do alone, and glyphs of their own
VARIANTS = {0xFE00: ([0x41], {}), 0xFE01: ([], {0x41: 6})}


def outline(box, parts):
    if box is None:
        return b""
    left, low, right, high = box
    if parts:
        data = struct.pack(">5h", -1, left, low, right, high)
        for at, (glyph, x, y) in enumerate(parts):
            more = 0x20 if at + 1 < len(parts) else 0
            data += struct.pack(">2H2h", 0x3 | more, glyph, x, y)
    else:
        data = struct.pack(">5h2H", 1, left, low, right, high, 3, 0) + bytes([1] * 4)
        data += struct.pack(">8h", left, right - left, 0, left - right, low, 0, high - low, 0)
    return data + bytes(-len(data) % 4)


def runs(glyphs):
    """Characters in a row whose glyphs stand in a row: first, last, glyph of the first."""
    found = []
    for c in sorted(glyphs):
        if found and c == found[-1][1] + 1 and glyphs[c] == found[-1][2] + c - found[-1][0]:
            found[-1][1] = c
        else:
            found.append([c, c, glyphs[c]])
    return found


def segments(glyphs):
    rows = runs(glyphs) + [[0xFFFF, 0xFFFF, 0]]
    count = len(rows)
    power = 1 << (count.bit_length() - 1)
    data = struct.pack(">4H", count * 2, power * 2, power.bit_length() - 1, (count - power) * 2)
    data += b"".join(struct.pack(">H", last) for _, last, _ in rows) + bytes(2)
    data += b"".join(struct.pack(">H", first) for first, _, _ in rows)
    data += b"".join(struct.pack(">H", (glyph - first) % 65536) for first, _, glyph in rows)
    data += bytes(2 * count)
    return struct.pack(">3H", 4, 6 + len(data), 0) + data


def groups(glyphs):
    rows = runs(glyphs)
    return struct.pack(">2H3I", 12, 0, 16 + 12 * len(rows), 0, len(rows)) + b"".join(struct.pack(">3I", *row) for row in rows)


def short(n):
    return struct.pack(">I", n)[1:]


def sequences(variants):
    records, data, at = b"", b"", 10 + 11 * len(variants)
    for selector, (alone, own) in sorted(variants.items()):
        places = []
        for rows in ([short(c) + b"\0" for c in alone], [short(c) + struct.pack(">H", glyph) for c, glyph in sorted(own.items())]):
            places.append(at + len(data) if rows else 0)
            data += struct.pack(">I", len(rows)) + b"".join(rows) if rows else b""
        records += short(selector) + struct.pack(">2I", *places)
    return struct.pack(">H2I", 14, at + len(data), len(variants)) + records + data


def cmap(plane_0, whole):
    tables = [((0, 5), sequences(VARIANTS)), ((3, 1), segments(plane_0)), ((3, 10), groups(whole))]
    records, data, at = b"", b"", 4 + 8 * len(tables)
    for key, table in tables:
        records += struct.pack(">2HI", *key, at + len(data))
        data += table
    return struct.pack(">2H", 0, len(tables)) + records + data


def hmtx(glyphs):
    data = b""
    for at, (_, advance, box, _) in enumerate(glyphs):
        bearing = box[0] if box else 0
        data += struct.pack(">Hh", advance, bearing) if at < LONG_METRICS else struct.pack(">h", bearing)
    return data


def vmtx():
    return b"".join(struct.pack(">h", bearing) if advance is None else struct.pack(">Hh", advance, bearing) for advance, bearing in DOWN)


def kern():
    rows = b"".join(struct.pack(">2Hh", *pair, by) for pair, by in sorted(PAIRS.items()))
    count = len(PAIRS)
    power = 1 << (count.bit_length() - 1)
    head = struct.pack(">4H", count, power * 6, power.bit_length() - 1, (count - power) * 6)
    return struct.pack(">2H3H", 0, 1, 0, 14 + len(rows), 1) + head + rows


def gpos():
    """One lookup of one pair, for the feature `kern` of every script."""
    left, right, by = IN_GPOS
    scripts = struct.pack(">H4sH", 1, b"DFLT", 8) + struct.pack(">2H", 4, 0) + struct.pack(">4H", 0, 0xFFFF, 1, 0)
    features = struct.pack(">H4sH", 1, b"kern", 8) + struct.pack(">3H", 0, 1, 0)
    coverage, pairs = struct.pack(">3H", 1, 1, left), struct.pack(">2Hh", 1, right, by)
    subtable = struct.pack(">6H", 1, 12, 4, 0, 1, 12 + len(coverage)) + coverage + pairs
    lookups = struct.pack(">2H", 1, 4) + struct.pack(">4H", 2, 0, 1, 8) + subtable
    at = 10 + len(scripts)
    return struct.pack(">5H", 1, 0, 10, at, at + len(features)) + scripts + features + lookups


def post(glyphs):
    names = b"".join(bytes([len(name)]) + name.encode() for name, _, _, _ in glyphs)
    indexes = struct.pack(">%dH" % len(glyphs), *range(258, 258 + len(glyphs)))
    return struct.pack(">2I2h5I", 0x20000, 0, -100, 50, 0, 0, 0, 0, 0) + struct.pack(">H", len(glyphs)) + indexes + names


def tables_of(glyphs, plane_0, whole):
    outlines = [outline(box, parts) for _, _, box, parts in glyphs]
    places = [sum(map(len, outlines[:at])) for at in range(len(outlines) + 1)]
    return {
        b"cmap": cmap(plane_0, whole),
        b"glyf": b"".join(outlines),
        b"head": struct.pack(">2I2I2H2Q4h2H3h", 0x10000, 0x10000, 0, 0x5F0F3CF5, 3, UNITS_PER_EM, 0, 0,
                             -30, -200, 970, 900, 0, 8, 2, 0, 0),
        b"hhea": struct.pack(">I3hH11hH", 0x10000, 800, -200, 90, 640, -30, 0, 970, 1, 0, 0, 0, 0, 0, 0, 0, LONG_METRICS),
        b"hmtx": hmtx(glyphs),
        b"kern": kern(),
        b"loca": struct.pack(">%dH" % len(places), *(place // 2 for place in places)),
        b"maxp": struct.pack(">I14H", 0x10000, len(glyphs), 4, 1, 8, 2, 1, 0, 0, 0, 0, 0, 0, 2, 1),
        b"post": post(glyphs),
    }


def tiny():
    return tables_of(GLYPHS, PLANE_0, WHOLE)


def tall():
    tables = tables_of(GLYPHS + [CIRCLE], {**PLANE_0, 0x25CC: 7}, {**WHOLE, 0x25CC: 7})
    tables[b"GPOS"] = gpos()
    tables[b"vhea"] = struct.pack(">I3hH11hH", 0x10000, 500, -500, 0, 920, 50, 0, 970, 0, 0, 0, 0, 0, 0, 0, 0, LONG_DOWN)
    tables[b"vmtx"] = vmtx()
    return tables


def flat():
    tables = tiny()
    del tables[b"glyf"], tables[b"loca"]
    return tables


def hvar():
    """The growths, in the only region: weights above the default."""
    regions = struct.pack(">2H6h", len(AXES), 1, 0, 0x4000, 0x4000, 0, 0, 0)
    rows = struct.pack(">4H%dh" % len(GROWTHS), len(GROWTHS), 1, 1, 0, *GROWTHS)
    store = struct.pack(">HIHI", 1, 12, 1, 12 + len(regions)) + regions + rows
    return struct.pack(">2H4I", 1, 0, 20, 0, 0, 0) + store


def axes():
    """The tiny font with `fvar`: a weight, an axis that stands at its least value, and two named instances; and `HVAR`."""
    tables = tiny()
    data = struct.pack(">8H", 1, 0, 16, 2, len(AXES), 20, len(INSTANCES), 4 + 4 * len(AXES))
    for tag, least, default, greatest in AXES:
        data += tag.encode() + struct.pack(">3i2H", *(round(n * 65536) for n in (least, default, greatest)), 0, 256)
    for values in INSTANCES:
        data += struct.pack(">2H", 2, 0) + b"".join(struct.pack(">i", round(n * 65536)) for n in values)
    tables[b"fvar"] = data
    tables[b"HVAR"] = hvar()
    return tables


def heavy():
    """A is one contour of 65,536 points at one place: flags that are repeated, and no coordinates. B is made of 256 of
    itself."""
    tables = tiny()
    points = struct.pack(">5h2H", 1, 10, 0, 590, 700, 65535, 0) + bytes([0x31 | 8, 255]) * 256
    parts = struct.pack(">5h", -1, 60, 0, 540, 700)
    parts += b"".join(struct.pack(">2H2b", 0x22 if more else 2, 3, 0, 0) for more in range(255, -1, -1))
    tables[b"glyf"] = points + parts
    ends = len(points) // 2, len(points + parts) // 2
    tables[b"loca"] = struct.pack(">8H", 0, 0, 0, ends[0], *[ends[1]] * 4)
    return tables


def file_of(tables, begin=0):
    """A font of these tables that begins at this place of its file."""
    records, data, at = b"", b"", begin + 12 + 16 * len(tables)
    for tag, table in sorted(tables.items()):
        padded = table + bytes(-len(table) % 4)
        total = sum(struct.unpack(">%dI" % (len(padded) // 4), padded)) % 2**32
        records += struct.pack(">4s3I", tag, total, at + len(data), len(table))
        data += padded
    power = 1 << (len(tables).bit_length() - 1)
    head = struct.pack(">I4H", 0x10000, len(tables), 16 * power, power.bit_length() - 1, 16 * (len(tables) - power))
    return head + records + data


def collection(fonts):
    begin = 12 + 4 * len(fonts)
    places, data = [], b""
    for tables in fonts:
        places.append(begin + len(data))
        data += file_of(tables, begin + len(data))
    return struct.pack(">4s2HI", b"ttcf", 1, 0, len(fonts)) + b"".join(struct.pack(">I", place) for place in places) + data


def as_text(data):
    rows = [data[at:at + 32].hex() for at in range(0, len(data), 32)]
    return "".join("    %s\\\n" % row for row in rows)


def main():
    top = os.path.join(os.path.dirname(os.path.abspath(__file__)), "../../..")
    files = {
        "crates/fontshape/data/tiny.ttf": file_of(tiny()),
        "tests/fontshape/tall.ttf": file_of(tall()),
        "crates/first_shape/data/tall.ttf": file_of(tall()),
        "crates/fill_paragraph/data/tall.ttf": file_of(tall()),
        "tests/fontshape/two.ttc": collection([tiny(), tall()]),
        "tests/fontshape/flat.ttf": file_of(flat()),
        "tests/fontshape/axes.ttf": file_of(axes()),
        "tests/fontshape/heavy.ttf": file_of(heavy()),
    }
    for name, data in files.items():
        with open(os.path.join(top, name), "wb") as file:
            file.write(data)
        print(name, len(data), "bytes")
    with open(os.path.join(top, "crates/test_fonts/src/tiny.rt"), "w") as file:
        file.write("//! The font that crates/fontshape/data/tiny-font.py makes: its bytes, 32 a row, by two digits each.\n\n")
        file.write('pub const DIGITS: &str = "\\\n%s";\n' % as_text(file_of(tiny())))


if __name__ == "__main__":
    main()
