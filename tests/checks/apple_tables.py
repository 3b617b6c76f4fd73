"""Parts of Apple's tables (TrueType Reference Manual): lookup tables, state tables, and what is
made of them in `morx`, `kerx`, `kern`, `ankr`, `trak`, `feat` and `ltag`.

A lookup table is made of a dictionary from glyphs to values. A state table is made of the classes
of glyphs, of rows of numbers of entries, one for each state, and of entries, as bytes.
"""
import struct

from checks.bomb_tables import words

DELETED = 0xFFFF
# classes that each state table has
END_OF_TEXT, OUT_OF_BOUNDS, DELETED_GLYPH, END_OF_LINE = range(4)
# flags of the coverage of a subtable of `morx`, and of one of `kerx`
VERTICAL, BACKWARDS, ALL_DIRECTIONS, LOGICAL = 0x80, 0x40, 0x20, 0x10
CROSS_STREAM, VARIATION, FROM_THE_END = 0x40, 0x20, 0x10


def longs(*numbers):
    """Numbers of 32 bits."""
    return struct.pack(">%dI" % len(numbers), *numbers)


def shorts(*numbers):
    """Numbers of 16 bits with a sign."""
    return struct.pack(">%dh" % len(numbers), *numbers)


def padded(data):
    """The bytes, up to a multiple of four."""
    return data + bytes(-len(data) % 4)


def laid(parts, start):
    """Where each of some parts begins if they stand in a row from `start` on, and their bytes."""
    places, data = [], b""
    for part in parts:
        places.append(start + len(data))
        data += padded(part)
    return places, data


# ---- lookup tables

def packed(values, size):
    return b"".join(value.to_bytes(size, "big") for value in values)


def runs(values, alike=False):
    """The glyphs in runs, first to last; those of a run have one value if they are to be alike."""
    found = []
    for glyph in sorted(values):
        last = found[-1][1] if found else None
        if last == glyph - 1 and (not alike or values[last] == values[glyph]):
            found[-1] = found[-1][0], glyph
        else:
            found.append((glyph, glyph))
    return found


def searched(format_, units, ended=0):
    """A table of units in order. One of bytes 0xFF that ends searches may stand behind them (1),
    and count as one (2)."""
    size, count = len(units[0]), len(units) + (ended == 2)
    power = 1 << (count.bit_length() - 1)
    head = words(format_, size, count, size * power, power.bit_length() - 1, size * (count - power))
    return head + b"".join(units) + b"\xff" * size * bool(ended)


def row(values, default):
    """The first glyph of a table of formats 8 and 10, and the values of all from it to the last."""
    first = min(values)
    return first, [values.get(glyph, default(glyph)) for glyph in range(first, max(values) + 1)]


def lookup_0(values, default, glyphs, size=2):
    return words(0) + packed([values.get(glyph, default(glyph)) for glyph in range(glyphs)], size)


def lookup_2(values, size=2, ended=0):
    return searched(2, [words(last, first) + packed([values[first]], size)
                        for first, last in runs(values, alike=True)], ended)


def lookup_4(values, size=2, ended=0):
    found = runs(values)
    lists = [packed([values[glyph] for glyph in range(first, last + 1)], size)
             for first, last in found]
    at, units = 12 + 6 * (len(found) + bool(ended)), []
    for (first, last), part in zip(found, lists):
        units.append(words(last, first, at))
        at += len(part)
    return searched(4, units, ended) + b"".join(lists)


def lookup_6(values, size=2, ended=0):
    return searched(6, [words(glyph) + packed([values[glyph]], size) for glyph in sorted(values)],
                    ended)


def lookup_8(values, default, size=2):
    first, listed = row(values, default)
    return words(8, first, len(listed)) + packed(listed, size)


def lookup_10(values, default, size=2):
    first, listed = row(values, default)
    return words(10, size, first, len(listed)) + packed(listed, size)


# ---- state tables

def state_table(class_count, classes, rows, entries, extras=(), extra_heads=None):
    """An extended state table: the offsets of `extras` follow its own four, if `extra_heads` has no
    other numbers in their place (a function from these offsets)."""
    states = b"".join(words(*row) for row in rows)
    heads = len(extras)
    places, data = laid([classes, states, b"".join(entries), *extras], 16 + 4 * heads)
    after = places[3:]
    if extra_heads:
        after = extra_heads(*after)
    return longs(class_count, *places[:3], *after) + data


def lookup_list(lookups):
    """The lookup tables of a contextual subtable, behind their offsets."""
    places, data = laid(lookups, 4 * len(lookups))
    return longs(*places) + data


# ---- morx

def morx_subtable(kind, body, coverage=0, flags=1):
    """A subtable with these flags of coverage, on by these flags of features."""
    body = padded(body)
    return longs(12 + len(body), coverage << 24 | kind, flags) + body


def glyph_coverage(count, glyphs, listed=True):
    """The glyphs of each of some subtables, for tables of version 3: all of them, or none said."""
    if not listed:
        return longs(*[0xFFFFFFFF] * count)
    bits = b"\xff" * ((glyphs + 7) // 8)
    return longs(*[4 * count] * count) + padded(bits)


def chain(subtables, features=(), default=1, behind=b""):
    """A chain: each feature is a type, a setting, and the flags that it enables and leaves."""
    body = b"".join(struct.pack(">HHII", *feature) for feature in features)
    body += b"".join(subtables) + behind
    return longs(default, 16 + len(body), len(features), len(subtables)) + body


def morx(chains, version=2):
    return words(version, 0) + longs(len(chains)) + b"".join(chains)


def feat(types):
    """The table of feature names: how many settings each type has, and whether they exclude each
    other."""
    at, heads, names = 12 + 12 * len(types), b"", b""
    for kind in sorted(types):
        count, exclusive = types[kind]
        heads += words(kind, count) + longs(at + len(names)) + words(0x8000 * exclusive, 256)
        names += b"".join(words(setting, 257) for setting in range(count))
    return longs(0x10000) + words(len(types), 0) + longs(0) + heads + names


def ltag(languages):
    """The table of languages, each by its name."""
    at, heads, names = 12 + 4 * len(languages), b"", b""
    for name in languages:
        heads += words(at + len(names), len(name))
        names += name.encode()
    return longs(1, 0, len(languages)) + heads + names


# ---- kerx, ankr

def kerx_subtable(kind, body, coverage=0, tuples=0):
    body = padded(body)
    return longs(12 + len(body), coverage << 24 | kind, tuples) + body


def kerx(subtables, version=2, behind=b""):
    return words(version, 0) + longs(len(subtables)) + b"".join(subtables) + behind


def pair_list(pairs):
    """Pairs of glyphs in order, each with its value."""
    return b"".join(words(left, right) + shorts(value)
                    for (left, right), value in sorted(pairs.items()))


def kerx_0(pairs):
    return longs(len(pairs), 0, 0, 0) + pair_list(pairs)


def kerx_2(width, lefts, rights, values):
    """Format 2: two lookup tables, whose values are places in the array, and the array."""
    places, data = laid([lefts, rights, shorts(*values)], 12 + 16)
    return longs(2 * width, *places) + data


def kerx_6(rows, columns, values, is_long, vector=b""):
    """Format 6: likewise, of long values or short ones, and values for instances."""
    array = struct.pack(f">{len(values)}{'i' if is_long else 'h'}", *values)
    places, data = laid([rows, columns, array, vector], 12 + 24)
    return longs(int(is_long)) + words(0, 0) + longs(*places) + data


def ankr(lookup, points):
    """Points of glyphs: a lookup table leads to lists of them, given as bytes."""
    lookup = padded(lookup)
    return words(0, 0) + longs(12, 12 + len(lookup)) + lookup + points


# ---- kern, of Apple's version and of OpenType's

# how long the header of a subtable is, by the version, and its flags
APPLE_HEAD, OPENTYPE_HEAD = 8, 6
OLD_HORIZONTAL, OLD_CROSS_STREAM = 1, 4


def kern_subtable(kind, body, coverage=0):
    body = padded(body)
    return longs(APPLE_HEAD + len(body)) + bytes([coverage, kind]) + words(0) + body


def kern(subtables):
    return longs(0x10000, len(subtables)) + b"".join(subtables)


def opentype_kern_subtable(kind, body, coverage=OLD_HORIZONTAL):
    body = padded(body)
    return words(0, OPENTYPE_HEAD + len(body)) + bytes([kind, coverage]) + body


def opentype_kern(subtables):
    return words(0, len(subtables)) + b"".join(subtables)


def kern_0(pairs):
    return words(len(pairs), 0, 0, 0) + pair_list(pairs)


def class_row(values, default=0):
    """Classes of glyphs in a row, as numbers of 16 bits."""
    first, listed = row(values, lambda glyph: default)
    return words(first, len(listed), *listed)


def kern_2(width, lefts, rights, values, head=APPLE_HEAD):
    """Format 2: the class of a left glyph is the place of its row, that of a right one the place in
    a row, in bytes."""
    places, _ = laid([class_row(lefts), class_row(rights)], head + 8)
    array = head + 8 + len(padded(class_row(lefts))) + len(padded(class_row(rights)))
    lefts = {glyph: array + 2 * width * number for glyph, number in lefts.items()}
    rights = {glyph: 2 * number for glyph, number in rights.items()}
    return (words(2 * width, *places, array) + padded(class_row(lefts))
            + padded(class_row(rights)) + shorts(*values))


def kern_3(lefts, rights, classes, indices, values):
    """Format 3: classes of all glyphs, left and right, and an index for each two classes."""
    return (words(len(lefts)) + bytes([len(values), *classes, 0]) + shorts(*values)
            + bytes(lefts) + bytes(rights) + bytes(indices))


def kern_1(class_count, classes, rows, entries, values):
    """Format 1: a state table of 16 bits. An entry is the number of its next state, its flags, and
    which of the values its list begins with, if it has one."""
    first, listed = row(classes, lambda glyph: OUT_OF_BOUNDS)
    table = padded(words(first, len(listed)) + bytes(listed))
    states = padded(b"".join(bytes(line) for line in rows))
    at = 10 + len(table) + len(states)
    actions, data = at + len(padded(bytes(4 * len(entries)))), b""
    for following, flags, index in entries:
        place = 0 if index is None else actions + 2 * index
        data += words(10 + len(table) + class_count * following, flags | place)
    return (words(class_count, 10, 10 + len(table), at, actions) + table + states
            + padded(data) + shorts(*values))


# ---- trak

def track_data(start, tracks, sizes, values):
    """Tracks at this place of the table: each has its number, and a value for each size."""
    at = start + 8 + 8 * len(tracks)
    heads = b"".join(struct.pack(">IHH", number & 0xFFFFFFFF, 256, at + 4 * len(sizes)
                                 + 2 * len(sizes) * i) for i, number in enumerate(tracks))
    return (words(len(tracks), len(sizes)) + longs(at) + heads + longs(*sizes)
            + b"".join(shorts(*line) for line in values))


def trak(across=None, down=None):
    """The table of what text has across the page and down: tracks, sizes and values of each."""
    heads, data = [], b""
    for told in (across, down):
        heads.append(12 + len(data) if told else 0)
        data += padded(track_data(12 + len(data), *told)) if told else b""
    return longs(0x10000) + words(0, *heads, 0) + data
