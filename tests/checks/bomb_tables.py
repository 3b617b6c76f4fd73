"""Tables of fonts that ask for much work. Their glyphs are letters, 1 to 26, marks, 27 to 42, and
ZWNJ, 43."""
import struct


def words(*numbers):
    """Numbers of 16 bits."""
    return struct.pack(">%dH" % len(numbers), *numbers)


# the coverage of all glyphs
EVERY = words(2, 1, 1, 42, 0)
GLYPHS = 43


def lookup(kind, subtables, flag=0):
    """A lookup: `subtables` are bytes, or pairs of how often a subtable is named and its bytes. If
    its flags have a set of marks, that is the first one."""
    pairs = [it if isinstance(it, tuple) else (1, it) for it in subtables]
    count = sum(times for times, _ in pairs)
    mark_set = words(0) if flag & 16 else b""
    at, offsets, body = 6 + 2 * count + len(mark_set), [], b""
    for times, part in pairs:
        offsets += [at + len(body)] * times
        body += part
    return words(kind, flag, count, *offsets) + mark_set + body


def layout(lookups, tag=b"ccmp", shared=0, version=b""):
    """GSUB or GPOS with one feature of all lookups, or with such a one for each of some tags; the
    last of them is named `shared` times more."""
    count = len(lookups) + shared
    tags = tag if isinstance(tag, tuple) else (tag,)
    numbers = range(len(tags))
    scripts = words(1) + b"DFLT" + words(8) + words(4, 0) + words(0, 0xFFFF, len(tags), *numbers)
    records = b"".join(tag + words(2 + 6 * len(tags)) for tag in tags)
    features = words(len(tags)) + records + words(0, count, *range(count))
    at, offsets, body = 2 + 2 * count, [], b""
    for part in lookups:
        offsets.append(at + len(body))
        body += part
    offsets += [offsets[-1]] * shared
    head = 10
    # (the list of lookups comes before the features, since places of these are counted from it)
    order = words(count, *offsets) + body
    scripts_end = head + len(scripts)
    if scripts_end + len(order) > 65535:
        order_at = scripts_end + len(features)
        return words(1, 0, head, scripts_end, order_at) + scripts + features + order
    features_at = scripts_end + len(order)
    return words(1, 0, head, features_at, scripts_end) + scripts + order + features


def variations(count):
    """GSUB of one lookup whose table of variations says that it has so many records, and has one
    that never applies."""
    whole = layout([lookup(1, [words(1, 6, 0) + EVERY])])
    places = [n + 4 for n in struct.unpack(">3H", whole[4:10])]
    body = words(1, 1, *places) + struct.pack(">I", 4 + len(whole)) + whole[10:]
    condition = words(1, 0, 6, 1, 0, 0x4000, 0x4000)
    return body + words(1, 0) + struct.pack(">III", count, 16, 0) + condition


# an axis `wght` from 100 to 900, 400 by default
ONE_AXIS = (words(1, 0, 16, 2, 1, 20, 0, 8) + b"wght"
            + struct.pack(">III", 100 << 16, 400 << 16, 900 << 16) + words(0, 256))


def stored_deltas(columns, axes):
    """GDEF with one set of deltas, of so many columns, whose region takes all coordinates of so
    many axes."""
    regions = words(axes, 1) + words(0, 0, 0) * axes
    data = words(1, 0, columns, *[0] * columns) + b"\1" * columns
    store = words(1) + struct.pack(">IHI", 12, 1, 12 + len(regions)) + regions + data
    return words(1, 3, 0, 0, 0, 0, 0) + struct.pack(">I", 18) + store


def varied_pairs():
    """Pairs of all glyphs, whose two values have four devices each, the first set of deltas."""
    device = 48 + len(EVERY) + 4
    value = [1, 1, 1, 1, *[device] * 4]
    head = words(2, 48, 0xFF, 0xFF, device - 4, device - 4, 1, 1, *value, *value)
    return head + EVERY + words(2, 0) + words(0, 0, 0x8000)


def features(count):
    """GSUB whose list of features has many of one tag, and whose language names each."""
    scripts = words(1) + b"DFLT" + words(8) + words(4, 0) + words(0, 0xFFFF, count, *range(count))
    order = words(1, 4) + lookup(1, [words(1, 6, 0) + EVERY])
    at = 2 + 6 * count
    found = words(count) + (b"ccmp" + words(min(at, 65535))) * count + words(0, 1, 0)
    head = words(1, 0, 10, 10 + len(scripts) + len(order), 10 + len(scripts))
    return head + scripts + order + found


def context(depth, records, covered=EVERY):
    """A context of `depth` glyphs that applies records: pairs of a place and a lookup."""
    at = 6 + 2 * depth + 4 * len(records)
    numbers = [number for pair in records for number in pair]
    return words(3, depth, len(records), *[at] * depth, *numbers) + covered


def vain():
    """A context of two glyphs of which the second is never there."""
    return words(3, 2, 0, 10, 10 + len(EVERY)) + EVERY + words(1, 1, 42)


def rules(count, row, covered=EVERY):
    """Contexts of format 1 with one set for all glyphs of a list, whose `count` rules share one
    place."""
    head = 6 + 2 * GLYPHS
    rule_set = words(count, *[2 + 2 * count] * count) + row
    return words(1, head, 42, *[head + len(covered)] * 42) + words(0) + covered + rule_set


def row_before(length):
    """A chained context of which so many glyphs come before: any of them, and one that is never
    there."""
    at = 14 + 2 * length
    head = words(3, length, *[at] * (length - 1), at + len(EVERY), 1, at, 0, 0)
    return head + words(0) + EVERY + words(1, 1, 42)


def row_behind(length):
    """A reverse chained substitution of which so many glyphs come before: any of them, and one
    that is never there."""
    at = 10 + 2 * length + 2 * 42
    head = words(1, at, length, *[at] * (length - 1), at + len(EVERY), 0, 42, *[2] * 42)
    return head + EVERY + words(1, 1, 42)


def ranges_of_none(ranges, value=1):
    """A list, or classes, of so many ranges of glyphs, none of which the font has."""
    many = [number for i in range(ranges) for number in (60 + 2 * i, 60 + 2 * i, value)]
    return words(2, ranges, *many)


def among_none(ranges):
    """The list of all glyphs, with so many ranges of glyphs that the font doesn't have."""
    return words(2, ranges + 1, 1, 42, 0) + ranges_of_none(ranges)[4:]


def list_behind(ranges):
    """A chained context of ZWNJ, with a list behind it of so many ranges."""
    return words(3, 0, 1, 14, 1, 20, 0) + words(1, 1, 43) + ranges_of_none(ranges)


def class_behind(ranges):
    """A chained context of ZWNJ, with a glyph of class 1 behind it, by classes of so many
    ranges."""
    rule = words(0, 1, 1, 1, 0)
    head = words(2, 14, 0, 0, 34, 1, 20)
    return head + words(1, 1, 43) + words(1, 4) + rule + ranges_of_none(ranges)


def rules_past(count):
    """Contexts of format 1 whose rules all stand past the end of the table."""
    head = 6 + 2 * GLYPHS
    return words(1, head, 42, *[head + len(EVERY)] * 42, 0) + EVERY + words(count, *[65535] * count)


def nulls(count, part, kind=5):
    """A lookup, of context say, of so many subtables that are NULL, and one that isn't."""
    return words(kind, 0, count + 1, *[0] * count, 8 + 2 * count) + part


def all_null(count, kind=2):
    """A lookup, of pairs say, of so many subtables that are all NULL."""
    return words(kind, 0, count, *[0] * count)


def alternates():
    """One alternate for each glyph."""
    head = 6 + 2 * 42
    return words(1, head, 42, *[head + len(EVERY)] * 42) + EVERY + words(1, 5)


def ligatures(count, length):
    """Ligatures of one set, which share one place, and whose last component is never there."""
    head = 6 + 2 * 42
    row = words(5, length, *[1] * (length - 2), 42)
    ligature_set = words(count, *[2 + 2 * count] * count) + row
    return words(1, head, 42, *[head + len(EVERY)] * 42) + EVERY + ligature_set


def ligature_of_two(second=1, first=1):
    """Two letters, a if none is named, become one letter b."""
    return words(1, 8, 1, 14, 1, 1, first, 1, 4, 2, 2, second)


def swallows():
    """A letter c and a letter b become a letter c."""
    return words(1, 8, 1, 14, 1, 1, 3, 1, 4, 3, 2, 2)


def apart(glyph=2):
    """A letter, b if no other is named, becomes a and itself."""
    return words(1, 8, 1, 14, 1, 1, glyph, 2, 1, glyph)


def only_a(times):
    """A letter a becomes so many."""
    return becomes(*[1] * times)


def becomes(*glyphs):
    """A letter a becomes these."""
    return words(1, 8, 1, 14, 1, 1, 1, len(glyphs), *glyphs)


def deletes(glyph):
    """This glyph becomes none."""
    return words(1, 8, 1, 14, 1, 1, glyph, 0)


def grows(times):
    """Each glyph becomes so many."""
    head = 6 + 2 * 42
    return words(1, head, 42, *[head + len(EVERY)] * 42) + EVERY + words(times, *[1] * times)


def marks_on(kind):
    """Marks on bases, which are the letters, or on marks: one anchor."""
    marks = words(2, 1, 27, 42, 0)
    bases = words(2, 1, 1, 26, 0) if kind == 4 else marks
    count = 26 if kind == 4 else 16
    one = 12 + len(marks) + len(bases)
    array = words(16, *[0, 2 + 64] * 16) + words(1, 10, 10)
    base = words(count, *[2 + 2 * count] * count) + words(1, 30, 40)
    return words(1, 12, 12 + len(marks), 1, one, one + len(array)) + marks + bases + array + base


def cursive():
    """Each glyph is attached to the next."""
    head = 6 + 4 * 42
    return words(1, head, 42, *[head + len(EVERY)] * 84) + EVERY + words(1, 5, 7)


def joins(entered, left):
    """Glyphs that are entered, and glyphs that are left: one anchor."""
    glyphs = sorted({*entered, *left})
    head = 6 + 4 * len(glyphs)
    covered = words(1, len(glyphs), *glyphs)
    anchor = head + len(covered)
    rows = [anchor * (glyph in ends) for glyph in glyphs for ends in (entered, left)]
    return words(1, head, len(glyphs), *rows) + covered + words(1, 5, 7)


def pairs(count, glyphs=42):
    """Pairs of which one list is shared by so many glyphs, and has `count` records of glyph 42."""
    head = 10 + 2 * glyphs
    covered = words(2, 1, 1, glyphs, 0)
    pair_set = words(count, *[42, 9] * count)
    return words(1, head, 4, 0, glyphs, *[head + len(covered)] * glyphs) + covered + pair_set


def kern(count, length):
    """A table `kern` of `count` parts, each of which says that it has this length."""
    return words(0, count) + words(0, length, 1, 1, 6, 0, 0, 1, 1, 50)


def kern_heads(count):
    """A table `kern` of `count` parts of six bytes: the pairs of each are the parts behind it."""
    return words(0, count) + words(0xFFFF, 6, 1) * count


def origins(count):
    """A table `VORG` of so many records, none of them for a glyph of the font."""
    return words(1, 0, 800, count) + words(1000, 5) * count


def names(count, strings=b""):
    """A table `post` of format 2 that names each glyph by the last of 65,278 strings. Without
    these its strings end before the name of each glyph."""
    return words(2, 0, *[0] * 14) + words(count, *[65535] * count) + strings


def gdef(ranges, letters=(1, 26, 1)):
    """Classes of glyphs: letters are bases, if no others are named, marks marks; so many ranges of
    no glyph before."""
    count = ranges + len(letters) // 3 + 1
    classes = words(2, count, *[0, 0, 1] * ranges, *letters, 27, 42, 3)
    return words(1, 0, 12, 0, 0, 0) + classes


def gdef_of_set(ranges):
    """The same classes, and one set of marks of so many ranges of no glyph."""
    classes = gdef(0)[12:]
    head = words(1, 2, 14, 0, 0, 0, 14 + len(classes))
    return head + classes + words(1, 1, 0, 8) + ranges_of_none(ranges)


# an extension of an extension, and a rule of 64 glyphs of which the last is never there
LOOP = words(1, 5, 0, 8)
ROW = words(64, 1, *[1] * 62, 42, 0, 0)
