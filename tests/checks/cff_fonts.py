"""Small fonts in `CFF ` and `CFF2`, written byte by byte, so that any part of them can be wrong.

Numbers of sections are those of Adobe Technical Note 5176.
"""
import struct

from checks.bomb_tables import words

# operators of charstrings
HSTEM, VMOVETO, RLINETO, HLINETO, VLINETO, RRCURVETO, CALLSUBR, RETURN = 1, 4, 5, 6, 7, 8, 10, 11
ENDCHAR, VSINDEX, BLEND, HINTMASK, RMOVETO, HMOVETO = 14, 15, 16, 19, 21, 22
RLINECURVE, VVCURVETO, HHCURVETO, CALLGSUBR, VHCURVETO, HVCURVETO = 25, 26, 27, 29, 30, 31
FLEX = 12, 35
# operators of DICT data
CHARSET, CHARSTRINGS, PRIVATE, SUBRS, FIRST_DATA, VSTORE = [15], [17], [18], [19], [22], [24]
ROS, FDARRAY, FDSELECT = [12, 30], [12, 36], [12, 37]


def number(n):
    """A number of a charstring, of one byte if it is small, and else of three."""
    return bytes([n + 139]) if -107 <= n <= 107 else struct.pack(">Bh", 28, n)


def program(*tokens):
    """A charstring: a number is itself, and so are the bytes of an operator."""
    return b"".join(number(t) if isinstance(t, int) else bytes(t) for t in tokens)


def op(*codes):
    return bytes(codes)


def called(i, count):
    """The number by which subroutine `i` of so many is called."""
    return i - (107 if count < 1240 else 1131 if count < 33900 else 32768)


def index(objects, wide=False):
    """INDEX data (section 5)."""
    count = struct.pack(">I" if wide else ">H", len(objects))
    if not objects:
        return count
    ends = [1]
    for it in objects:
        ends.append(ends[-1] + len(it))
    return count + b"\4" + struct.pack(">%dI" % len(ends), *ends) + b"".join(objects)


def dict_data(*entries):
    """DICT data (section 4) of operators and their operands, each of five bytes."""
    return b"".join(b"".join(struct.pack(">Bi", 29, n) for n in operands) + bytes(operator)
                    for operator, operands in entries)


def private(subrs):
    """A Private DICT, and local subroutines behind it."""
    return dict_data((SUBRS, [6]))[:6] + index(subrs) if subrs else b""


def placed(parts, head):
    """The places of parts that stand one behind the other from `head` on."""
    places = []
    for part in parts:
        places.append(head)
        head += len(part)
    return places


def cff(charstrings, globals_=(), locals_=(), charset=b"", strings=()):
    """A table `CFF ` whose glyphs have names."""
    lead = b"\1\0\4\4" + index([b"X"])
    rest = index(list(strings)) + index(list(globals_))
    parts = [charset, index(charstrings), private(locals_)]
    size = 6 if locals_ else 0

    def top(charset_at, charstrings_at, private_at):
        return index([dict_data((CHARSET, [charset_at if charset else 0]),
                                (CHARSTRINGS, [charstrings_at]), (PRIVATE, [size, private_at]))])

    places = placed(parts, len(lead) + len(top(0, 0, 0)) + len(rest))
    return lead + top(*places) + rest + b"".join(parts)


def font_dicts(privates, at, wide=False):
    """FDArray at a place, and the Private DICTs behind it."""
    def array(places):
        return index([dict_data((PRIVATE, [6 if part else 0, place]))
                      for part, place in zip(privates, places)], wide)

    head = at + len(array([0] * len(privates)))
    return array(placed(privates, head)) + b"".join(privates)


def cid(charstrings, select, locals_=((),), globals_=()):
    """A table `CFF ` of a CID font (section 18), with a list of local subroutines for each Font
    DICT; `select` is its FDSelect."""
    lead = b"\1\0\4\4" + index([b"X"])
    rest = index([b"Adobe", b"Identity"]) + index(list(globals_))
    parts = [select, index(charstrings), ranges(2, [1], len(charstrings) - 2)]

    def top(select_at, charstrings_at, charset_at, array_at):
        return index([dict_data((ROS, [391, 392, 0]), (CHARSET, [charset_at]),
                                (CHARSTRINGS, [charstrings_at]), (FDARRAY, [array_at]),
                                (FDSELECT, [select_at]))])

    head = len(lead) + len(top(0, 0, 0, 0)) + len(rest)
    array_at = head + sum(map(len, parts))
    places = placed(parts, head)
    return (lead + top(*places, array_at) + rest + b"".join(parts)
            + font_dicts([private(subrs) for subrs in locals_], array_at))


def wide(charstrings, select=b"", regions=1, globals_=()):
    """A table `CFF2`, whose variation data has so many regions; `select` is its FDSelect."""
    store = words(1, 0, 12, 1) + struct.pack(">I", 12) + words(0, 0, regions, *range(regions))
    store = words(len(store)) + store
    private_dict = dict_data((FIRST_DATA, [0]))
    parts = [store, private_dict, index(charstrings, True), select]

    def array(private_at):
        return index([dict_data((PRIVATE, [len(private_dict), private_at]))], True)

    def top(array_at, store_at, private_at, charstrings_at, select_at):
        return dict_data((VSTORE, [store_at]), (FDARRAY, [array_at]),
                         (CHARSTRINGS, [charstrings_at]),
                         *([(FDSELECT, [select_at])] if select else []))

    length = len(top(0, 0, 0, 0, 0))
    head = 5 + length + len(index(list(globals_), True))
    places = placed(parts, head + len(array(0)))
    return (b"\2\0\5" + words(length) + top(head, *places) + index(list(globals_), True)
            + array(places[1]) + b"".join(parts))


def ranges(format_, names, left):
    """A charset of ranges (section 13): so many glyphs follow the first of each."""
    size = ">HB" if format_ == 1 else ">HH"
    return bytes([format_]) + b"".join(struct.pack(size, name, left) for name in names)


def font(tag, table, count, characters):
    """A font of 1,000 units with so many glyphs, drawn by this table. `characters` has the glyph of
    each character."""
    groups = b"".join(struct.pack(">3I", c, c, g) for c, g in sorted(characters.items()))
    head = words(1, 0, 1, 0, 0, 0, 0x5F0F, 0x3CF5, 0, 1000) + bytes(34)
    hhea = struct.pack(">2H2h", 1, 0, 800, -200) + bytes(26) + words(1)
    tables = {
        tag: table,
        b"cmap": words(0, 1, 3, 10, 0, 12, 12, 0) + struct.pack(
            ">3I", 16 + len(groups), 0, len(characters)) + groups,
        b"head": head, b"hhea": hhea, b"hmtx": words(500, 0) + bytes(2 * count - 2),
        b"maxp": struct.pack(">IH", 0x5000, count),
    }
    entries, data, at = b"", b"", 12 + 16 * len(tables)
    for name, it in sorted(tables.items()):
        entries += name + struct.pack(">3I", 0, at + len(data), len(it))
        data += it + bytes(-len(it) % 4)
    return b"OTTO" + words(len(tables), 0, 0, 0) + entries + data


def drawn():
    """tests/fontshape/drawn.otf: A is drawn by lines, the acute by a curve, and Aacute is composed
    of both (Adobe Technical Note 5177, appendix C)."""
    letter = program(100, 0, op(RMOVETO), 300, op(HLINETO), 500, op(VLINETO), -300, op(HLINETO),
                     op(ENDCHAR))
    acute = program(50, 600, op(RMOVETO), 0, 100, 100, 0, 0, -100, op(RRCURVETO), op(ENDCHAR))
    composed = program(120, 0, 65, 194, op(ENDCHAR))
    table = cff([op(ENDCHAR), letter, acute, composed], charset=b"\0" + words(34, 125, 171))
    return font(b"CFF ", table, 4, {0x41: 1, 0x304: 2, 0xC1: 3})
