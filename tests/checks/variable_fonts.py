"""Variable fonts, made at random: outlines that vary, with shared and private points and composed
glyphs, `avar`, and with or without `HVAR` and `MVAR`; pairs, marks and a replaced glyph that vary.
"""
import random

from checks.fonts import bytes_of

AXES = [("wght", 100, 400, 900), ("wdth", 50, 100, 200), ("opsz", 8, 8, 72)]
LETTERS = {"A": 0x41, "V": 0x56, "T": 0x54, "o": 0x6F, "e": 0x65, "f": 0x66, "i": 0x69}
MARKS = {"acute": 0x301, "grave": 0x300, "cedilla": 0x327}
COMPOSED = {"Aacute": (0xC1, "A", "acute"), "eacute": (0xE9, "e", "acute")}
PLAIN = [".notdef", "space", "A.heavy", "f_i"]
NAMES = [*PLAIN, *LETTERS, *MARKS, *COMPOSED]
CHARACTERS = {0x20: "space", **{c: name for name, c in {**LETTERS, **MARKS}.items()},
              **{of[0]: name for name, of in COMPOSED.items()}}


def contour(chance, pen):
    """A contour of lines and curves, of which a few have no point on the curve."""
    points = [(chance.randrange(-100, 900), chance.randrange(-300, 1000))
              for _ in range(chance.randrange(3, 9))]
    if chance.random() < 0.1:
        pen.qCurveTo(*points, None)
    else:
        pen.moveTo(points[0])
        at = 1
        while at < len(points):
            count = min(chance.choice([1, 1, 2, 3]), len(points) - at)
            piece = points[at:at + count]
            pen.lineTo(piece[0]) if count == 1 else pen.qCurveTo(*piece)
            at += count
    pen.closePath()


def outline(chance, name, glyphs):
    """The outline of a glyph; a composed one has a letter and a mark above it."""
    from fontTools.pens.ttGlyphPen import TTGlyphPen
    pen = TTGlyphPen(glyphs)
    if name in COMPOSED:
        _, letter, mark = COMPOSED[name]
        pen.addComponent(letter, (1, 0, 0, 1, 0, 0))
        scale = chance.choice([1, 1, 0.5, -0.75])
        pen.addComponent(mark, (scale, 0, 0, scale, chance.randrange(-200, 200), 300))
    elif name != "space":
        for _ in range(chance.randrange(1, 4)):
            contour(chance, pen)
    glyph = pen.glyph()
    if name in COMPOSED and chance.random() < 0.5:
        glyph.components[0].flags |= 0x200
    return glyph


def support(chance):
    """A region: where it begins, has its peak, and ends, along some of the axes."""
    found = {}
    for tag, low, default, high in chance.sample(AXES, chance.randrange(1, 3)):
        if low < default and chance.random() < 0.4:
            found[tag] = chance.choice([(-1, -1, 0), (-1, -0.5, 0), (-1, -0.75, -0.25)])
        else:
            found[tag] = chance.choice([(0, 1, 1), (0, 0.5, 1), (0.25, 0.75, 1), (0.5, 1, 1)])
    return found


def deltas(chance, count):
    """What a tuple adds to each of some points: none for those whose deltas are inferred."""
    told = chance.choice([0.2, 0.6, 1])
    return [(chance.randrange(-120, 120), chance.randrange(-120, 120))
            if chance.random() < told else None for _ in range(count)]


def tuples(chance, glyph, glyphs):
    """The tuples of a glyph, for its points or its components, and the four points for metrics."""
    from fontTools.ttLib.tables.TupleVariation import TupleVariation
    if glyph.isComposite():
        count = len(glyph.components)
    else:
        count = len(getattr(glyph, "coordinates", ()))
    return [TupleVariation(support(chance), deltas(chance, count + 4))
            for _ in range(chance.randrange(0, 4))]


def store(chance, font, table_tag, count):
    """A store of `count` rows of deltas, and where each stands."""
    from fontTools.varLib.varStore import OnlineVarStoreBuilder
    builder = OnlineVarStoreBuilder([axis[0] for axis in AXES])
    places = []
    for _ in range(count):
        builder.setSupports([{}] + [support(chance) for _ in range(chance.randrange(1, 4))])
        row = [chance.randrange(-300, 300) for _ in builder._supports]
        places.append(builder.storeDeltas(row))
    return builder.finish(), places


def set_metrics(chance, font):
    """The table of what is added to the advances."""
    from fontTools.ttLib import newTable
    from fontTools.ttLib.tables import otTables
    from fontTools.varLib.builder import buildVarIdxMap
    found, places = store(chance, font, "HVAR", len(NAMES))
    table = newTable("HVAR")
    table.table = otTables.HVAR()
    table.table.Version = 0x00010000
    table.table.VarStore = found
    table.table.AdvWidthMap = buildVarIdxMap(places, NAMES)
    table.table.LsbMap = table.table.RsbMap = None
    font["HVAR"] = table


def set_lines(chance, font):
    """The table of what is added to the measures of lines."""
    from fontTools.ttLib import newTable
    from fontTools.ttLib.tables import otTables
    tags = sorted(chance.sample(["hasc", "hdsc", "hlgp", "xhgt"], chance.randrange(1, 5)))
    found, places = store(chance, font, "MVAR", len(tags))
    table = newTable("MVAR")
    table.table = otTables.MVAR()
    table.table.Version, table.table.Reserved = 0x00010000, 0
    table.table.ValueRecordSize, table.table.ValueRecordCount = 8, len(tags)
    table.table.VarStore, table.table.ValueRecord = found, []
    for tag, place in zip(tags, places):
        record = otTables.MetricsValueRecord()
        record.ValueTag, record.VarIdx = tag, place
        table.table.ValueRecord.append(record)
    font["MVAR"] = table


def number(chance):
    """A number that varies, as feature files write it."""
    at = {"wght": chance.choice([100, 900, 650]), "wdth": chance.choice([50, 200])}
    some = chance.sample(sorted(at), chance.randrange(1, 3))
    place = ",".join(f"{tag}={at[tag]}" for tag in some)
    return f"(wght=400:{chance.randrange(-90, 90)} {place}:{chance.randrange(-200, 200)})"


def anchor(chance):
    return f"<anchor {number(chance)} {number(chance)}>"


def features(chance):
    """Pairs, marks, a ligature, and a letter that another one replaces where the font is heavy."""
    pairs = "".join(f"pos {a} {b} {number(chance)};\n" for a, b in [("A", "V"), ("T", "o")])
    values = f"<{number(chance)} 0 {number(chance)} 0>"
    bases = "".join(f"pos base {it} {anchor(chance)} mark @above;\n" for it in ("A", "V", "o"))
    return f"""
markClass [acute grave] {anchor(chance)} @above;
feature liga {{ sub f i by f_i; }} liga;
feature kern {{ {pairs} pos V A {values}; }} kern;
feature mark {{ {bases} }} mark;
feature mkmk {{ pos mark acute {anchor(chance)} mark @above; }} mkmk;
conditionset heavy {{ wght {chance.choice([500, 700])} 900; }} heavy;
variation rvrn heavy {{ sub A by A.heavy; }} rvrn;
"""


def segments(chance):
    """A map of `avar` for each axis."""
    found = {}
    for tag, low, default, high in AXES:
        found[tag] = {-1.0: -1.0, 0.0: 0.0, 1.0: 1.0}
        if chance.random() < 0.7:
            found[tag][0.5] = chance.choice([0.25, 0.4, 0.7])
        if low < default and chance.random() < 0.5:
            found[tag][-0.5] = chance.choice([-0.8, -0.3])
    return found


def variable_font(seed):
    """The bytes of the font of a seed."""
    from fontTools.feaLib.builder import addOpenTypeFeaturesFromString
    from fontTools.fontBuilder import FontBuilder
    from fontTools.ttLib import newTable
    chance = random.Random(f"variable {seed}")
    builder = FontBuilder(chance.choice([1000, 2048]), isTTF=True)
    builder.setupGlyphOrder(NAMES)
    builder.setupCharacterMap(CHARACTERS)
    glyphs = {}
    for name in NAMES:
        glyphs[name] = outline(chance, name, glyphs)
    builder.setupGlyf(glyphs)
    table = builder.font["glyf"]
    widths = {name: 0 if name in MARKS and chance.random() < 0.5 else chance.randrange(200, 900)
              for name in NAMES}
    builder.setupHorizontalMetrics({
        name: (widths[name], getattr(table[name], "xMin", 0) + chance.choice([0, 0, 10]))
        for name in NAMES})
    builder.setupHorizontalHeader(ascent=800, descent=-200)
    builder.setupNameTable({"familyName": "Made", "styleName": "Regular"})
    builder.setupOS2()
    builder.setupPost()
    names = {"Black": {"wght": 900, "wdth": 100, "opsz": 8}}
    builder.setupFvar([(*axis, axis[0]) for axis in AXES],
                      [{"stylename": name, "location": at} for name, at in names.items()])
    if chance.random() < 0.7:
        builder.font["avar"] = newTable("avar")
        builder.font["avar"].segments = segments(chance)
    if chance.random() < 0.9:
        builder.setupGvar({name: tuples(chance, table[name], glyphs) for name in NAMES})
    if chance.random() < 0.5:
        set_metrics(chance, builder.font)
    if chance.random() < 0.5:
        set_lines(chance, builder.font)
    addOpenTypeFeaturesFromString(builder.font, features(chance))
    return bytes_of(builder.font)


def boxes():
    """The bytes of `tests/fontshape/varied.ttf`: a box, and one that is made of it."""
    from fontTools.fontBuilder import FontBuilder
    from fontTools.pens.ttGlyphPen import TTGlyphPen
    from fontTools.ttLib.tables._g_l_y_f import Glyph
    from fontTools.ttLib.tables.TupleVariation import TupleVariation
    glyphs = {".notdef": Glyph()}
    pen = TTGlyphPen(glyphs)
    pen.moveTo((50, 0))
    for place in (450, 0), (450, 700), (50, 700):
        pen.lineTo(place)
    pen.closePath()
    glyphs["A"] = pen.glyph()
    pen = TTGlyphPen(glyphs)
    pen.addComponent("A", (1, 0, 0, 1, 100, 0))
    glyphs["B"] = pen.glyph()
    builder = FontBuilder(1000, isTTF=True)
    builder.setupGlyphOrder(list(glyphs))
    builder.setupCharacterMap({0x41: "A", 0x42: "B"})
    builder.setupGlyf(glyphs)
    builder.setupHorizontalMetrics({".notdef": (500, 0), "A": (500, 50), "B": (600, 150)})
    builder.setupHorizontalHeader(ascent=800, descent=-200)
    builder.setupNameTable({"familyName": "Varied", "styleName": "Regular"})
    builder.setupOS2()
    builder.setupPost()
    builder.setupFvar([("wght", 400, 400, 900, "wght")], [])
    greatest = {"wght": (0, 1, 1)}
    corners = [(-20, 0), None, (100, 50), None]
    builder.setupGvar({
        "A": [TupleVariation(greatest, [*corners, (-10, 0), (110, 0), None, None])],
        "B": [TupleVariation(greatest, [(40, 20), None, None, None, None])]})
    return bytes_of(builder.font)
