"""Fonts with Apple's tables, made at random: `morx` of all kinds, `kerx` of all formats with
`ankr`, `kern` of both versions, `trak` and `feat`, alone and beside GSUB, GPOS and GDEF.

All tables are valid, since HarfBuzz drops a whole table for one error.
"""
from checks import apple_states as states
from checks import apple_tables as tables
from checks.fonts import add_table, bytes_of, new_font
from checks.random_fonts import LIGATURES, Maker, SPACES, name_of

# features with the type, and the settings that turn them on and off, of Apple's registry
FEATURES = {
    "liga": (1, 2, 3), "dlig": (1, 4, 5), "clig": (1, 18, 19), "smcp": (37, 1, 0),
    "c2sc": (38, 1, 0), "calt": (36, 0, 1), "swsh": (36, 4, 5), "ss01": (35, 2, 3),
    "ss02": (35, 4, 5), "onum": (21, 0, 2), "lnum": (21, 1, 2), "sups": (10, 1, 0),
    "subs": (10, 2, 0), "case": (33, 0, 1), "zero": (14, 4, 5), "vert": (4, 0, 1),
    "aalt": (17, 1, 0),
}
# small capitals by a type that is out of use
OLD_SMALL_CAPITALS = 3, 3
LANGUAGES = ["en", "de", "de-at", "fa", "zh-hant"]
LANGUAGE = 39
ALL = 0xFFFFFFFF
KINDS = {0: states.rearrangement, 1: states.contextual, 2: states.ligature,
         4: states.noncontextual, 5: states.insertion}
INSERTION = 5
GROWING = {2, INSERTION}


class Made:
    """A font in the making: its glyphs by numbers, and draws of them."""

    def __init__(self, chance, alphabet):
        self.chance, self.alphabet = chance, alphabet
        self.maker = Maker(chance, alphabet)
        characters = alphabet["letters"] + alphabet["marks"] + SPACES
        self.characters = {c: name_of(c) for c in characters}
        extra = [f"x{i}" for i in range(chance.choice([3, 6]))]
        names = [".notdef", *self.characters.values(), *LIGATURES, *extra]
        self.glyphs = list(range(1, len(names)))
        self.names = names + self.maker.glyphs_of_forms(self.maker.forms)
        self.count = len(self.names)
        self.shown = self.glyphs[:len(self.characters)]
        self.first, self.inert = self.shown[0], self.glyphs[-len(extra):]
        # whether some subtable makes glyphs that aren't those of the text
        self.grows = False
        # whether `kern` may move glyphs across the line: not where GPOS attaches glyphs, since what
        # HarfBuzz does with both isn't done here (docs/DIFFERENCES.md)
        self.crosses = True

    def glyph(self):
        """A glyph, mostly of a character; sometimes a deleted one or none."""
        drawn = self.chance.random()
        if drawn < 0.03:
            return self.chance.choice([0, tables.DELETED])
        return self.chance.choice(self.shown if drawn < 0.6 else self.glyphs)

    def some(self, least, most):
        """Some glyphs of a table, no two the same."""
        return self.chance.sample(self.glyphs, self.chance.randint(least, most))

    def value(self):
        """A number of units."""
        if self.chance.random() < 0.1:
            return self.chance.choice([0, 1, -1, 32766, -32768])
        return self.chance.randint(-300, 300)

    def lookup(self, values, default, size=2, formats=(0, 2, 4, 6, 8)):
        """A lookup table for these values; those of other glyphs may be told, too."""
        form, ended = self.chance.choice(formats), self.chance.choice([0, 0, 1, 2])
        if form == 0:
            return tables.lookup_0(values, default, self.count, size)
        if form in (8, 10):
            make = tables.lookup_8 if form == 8 else tables.lookup_10
            return make(values, default, size)
        make = {2: tables.lookup_2, 4: tables.lookup_4, 6: tables.lookup_6}[form]
        return make(values, size, ended)


# ---- morx

def coverage(chance, is_down):
    """The coverage of a subtable of `morx`, mostly for lines down the page, or across it."""
    found = tables.VERTICAL if chance.random() < (0.8 if is_down else 0.1) else 0
    for flag in tables.BACKWARDS, tables.ALL_DIRECTIONS, tables.LOGICAL:
        found |= flag if chance.random() < 0.3 else 0
    return found


def settings(chance):
    """Features of a chain: type, setting, and the flags that they turn on and leave on."""
    found = []
    for _ in range(chance.choice([0, 3, 6, 9, 12])):
        kind, on, off = chance.choice(list(FEATURES.values()))
        choices = [(kind, on), (kind, on), (kind, off), OLD_SMALL_CAPITALS]
        if chance.random() < 0.1:
            choices = [(LANGUAGE, chance.randrange(len(LANGUAGES) + 1))]
        found.append((*chance.choice(choices), chance.randrange(16),
                      chance.choice([ALL, ALL - chance.randrange(16)])))
    return found


def chain(made, is_down, version, kinds):
    """A chain with subtables of these kinds."""
    chance = made.chance
    subtables = [tables.morx_subtable(kind, KINDS[kind](made), coverage(chance, is_down),
                                      chance.choice([1, 1, 2, 4, 8, 14])) for kind in kinds]
    behind = b""
    if version == 3:
        behind = tables.glyph_coverage(len(kinds), made.count, chance.random() < 0.5)
    return tables.chain(subtables, settings(chance), chance.choice([1, 1, 15, 9, 0]), behind)


def morx(made, is_down):
    chance = made.chance
    version = chance.choice([1, 2, 2, 3])
    chains = [[chance.choice(list(KINDS)) for _ in range(chance.randint(0 if i else 1, 3))]
              for i in range(chance.choice([1, 1, 2, 3]))]
    if sum(chains, []).count(INSERTION) > 2:
        chains = [[kind for kind in kinds if kind != INSERTION] for kinds in chains]
    made.grows = any(kind in GROWING for kinds in chains for kind in kinds)
    return tables.morx([chain(made, is_down, version, kinds) for kinds in chains], version)


def feat(chance):
    """Names of most types, which may exclude each other's settings."""
    types = {kind for kind, _, _ in FEATURES.values()} | {OLD_SMALL_CAPITALS[0]}
    return tables.feat({kind: (chance.choice([0, 1, 2, 2, 3, 3]), chance.random() < 0.5)
                        for kind in sorted(types) if chance.random() < 0.9})


# ---- kerx, ankr, kern

def pairs(made):
    return {tuple(made.chance.choice(made.glyphs) for _ in range(2)): made.value()
            for _ in range(made.chance.randint(1, 30))}


def classes(made, step, count):
    """Glyphs with places of rows, so many numbers each, or of columns."""
    return {glyph: step * made.chance.randrange(count) for glyph in made.some(1, 9)}


def by_classes(made):
    """Format 2: rows and columns."""
    width, height = made.chance.randint(1, 4), made.chance.randint(1, 4)
    lefts, rights = (made.lookup(classes(made, *it), lambda glyph: 0, formats=(0, 2, 4, 6, 8, 10))
                     for it in ((width, height), (1, width)))
    return tables.kerx_2(width, lefts, rights, [made.value() for _ in range(width * height)])


def by_indices(made):
    """Format 6: the same with short values or long ones."""
    chance, is_long = made.chance, made.chance.random() < 0.4
    width, height = chance.randint(1, 4), chance.randint(1, 4)
    lefts, rights = (made.lookup(classes(made, *it), lambda glyph: 0, 4 if is_long else 2,
                                 (0, 2, 4, 6, 8, 10)) for it in ((width, height), (1, width)))
    values = [made.value() * (chance.choice([1, 200]) if is_long else 1)
              for _ in range(width * height)]
    vector = tables.shorts(*[made.value() for _ in range(4)])
    return tables.kerx_6(lefts, rights, values, is_long, vector)


FORMATS = {0: lambda made: tables.kerx_0(pairs(made)), 1: states.stacked, 2: by_classes,
           4: states.attaching, 6: by_indices}


def kerx_subtable(made, is_down):
    chance = made.chance
    found = tables.VERTICAL if chance.random() < (0.85 if is_down else 0.1) else 0
    found |= tables.CROSS_STREAM if chance.random() < 0.3 else 0
    found |= tables.VARIATION if chance.random() < 0.1 else 0
    found |= tables.FROM_THE_END if chance.random() < 0.2 else 0
    kind, tuples = chance.choice(list(FORMATS)), chance.choice([0] * 9 + [1, 2])
    return tables.kerx_subtable(kind, FORMATS[kind](made), found, tuples)


def kerx(made, is_down):
    chance = made.chance
    version = chance.choice([2, 2, 3, 4])
    subtables = [kerx_subtable(made, is_down) for _ in range(chance.randint(1, 3))]
    behind = b""
    if version > 2:
        behind = tables.glyph_coverage(len(subtables), made.count, chance.random() < 0.5)
    return tables.kerx(subtables, version, behind)


def ankr(made):
    """A list of points for some glyphs, which others may share."""
    chance, points, places = made.chance, b"", {}
    for glyph in made.some(1, 9):
        places[glyph] = len(points)
        listed = [made.value() for _ in range(2 * chance.randint(0, 4))]
        points += tables.longs(len(listed) // 2) + tables.shorts(*listed)
    return tables.ankr(made.lookup(places, lambda glyph: 0), points)


def old_classes(made, head):
    """Format 2 of `kern`."""
    width, height = made.chance.randint(1, 4), made.chance.randint(1, 4)
    return tables.kern_2(width, classes(made, 1, height), classes(made, 1, width),
                         [made.value() for _ in range(width * height)], head)


def old_indices(made, head):
    """Format 3 of `kern`: glyphs past the classes have none."""
    chance, told = made.chance, made.count - made.chance.choice([0, 0, 5])
    counts = [chance.randint(1, 4) for _ in range(2)]
    values = [made.value() for _ in range(chance.randint(1, 6))]
    sides = [[chance.randrange(count + (chance.random() < 0.1)) for _ in range(told)]
             for count in counts]
    return tables.kern_3(*sides, counts, [chance.randrange(len(values))
                                          for _ in range(counts[0] * counts[1])], values)


# what a format has behind a header of so many bytes
OLD_FORMATS = {0: lambda made, head: tables.kern_0(pairs(made)),
               1: lambda made, head: states.old_stacked(made), 2: old_classes, 3: old_indices}


def kern(made, is_down, formats):
    """The table of Apple's version."""
    chance, found = made.chance, []
    for _ in range(chance.randint(1, 3)):
        flags = tables.VERTICAL if chance.random() < (0.85 if is_down else 0.1) else 0
        flags |= tables.CROSS_STREAM if made.crosses and chance.random() < 0.3 else 0
        flags |= tables.VARIATION if chance.random() < 0.1 else 0
        kind = chance.choice(formats)
        body = OLD_FORMATS[kind](made, tables.APPLE_HEAD)
        found.append(tables.kern_subtable(kind, body, flags))
    return tables.kern(found)


def opentype_kern(made, is_down, formats):
    """The table of OpenType's version."""
    chance, found = made.chance, []
    for _ in range(chance.randint(1, 3)):
        flags = 0 if chance.random() < (0.85 if is_down else 0.1) else tables.OLD_HORIZONTAL
        flags |= tables.OLD_CROSS_STREAM if made.crosses and chance.random() < 0.3 else 0
        kind = chance.choice(formats)
        body = OLD_FORMATS[kind](made, tables.OPENTYPE_HEAD)
        found.append(tables.opentype_kern_subtable(kind, body, flags))
    return tables.opentype_kern(found)


# ---- trak

def tracks(made):
    """Tracks of which mostly one has number 0, sizes in order, and values."""
    chance = made.chance
    numbers = [number << 16 for number in chance.sample([-1, 0, 0, 1], chance.randint(1, 3))]
    sizes = sorted(chance.choice([6, 9, 12, 12.5, 24, 72]) for _ in range(chance.randint(0, 4)))
    values = [[made.value() for _ in sizes] for _ in numbers]
    return numbers, [int(size * 65536) for size in sizes], values


def trak(made):
    return tables.trak(*[tracks(made) if made.chance.random() < 0.8 else None for _ in range(2)])


# ---- fonts

def tables_of(made, is_down, old_formats):
    """Some of Apple's tables, by their tags."""
    chance = made.chance
    kind, found = chance.choice(["morx", "morx", "kerx", "kerx", "kern", "morx kerx",
                                 "morx kerx kern", "morx kern"]), {}
    if "morx" in kind:
        found["morx"] = morx(made, is_down)
        if chance.random() < 0.8:
            found["feat"] = feat(chance)
        if chance.random() < 0.3:
            found["ltag"] = tables.ltag(LANGUAGES)
    if "kerx" in kind:
        found["kerx"], found["ankr"] = kerx(made, is_down), ankr(made)
    if "kern" in kind:
        make = kern if chance.random() < 0.75 else opentype_kern
        found["kern"] = make(made, is_down, old_formats)
    if chance.random() < 0.3:
        found["trak"] = trak(made)
    return found


def features_of(made):
    """Features of GSUB, GPOS and GDEF for a third of the fonts, classes of GDEF for another."""
    drawn = made.chance.random()
    if drawn < 0.4:
        return ""
    if drawn < 0.7:
        return made.maker.classes()
    made.crosses = False
    return made.maker.features()


def apple_font(chance, alphabet, is_down, old_formats=tuple(OLD_FORMATS)):
    """The bytes of a font with Apple's tables, and the tags of these."""
    made = Made(chance, alphabet)
    advances = {name: 500 + 7 * i for i, name in enumerate(made.names)}
    font = new_font(made.characters, advances, features_of(made))
    found = tables_of(made, is_down, old_formats)
    for tag, data in found.items():
        add_table(font, tag, data)
    return bytes_of(font), sorted(found)
