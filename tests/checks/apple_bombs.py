"""Fonts with Apple's tables that ask for much work: walks without end, insertions, thousands of
chains, subtables and features, spans and stacks over the whole text. Glyph 1 is the letter a, whose
class is 4 in state tables; b is glyph 2, of class 5; others have none.
"""
from checks import apple_tables as tables
from checks.apple_tables import longs, shorts, words
from checks.fonts import add_table, bytes_of, new_font

NONE, STAYS, FIRST, SECOND = 0xFFFF, 0x4000, 0x8000, 0x2000
GLYPHS = 43
LETTERS = {1: 4, 2: 5}
ALL = 0xFFFFFFFF


def machine(entries, rows, extras=(), extra_heads=None):
    """A state table of six classes, whose rows have the entries at the end of the text, for glyphs
    without a class, and for a and b."""
    whole = [[end, other, 0, 0, *own] for end, other, *own in rows]
    return tables.state_table(6, tables.lookup_6(LETTERS), whole,
                              [words(*entry) for entry in entries], extras, extra_heads)


def one_state(entry, plain, extras=(), extra_heads=None):
    """A state table of two states, which are alike: `entry` for the letters, else `plain`."""
    return machine([plain, entry], [[0, 0, 1, 1]] * 2, extras, extra_heads)


def morx(subtables, features=(), times=1, chains=1):
    """A chain of subtables, given by kind and body, again and again."""
    parts = [tables.morx_subtable(kind, body, tables.ALL_DIRECTIONS) for kind, body in subtables]
    return {"morx": tables.morx([tables.chain(parts * times, features)] * chains)}


def kerx(subtables, times=1, coverage=0):
    parts = [tables.kerx_subtable(kind, body, coverage) for kind, body in subtables]
    return {"kerx": tables.kerx(parts * times),
            "ankr": tables.ankr(tables.lookup_6({1: 0}), longs(1) + shorts(7, 7))}


# ---- walks of morx

SWAP = tables.lookup_6({1: 2, 2: 1})
REARRANGED = 0, one_state((0, STAYS | FIRST | SECOND | 1), (0, 0))
IN_CONTEXT = 1, one_state((0, STAYS | FIRST, 0, 0), (0, 0, NONE, NONE),
                          [tables.lookup_list([SWAP])])
LIGATED = 2, one_state((0, STAYS | FIRST | SECOND, 0), (0, 0, 0),
                       [longs(0x80000000), words(*[0] * GLYPHS), words(1)])
SUBSTITUTED = 4, SWAP
# the first letter is marked, and each one after it changes it, inserts beside it, or joins it
MARKED_ROWS = [[0, 0, 1, 1], [0, 0, 2, 2]]
MARKED = 1, machine([(0, 0, NONE, NONE), (1, FIRST, NONE, NONE), (1, 0, 0, NONE)], MARKED_ROWS,
                    [tables.lookup_list([SWAP])])
MARKED_AND_ENDED = 1, machine(
    [(0, 0, NONE, NONE), (1, FIRST, NONE, NONE), (1, 0, NONE, NONE)], MARKED_ROWS,
    [tables.lookup_list([SWAP])])
BESIDE_THE_FIRST = 5, machine([(0, 0, NONE, NONE), (1, FIRST, NONE, NONE), (1, 1, NONE, 0)],
                              MARKED_ROWS, [words(3)])
TO_THE_FIRST = 2, machine([(0, 0, 0), (1, FIRST, 0), (1, SECOND, 0)], MARKED_ROWS,
                          [longs(0x80000000), words(*[0] * GLYPHS), words(1)])
# each letter is pushed, and actions pop as many as the stack holds
DEEP = 2, machine([(0, 0, 0), (1, FIRST | SECOND, 0), (1, FIRST | SECOND, 0)], MARKED_ROWS,
                  [longs(*[0] * 63, 0x80000000), words(*[0] * GLYPHS), words(1)])
STORED = 2, machine([(0, 0, 0), (1, FIRST, 0), (1, FIRST | SECOND, 0)], MARKED_ROWS,
                    [longs(*[0x40000000] * 63, 0x80000000), words(*[0] * GLYPHS), words(1)])
# a span of 64 glyphs at each glyph, and all of the text at its end
SPANS = 0, one_state((0, FIRST | SECOND | 15), (0, 0))
LONG_SPANS = 0, machine([(0, 0), (1, FIRST), (1, SECOND | 3)], MARKED_ROWS)


def inserted(flags, count, kept=31):
    """Insertion of so many letters at each letter."""
    return 5, one_state((0, flags | count << 5, 0, NONE), (0, 0, NONE, NONE), [words(*[1] * kept)])


# ---- kerx and kern

STACKED = 1, one_state((0, STAYS | FIRST, 0), (0, 0, NONE), [shorts(2, 2, 2, 2, 2, 2, 2, 3)])
PUSHED = 1, one_state((0, FIRST, 0), (0, 0, NONE), [shorts(*[2] * 8)])
ATTACHED = 4, one_state((0, STAYS | FIRST, 0), (0, 0, NONE), [words(0, 0)],
                        lambda at: [1 << 30 | at])
CHAINED = 4, one_state((0, FIRST, 0), (0, 0, NONE), [words(0, 0)], lambda at: [1 << 30 | at])
TO_ONE = 4, machine([(0, 0, NONE), (1, FIRST, NONE), (1, 0, 0)], MARKED_ROWS, [words(0, 0)],
                    lambda at: [1 << 30 | at])
EACH_PAIR = {(left, right): 7 for left in range(1, GLYPHS) for right in range(1, GLYPHS)}
BY_PAIRS = 0, tables.kerx_0(EACH_PAIR)
MANY_PAIRS = 0, longs(ALL // 6, 0, 0, 0) + tables.pair_list(EACH_PAIR)


def kern(subtables, times=1):
    parts = [tables.kern_subtable(kind, body) for kind, body in subtables]
    return {"kern": tables.kern(parts * times)}


OLD_STACKED = 1, tables.kern_1(6, LETTERS, [[0, 0, 0, 0, 1, 1]], [(0, 0, None), (0, 0xC000, 0)],
                               [2, 2, 2, 2, 2, 2, 2, 3])
OLD_PAIRS = 0, tables.kern_0({(1, 1): 7})

# ---- features

TYPES = {kind: (2, kind % 2 == 0) for kind in range(40)}
WANTED = [(kind % 40, kind % 4, ALL, ALL) for kind in range(5000)]
LANGUAGES = [(39, 1 + number % 100, ALL, ALL) for number in range(5000)]
TAGS = ["liga", "dlig", "clig", "smcp", "c2sc", "calt", "swsh", "ss01", "onum", "zero"]


def wishes(count):
    """So many features in ranges that overlap."""
    said = (f"{TAGS[i % 10]}[{i}:{2 * i + 2}]={i % 2}" for i in range(count))
    return "--features=" + ",".join(said)


def chosen(times):
    """Chains that ask for many settings."""
    return {**morx([SUBSTITUTED], WANTED, chains=times), "feat": tables.feat(TYPES)}


# chains, subtables and settings without end, of no length
ENDLESS = {
    "2^32 chains of no length": {"morx": words(2, 0) + longs(ALL, 1, 0, 0, 0)},
    "2^32 subtables of morx of no length": {
        "morx": words(2, 0) + longs(1, 1, ALL, 0, ALL) + longs(0, 4, 1)},
    "2^32 subtables of morx, of 12 bytes": {
        "morx": words(2, 0) + longs(1, 1, ALL, 0, ALL) + longs(12, 9, 1) * 50000},
    "2^32 settings": {"morx": words(2, 0) + longs(1, 1, ALL, ALL, 1) + bytes(600000),
                      "feat": tables.feat(TYPES)},
    "2^32 subtables of kerx of no length": {"kerx": words(2, 0) + longs(ALL, 0, 0, 0)},
    "2^32 subtables of kern of no length": {"kern": longs(0x10000, ALL, 0) + bytes(8)},
}
LONG_TRACKS = {"trak": tables.trak(([1 << 16] * 3000 + [0], [i << 16 for i in range(5)],
                                    [[9] * 5] * 3001))}
# the tables of each, and options
APPLE = {
    "rearrangement without end": (morx([REARRANGED]), []),
    "rearrangement without end, 500 subtables": (morx([REARRANGED], times=500), []),
    "substitution in context without end": (morx([IN_CONTEXT]), []),
    "ligatures without end": (morx([LIGATED]), []),
    "glyphs one by one, 5,000 subtables": (morx([SUBSTITUTED], times=5000), []),
    "glyphs one by one, 5,000 chains": (morx([SUBSTITUTED], chains=5000), []),
    "empty chains, 20,000": (morx([], chains=20000), []),
    "the first glyph of a text substituted by each": (morx([MARKED]), []),
    "the first glyph of a text marked, 500 subtables": (morx([MARKED_AND_ENDED], times=500), []),
    "insertion beside the first glyph of a text by each": (morx([BESIDE_THE_FIRST]), []),
    "ligatures with the first glyph of a text": (morx([TO_THE_FIRST]), []),
    "ligatures with the first glyph of a text, 100 subtables": (
        morx([TO_THE_FIRST], times=100), []),
    "stacks of 64 glyphs": (morx([DEEP]), []),
    "stacks of 64 glyphs, each stored": (morx([STORED]), []),
    "spans at each glyph": (morx([SPANS], times=100), []),
    "spans of the text so far": (morx([LONG_SPANS], times=100), []),
    "31 glyphs inserted at each": (morx([inserted(0, 31)]), []),
    "31 glyphs inserted at each, three times": (morx([inserted(0, 31)], times=3), []),
    "31 glyphs inserted at each, which are met": (morx([inserted(STAYS, 31)]), []),
    "31 glyphs inserted before each, which are met": (morx([inserted(STAYS | 0x800, 31)]), []),
    "glyphs inserted that the table lacks": (morx([inserted(STAYS, 31, 1)], times=50), []),
    "5,000 settings, 5,000 features in ranges": (chosen(1), [wishes(5000)]),
    "5,000 settings of 20 chains, 500 features in ranges": (chosen(20), [wishes(500)]),
    "16,000 features": (chosen(1), ["--features=" + ",".join(["liga=0", "dlig=1"] * 8000)]),
    "5,000 languages": ({**morx([SUBSTITUTED], LANGUAGES, chains=10), "feat": tables.feat(TYPES),
                         "ltag": tables.ltag(["de"] * 100)}, ["--language=fa", wishes(100)]),
    "stacks without end": (kerx([STACKED]), []),
    "stacks without end, 500 subtables": (kerx([STACKED], times=500), []),
    "stacks of 8 glyphs, 3,000 subtables": (kerx([PUSHED], times=3000), []),
    "attachment without end": (kerx([ATTACHED]), []),
    "each glyph attached to the one before, 1,000 subtables": (kerx([CHAINED], times=1000), []),
    "all glyphs attached to one, 1,000 subtables": (kerx([TO_ONE], times=1000), []),
    "pairs across the line, 1,000 subtables": (
        kerx([BY_PAIRS], times=1000, coverage=tables.CROSS_STREAM), []),
    "pairs of the rest of the table, 1,000 subtables": (kerx([MANY_PAIRS], times=1000), []),
    "subtables of 12 bytes, 100,000": (kerx([(9, b"")], times=100000), []),
    "pairs of kern, 5,000 subtables": (kern([OLD_PAIRS], times=5000), []),
    "stacks of kern without end": (kern([OLD_STACKED]), []),
    "stacks of kern without end, 500 subtables": (kern([OLD_STACKED], times=500), []),
    "3,000 tracks": (LONG_TRACKS, ["--font-ptem=12"]),
    **{name: (told, [wishes(20)]) for name, told in ENDLESS.items()},
}
# those that use up what a run may ask for, or nearly
APPLE_SPENT = {name for name in APPLE if "without end" in name}


def apple_bomb(name, length):
    """The font, a text, and options."""
    told, options = APPLE[name]
    names = [".notdef", *(f"g{i}" for i in range(1, GLYPHS))]
    characters = {0x60 + i: name for i, name in enumerate(names) if 1 <= i < 27}
    font = new_font(characters, dict.fromkeys(names, 500), glyph_names=False)
    for tag, data in told.items():
        add_table(font, tag, data)
    return bytes_of(font), "a" * length, ["--script=Latn", *options]
