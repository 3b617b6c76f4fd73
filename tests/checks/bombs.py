"""Fonts made by hand that are small and ask for much work, and the worst of earlier searches.

Each runs with a text of 10,000 characters, one with three quarters as many: no run ends by a
signal, takes more than twenty seconds of processor time (the gate's machine may be slow and busy), or
more than 200 MB. The bombs are lookups that
apply themselves, substitutions that grow, parts of tables that are shared, kerning of 65,535
parts, origins and names that are searched for, long names. Those that use up what a run may ask for take
longer, in step with the text (docs/SAFE_AND_TOTAL.md): they stand in SPENT, and run over a fifth
of it. Texts that are hard to cut into syllables, or to put in order, are those of `syllable_bombs`; fonts
whose metrics take many steps at coordinates are those of `varied_bombs`, those with Apple's tables
those of `apple_bombs`.

The worst fonts of earlier searches are named in tests/hostile/worst.txt (`search`).
"""
from checks.apple_bombs import APPLE, APPLE_SPENT, apple_bomb
from checks.bomb_tables import (EVERY, LOOP, ONE_AXIS, ROW, all_null, alternates, among_none, apart,
                                becomes, class_behind, context, cursive, deletes, features, gdef,
                                gdef_of_set, grows, joins, kern, kern_heads, layout,
                                ligature_of_two, ligatures, list_behind, lookup, marks_on, names,
                                nulls, only_a, origins, pairs, row_before, row_behind, rules,
                                rules_past, stored_deltas, swallows, vain, variations,
                                varied_pairs, words)
from checks.fonts import add_table, bytes_of, new_font
from checks.hostile_runs import LENGTH, SECONDS, Runs, add_run_options, need_all
from checks.mutated import load_bases, mutated_font
from checks.programs import TESTS
from checks.syllable_bombs import TEXTS, syllable_bomb
from checks.varied_bombs import VARIED, varied_bomb

WORST = TESTS / "hostile" / "worst.txt"
# the gate's machine may be slower than that of the figures, and busy
GATE_SECONDS = 10 * SECONDS
LETTERS = range(0x61, 0x7B)
MARKS = range(0x300, 0x310)
ZWNJ, ZWJ, ALEF = 0x200C, 0x200D, 0x627
# forms of Arabic: letters that begin a ligature, other letters, ligatures
FIRST = {0xFE91, 0xFE92, 0xFE97, 0xFE98, 0xFE9B, 0xFE9F, 0xFEA3, 0xFEA7, 0xFEB3, 0xFEB7, 0xFED3,
         0xFEDF, 0xFEE0, 0xFEE3, 0xFEE7, 0xFEE8, 0xFEF3, 0xFEF4}
OTHERS = sorted({*range(0xFE80, 0xFEF5)} - FIRST)
MADE = [*range(0xFC08, 0xFD89), *range(0xFEF5, 0xFEFD)]
# what texts are of that get these (`bomb_text`)
ARABIC = "j", "ja", "jb"

AT_ONCE = [lookup(1, [words(1, 6, 0) + EVERY])]
IN_VAIN = [lookup(5, [(30000, vain())])]
RULES = [lookup(5, [rules(32000, ROW)])]
# rules of which one glyph is never there: the second, the one behind, the one before, the third
SHORT_ROWS = {
    "of two glyphs": lookup(5, [rules(31000, words(2, 0, 42))]),
    "of two glyphs, chained": lookup(6, [rules(31000, words(0, 2, 42, 0, 0))]),
    "with a glyph behind": lookup(6, [rules(31000, words(0, 1, 1, 42, 0))]),
    "with a glyph before": lookup(6, [rules(31000, words(1, 42, 1, 0, 0))]),
    "of three glyphs": lookup(5, [rules(31000, words(3, 0, 1, 42))]),
}
SKIPPING = [lookup(5, [context(2, [], words(1, 1, 1))], 8)]
NESTED_SKIPPING = [lookup(5, [context(1, [(0, 0), (0, 1), (0, 0)])], 8),
                   lookup(5, [context(3, [])], 8)]
# a rule names a set without rules 10,000 times, which looks for the next glyph that is no mark
NO_RULES = [lookup(6, [rules(0, b"")], 8),
            lookup(5, [context(1, [(0, 0)] * 10000, words(1, 1, 1))])]
# rules of three glyphs of which the last is never there, over marks that aren't of a set
OUT_OF_A_SET = [lookup(5, [rules(3000, words(3, 0, 1, 42))], 16)]
TO_BASES = [lookup(4, [marks_on(4)])]
# at two marks after one another, the second is attached and then the first
BACK_AND_FORTH = [lookup(7, [context(2, [(1, 1), (0, 1)] * 100)]), *TO_BASES]
# U+0301 and U+0302 stand on a ligature, and rules for the second look for U+0303 behind them
ON_LIGATURE = [lookup(4, [ligature_of_two()], 8),
               lookup(5, [rules(30000, words(2, 0, 30), words(1, 1, 29))])]
# a, marks and b become a ligature that the marks follow, which is taken apart and made anew
FOLLOWED = [lookup(4, [ligature_of_two(2)], 8), lookup(2, [apart()]),
            lookup(5, [context(1, [(0, 1), (0, 0)] * 5000, words(1, 1, 2))])]
# each record of a rule looks for the last of its glyphs, each of them in a list
AT_THE_LAST = [lookup(1, [words(1, 6, 0) + words(1, 1, 42)]),
               lookup(7, [context(64, [(63, 0)] * 10000, among_none(4000))])]


def a_grows(count):
    """Lookups by which a letter a becomes about so many."""
    return [lookup(2, [only_a(60)])] * 2 + [lookup(2, [only_a(count // 3600)])]


# right to left, the last letter a comes first and grows, and each letter b that is deleted hands
# its cluster to all that it became
HANDED = [*a_grows(61 * LENGTH), lookup(2, [deletes(2)])]
# right to left, the last letter c becomes a and c, the a grows, and into the cluster of each letter
# b that the c swallows all of them go; over three quarters of the text it takes as long as HANDED
MERGED = [lookup(2, [apart(3)]), *a_grows(61 * LENGTH * 3 // 4),
          lookup(5, [context(1, [(0, 5)] * LENGTH, words(1, 1, 3))]), lookup(4, [swallows()])]
# the letter a between two b stands on the ligature of these, and becomes letters of Arabic by turns,
# of which ligatures are made without lookups: all that are left follow each
ON_ONE_LIGATURE = [lookup(4, [ligature_of_two(2, first=2)], 2), *[lookup(2, [only_a(30)])] * 2,
                   lookup(2, [only_a(LENGTH * 61 // 1800)]), lookup(2, [becomes(4, 5)])]
# each a follows the next one, each b the one before, and the last a the b behind it: one chain.
# Each c follows the a or b behind it, and then the d before it, which turns the chain round
TURNED = [lookup(3, [joins([1], [1])], 13), lookup(3, [joins([2], [2])], 10),
          lookup(3, [joins([2], [1])], 1), lookup(3, [joins([1, 2], [3])], 1),
          lookup(3, [joins([3], [4])])]
# a name of bytes of which JSON writes each as six
LONG_NAME = bytes(65277) + b"\xff" + b"\1" * 255
# stages of Arabic that apply to each letter
STAGES = b"calt", b"ccmp", b"liga", b"rlig"


def calls(depth, records, count=1):
    """GSUB of lookups that apply lookups."""
    return {"GSUB": layout([lookup(5, [context(depth, records)]) for _ in range(count)])}


def marks(lookups, shared=0):
    return {"GPOS": layout(lookups, b"mark", shared=shared), "GDEF": gdef(0)}


def varied(columns, axes):
    """A variable font of 2,000 lookups of pairs with devices."""
    return {"GPOS": layout([lookup(2, [varied_pairs()])], b"kern", shared=2000),
            "GDEF": stored_deltas(columns, axes), "fvar": ONE_AXIS}


GROWS_FIRST = {
    "GSUB": layout([lookup(2, [grows(60)])]),
    "GPOS": layout([lookup(7, [rules(31000, words(2, 0, 42))])], b"kern", shared=100),
}
GROWS_IN_ITSELF = [lookup(5, [context(1, [(0, 1), (0, 0)])]), lookup(2, [grows(9)])]
# the tables of each, and what its text is of (`bomb_text`)
BOMBS = {
    "calls itself": (calls(1, [(0, 0)]), "a"),
    "calls itself twice": (calls(1, [(0, 0), (0, 0)]), "a"),
    "calls itself at each of 64 places": (calls(64, [(i, 0) for i in range(64)]), "a"),
    "calls all of 60 lookups": (calls(1, [(0, i) for i in range(60)], 60), "a"),
    "grows": ({"GSUB": layout([lookup(2, [grows(60)])])}, "a"),
    "grows twice": ({"GSUB": layout([lookup(2, [grows(60)])] * 2)}, "a"),
    "grows in itself": ({"GSUB": layout(GROWS_IN_ITSELF)}, "a"),
    "one lookup, named 20,000 times": ({"GSUB": layout(AT_ONCE, shared=20000)}, "a"),
    "one subtable, named 30,000 times": ({"GSUB": layout(IN_VAIN)}, "a"),
    "30,000 subtables of 100 lookups": ({"GSUB": layout(IN_VAIN, shared=100)}, "a"),
    "32,000 rules at one place": ({"GSUB": layout(RULES)}, "a"),
    "32,000 rules, 100 lookups": ({"GSUB": layout(RULES, shared=100)}, "a"),
    "32,000 rules, 30,000 lookups": ({"GSUB": layout(RULES, shared=30000)}, "a"),
    **{f"31,000 rules {kind}, 100 lookups": ({"GSUB": layout([rows], shared=100)}, "a")
       for kind, rows in SHORT_ROWS.items()},
    "grows, then 31,000 rules of two glyphs, 100 lookups": (GROWS_FIRST, "a"),
    "32,000 ligatures at one place": (
        {"GSUB": layout([lookup(4, [ligatures(32000, 64)])])}, "a"),
    "31,000 ligatures of two glyphs, 100 lookups": (
        {"GSUB": layout([lookup(4, [ligatures(31000, 2)])], shared=100)}, "a"),
    "skips half of the text": ({"GSUB": layout(SKIPPING), "GDEF": gdef(0)}, "am"),
    "skips half of the text, 1,000 lookups": (
        {"GSUB": layout(SKIPPING, shared=1000), "GDEF": gdef(0)}, "am"),
    "skips half of the text, nested": (
        {"GSUB": layout(NESTED_SKIPPING), "GDEF": gdef(0)}, "am"),
    "sets without rules, nested, over marks": (
        {"GSUB": layout(NO_RULES, shared=100), "GDEF": gdef(0)}, "ama"),
    "rows of 10,000 glyphs": ({"GSUB": layout([lookup(6, [(1000, row_before(10000))])])}, "a"),
    "rows of 10,000 glyphs, backwards": (
        {"GSUB": layout([lookup(8, [(1000, row_behind(10000))])])}, "a"),
    "rules past the table, 100 lookups": (
        {"GSUB": layout([lookup(5, [rules_past(15000)])], shared=100)}, "a"),
    "a list of 5,000 ranges, searched at each ZWNJ, 1,000 lookups": (
        {"GSUB": layout([lookup(6, [list_behind(5000)])], shared=1000)}, "z"),
    "classes of 5,000 ranges, searched at each ZWNJ, 1,000 lookups": (
        {"GSUB": layout([lookup(6, [class_behind(5000)])], shared=1000)}, "z"),
    "marks out of a set of 5,000 ranges, 3,000 rules, 100 lookups": (
        {"GSUB": layout(OUT_OF_A_SET, shared=100), "GDEF": gdef_of_set(5000)}, "ama"),
    "30,000 NULL subtables": ({"GSUB": layout([nulls(30000, vain())])}, "a"),
    "30,000 NULL subtables of 31,000 lookups of pairs": (
        {"GPOS": layout([nulls(30000, pairs(1), 2)], b"kern", shared=31000)}, "a"),
    "65,000 NULL subtables of 31,000 lookups of pairs, over nothing": (
        {"GSUB": layout([lookup(2, [deletes(1)])]),
         "GPOS": layout([all_null(65000)], b"kern", shared=31000)}, "l"),
    "10,000 records of the last of 64 glyphs, 9 lookups": (
        {"GPOS": layout(AT_THE_LAST, b"kern", shared=8)}, "a"),
    "records that name nothing": (
        {"GSUB": layout([lookup(5, [context(1, [(9, 0)] * 10000)])], shared=1000)}, "a"),
    "1,000 lookups at random": (
        {"GSUB": layout([lookup(3, [alternates()])], b"rand", shared=1000)}, "a"),
    "pairs, 1,000 lookups": (
        {"GPOS": layout([lookup(2, [(20, pairs(100))])], b"kern", shared=1000)}, "a"),
    "pairs over the rest of the text, 50 lookups": (
        {"GPOS": layout([lookup(2, [(20, pairs(1, 43))])], b"kern", shared=50)}, "z"),
    "devices of 200 columns, 2,000 lookups": (varied(200, 1), "d"),
    "devices of 65,000 columns, 2,000 lookups": (varied(65000, 1), "d"),
    "devices of 5,000 axes, 2,000 lookups": (varied(1, 5000), "d"),
    "positions that call themselves twice": (
        {"GPOS": layout([lookup(7, [context(1, [(0, 0), (0, 0)])])], b"kern")}, "a"),
    "variations without end": ({"GSUB": variations(0xFFFFFFFF)}, "a"),
    "10,000 features": ({"GSUB": features(10000)}, "a"),
    "extension of itself": ({"GSUB": layout([lookup(7, [words(1, 7, 0, 0)])])}, "a"),
    "extension of an extension": (
        {"GSUB": layout([lookup(7, [words(1, 7, 0, 8) + LOOP])])}, "a"),
    "marks without a base": (marks(TO_BASES), "m"),
    "marks without a base, 1,000 lookups": (marks(TO_BASES, shared=1000), "m"),
    "marks on marks": (
        {"GPOS": layout([lookup(6, [marks_on(6)])], b"mkmk"), "GDEF": gdef(0)}, "m"),
    "marks on one base": (marks(TO_BASES), "am"),
    "100,000 marks on one base": (marks(TO_BASES), "M"),
    "marks on one base, 1,000 lookups": (marks(TO_BASES, shared=1000), "am"),
    "marks on one base, nested, back and forth": (
        {"GPOS": layout(BACK_AND_FORTH, b"mark"), "GDEF": gdef(0)}, "am"),
    "rules of marks on one ligature": (
        {"GSUB": layout(ON_LIGATURE, shared=100), "GDEF": gdef(0)}, "ama"),
    "marks that follow a ligature": (
        {"GSUB": layout(FOLLOWED, shared=100), "GDEF": gdef(0)}, "amb"),
    "deletions behind a long cluster": ({"GSUB": layout(HANDED)}, "ba"),
    "ligatures that merge a long cluster": ({"GSUB": layout(MERGED)}, "bc"),
    "31,000 rules of two glyphs in each of four stages and GPOS, 100 lookups": (
        {"GSUB": layout([SHORT_ROWS["of two glyphs"]], STAGES, shared=100),
         "GPOS": layout([lookup(7, [rules(31000, words(2, 0, 42))])], b"kern", shared=100)}, "s"),
    "one chain of letters": ({"GPOS": layout([lookup(3, [cursive()], 1)], b"curs")}, "a"),
    "one chain, turned again and again": (
        {"GPOS": layout(TURNED * 200, b"curs"), "GDEF": gdef(0, (1, 1, 1, 2, 2, 2, 3, 4, 3))}, "t"),
    "pairs of 15,000 records": (
        {"GPOS": layout([lookup(2, [pairs(15000)])], b"kern")}, "a"),
    "kern of 65,535 parts at one place": ({"kern": kern(65535, 0)}, "a"),
    "kern of 65,535 parts past the end": ({"kern": kern(65535, 20)}, "a"),
    "kern of 65,535 parts of six bytes": ({"kern": kern_heads(65535)}, "a"),
    "grows, then kern of 65,535 parts of six bytes": (
        {"GSUB": layout([lookup(2, [grows(60)])]), "kern": kern_heads(65535)}, "a"),
    "grows, then origins by 25,000 records": (
        {"GSUB": layout([lookup(2, [grows(60)])]), "VORG": origins(25000)}, "v"),
    "grows, then names past the end": (
        {"GSUB": layout([lookup(2, [grows(60)])]), "post": names(44)}, "a"),
    "grows, then names behind 65,277 others": (
        {"GSUB": layout([lookup(2, [grows(60)])]), "post": names(44, b"\1a" * 65278)}, "a"),
    "grows, then names behind 65,277 empty ones": (
        {"GSUB": layout([lookup(2, [grows(60)])]), "post": names(44, bytes(65278))}, "a"),
    "grows, then names of 255 bytes": (
        {"GSUB": layout([lookup(2, [grows(60)])]), "post": names(44, LONG_NAME)}, "a"),
    "grows, then names of 255 bytes, as JSON": (
        {"GSUB": layout([lookup(2, [grows(60)])]), "post": names(44, LONG_NAME)}, "json"),
    "classes of 10,000 ranges": (
        {"GDEF": gdef(10000), "GPOS": layout(TO_BASES, b"mark")}, "am"),
    "joiners with the glyph of letters that begin ligatures": ({}, "j"),
    "ligatures of joiners and letters, against the direction, that merge a long cluster": (
        {"GSUB": layout(a_grows(61 * LENGTH))}, "ja"),
    "ligatures of letters without lookups, followed by all of one ligature": (
        {"GSUB": layout(ON_ONE_LIGATURE), "GDEF": gdef(0, (1, 1, 1, 2, 2, 2))}, "jb"),
}


# bombs that use up what a run may ask for, or nearly; those of lists, classes and sets of many
# ranges do too, and run over the whole text, to be slow if a search costs as little as a look
SPENT = {
    "calls itself twice", "calls itself at each of 64 places", "one lookup, named 20,000 times",
    "one subtable, named 30,000 times", "30,000 subtables of 100 lookups",
    "32,000 rules at one place", "32,000 rules, 100 lookups", "32,000 rules, 30,000 lookups",
    "32,000 ligatures at one place", "30,000 NULL subtables of 31,000 lookups of pairs",
    *(f"31,000 rules {kind}, 100 lookups" for kind in SHORT_ROWS),
    "grows, then 31,000 rules of two glyphs, 100 lookups",
    "31,000 ligatures of two glyphs, 100 lookups", "rules past the table, 100 lookups",
    "sets without rules, nested, over marks", "skips half of the text, nested",
    "rows of 10,000 glyphs, backwards", "30,000 NULL subtables",
    "devices of 200 columns, 2,000 lookups", "devices of 5,000 axes, 2,000 lookups",
    "records that name nothing", "pairs, 1,000 lookups",
    "positions that call themselves twice",
    "pairs over the rest of the text, 50 lookups", "marks on one base, 1,000 lookups",
    "marks on one base, nested, back and forth", "rules of marks on one ligature",
    "marks that follow a ligature", "kern of 65,535 parts of six bytes",
    "grows, then kern of 65,535 parts of six bytes",
    "31,000 rules of two glyphs in each of four stages and GPOS, 100 lookups",
}


def bomb_characters(kind):
    """The glyphs of characters: of letters a to z, 1 to 26, of marks U+0300 to U+030F, 27 to 42,
    and of ZWNJ; or of letters a and b, 1 and 2, and of Arabic, where ZWJ has that of each letter
    that begins a ligature, 4, and others share one, 5."""
    if kind not in ARABIC:
        return {c: f"u{c:04X}" for c in [*LETTERS, *MARKS, ZWNJ]}
    return {0x61: "a", 0x62: "b", ALEF: "alef", **dict.fromkeys([ZWJ, *FIRST], "first"),
            **dict.fromkeys(OTHERS, "other"), **dict.fromkeys(MADE, "ligature")}


def bomb_font(tables, kind):
    """The bytes of a font of these characters with these tables."""
    characters = bomb_characters(kind)
    advances = {name: 500 for name in [".notdef", *dict.fromkeys(characters.values())]}
    font = new_font(characters, advances, glyph_names=False)
    for tag, data in tables.items():
        add_table(font, tag, data)
    return bytes_of(font)


def bomb_text(kind, length):
    """Letters, in eight lines too, marks, or one half of each, letters first; a letter and ten
    times as many marks; marks between two letters, and one mark more or none; ZWNJ, after one
    letter; letters that join; letters by the stages of Arabic, downwards, written as JSON, or at
    coordinates of a variable font; letters right to left, of which the last is another one, or
    three quarters as many; or ZWJ in Arabic, after one letter or each, of which the last is a
    letter a; or Arabic after a letter a between two b."""
    half = length // 2
    texts = {"a": "a" * length, "json": "a" * length, "d": "a" * length,
             "m": "\u0301" * length, "z": "a" + chr(ZWNJ) * (length - 1),
             "ama": "a" + "\u0301" * (length - 67) + "\u0302" * 64 + "a\u0303",
             "t": "dcadcb" * (length // 6) + "ab",
             "amb": "a" + "\u0301" * (length - 2) + "b", "s": "a" * length,
             "v": "a" * length, "l": "\n".join(["a" * (length // 8)] * 8),
             "ba": "b" * (length - 1) + "a", "bc": "b" * (length * 3 // 4 - 1) + "c",
             "j": chr(ALEF) + chr(ZWJ) * (length - 1),
             "ja": (chr(ALEF) + chr(ZWJ)) * (half - 1) + "a" + chr(ZWJ),
             "jb": "bab" + chr(ALEF) * (length - 3),
             "am": "a" * half + "\u0301" * (length - half),
             "M": "a" + "\u0301" * (10 * length)}
    return texts[kind]


def take_bomb(runs, name, length):
    tables, kind = BOMBS[name]
    direction = {"v": "ttb", "ba": "rtl", "bc": "rtl"}.get(kind, "ltr")
    script = "Arab" if kind == "s" or kind in ARABIC else "Latn"
    options = ["--direction=" + direction, "--script=" + script]
    if kind == "json":
        options.append("--output-format=json")
    if kind == "d":
        options.append("--variations=wght=900")
    runs.take(name, bomb_font(tables, kind), bomb_text(kind, length), options)


def take_syllables(runs, name, length):
    runs.take(name, *syllable_bomb(name, length))


def take_varied(runs, name, length):
    runs.take(name, *varied_bomb(name, length))


def take_apple(runs, name, length):
    runs.take(name, *apple_bomb(name, length))


def take_worst(runs):
    """The worst fonts of earlier searches."""
    bases = load_bases()
    with open(WORST, encoding="utf-8") as file:
        for line in file:
            if not line.startswith("#"):
                seed, index, length = map(int, line.split()[:3])
                runs.take(*mutated_font(bases, seed, index, length))


def bytes_of_bomb(name):
    """The font of a bomb."""
    if name in BOMBS:
        return bomb_font(*BOMBS[name])
    make = syllable_bomb if name in TEXTS else varied_bomb if name in VARIED else apple_bomb
    return make(name, LENGTH)[0]


def add_options(parser):
    parser.add_argument("--bomb", metavar="NAME", choices=[*BOMBS, *TEXTS, *VARIED, *APPLE],
                        help="one bomb alone, over the whole text")
    parser.add_argument("--write", metavar="FILE", help="writes the font of that bomb")
    add_run_options(parser)


def run(args):
    need_all(args.program)
    with Runs(args.program, GATE_SECONDS) as runs:
        if args.bomb:
            if args.write:
                with open(args.write, "wb") as file:
                    file.write(bytes_of_bomb(args.bomb))
            kinds = [(BOMBS, take_bomb), (TEXTS, take_syllables), (VARIED, take_varied),
                     (APPLE, take_apple)]
            take = next(take for names, take in kinds if args.bomb in names)
            take(runs, args.bomb, LENGTH)
        else:
            for name in BOMBS:
                take_bomb(runs, name, LENGTH // 5 if name in SPENT else LENGTH)
            for name in TEXTS:
                take_syllables(runs, name, LENGTH)
            for name in VARIED:
                take_varied(runs, name, LENGTH)
            for name in APPLE:
                take_apple(runs, name, LENGTH // 5 if name in APPLE_SPENT else LENGTH)
            take_worst(runs)
        runs.print_counts()
        if args.keep:
            runs.keep(args.keep)
    return runs.wrong == 0 and runs.slow == 0
