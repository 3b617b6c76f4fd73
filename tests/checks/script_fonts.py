"""Fonts that are made for scripts of which Debian has none that is small, or none with a feature.

For Hangul: with all syllables, with half of them, with half of the jamo, with tone marks of no
width, with features `ljmo`, `vjmo` and `tjmo`. For Syriac: fonts whose sign U+070F stretches over
words, by tiles of several widths. For Arabic: with and without required contextual alternates.
"""
import random
import unicodedata
from pathlib import Path

from checks.fonts import new_font

ASCII = list(range(0x20, 0x7F))
CIRCLE = 0x25CC
TONE_MARKS = [0x302E, 0x302F]
JAMO_FEATURES = {
    "ljmo": ("u1100", "u1112"),
    "vjmo": ("u1161", "u1175"),
    "tjmo": ("u11A8", "u11C2"),
}
# tiles that fit, don't fit, repeat two at a time, not at all, or have no width
TILES = [(100, 50, 100), (100, 437, 100), (300, 71, 10, 33, 200), (0, 437, 0), (90, 0, 90),
         (61, 1), (500, 2000, 500), (437, 219)]


def name_of(c):
    return f"u{c:04X}"


def hangul_font(path, syllables, jamo, narrow, features):
    """A font for Hangul: these syllables and jamo, tone marks, ASCII; `narrow` has tone marks
    without width."""
    characters = {c: name_of(c) for c in ASCII + jamo + TONE_MARKS + [CIRCLE] + syllables}
    forms = ["u1100.f", "u1161.f", "u11A8.f", "u1112.f", "u1175.f", "u11C2.f"] if features else []
    names = [".notdef", *characters.values(), *forms]
    advances = {name: 500 + i % 97 for i, name in enumerate(names)}
    if narrow:
        advances.update((name_of(c), 0) for c in TONE_MARKS)
    rules = []
    for tag, jamo_names in JAMO_FEATURES.items() if features else ():
        body = " ".join(f"sub {name} by {name}.f;" for name in jamo_names)
        rules.append(f"feature {tag} {{ script hang; {body} }} {tag};")
    new_font(characters, advances, "\n".join(rules), os2=True).save(path)


def hangul_fonts(folder, jamo_spans):
    """The paths of fonts for Hangul, made in a folder."""
    chance = random.Random(7)
    syllables = list(range(0xAC00, 0xD7A4))
    jamo = [c for low, high in jamo_spans for c in range(low, high)
            if unicodedata.category(chr(c)) != "Cn"]

    def half(characters):
        return [c for c in characters if chance.random() < 0.5]

    kinds = {
        "every": (syllables, jamo, False, False),
        "half": (half(syllables), jamo, False, False),
        "few_jamo": (half(syllables), half(jamo), False, False),
        "narrow": (half(syllables), jamo, True, False),
        "features": (half(syllables), jamo, True, True),
        "syllables": (syllables, [], False, False),
    }
    paths = [str(Path(folder, f"hangul_{kind}.ttf")) for kind in kinds]
    for path, parts in zip(paths, kinds.values()):
        hangul_font(path, *parts)
    return paths


def stretching_font(path, widths, joined):
    """A font for Syriac, whose sign U+070F is taken apart into tiles of these widths; all letters
    are 437 wide."""
    syriac = [c for c in range(0x700, 0x750) if unicodedata.category(chr(c)) != "Cn"]
    characters = {c: name_of(c) for c in ASCII + syriac + [CIRCLE, 0x640]}
    advances = {".notdef": 437}
    for c, name in characters.items():
        advances[name] = 0 if unicodedata.category(chr(c)) == "Mn" else 437
    tiles = [f"tile{i}" for i in range(len(widths))]
    advances.update(zip(tiles, widths))
    rules = f"feature stch {{ script syrc; sub u070F by {' '.join(tiles)}; }} stch;"
    if joined:
        rules += " feature rlig { script syrc; sub u0712 u0713 by u0714; } rlig;"
    new_font(characters, advances, rules, os2=True).save(path)


def stretching_fonts(folder):
    """The paths of fonts whose sign stretches, made in a folder."""
    paths = [str(Path(folder, f"stretching_{i}.ttf")) for i in range(len(TILES))]
    for i, (path, widths) in enumerate(zip(paths, TILES)):
        stretching_font(path, widths, joined=i % 2 == 0)
    return paths


# required contextual alternates in the script, in GPOS, in a language alone, in another script
# alone, and none; in the first two other ligatures come together with contextual alternates
REQUIRED_ALTERNATES = [
    "feature rclt { script arab; sub %(a)s by %(b)s; } rclt;",
    "feature rclt { script arab; pos %(a)s 50; } rclt;",
    "feature rclt { script arab; language URD; sub %(a)s by %(b)s; } rclt;",
    "feature rclt { script latn; sub %(a)s by %(b)s; } rclt;",
    "",
]
ALTERNATES = """languagesystem DFLT dflt;
lookup LIGATURES { %(ligatures)s } LIGATURES;
lookup SINGLES { %(singles)s } SINGLES;
lookup CONTEXT { %(context)s } CONTEXT;
feature liga { script arab; lookup LIGATURES; language URD; } liga;
feature calt { script arab; lookup CONTEXT; language URD; } calt;
"""


def alternates_font(source, path, rules, chance):
    """A copy of a font whose lookups are ligatures first and contextual alternates second, of
    Arabic letters in their forms, so that it is seen whether the two come together; and these
    rules."""
    from fontTools.feaLib.builder import addOpenTypeFeaturesFromString
    from fontTools.ttLib import TTFont
    font = TTFont(source)
    for tag in ("GSUB", "GPOS", "GDEF"):
        if tag in font:
            del font[tag]
    names = font.getBestCmap()
    forms = [names[c] for c in range(0xFE8F, 0xFEF5) if c in names]
    pairs = sorted({(chance.choice(forms), chance.choice(forms)) for _ in range(1500)})
    lookups = {
        "ligatures": "".join(f"sub {a} {b} by {chance.choice(forms)}; " for a, b in pairs),
        "singles": "".join(f"sub {a} by {chance.choice(forms)}; " for a in forms),
        "context": "".join(f"sub {a}' lookup SINGLES {b}; " for a, b in pairs[::2]),
    }
    more = rules % {"a": forms[0], "b": forms[1]}
    addOpenTypeFeaturesFromString(font, ALTERNATES % lookups + more)
    font.save(path)


def alternates_fonts(folder, source):
    """The paths of fonts with and without required contextual alternates, made in a folder of a
    font that has glyphs for the forms of Arabic letters."""
    paths = [str(Path(folder, f"alternates_{i}.ttf")) for i in range(len(REQUIRED_ALTERNATES))]
    for i, (path, rules) in enumerate(zip(paths, REQUIRED_ALTERNATES)):
        alternates_font(source, path, rules, random.Random(i))
    return paths
