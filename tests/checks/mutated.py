"""Mutated fonts. Each is one of five small fonts with up to 40 numbers changed.

The small fonts are cut out of Amiri, Scheherazade, DejaVu Sans, Noto Naskh Arabic and Noto Sans
Devanagari, whose tables of lookups are rich. The numbers are mostly counts, offsets, formats and
kinds in GSUB, GPOS and GDEF, else bytes of `kern`, `cmap`, `glyf` and the rest. A font depends on
its seed and number alone.
"""
import random
import struct

from checks.fonts import bytes_of
from checks.programs import need_files

LENGTH = 10_000
FONTS = "/usr/share/fonts/"
ARABIC = "بسم الله الرحمن لإيؤ ًٌٍَُِّْ٠١٢"
LATIN = "AVTo fiflbcdeŠž\u0301\u0302\u0323\u0308שלוםָּ"
DEVANAGARI = "कखगघतदनरलवसह्ािीुूेैंः क्षत्र"
# the file of each, the characters that are cut out, and the script of its texts
BASES = {
    "amiri": ("opentype/fonts-hosny-amiri/Amiri-Regular.ttf", ARABIC, "Arab"),
    "scheherazade": ("truetype/scheherazade/Scheherazade-Regular.ttf", ARABIC, "Arab"),
    "naskh": ("truetype/noto/NotoNaskhArabic-Regular.ttf", ARABIC, "Arab"),
    "dejavu": ("truetype/dejavu/DejaVuSans.ttf", LATIN, "Latn"),
    "devanagari": ("truetype/noto/NotoSansDevanagari-Regular.ttf", DEVANAGARI, "Deva"),
}
PACKAGES = "fonts-dejavu-core, fonts-noto-core, fonts-hosny-amiri, fonts-sil-scheherazade"
LAYOUT = [b"GSUB", b"GPOS", b"GDEF"]
OTHERS = [b"kern", b"cmap", b"glyf", b"loca", b"hmtx", b"maxp", b"hhea", b"head"]
OPTIONS = [[], ["--show-extents"], ["--direction=rtl"], ["--direction=ttb"],
           ["--features=aalt,salt,dlig,ss01,kern"], ["--cluster-level=2"]]


def need_bases():
    need_files([FONTS + path for path, _, _ in BASES.values()], PACKAGES)


def small_font(path, characters):
    """The bytes of a font that has these characters alone, with all features."""
    from fontTools import subset
    options = subset.Options(layout_features=["*"], hinting=False, name_IDs=[],
                             notdef_outline=False, glyph_names=False, legacy_kern=True)
    font = subset.load_font(path, options)
    cutter = subset.Subsetter(options)
    cutter.populate(unicodes=sorted({ord(c) for c in characters} | {0x20, 0x25CC}))
    cutter.subset(font)
    return bytes_of(font)


def directory(data):
    """The tables of a font: the place of its entry, where it begins, and its length."""
    found = {}
    for i in range(number(data, 4)):
        entry = 12 + 16 * i
        tag, _, start, length = struct.unpack(">4s3I", data[entry:entry + 16])
        found[tag] = (entry, start, length)
    return found


def number(data, at):
    """The number at a place, 0 past the end."""
    return struct.unpack(">H", data[at:at + 2])[0] if at + 2 <= len(data) else 0


def subtable_places(data, lookup, offset):
    """Places in a subtable, in that which it extends, and in the parts that it names."""
    found, part = [], lookup + number(data, offset)
    if number(data, lookup) in (7, 9) and number(data, part) == 1:
        found += [part, part + 2, part + 4, part + 6]
        part += (number(data, part + 4) << 16) + number(data, part + 6)
    found += range(part, part + 24, 2)
    for word in range(part + 2, part + 12, 2):
        below = part + number(data, word)
        found += range(below, below + 12, 2)
    return found


def hot_places(data, start, end):
    """Places of counts, offsets, kinds and formats in GSUB or GPOS: the head, the lists, each
    lookup, the beginnings of its subtables and of what they name."""
    found = list(range(start, min(start + 10, end), 2))
    for at in (4, 6):
        begin = start + number(data, start + at)
        found += range(begin, min(begin + 40, end), 2)
    lookups = start + number(data, start + 8)
    for i in range(min(number(data, lookups), 200)):
        entry = lookups + 2 + 2 * i
        lookup = lookups + number(data, entry)
        found += [entry, lookup, lookup + 2, lookup + 4]
        for k in range(min(number(data, lookup + 4), 20)):
            offset = lookup + 6 + 2 * k
            found.append(offset)
            found += subtable_places(data, lookup, offset)
    return [at for at in found if start <= at and at + 2 <= end]


class Base:
    """A small font, and where its numbers are."""

    def __init__(self, name):
        path, self.characters, self.script = BASES[name]
        self.data = small_font(FONTS + path, self.characters)
        self.tables = {tag: (start, start + length)
                       for tag, (_, start, length) in directory(self.data).items()}
        self.hot = {tag: hot_places(self.data, *self.tables[tag])
                    for tag in (b"GSUB", b"GPOS") if tag in self.tables}
        if b"GDEF" in self.tables:
            start, end = self.tables[b"GDEF"]
            self.hot[b"GDEF"] = list(range(start, end - 1, 2))

    def mutated(self, chance):
        """A copy with some numbers changed."""
        copy = bytearray(self.data)
        for _ in range(chance.choice([1, 1, 2, 3, 5, 10, 40])):
            tag = chance.choice([tag for tag in LAYOUT * 4 + OTHERS if tag in self.tables])
            start, end = self.tables[tag]
            if end - start < 4:
                continue
            if tag in self.hot and chance.random() < 0.8:
                at = chance.choice(self.hot[tag])
            else:
                at = random_place(chance, start, end)
            old, other = number(copy, at), number(copy, random_place(chance, start, end))
            value = chance.choice([
                0, 1, 2, 3, 5, 6, 7, 8, 9, 0xFFFF, 0x7FFF, other, other, old + 1, old - 1,
                old + 2, old * 2, old // 2, old ^ 1 << chance.randrange(16),
                chance.randrange(end - start), chance.randrange(65536),
            ])
            copy[at:at + 2] = struct.pack(">H", value & 0xFFFF)
        return bytes(copy)

    def text(self, chance):
        """A text of the font's characters: few of them, repeated, or all at random."""
        some = self.characters if chance.random() < 0.5 else chance.sample(self.characters, 4)
        count = chance.choice([3, 50, LENGTH])
        piece = "".join(chance.choice(some) for _ in range(count))
        return (piece * (LENGTH // len(piece) + 1))[:LENGTH]


def random_place(chance, start, end):
    """The place of some number of 16 bits in a table."""
    return start + 2 * chance.randrange((end - start) // 2)


def load_bases():
    return {name: Base(name) for name in BASES}


def mutated_font(bases, seed, index, length=LENGTH):
    """The font of a seed and a number: its name, its bytes, so much of its text, options."""
    chance = random.Random(f"{seed} {index}")
    name = chance.choice(sorted(bases))
    base = bases[name]
    data, text = base.mutated(chance), base.text(chance)
    options = ["--script=" + base.script, "--show-flags", *chance.choice(OPTIONS)]
    return f"{seed} {index} {length} {name}", data, text[:length], options
