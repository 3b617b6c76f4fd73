"""Installed fonts with all their tables of lookups: what each has, and random texts over it.

Fonts are drawn at random from DejaVu and Noto (Debian's fonts-noto-core). For each there are some
lists of options, over 20 texts of a script of the font that needs no shaper, or of any of its
characters as Latin. Features are drawn from those of the font, too.
"""
import collections
import os
import re
import unicodedata

from checks.characters import is_mark
from checks.comparison import UNSAFE_TO_BREAK, without_flag
from checks.fonts import DEJAVU_FONTS, NOTO_FONTS, installed

# scripts for which HarfBuzz has a shaper of its own, and what is of no script
SHAPED = set("""
    Adlm Ahom Arab Bali Batk Beng Bhks Brah Bugi Buhd Cakm Cham Chrs Cpmn Deva Diak Dogr Dupl
    Egyp Elym Gong Gonm Gran Gujr Guru Hang Hano Hebr Hmng Hmnp Java Kali Kawi Khar Khmr Khoj
    Kits Knda Kthi Lana Laoo Lepc Limb Mahj Maka Mand Mani Marc Medf Mero Merc Mlym Modi Mong
    Mroo Mtei Mult Mymr Nagm Nand Newa Nkoo Orya Ougr Phag Phlp Plrd Qaag Rjng Rohg Saur Shrd
    Sidd Sind Sinh Sogd Sogo Soyo Sund Sylo Syrc Tagb Takr Tale Talu Taml Tavt Telu Tfng Tglg
    Thai Tibt Tirh Tnsa Toto Vith Wcho Yezi Zanb
""".split())
COMMON = {"Zyyy", "Zinh", "Zzzz"}
BETWEEN = list("\u200d\u200c\u2019-1/\u20442\u00ad\u2003\u2009\ufe0f()")
REQUESTED = ["", "", "", "kern=0", "-liga", "smcp", "frac", "salt[1:3]=2", "aalt=2", "-mark,-mkmk",
             "onum,pnum", "-ccmp", "-calt", "locl=0", "sups"]
SYSTEMS = ["", "", "", "tr", "ro", "sr", "nl", "vi", "bg", "ca", "el-polyton", "sah"]
UNUSED = ("Cn", "Cc", "Cs", "Zl", "Zp")


def selector_is_a_mark(options, text, theirs, ours):
    """A selector that the font has no glyph for stays a mark here, placed with its letter, and is a
    letter in HarfBuzz 10.2.0. So the letter is unsafe to break here alone, and a mark behind the
    selector stands elsewhere (docs/DIFFERENCES.md)."""
    if "\ufe0f" not in text:
        return False
    sides = [without_flag(line, UNSAFE_TO_BREAK) for line in (ours, theirs)]
    if any(map(is_mark, map(ord, re.findall("\ufe0f(.)", text)))):
        sides = [re.sub("[@+][^|]*", "", line) for line in sides]
    return sides[0] == sides[1]


class WholeFont:
    """An installed font: its characters, by script too, and the features that it has."""

    def __init__(self, path):
        from fontTools.ttLib import TTFont
        from fontTools.unicodedata import script
        font = TTFont(path, lazy=True)
        self.known = [c for c in sorted(font.getBestCmap() or {})
                      if unicodedata.category(chr(c)) not in UNUSED]
        self.by_script = collections.defaultdict(list)
        for c in self.known:
            self.by_script[script(chr(c))].append(c)
        self.scripts = sorted(tag for tag in self.by_script if tag not in SHAPED | COMMON)
        lists = [font[tag].table.FeatureList for tag in ("GSUB", "GPOS") if tag in font]
        self.features = sorted({record.FeatureTag for features in lists if features
                                for record in features.FeatureRecord})

    def text(self, chance, letters):
        """A random text of some of the font's letters."""
        marks = [c for c in letters if is_mark(c)] + self.by_script["Zinh"]
        text = ""
        for _ in range(chance.randint(1, 10)):
            draw = chance.random()
            if draw < 0.2 and marks:
                text += chr(chance.choice(marks))
            elif draw < 0.26 and self.by_script["Zyyy"]:
                text += chr(chance.choice(self.by_script["Zyyy"]))
            elif draw < 0.34:
                text += chance.choice(BETWEEN + ["fi", "ffl", "AV", "To", " "])
            else:
                text += chr(chance.choice(letters))
        return text.strip(" ") or "a"

    def options(self, chance, tag):
        """A random list of options for a script."""
        features = [chance.choice(REQUESTED)]
        if self.features and chance.random() < 0.3:
            ranges = ["", "=2", "=0", "[1:4]", "[0:2]=2"]
            features.append(chance.choice(self.features) + chance.choice(ranges))
        language = chance.choice(SYSTEMS)
        direction = chance.choice(["", "", "", "ltr", "rtl"])
        options = ["--script=" + tag, "--show-flags"] + chance.choice([[], ["--no-glyph-names"]])
        if any(features):
            options.append("--features=" + ",".join(filter(None, features)))
        if language:
            options.append("--language=" + language)
        if direction:
            options.append("--direction=" + direction)
        return options


def compare_whole(comparison, chance, count, lists):
    """`count` of the installed fonts, by `lists` lists of options each."""
    paths = [path for path in installed([DEJAVU_FONTS, NOTO_FONTS]) if "Emoji" not in path]
    for path in chance.sample(paths, min(count, len(paths))):
        font = WholeFont(path)
        for _ in range(lists if font.known else 0):
            tag = chance.choice(font.scripts + ["Latn"])
            if tag in font.scripts and chance.random() < 0.8:
                letters = font.by_script[tag]
            else:
                letters, tag = font.known, "Latn"
            options = font.options(chance, tag)
            texts = [font.text(chance, letters) for _ in range(20)]
            comparison.compare("whole", os.path.basename(path), path, options, texts)
