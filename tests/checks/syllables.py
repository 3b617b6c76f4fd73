"""Scripts whose texts are cut into syllables, beside `hb-shape` of HarfBuzz 10.2.0.

These are the nine of India, Khmer, Myanmar, and some sixty of the Universal Shaping Engine. The
fonts are those of six packages that have a letter of the script, but for those with Apple's old table
`mort`, which HarfBuzz reads and `fontshape` doesn't; some drawn at random, with `--all` each that
is installed. Every second font is tried without GSUB and GPOS, too.

The texts are real lines of the translations in /usr/share/locale and of Unicode's CLDR, if they are
installed, and random syllables: letters joined by viramas, marks, joiners, U+034F, dotted circles,
stray characters. Each list of options has a cluster level, mostly flags, and by chance a direction
or features.

At the monotone levels clusters are in order here, whatever the text, and HarfBuzz's fall in some
texts of India that no one writes: lines that are equal but for that are counted as named.

HarfBuzz 10.2.0 is fetched from Debian's archive (`tests/harfbuzz-ten.sh`), if `--hb` doesn't name
a program. The versions of Unicode differ: HarfBuzz 10 has 16.0, Debian's Python 14.0, so characters
that are newer than Python's don't come.
"""
import collections
import glob
import gettext
import html
import itertools
import os
import random
import re
import tempfile
import unicodedata
from pathlib import Path

from checks.comparison import Comparison, add_beside_option, add_common_options
from checks.fonts import installed, save_without
from checks.programs import harfbuzz_ten, need_fonttools, need_fontshape

FONTS = [f"/usr/share/fonts/truetype/{folder}/*.ttf" for folder in
         ("noto", "lohit-devanagari", "khmeros", "padauk", "sinhala", "tibetan-machine")]
ALL_FONTS = ["/usr/share/fonts/truetype/*/*.ttf"]
# fonts over which the two are known to differ: many broken parts of GPOS, an advance over 32,767
KNOWN = ("chandas1-2.ttf", "padmaa.ttf")
CLDR = "/usr/share/unicode/cldr/common/main/"
LOCALES = "/usr/share/locale/"
# the spans of characters of each script
SPANS = {
    "Deva": [(0x900, 0x980)], "Beng": [(0x980, 0xA00)], "Guru": [(0xA00, 0xA80)],
    "Gujr": [(0xA80, 0xB00)], "Orya": [(0xB00, 0xB80)], "Taml": [(0xB80, 0xC00)],
    "Telu": [(0xC00, 0xC80)], "Knda": [(0xC80, 0xD00)], "Mlym": [(0xD00, 0xD80)],
    "Khmr": [(0x1780, 0x17FA)], "Mymr": [(0x1000, 0x10A0), (0xA9E0, 0xA9FF), (0xAA60, 0xAA80)],
    "Tibt": [(0xF00, 0xFDB)], "Sinh": [(0xD81, 0xDF5)], "Java": [(0xA980, 0xA9E0)],
    "Bali": [(0x1B00, 0x1B7F)], "Mong": [(0x1800, 0x18AB)], "Lana": [(0x1A20, 0x1AAE)],
    "Gran": [(0x11300, 0x11375)], "Cakm": [(0x11100, 0x11148)], "Nkoo": [(0x7C0, 0x800)],
    "Adlm": [(0x1E900, 0x1E960)], "Brah": [(0x11000, 0x11080)], "Sund": [(0x1B80, 0x1BC0)],
    "Lepc": [(0x1C00, 0x1C50)], "Limb": [(0x1900, 0x1950)], "Cham": [(0xAA00, 0xAA60)],
    "Bugi": [(0x1A00, 0x1A20)], "Tglg": [(0x1700, 0x1720)],
    "Mtei": [(0xABC0, 0xABFA), (0xAAE0, 0xAAF7)], "Phag": [(0xA840, 0xA878)],
    "Mand": [(0x840, 0x85F)], "Egyp": [(0x13000, 0x13100), (0x13430, 0x13439)],
    "Tirh": [(0x11480, 0x114DA)], "Newa": [(0x11400, 0x11462)], "Saur": [(0xA880, 0xA8DA)],
    "Takr": [(0x11680, 0x116CA)], "Khoj": [(0x11200, 0x11242)], "Shrd": [(0x11180, 0x111E0)],
    "Kthi": [(0x11080, 0x110C3)], "Rjng": [(0xA930, 0xA960)], "Batk": [(0x1BC0, 0x1C00)],
    "Buhd": [(0x1740, 0x1754)], "Hano": [(0x1720, 0x1737)], "Tfng": [(0x2D30, 0x2D80)],
    "Sylo": [(0xA800, 0xA82D)], "Rohg": [(0x10D00, 0x10D3A)], "Plrd": [(0x16F00, 0x16FA0)],
    "Tale": [(0x1950, 0x1975)], "Tavt": [(0xAA80, 0xAAE0)], "Kali": [(0xA900, 0xA930)],
    "Khar": [(0x10A00, 0x10A59)], "Ahom": [(0x11700, 0x11747)], "Modi": [(0x11600, 0x1165A)],
    "Sidd": [(0x11580, 0x115DE)], "Bhks": [(0x11C00, 0x11C6D)], "Marc": [(0x11C70, 0x11CB7)],
    "Soyo": [(0x11A50, 0x11AA3)], "Zanb": [(0x11A00, 0x11A48)], "Gonm": [(0x11D00, 0x11D5A)],
    "Gong": [(0x11D60, 0x11DAA)], "Dogr": [(0x11800, 0x1183C)], "Maka": [(0x11EE0, 0x11EF9)],
    "Nand": [(0x119A0, 0x119E5)], "Sind": [(0x112B0, 0x112FA)], "Mani": [(0x10AC0, 0x10AF7)],
    "Phlp": [(0x10B80, 0x10BB0)], "Sogd": [(0x10F30, 0x10F5A)], "Hmng": [(0x16B00, 0x16B90)],
    "Hmnp": [(0x1E100, 0x1E150)], "Wcho": [(0x1E2C0, 0x1E300)], "Dupl": [(0x1BC00, 0x1BCA4)],
    "Mult": [(0x11280, 0x112AA)], "Mahj": [(0x11150, 0x11177)], "Elym": [(0x10FE0, 0x10FF7)],
    "Diak": [(0x11900, 0x1195A)],
}
# the languages of real lines, by the names of their files
LANGUAGES = {
    "Deva": ["hi", "mr", "ne"], "Beng": ["bn", "as", "bn_IN"], "Guru": ["pa"], "Gujr": ["gu"],
    "Orya": ["or"], "Taml": ["ta"], "Telu": ["te"], "Knda": ["kn"], "Mlym": ["ml"],
    "Khmr": ["km"], "Mymr": ["my"], "Tibt": ["dz", "bo"], "Sinh": ["si"], "Cakm": ["ccp"],
    "Nkoo": ["nqo"], "Adlm": ["ff_Adlm"], "Mtei": ["mni_Mtei"], "Tfng": ["zgh"],
    "Rohg": ["rhg"], "Mong": ["mn_Mong"],
}
BETWEEN = list("\u200c\u200d\u034f\u25cc -a\u2060\ufe00\u00a01\u0964\u1cd0\u0951")
FEATURES = ["-liga", "-ccmp", "-half", "-rphf", "-pref", "-blwf,-pstf", "-abvs", "-pres", "-calt",
            "-init", "-isol", "-rclt", "kern=0", "-dist", "-mark", "vatu=0", "liga[1:3]=0", "ss01"]


def in_order(options, text, theirs, ours):
    """Whether `hb-shape` has clusters out of order, and they are these once each is the least of
    those from it on, in the direction of the text."""
    if "--cluster-level=2" in options:
        return False
    clusters = [int(number) for number in re.findall("=([0-9]+)", theirs)]
    backward = clusters[:1] > clusters[-1:]
    least = list(itertools.accumulate(clusters if backward else clusters[::-1], min))
    numbers = iter(least if backward else least[::-1])
    return re.sub("=[0-9]+", lambda _: f"={next(numbers)}", theirs) == ours


def inside(text, spans):
    return sum(any(start <= ord(c) < end for start, end in spans) for c in text)


def real_lines(script):
    """The lines of a script in the translations and in CLDR, in order."""
    found = set()
    for language in LANGUAGES.get(script, []):
        for path in glob.glob(f"{LOCALES}{language}/LC_MESSAGES/*.mo"):
            with open(path, "rb") as file:
                try:
                    catalog = gettext.GNUTranslations(file)._catalog
                except (OSError, UnicodeDecodeError):
                    continue
            for said in catalog.values():
                if isinstance(said, str):
                    found.update(said.split("\n"))
        if os.path.exists(f"{CLDR}{language}.xml"):
            said = Path(f"{CLDR}{language}.xml").read_text(encoding="utf-8")
            found.update(html.unescape(it) for it in re.findall(">([^<>\n]+)<", said))
    lines = {re.sub(r"\s+", " ", line).strip() for line in found}
    return sorted(line for line in lines if inside(line, SPANS[script]) > 1 and len(line) < 120)


class Syllables:
    """What random texts of a script are made of."""

    def __init__(self, script, count):
        spans = SPANS[script]
        self.count = count
        self.spans = spans
        chars = [chr(c) for start, end in spans for c in range(start, end)
                 if unicodedata.category(chr(c)) not in ("Cn", "Cc", "Cs")]
        marks = [c for c in chars if unicodedata.category(c) in ("Mn", "Mc")]
        letters = [c for c in chars if unicodedata.category(c)[0] == "L"]
        self.chars, self.letters = chars, letters or chars
        self.marks = marks or self.letters
        self.viramas = [c for c in marks if unicodedata.combining(c) == 9] or self.marks
        self.lines = real_lines(script)

    def some_marks(self, chance, counts):
        return "".join(chance.choice(self.marks) for _ in range(chance.choice(counts)))

    def syllable(self, chance):
        """A letter with marks, letters joined by viramas, or what no syllable is."""
        draw, letter = chance.random(), chance.choice(self.letters)
        if draw < 0.35:
            return letter + self.some_marks(chance, [0, 1, 1, 2, 2, 3])
        if draw < 0.65:
            joined = "".join(chance.choice(self.viramas) + chance.choice(["", "", "", "\u200d"])
                             + chance.choice(self.letters) for _ in range(chance.choice([1, 1, 2])))
            return letter + joined + self.some_marks(chance, [0, 1, 2])
        if draw < 0.72:
            return self.some_marks(chance, [1, 2, 3])
        if draw < 0.8:
            return chance.choice(BETWEEN)
        if draw < 0.9:
            joiner = chance.choice(["\u200c", "\u200d", "\u034f"])
            return letter + chance.choice(self.viramas) + joiner + chance.choice(self.letters)
        return "".join(chance.choice(self.chars) for _ in range(chance.choice([1, 2, 3, 4])))

    def random(self, chance):
        while True:
            count = chance.choice([1, 1, 2, 3, 4])
            text = "".join(self.syllable(chance) for _ in range(count)).strip(" ")
            if inside(text, self.spans):
                return text


def fonts_of(script, known):
    """The paths of the installed fonts with letters of a script, without the table `mort`."""
    start = next(c for c in range(*SPANS[script][0]) if unicodedata.category(chr(c))[0] in "LS")
    return [path for path, (characters, old) in known.items()
            if not old and any(c in characters for c in range(start, start + 24))]


def characters_of_fonts(patterns):
    """What characters each font has, and whether it has Apple's table `mort`."""
    from fontTools.ttLib import TTFont, TTLibError
    known = {}
    for path in installed(patterns):
        if os.path.basename(path) in KNOWN:
            continue
        try:
            font = TTFont(path, lazy=True)
            known[path] = font.getBestCmap() or {}, "mort" in font
        except (TTLibError, AssertionError, KeyError, OSError):
            continue  # broken, or without a character map
    return known


def options_of(chance):
    """A random list of options."""
    found = [f"--cluster-level={chance.randrange(3)}"]
    if chance.random() < 0.8:
        found.append("--show-flags")
    if chance.random() < 0.15:
        found.append("--direction=" + chance.choice(["ltr", "rtl"]))
    if chance.random() < 0.3:
        found.append("--features=" + chance.choice(FEATURES))
    return found


def compare_font(comparison, chance, script, texts, font, args):
    """Real lines at one level, then random texts by so many lists of options."""
    lines = texts.lines
    if not args.all:
        lines = chance.sample(lines, min(args.texts, len(lines)))
    level = f"--cluster-level={chance.randrange(3)}"
    asked = "--script=" + script
    if lines:
        comparison.compare("real", script, font, [asked, level, "--show-flags"], lines)
    for _ in range(args.lists):
        made = [texts.random(chance) for _ in range(texts.count)]
        comparison.compare("random", script, font, [asked] + options_of(chance), made)


def texts_of_list(args, fonts):
    """How many texts a list of options gets, that each script has so many in all: over each font,
    and over a copy of every second one."""
    copies = fonts + (fonts + 1) // 2
    return max(args.texts, -(-args.each // max(1, args.lists * copies)))


def add_options(parser):
    parser.add_argument("--fonts", type=int, default=3, metavar="N", help="fonts of a script")
    parser.add_argument("--all", action="store_true", help="all fonts, and all real lines")
    parser.add_argument("--lists", type=int, default=3, metavar="N",
                        help="lists of options for each font")
    parser.add_argument("--texts", type=int, default=40, metavar="N",
                        help="texts for each of these")
    parser.add_argument("--each", type=int, default=0, metavar="N",
                        help="random texts of each script, at least")
    parser.add_argument("--scripts", default=",".join(SPANS))
    add_beside_option(parser)
    add_common_options(parser, seed=70, examples=20)


def compare_all(args, beside):
    comparison = Comparison(args.program, args.examples, beside, known=in_order)
    known = characters_of_fonts(ALL_FONTS if args.all else FONTS)
    fonts = collections.Counter()
    for script in args.scripts.split(","):
        chance = random.Random(f"{script} {args.seed}")
        paths = fonts_of(script, known)
        if not args.all:
            paths = chance.sample(paths, min(args.fonts, len(paths)))
        texts = Syllables(script, texts_of_list(args, len(paths)))
        for number, path in enumerate(paths):
            compare_font(comparison, chance, script, texts, path, args)
            if number % 2 == 0:
                with tempfile.TemporaryDirectory() as folder:
                    bare = os.path.join(folder, "bare_" + os.path.basename(path))
                    save_without(path, ("GSUB", "GPOS"), bare)
                    compare_font(comparison, chance, script, texts, bare, args)
        fonts[script] = len(paths)
    texts, differ = comparison.totals()
    real = sum(count for (kind, _), count in comparison.texts.items() if kind == "real")
    scripts = sum(count > 0 for count in fonts.values())
    print(f"{texts} texts ({real} real lines) of {scripts} scripts cut "
          f"into syllables, over {sum(fonts.values())} fonts, compared with hb-shape 10.2.0, "
          f"{differ} differ, {comparison.explained} as named")
    return differ == 0


def run(args):
    need_fonttools()
    need_fontshape(args.program)
    with harfbuzz_ten(args.hb) as beside:
        return compare_all(args, beside)
