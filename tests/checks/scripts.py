"""Scripts with a shaper of their own beside `hb-shape`, and real lines of some that have none.

The scripts are Arabic, Syriac, Hebrew, Hangul, Thai and Lao. The fonts are the installed ones that
have the script (DejaVu, Noto, Amiri, Scheherazade): some drawn at random, with `--all` each of
them; fonts for Hangul are made here, and some for Syriac and Arabic (`script_fonts`). Each is
compared whole, without GPOS, without GSUB, without both, and without GDEF too.

The texts are lines of tests/lines (a file to a script, whole, without marks, decomposed, and cut
into words) and random ones: letters, marks, joiners, digits, spaces, other scripts. Each list of
options has one form of lines, mostly with flags, and by chance a cluster level, a direction, a
script, features, texts before and after.

HarfBuzz 10.2.0 is fetched from Debian's archive, if `--hb` doesn't name its program. Left out is
where the two are known to differ: flags of glyphs that are unsafe to concat with `kern=0`, where
HarfBuzz flags all glyphs of a font with the table `kern`. Where marks pass one another twice at
level 2, `fontshape` may mark more of them as unsafe to break (counted as named).
"""
import collections
import random
import tempfile
import unicodedata
from pathlib import Path

from checks.characters import assigned, is_mark
from checks.comparison import (UNSAFE_TO_BREAK, Comparison, add_beside_option, add_common_options,
                               without_flag)
from checks.fonts import (AMIRI_FONTS, DEJAVU_FONTS, NOTO_FONTS, SCHEHERAZADE_FONTS, installed,
                          need_dejavu, save_without)
from checks.programs import TESTS, harfbuzz_ten, need_fonttools, need_fontshape
from checks.script_fonts import alternates_fonts, hangul_fonts, stretching_fonts

# a font that has glyphs for the forms of Arabic letters
FORMED = "/usr/share/fonts/truetype/dejavu/DejaVuSans.ttf"
SHAPED = ["Arab", "Syrc", "Hebr", "Hang", "Thai", "Laoo"]
PLAIN = ["Latn", "Grek", "Cyrl", "Armn", "Geor"]
# a letter of each script, which a font of the script has
LETTER = {"Arab": 0x628, "Syrc": 0x712, "Hebr": 0x5D0, "Thai": 0xE01, "Laoo": 0xE81,
          "Latn": 0x61, "Grek": 0x3B1, "Cyrl": 0x430, "Armn": 0x561, "Geor": 0x10D0}
# letters and marks of a script that random texts are drawn from
SPANS = {
    "Arab": [(0x600, 0x700), (0x750, 0x780), (0x8A0, 0x900), (0xFB50, 0xFBC2), (0xFE70, 0xFEFD)],
    "Syrc": [(0x700, 0x750), (0x61F, 0x620), (0x640, 0x641), (0x64B, 0x656)],
    "Hebr": [(0x591, 0x5F5), (0x5D0, 0x5EB), (0xFB1D, 0xFB50)],
    "Hang": [(0x1100, 0x1200), (0xA960, 0xA97D), (0xD7B0, 0xD7FC), (0xAC00, 0xD7A4),
             (0x302E, 0x3030)],
    "Thai": [(0xE01, 0xE3B), (0xE3F, 0xE5C)],
    "Laoo": [(0xE81, 0xEE0)],
}
# what is drawn more often, since the shapers have rules for it
OFTEN = {
    "Arab": "\u0627\u0644\u0645\u0628\u0647\u0648\u062f\u064b\u064e\u0651\u0655\u0654\u0640\u06d4"
            "\u0670\u0653\u0671\u0623",
    "Syrc": "\u0710\u0715\u0716\u072a\u0712\u0717\u0721\u0308\u0730\u0742\u0714\u0722\u070f",
    "Hebr": "\u05e9\u05bc\u05c1\u05c2\u05d5\u05b9\u05dc\u05b7\u05bd\u05d9\u05b4\u05d0\u034f\u05bf",
    "Hang": "\u1100\u1112\u1161\u1175\u11a8\u11c2\uac00\uac01\ud788\u302e\u302f\u119e\u11f0\u115f"
            "\u1160",
    "Thai": "\u0e01\u0e33\u0e48\u0e49\u0e38\u0e0d\u0e10\u0e0e\u0e1b\u0e1d\u0e31\u0e34\u0e4d\u0e32"
            "\u0e47",
    "Laoo": "\u0e81\u0eb3\u0ec8\u0ec9\u0eb8\u0ebb\u0ec6\u0ecd\u0eb2\u0ebc\u0ea5",
}
BETWEEN = list("\u200d\u200c\u200d\u200c\u034f\u00ad -.1\u0661\u25cc\u00a0\u2060a\u0301\u0323"
               "\u05d0\u0628\u200f\u202f\u061c")
FORMS = [
    ["--show-flags"],
    ["--show-flags"],
    ["--show-flags", "--no-glyph-names"],
    ["--show-flags", "--unsafe-to-concat"],
    ["--show-flags", "--safe-to-insert-tatweel"],
    ["--show-extents"],
    [],
]
FEATURES = ["kern=0", "-liga", "-calt", "-ccmp,-locl", "-mark", "-mkmk", "-curs", "-init",
            "-medi,-fina", "-isol", "-rlig", "-rclt", "dlig", "ss01", "salt=2", "aalt[1:3]=2",
            "-ljmo", "-vjmo[1:4]", "-tjmo", "init[2:4]=0", "mset=0", "-dist", "liga[1:3]=0",
            "cv01=2,hlig"]
LANGUAGES = ["fa", "ur", "ar", "sd", "ks", "ku", "he", "yi", "ko", "th", "lo", "syr", "ms"]
SWITCHES = ["--bot", "--eot", "--preserve-default-ignorables", "--remove-default-ignorables",
            "--utf8-clusters"]
# kinds of copies of a font: the tables that each lacks
DROPPED = {
    "whole": (),
    "no GPOS": ("GPOS", "kern"),
    "no GSUB": ("GSUB",),
    "no lookups": ("GSUB", "GPOS", "kern"),
    "bare": ("GSUB", "GPOS", "GDEF", "kern"),
}


def real_lines(script, left_out):
    """The lines of a script, also without marks and decomposed, and their words, without some
    characters."""
    with open(TESTS / "lines" / f"{script}.txt", encoding="utf-8") as file:
        lines = ["".join(c for c in line.rstrip("\n") if c not in left_out) for line in file]
    other = [unicodedata.normalize("NFD", line) for line in lines]
    other += ["".join(c for c in line if unicodedata.category(c) != "Mn") for line in lines]
    words = sorted({word for line in lines for word in line.split()})
    return lines + [line for line in other if line not in lines], words


def marks_pass_twice(options, text, theirs, ours):
    """Whether lines differ in flags alone, of a text with three marks at level 2: moves of marks
    that overlap are marked as one here, and one by one in HarfBuzz."""
    marks = sum(unicodedata.combining(c) != 0 for c in unicodedata.normalize("NFD", text))
    theirs, ours = (without_flag(line, UNSAFE_TO_BREAK) for line in (theirs, ours))
    return "--cluster-level=2" in options and marks >= 3 and theirs == ours


def fonts_of(script, folder):
    """The paths of the fonts that have a script's letters."""
    from fontTools.ttLib import TTFont
    if script == "Hang":
        return hangul_fonts(folder, SPANS["Hang"][:3])
    paths = installed([DEJAVU_FONTS, NOTO_FONTS, AMIRI_FONTS, SCHEHERAZADE_FONTS])
    have = [path for path in paths
            if LETTER[script] in (TTFont(path, lazy=True).getBestCmap() or {})]
    if script == "Syrc":
        return have + stretching_fonts(folder)
    if script == "Arab":
        return have + alternates_fonts(folder, FORMED)
    return have


def copy_of(path, kind, folder):
    """A copy of a font without the tables that its kind lacks, none if it would be the whole
    font."""
    from fontTools.ttLib import TTFont
    font = TTFont(path, lazy=True)
    if not any(tag in font for tag in DROPPED[kind]):
        return path if kind == "whole" else None
    copy = str(Path(folder, f"{kind.replace(' ', '_')}_{Path(path).name}"))
    save_without(path, DROPPED[kind], copy)
    return copy


class Texts:
    """What a script's texts are made of."""

    def __init__(self, script, left_out):
        named = [chr(c) for c in assigned(SPANS.get(script, []))]
        self.script, self.letters = script, [c for c in named if c not in left_out]
        self.marks = [c for c in self.letters if is_mark(ord(c))]
        self.often, self.between = ([c for c in of if c not in left_out]
                                    for of in (OFTEN.get(script, ""), BETWEEN))
        self.lines, self.words = real_lines(script, left_out)

    def random(self, chance):
        text = ""
        for _ in range(chance.randint(1, 9)):
            draw = chance.random()
            if draw < 0.45:
                text += chance.choice(self.often)
            elif draw < 0.7:
                text += chance.choice(self.letters)
            elif draw < 0.82 and self.marks:
                text += chance.choice(self.marks)
            elif draw < 0.92:
                text += chance.choice(self.between)
            else:
                text += chance.choice(self.words)
        return text.strip(" ") or "a"

    def some(self, chance, count):
        """Random texts, or words for a script that has no shaper."""
        if self.script not in SPANS:
            return [chance.choice(self.words) for _ in range(count)]
        return [self.random(chance) for _ in range(count)]


def random_options(chance, texts):
    """A random list of options."""
    found = list(chance.choice(FORMS))
    if chance.random() < 0.8:
        found.append("--script=" + texts.script)
    if chance.random() < 0.6:
        found.append(f"--cluster-level={chance.randrange(3)}")
    concat = "--unsafe-to-concat" in found
    # (with no script HarfBuzz knows no native direction)
    if "--script=" + texts.script in found and chance.random() < 0.3:
        # (HarfBuzz 10 flags all glyphs of vertical texts in which `kern` has nothing to kern)
        vertical = [] if concat else ["ttb", "btt"]
        found.append("--direction=" + chance.choice(["ltr", "rtl"] + vertical))
    if chance.random() < 0.4:
        # (HarfBuzz 10 flags all glyphs also where the feature `kern` is off)
        found.append("--features=" + chance.choice(FEATURES[1:] if concat else FEATURES))
    if chance.random() < 0.3:
        found.append("--language=" + chance.choice(LANGUAGES))
    for side in ("before", "after"):
        if chance.random() < 0.2:
            found.append(f"--text-{side}={chance.choice(texts.words)}")
    return found + [switch for switch in SWITCHES if chance.random() < 0.1]


def compare_font(comparison, chance, texts, path, kinds, args):
    """A font whole and without tables: real lines, then random texts by so many lists of
    options."""
    script = texts.script
    with tempfile.TemporaryDirectory() as folder:
        for kind in kinds:
            font = copy_of(path, kind, folder)
            if not font:
                continue
            level = f"--cluster-level={chance.randrange(3)}"
            lines = texts.lines
            if not args.all:
                lines = chance.sample(lines, min(12, len(lines)))
            options = ["--show-flags", "--script=" + script, level]
            comparison.compare(kind, script, font, options, lines)
            for _ in range(args.lists):
                options = random_options(chance, texts)
                comparison.compare(kind, script, font, options, texts.some(chance, args.texts))


def left_out_of(script):
    """What no text of a script has; U+0628 has a text without a script taken for Arabic."""
    return "" if script == "Arab" else "\u0628"


def compare_script(comparison, script, args):
    """Some fonts of a script, or all. Returns how many."""
    chance = random.Random(f"{script} {args.seed}")
    with tempfile.TemporaryDirectory() as folder:
        paths = fonts_of(script, folder)
        if not args.all:
            paths = chance.sample(paths, min(args.fonts, len(paths)))
        texts = Texts(script, left_out_of(script))
        kinds = list(DROPPED) if script in SHAPED else ["whole"]
        for path in paths:
            compare_font(comparison, chance, texts, path, kinds, args)
    return len(paths)


def add_options(parser):
    parser.add_argument("--fonts", type=int, default=4, metavar="N", help="fonts of a script")
    parser.add_argument("--all", action="store_true",
                        help="all fonts of each script, and all lines")
    parser.add_argument("--lists", type=int, default=4, metavar="N",
                        help="lists of options for each form of a font")
    parser.add_argument("--texts", type=int, default=20, metavar="N",
                        help="random texts for each of these")
    parser.add_argument("--scripts", default=",".join(SHAPED + PLAIN))
    add_beside_option(parser)
    add_common_options(parser, seed=7, examples=20)


def run(args):
    need_dejavu()
    need_fonttools()
    need_fontshape(args.program)
    with harfbuzz_ten(args.hb) as beside:
        return compare_all(args, beside)


def compare_all(args, beside):
    comparison = Comparison(args.program, args.examples, beside, known=marks_pass_twice)
    fonts = collections.Counter()
    for script in args.scripts.split(","):
        fonts[script] = compare_script(comparison, script, args)
    for script, count in fonts.items():
        parts = [f"{kind} {comparison.texts[kind, script]}" for kind in DROPPED
                 if comparison.texts[kind, script]]
        print(f"{script}: {count} fonts; texts: {', '.join(parts)}")
    texts, differ = comparison.totals()
    print(f"{texts} texts of shaped scripts and real lines compared with hb-shape, "
          f"{differ} differ, {comparison.explained} as named")
    return differ == 0
