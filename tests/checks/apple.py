"""Fonts with Apple's tables (`morx`, `kerx`, `kern`, `trak`) beside `hb-shape` 10.2.0.

The fonts are those of HarfBuzz's own tests that have such tables, with random texts of their
characters, and fonts that are made at random (`apple_fonts`), alone and beside GSUB, GPOS and GDEF.
Each is tried with some lists of options: directions, levels of clusters, flags, features, sizes and
points. Each font depends on the seed and its number alone.

Each text has a language: `hb-shape` gives one without that of the locale, and `fontshape` none.

Where the table `kern` may kern, the flags UNSAFE_TO_CONCAT aren't compared: HarfBuzz gives them to
texts in which it kerns nothing, too (docs/DIFFERENCES.md).
"""
import random
import struct
import tempfile
import unicodedata
from pathlib import Path

from checks.apple_fonts import FEATURES, LANGUAGES, apple_font
from checks.comparison import Comparison, add_beside_option, add_common_options
from checks.programs import harfbuzz_ten, need_fonttools, need_fontshape
from checks.random_fonts import ARABIC, PLAIN, SPACES, SYRIAC
from checks.suite import harfbuzz_suite, tables_of

APPLE = {b"morx", b"kerx", b"trak"}
# fonts whose tables loop or insert without end, until the work of a run is used up, which HarfBuzz
# counts otherwise; and two of which HarfBuzz leaves out a table that would act (apple_states)
LEFT_OUT = {"TestMORXFourteen.ttf", "TestMORXTwentyfour.ttf", "TestMORXThirtyfour.ttf",
            "TestMORXThirtysix.ttf", "TestMORXEleven.ttf", "TestMORXTwenty.ttf"}
# scripts that have a shaper of their own, unless `morx` is applied
HEBREW = {"letters": [0x5D0, 0x5D1, 0x5E9, 0x5DC, 0x5DE], "script": "hebr",
          "marks": [0x5B0, 0x5B4, 0x5BC, 0x5C1]}
DEVANAGARI = {"letters": [0x915, 0x930, 0x928, 0x939], "script": "dev2",
              "marks": [0x94D, 0x93F, 0x941, 0x902]}
THAI = {"letters": [0xE01, 0xE02, 0xE1B, 0xE19], "script": "thai",
        "marks": [0xE34, 0xE38, 0xE49, 0xE33]}
ALPHABETS = [PLAIN] * 6 + [ARABIC, ARABIC, SYRIAC, HEBREW, DEVANAGARI, THAI]
MARKS = [0x301, 0x323, 0x64B, 0x5B4, 0x93F, 0x200D, 0x200C, 0x20]
# directions of lines across the page, and of those down it
ACROSS, DOWN = ["ltr", "ltr", "rtl"], ["ttb", "ttb", "btt"]


def features(chance):
    """A list of features, of which no two choose one setting."""
    said, settings = [], set()
    for tag in chance.sample(list(FEATURES), chance.randint(1, 6)):
        value = chance.choice([0, 1, 1])
        setting = FEATURES[tag][0], FEATURES[tag][1 if value else 2]
        if setting not in settings:
            settings.add(setting)
            said.append(tag + span(chance) + f"={value}")
    for tag in "kern", "trak":
        if chance.random() < 0.15:
            said.append(tag + span(chance) + f"={chance.choice([0, 0, 1])}")
    return "--features=" + ",".join(chance.sample(said, len(said)))


def span(chance):
    """The whole text, or a part of it."""
    if chance.random() < 0.5:
        return ""
    start = chance.randrange(6)
    return chance.choice([f"[{start}:{start + chance.randint(1, 5)}]", f"[{start}:]", f"[{start}]"])


def form(chance, directions):
    """A list of options."""
    options = ["--direction=" + chance.choice(directions), "--show-flags"]
    options.append(f"--cluster-level={chance.choice([0, 0, 1, 2])}")
    if chance.random() < 0.4:
        options.append("--unsafe-to-concat")
    if chance.random() < 0.5:
        options.append(features(chance))
    if chance.random() < 0.5:
        options.append(f"--font-ptem={chance.choice([0, 5, 6, 9.5, 12, 17, 24, 100])}")
    if chance.random() < 0.3:
        sizes = [str(chance.choice([12, 500, 1000, 1537, 2048, 65536])) for _ in range(2)]
        options.append("--font-size=" + chance.choice([sizes[0], " ".join(sizes)]))
    options.append("--language=" + chance.choice(LANGUAGES if chance.random() < 0.2 else ["en"]))
    return options


def length(chance):
    """How long a text is: HarfBuzz takes 32 glyphs otherwise than 31."""
    return chance.randint(28, 40) if chance.random() < 0.1 else chance.randint(1, 12)


def text_of(chance, signs):
    """A text of an alphabet, with its first letter."""
    pool = signs["letters"] * 4 + signs["marks"] * 3 + SPACES
    drawn = [chance.choice(pool) for _ in range(length(chance) - 1)]
    drawn.insert(chance.randint(0, len(drawn)), signs["letters"][0])
    return "".join(map(chr, drawn))


def kind_of(tags):
    """The kind of a font for comparison: whether `kern` may kern."""
    return "with kern" if "kern" in tags and "kerx" not in tags else "without kern"


def compare_made(args, comparison, folder, number):
    """A font that is made at random, with some lists of options."""
    chance = random.Random(f"apple {args.seed} {number}")
    signs, is_down = chance.choice(ALPHABETS), chance.random() < 0.2
    data, tags = apple_font(chance, signs, is_down)
    if signs is DEVANAGARI and "morx" not in tags:
        return
    path = Path(folder, f"{number}.ttf")
    path.write_bytes(data)
    for _ in range(args.forms):
        options = form(chance, DOWN if is_down and chance.random() < 0.8 else ACROSS)
        texts = [text_of(chance, signs) for _ in range(args.texts)]
        comparison.compare(kind_of(tags), " ".join(tags), str(path), options, texts)
    path.unlink()


# ---- HarfBuzz's own fonts

def has_apple_kern(path):
    """Whether the font has `kern` of Apple's version."""
    data = path.read_bytes()
    for i in range(min(struct.unpack(">H", data[4:6])[0], 64)):
        tag, _, start, _ = struct.unpack(">4s3I", data[12 + 16 * i:28 + 16 * i])
        if tag == b"kern":
            return data[start:start + 2] == b"\0\1"
    return False


def apple_files(suite):
    """HarfBuzz's fonts with such tables."""
    found = []
    for path in sorted(suite.glob("*/fonts/*")):
        tags = tables_of(path)
        if tags & APPLE or b"kern" in tags and has_apple_kern(path):
            found.append(path)
    return [path for path in found if path.name not in LEFT_OUT]


def characters_of(path):
    """The characters of a font, and some more."""
    from fontTools.ttLib import TTFont
    with TTFont(path, lazy=True) as font:
        cmap = font.getBestCmap() or {}
    there = [c for c in cmap if c > 0x1F and not 0x7F <= c < 0xA0 and not 0xD800 <= c < 0xE000]
    return there, [c for c in MARKS if c in cmap] + [0x200D, 0x20]


def text_over(chance, there, more):
    """A text of a few characters of a font. One without a letter gets one: a text without a script
    has no direction of its own here (docs/DIFFERENCES.md)."""
    some = chance.sample(there, min(len(there), 6)) * 3 + more
    drawn = [chr(chance.choice(some)) for _ in range(length(chance))]
    if not any(unicodedata.category(c) in ("Lu", "Ll", "Lo") for c in drawn):
        drawn.append("a")
    return "".join(drawn)


def compare_file(args, comparison, path):
    """One of HarfBuzz's fonts, with some lists of options."""
    chance = random.Random(f"apple {args.seed} {path.name}")
    there, more = characters_of(path)
    if not there:
        return
    kind = kind_of([tag.decode("latin-1") for tag in tables_of(path)])
    for _ in range(args.forms):
        options = form(chance, ACROSS + DOWN[:1])
        texts = [text_over(chance, there, more) for _ in range(args.texts)]
        comparison.compare(kind, path.name, str(path), options, texts)


def add_options(parser):
    parser.add_argument("--fonts", type=int, default=300, metavar="N",
                        help="fonts that are made at random")
    parser.add_argument("--first", type=int, default=0, metavar="I",
                        help="the number of the first font")
    parser.add_argument("--forms", type=int, default=4, metavar="N",
                        help="lists of options for each font")
    parser.add_argument("--texts", type=int, default=6, metavar="N", help="texts for each list")
    parser.add_argument("--suite", default="", help="HarfBuzz's folder test/shape/data")
    parser.add_argument("--made-only", action="store_true", help="no fonts of HarfBuzz's")
    add_beside_option(parser)
    add_common_options(parser, seed=1, examples=5)


def run(args):
    need_fonttools()
    need_fontshape(args.program)
    with harfbuzz_ten(args.hb) as beside, tempfile.TemporaryDirectory() as folder:
        comparison = Comparison(args.program, args.examples, beside, loose=["with kern"])
        files = []
        if not args.made_only:
            with harfbuzz_suite(args.suite) as suite:
                files = apple_files(suite)
                for path in files:
                    compare_file(args, comparison, path)
        for number in range(args.first, args.first + args.fonts):
            compare_made(args, comparison, folder, number)
    count, differ = comparison.totals()
    print(f"{count} texts over {args.fonts} fonts that are made and {len(files)} of HarfBuzz's, "
          f"compared with hb-shape 10.2.0, {differ} differ")
    return differ == 0
