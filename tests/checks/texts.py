"""Random texts beside `hb-shape` of HarfBuzz 6.0.0, over fonts without lookups and whole ones.

The texts are of scripts for which HarfBuzz has no shaper of its own, with marks, joiners, spaces
and fractions, and of Hebrew, whose shaper stands in `script_shapers`. The fonts are two copies of
DejaVu Sans without tables of lookups: one without `kern` and without names of glyphs, one with
both. Each line is compared whole: numbers or names, clusters, offsets, advances, flags, boxes.
`--texts N` asks for N texts a script in one form of lines, `--options LISTS` for so many random
lists of options (levels, directions, features, forms of lines).

After that whole fonts are compared, with all their tables of lookups (`whole_fonts`), beside
HarfBuzz 10.2.0: 6.0.0 loses track of marks on glyphs that a multiple substitution took apart.
"""
import random
import tempfile
from pathlib import Path

from checks.characters import assigned
from checks.comparison import Comparison, add_beside_option, add_common_options
from checks.fonts import DEJAVU, LOOKUPS, need_dejavu, save_without
from checks.programs import harfbuzz_ten, need_fonttools, need_fontshape, need_harfbuzz
from checks.whole_fonts import BETWEEN, compare_whole, selector_is_a_mark

SCRIPTS = {
    "ASCII": [(0x41, 0x5B), (0x61, 0x7B), (0x2C, 0x2F)],
    "Latin": [(0x41, 0x5B), (0x61, 0x7B), (0xC0, 0x250), (0x1E00, 0x1F00)],
    "Greek": [(0x370, 0x400), (0x1F00, 0x2000)],
    "Cyrillic": [(0x400, 0x530)],
    "Armenian": [(0x531, 0x590)],
    "Georgian": [(0x10A0, 0x1100)],
    "Canadian": [(0x1400, 0x1680)],
    "Cherokee": [(0x13A0, 0x13F6)],
    "Ethiopic": [(0x1200, 0x1380)],
    "Ogham": [(0x1680, 0x169D)],
    "Runic": [(0x16A0, 0x16EB)],
    "Han": [(0x4E00, 0x5000)],
    "Kana": [(0x3041, 0x3097), (0x30A1, 0x30FB)],
    "Lisu": [(0xA4D0, 0xA500)],
    "Hebrew": [(0x591, 0x5F5)],
}
TAGS = {
    "ASCII": "Latn", "Latin": "Latn", "Greek": "Grek", "Cyrillic": "Cyrl", "Armenian": "Armn",
    "Georgian": "Geor", "Canadian": "Cans", "Cherokee": "Cher", "Ethiopic": "Ethi",
    "Ogham": "Ogam", "Runic": "Runr", "Han": "Hani", "Kana": "Kana", "Lisu": "Lisu",
    "Hebrew": "Hebr",
}
# texts in which pairs of letters are kerned, and scripts in which many are
PAIRS = ["AVAVAVA", "T.o, Yo", "\u0410\u0423\u0422.\u0410"]
KERNED = ["ASCII"] * 6 + ["Greek", "Cyrillic", "Hebrew"] * 2
FORMS = [
    [],
    ["--show-flags"],
    ["--no-glyph-names", "--show-flags"],
    ["--no-glyph-names", "--show-extents"],
    ["--no-positions"],
    ["--no-advances"],
    ["--no-clusters", "--show-flags"],
    ["--ned"],
]
SWITCHES = ["--utf8-clusters", "--bot", "--eot", "--preserve-default-ignorables",
            "--remove-default-ignorables", "--unsafe-to-concat", "--safe-to-insert-tatweel"]
FEATURES = [
    "kern", "+kern", "-kern", "kern=0", "kern[3:5]", "kern[3]=0", "kern[:2]=0", "kern[1:]=0",
    "kern[1;3]=off", "'kern' 0", "kern=on", " kern=0  liga -mark ", "-kern[2:4]", "kern=-1",
    "kern=4294967296", "kern[2:4]=0,+liga,-mark", "-kern,kern[1:6]",
    "kern=0,kern[:3]=1,kern[5:]=2", "vkrn,-vert", "aalt[3:5]=2",
]
LANGUAGES = ["en_US.UTF-8", "fa", "x-hbot", "de-AT"]


def characters(spans, known):
    """The characters of some spans, and those of them that a font has (all, if it has none)."""
    named = assigned(spans)
    return named, [c for c in named if c in known] or named


def random_text(chance, named, have, marks):
    text = ""
    for _ in range(chance.randint(1, 12)):
        draw = chance.random()
        if draw < 0.72:
            text += chr(chance.choice(have))
        elif draw < 0.82:
            text += chr(chance.choice(named))
        elif draw < 0.92:
            text += chr(chance.choice(marks))
        elif draw < 0.96:
            text += " "
        else:
            text += chance.choice(BETWEEN)
    return text.strip(" ") or "a"


def random_options(chance, script):
    """A form of lines, and by chance a level, a direction, features, a language and others."""
    options = list(chance.choice(FORMS)) + ["--script=" + TAGS[script]]
    if chance.random() < 0.6:
        options.append(f"--cluster-level={chance.randrange(3)}")
    if chance.random() < 0.6:
        options.append("--direction=" + chance.choice(["ltr", "rtl", "ttb", "btt"]))
    if chance.random() < 0.6:
        options.append("--features=" + chance.choice(FEATURES))
    if chance.random() < 0.2:
        options.append("--language=" + chance.choice(LANGUAGES))
    return options + [switch for switch in SWITCHES if chance.random() < 0.15]


def copy_of_dejavu(folder, kind):
    """A copy of DejaVu Sans without tables of lookups, and the characters that it has. That of the
    kind `kern` keeps `kern` and the names of glyphs."""
    keeps = kind == "kern"
    path = str(Path(folder, kind + ".ttf"))
    font = save_without(DEJAVU, LOOKUPS + (() if keeps else ("kern",)), path, glyph_names=keeps)
    return path, font.getBestCmap()


def compare_font(comparison, chance, kind, font, known, args):
    """Texts of each script in one form, then the lists of options, each over 20 texts of some
    script."""
    marks = [c for c in range(0x300, 0x370) if c in known]
    letters = {script: characters(spans, known) for script, spans in SCRIPTS.items()}
    for script, (named, have) in letters.items():
        texts = [random_text(chance, named, have, marks) for _ in range(args.texts)]
        comparison.compare(kind, script, font, ["--show-flags"], texts)
    for _ in range(args.options):
        script = chance.choice(list(SCRIPTS) + KERNED)
        named, have = letters[script]
        options = random_options(chance, script)
        texts = [random_text(chance, named, have, marks) for _ in range(20)] + PAIRS
        comparison.compare(kind, script, font, options, texts)


def print_counts(comparison):
    """A line for each script or whole font, with texts and differences by kind of font."""
    kinds = sorted({kind for kind, _ in comparison.texts}, reverse=True)
    whole = sorted({script for kind, script in comparison.texts if kind == "whole"})
    for script in list(SCRIPTS) + whole:
        parts = [f"{kind} {comparison.texts[kind, script]} texts, "
                 f"{comparison.glyphs[kind, script]} glyphs, "
                 f"{comparison.differ[kind, script]} differ"
                 for kind in kinds if comparison.texts[kind, script]]
        if parts:
            print(f"{script}: {'; '.join(parts)}")


def add_options(parser):
    parser.add_argument("--texts", type=int, default=1000, help="texts a script in one form")
    parser.add_argument("--options", type=int, default=300, metavar="LISTS",
                        help="random lists of options, each over some 20 texts")
    parser.add_argument("--fonts", type=int, default=40, metavar="N",
                        help="installed fonts that are compared whole")
    parser.add_argument("--lists", type=int, default=10, metavar="N",
                        help="lists of options for each of these")
    add_beside_option(parser)
    add_common_options(parser, seed=7, examples=20)


def run(args):
    need_dejavu()
    need_fonttools()
    need_harfbuzz("hb-shape", "6.0.0")
    need_fontshape(args.program)
    # Kerning marks all glyphs here as unsafe to concat, as in HarfBuzz 10. HarfBuzz 6 leaves the
    # first cluster out.
    comparison = Comparison(args.program, args.examples, loose=("kern",))
    with tempfile.TemporaryDirectory() as folder:
        for kind in ("plain", "kern"):
            font, known = copy_of_dejavu(folder, kind)
            compare_font(comparison, random.Random(args.seed), kind, font, known, args)
    comparison.known = selector_is_a_mark
    with harfbuzz_ten(args.hb) as comparison.beside:
        compare_whole(comparison, random.Random(args.seed), args.fonts, args.lists)
    print_counts(comparison)
    texts, differ = comparison.totals()
    print(f"{texts} texts compared with hb-shape, {differ} differ, {comparison.explained} as named")
    return differ == 0
