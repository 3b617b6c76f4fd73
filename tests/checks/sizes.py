"""Random texts at random sizes (`--font-size`), beside `hb-shape` 10.2.0.

The fonts are installed ones with marks, copies of one without GPOS, which place marks by boxes and
kern by `kern`, and a variable one at random points. Sizes are small, large, of two numbers and
negative. HarfBuzz rounds each number of a font before it adds them; so does `fontshape`.
"""
import random
import tempfile
from pathlib import Path

from checks.comparison import Comparison, add_beside_option, add_common_options
from checks.fonts import AMIRI_FONTS, DEJAVU, LOOKUPS, installed, need_dejavu, save_without
from checks.programs import harfbuzz_ten, need_fonttools, need_fontshape

NOTO = "/usr/share/fonts/truetype/noto/"
INTER = "/usr/share/fonts/truetype/inter-vf/Inter*.var.ttf"
LATIN = "AVToeifl .,10", "\u0301\u0323\u0302\u0327\u0308"
HEBREW = "\u05d0\u05d1\u05d2\u05e9\u05dc\u05de ", "\u05b0\u05b4\u05b8\u05bc\u05c1"
ARABIC = ("\u0627\u0628\u062a\u062c\u0633\u0644\u0645\u0647\u0648\u064a ",
          "\u064b\u064e\u0650\u0651\u0652")
DEVANAGARI = ("\u0915\u0916\u0917\u0930\u0928\u092e\u0939 ",
              "\u094d\u0902\u093f\u0941\u0940\u0901\u0947")
BALINESE = "\u1b13\u1b14\u1b15\u1b19\u1b2f\u1b27 ", "\u1b44\u1b36\u1b38\u1b42\u1b34\u1b00\u1b3e"
THAI = "\u0e01\u0e02\u0e1b\u0e19\u0e2d ", "\u0e34\u0e38\u0e49\u0e48\u0e33"
# installed fonts, and the letters and marks of texts over them
FONTS = [
    (NOTO + "NotoSans-Regular.ttf", LATIN),
    (NOTO + "NotoSerif-Regular.ttf", LATIN),
    (NOTO + "NotoSansHebrew-Regular.ttf", HEBREW),
    (NOTO + "NotoSansArabic-Regular.ttf", ARABIC),
    (NOTO + "NotoNastaliqUrdu-Regular.ttf", ARABIC),
    (AMIRI_FONTS, ARABIC),
    (NOTO + "NotoSansDevanagari-Regular.ttf", DEVANAGARI),
    (NOTO + "NotoS*Balinese-Regular.ttf", BALINESE),
    (NOTO + "NotoSansThai-Regular.ttf", THAI),
    (DEJAVU, LATIN),
]
FORMS = [["--show-flags"], ["--show-extents"], ["--direction=ttb"],
         ["--direction=ttb", "--show-extents"], ["--direction=rtl"], ["--direction=btt"]]


def size(chance):
    """A size: one number or two, negative ones too."""
    def number():
        drawn = chance.choice([chance.randrange(1, 40), chance.randrange(1, 3000), 1000, 4096,
                               65536])
        return drawn if chance.random() < 0.8 else -drawn
    return f"--font-size={number()}" + (f" {number()}" if chance.random() < 0.3 else "")


def text(chance, signs):
    """A text of some letters, with marks."""
    letters, marks = signs
    drawn = letters[0]
    for _ in range(chance.randrange(1, 12)):
        drawn += chance.choice(letters if chance.random() < 0.6 else marks)
    return drawn.strip()


def sized_fonts(folder):
    """The fonts: their kind, their path, and the letters and marks of texts over them."""
    fonts = [("installed", path, signs) for pattern, signs in FONTS
             for path in installed([pattern])[:1]]
    for kind, tags in ("kern", LOOKUPS), ("boxes", LOOKUPS + ("kern",)):
        copy = str(folder / f"{kind}.ttf")
        save_without(DEJAVU, tags, copy)
        fonts.append((kind, copy, LATIN))
    return fonts + [("variable", path, LATIN) for path in installed([INTER])[:1]]


def add_options(parser):
    parser.add_argument("--sizes", type=int, default=60, metavar="N", help="sizes of each font")
    add_beside_option(parser)
    add_common_options(parser, seed=1, examples=5)


def run(args):
    need_dejavu()
    need_fonttools()
    need_fontshape(args.program)
    with harfbuzz_ten(args.hb) as beside, tempfile.TemporaryDirectory() as folder:
        comparison = Comparison(args.program, args.examples, beside)
        fonts = sized_fonts(Path(folder))
        for kind, path, signs in fonts:
            chance = random.Random(f"sizes {args.seed} {kind} {Path(path).name}")
            for _ in range(args.sizes):
                options = [size(chance), *chance.choice(FORMS)]
                if kind == "variable":
                    options.append(f"--variations=wght={chance.randrange(100, 901)}")
                texts = [text(chance, signs) for _ in range(12)]
                comparison.compare(kind, Path(path).stem, path, options, texts)
    count, differ = comparison.totals()
    print(f"{count} texts over {len(fonts)} fonts, at {args.sizes} sizes each, compared with "
          f"hb-shape 10.2.0, {differ} differ")
    return differ == 0
