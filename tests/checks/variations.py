"""Variable fonts at random points, beside `hb-shape` 10.2.0.

The fonts are made by fontTools (`variable_fonts`), each from its number and the seed alone: their
outlines, advances, lines, pairs, marks and replaced glyphs vary. Each is tried at some points, with
flags, in one of four directions or with boxes of glyphs, and by the name of an instance.
"""
import random
import tempfile

from checks.comparison import Comparison, add_beside_option, add_common_options
from checks.programs import harfbuzz_ten, need_fonttools, need_fontshape
from checks.variable_fonts import AXES, CHARACTERS, variable_font

FORMS = [[], ["--show-extents"], ["--direction=rtl"], ["--direction=ttb"],
         ["--direction=ttb", "--show-extents"], ["--direction=btt"]]


def point(chance):
    """The coordinates of some axes, in and out of their bounds, at the bounds, or an instance."""
    if chance.random() < 0.1:
        return "--named-instance=0"
    said = []
    for tag, low, default, high in chance.sample(AXES, chance.randrange(1, len(AXES) + 1)):
        value = chance.choice([low, high, default, round(chance.uniform(low, high), 2),
                               round(chance.uniform(low, high), 2), high + 100])
        said.append(f"{tag}={value}")
    return "--variations=" + ",".join(said)


def text(chance):
    """A text of the font's characters, with a letter: a text without a script has no direction of
    its own here (docs/DIFFERENCES.md)."""
    drawn = [chr(chance.choice(list(CHARACTERS))) for _ in range(chance.randint(0, 11))]
    drawn.insert(chance.randint(0, len(drawn)), chance.choice("AVToefi"))
    return "".join(drawn).strip()


def add_options(parser):
    parser.add_argument("--fonts", type=int, default=40, metavar="N")
    parser.add_argument("--points", type=int, default=5, metavar="N", help="points of each font")
    parser.add_argument("--first", type=int, default=0, metavar="I")
    add_beside_option(parser)
    add_common_options(parser, seed=1, examples=5)


def run(args):
    need_fonttools()
    need_fontshape(args.program)
    with harfbuzz_ten(args.hb) as beside, tempfile.NamedTemporaryFile(suffix=".ttf") as file:
        comparison = Comparison(args.program, args.examples, beside)
        for number in range(args.first, args.first + args.fonts):
            chance = random.Random(f"points {args.seed} {number}")
            file.seek(0)
            file.write(variable_font(f"{args.seed} {number}"))
            file.truncate()
            file.flush()
            for _ in range(args.points):
                options = ["--show-flags", point(chance), *chance.choice(FORMS)]
                texts = [text(chance) for _ in range(12)]
                comparison.compare("varied", str(number), file.name, options, texts)
    count, differ = comparison.totals()
    print(f"{count} texts over {args.fonts} variable fonts, at {args.points} points each, compared "
          f"with hb-shape 10.2.0, {differ} differ")
    return differ == 0
