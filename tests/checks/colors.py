"""Boxes of glyphs in colours (`COLR`), as `fontshape --show-extents` prints them, beside those of
hb-shape 10.2.0.

Random variable fonts get a table `COLR`: of version 0, whose glyphs have layers, or of version 1,
whose glyphs are graphs of paints with clip boxes, which may vary, or have layers. They are tried at
some points and sizes; and so is a font with `CFF ` (Debian's package `fonts-inter`), if it is
installed.

Of `--mutated N` more fonts some bytes of `COLR` are changed: no run may end by a signal, or take
more than five seconds. What they print isn't compared, since HarfBuzz drops tables.

Left out is where the two are known to differ: layers without an outline, composed ones, and graphs
of paints without a clip box.
"""
import random
import subprocess
import tempfile
import time
from pathlib import Path

from checks.comparison import Comparison, add_beside_option, add_common_options
from checks.fonts import add_table, bytes_of
from checks.programs import harfbuzz_ten, need_fonttools, need_fontshape
from checks.sizes import size
from checks.variable_fonts import AXES, CHARACTERS, COMPOSED, LETTERS, MARKS, variable_font
from checks.variations import point

INTER = "/usr/share/fonts/opentype/inter/Inter-Regular.otf"
DRAWN = [*LETTERS, *MARKS]
SECONDS = 5
COLOURED = [*DRAWN, *COMPOSED]


def layers(chance, names):
    """Layers: glyphs, each in a colour of the palette."""
    return [(chance.choice(names), 0xFFFF) for _ in range(chance.choice([0, 1, 1, 2, 3, 9]))]


def store(chance):
    """A store of deltas of eight rows, and how many there are."""
    from fontTools.varLib.varStore import OnlineVarStoreBuilder
    from fontTools.varLib.models import VariationModel
    tag = chance.choice(AXES)[0]
    tags = [axis[0] for axis in AXES]
    builder = OnlineVarStoreBuilder(tags)
    builder.setModel(VariationModel([{}, {tag: chance.choice([1, 0.5])}], tags))
    first = None
    for _ in range(8):
        _, index = builder.storeMasters([0, chance.randrange(-300, 300)])
        first = index if first is None else first
    return builder.finish(optimize=False), first


def clip(chance, first):
    """A clip box, which varies if `first` is the index of a row of deltas."""
    left, bottom = chance.randrange(-300, 300), chance.randrange(-300, 300)
    sides = left, bottom, left + chance.randrange(900), bottom + chance.randrange(900)
    return sides if first is None else (*sides, first + chance.randrange(6))


def colour(chance, font, version, names, drawn):
    """Gives a font the tables `COLR` and `CPAL`."""
    from fontTools.colorLib.builder import buildCOLR, buildCPAL, populateCOLRv0
    layered = {name: layers(chance, drawn) for name in chance.sample(names, min(len(names), 8))}
    font["CPAL"] = buildCPAL([[(0.5, 0, 0, 1)]])
    if version == 0:
        font["COLR"] = buildCOLR(layered, version=0)
        return
    varied, first = store(chance) if "fvar" in font else (None, None)
    paint = {"Format": 10, "Glyph": drawn[0],
             "Paint": {"Format": 2, "PaletteIndex": 0xFFFF, "Alpha": 1.0}}
    painted = {name: paint for name in layered if chance.random() < 0.6}
    clips = {name: clip(chance, first if chance.random() < 0.6 else None) for name in painted}
    clips.update({name: clip(chance, None) for name in names if chance.random() < 0.1})
    glyphs = font.getReverseGlyphMap()
    font["COLR"] = buildCOLR(painted, version=1, clipBoxes=clips, varStore=varied, glyphMap=glyphs)
    populateCOLRv0(font["COLR"].table, layered, glyphs)


def random_font(chance, number):
    """A variable font with layers or paints."""
    from io import BytesIO
    from fontTools.ttLib import TTFont
    font = TTFont(BytesIO(variable_font(f"colors {number}")))
    colour(chance, font, chance.randrange(2), COLOURED, DRAWN)
    return bytes_of(font)


def inter(chance, version):
    """A font with charstrings."""
    from fontTools.ttLib import TTFont
    font = TTFont(INTER)
    names = [font.getBestCmap()[c] for c in CHARACTERS if c in font.getBestCmap() and c != 0x20]
    colour(chance, font, version, names, names)
    return bytes_of(font)


def mutated(chance, number):
    """A font whose `COLR` has some bytes changed, or is cut."""
    from io import BytesIO
    from fontTools.ttLib import TTFont
    font = TTFont(BytesIO(random_font(chance, number)))
    data = bytearray(font.reader["COLR"])
    for _ in range(chance.choice([1, 2, 4, 16])):
        at = chance.randrange(min(len(data), chance.choice([34, len(data)])))
        data[at:at + 2] = chance.choice([b"\0\0", b"\0\1", b"\xff\xff", b"\x7f\xff"])
    if chance.random() < 0.2:
        del data[chance.randrange(len(data)):]
    del font["COLR"]
    add_table(font, "COLR", bytes(data))
    return bytes_of(font)


def ends_well(program, path, options):
    """Whether a run over a mutated font ends by itself, and soon."""
    start = time.monotonic()
    words = [program, path, "--show-extents", *options, "".join(map(chr, CHARACTERS)) * 20]
    done = subprocess.run(words, capture_output=True, timeout=120)
    return done.returncode >= 0 and time.monotonic() - start < SECONDS


def badly_ended(args, path):
    """How many runs over mutated fonts end badly."""
    badly = 0
    for number in range(args.mutated):
        chance = random.Random(f"colors {args.seed} mutated {number}")
        path.write_bytes(mutated(chance, f"{args.seed} {number}"))
        badly += not ends_well(args.program, path, chance.choice([[], [point(chance)]]))
    return badly


def add_options(parser):
    parser.add_argument("--fonts", type=int, default=60, metavar="N")
    parser.add_argument("--mutated", type=int, default=60, metavar="N")
    add_beside_option(parser)
    add_common_options(parser, seed=1, examples=5)


def run(args):
    need_fonttools()
    need_fontshape(args.program)
    with harfbuzz_ten(args.hb) as beside, tempfile.TemporaryDirectory() as folder:
        comparison = Comparison(args.program, args.examples, beside)
        path = Path(folder, "font")
        texts = [chr(c) for c in CHARACTERS if c != 0x20]
        for number in range(args.fonts):
            chance = random.Random(f"colors {args.seed} {number}")
            path.write_bytes(random_font(chance, f"{args.seed} {number}"))
            for options in [], [point(chance)], [size(chance)], [point(chance), size(chance)]:
                comparison.compare("glyf", str(number), path, ["--show-extents", *options], texts)
        for version in (0, 1) if Path(INTER).exists() else ():
            chance = random.Random(f"colors {args.seed} CFF {version}")
            path.write_bytes(inter(chance, version))
            for options in [], [size(chance)]:
                comparison.compare("CFF", str(version), path, ["--show-extents", *options], texts)
        badly = badly_ended(args, path)
    count, differ = comparison.totals()
    print(f"boxes of {count} texts compared with hb-shape 10.2.0, {differ} differ; {args.mutated} "
          f"mutated fonts: {badly} end badly")
    return differ == 0 and not badly
