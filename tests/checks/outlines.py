"""Outlines that `fontshape --svg` draws, beside those of fontTools.

Of each font up to 200 characters are drawn, each in a line of its own. fontTools reads the points of
`glyf`, puts those of components together, and draws charstrings; lines and curves of the second
degree are made of points here. A font that is made here has components that are placed by points,
scaled, turned and nested. Each segment is compared with its kind, its start and its points, in
tenths of a unit; a contour may begin anywhere. Of variable fonts that are made here each glyph is
drawn at a random place, to within a tenth.
"""
import glob
import math
import random
import re
import subprocess
import tempfile

from checks.programs import FONTSHAPE, need_fonttools, need_fontshape
from checks.variable_fonts import AXES, variable_font
from checks.varied_outlines import contours_at, coordinates_of

PATTERNS = "/usr/share/fonts/**/*.ttf", "/usr/share/fonts/**/*.otf"
LINE_ENDS = 0x85, 0x2028, 0x2029


def tenths(number):
    """A number in tenths, halves upwards."""
    return math.floor(number * 10 + 0.5)


def middle(a, b):
    return (a[0] + b[0]) / 2, (a[1] + b[1]) / 2


def of_points(points):
    """The steps of a contour of `glyf`, whose points are places and whether it goes through them."""
    (first, through), (last, ends) = points[0], points[-1]
    start = first if through else last if ends else middle(first, last)
    steps, control = [("M", [start])], None
    for place, on in points[through:] + [(start, True)]:
        if control:
            steps.append(("Q", [control, place if on else middle(control, place)]))
        elif on:
            steps.append(("L", [place]))
        control = None if on else place
    return steps + [("Z", [])]


def steps_of_glyf(table, name):
    places, ends, flags = table[name].getCoordinates(table)[:3]
    steps, start = [], 0
    for end in ends:
        steps += of_points([(places[i], bool(flags[i] & 1)) for i in range(start, end + 1)])
        start = end + 1
    return steps


def steps_at(font, name, place):
    """The steps of a glyph of `glyf` at a place of a variable font, in the units of users."""
    contours = contours_at(font, name, coordinates_of(font, place))
    return [step for contour in contours for step in of_points(contour)]


def steps_of_charstring(glyphs, name):
    from fontTools.pens.recordingPen import RecordingPen
    pen = RecordingPen()
    glyphs[name].draw(pen)
    kinds = {"moveTo": "M", "lineTo": "L", "curveTo": "C", "closePath": "Z", "endPath": "Z"}
    return [(kinds[kind], list(places)) for kind, places in pen.value]


def steps_of_path(path):
    """The steps of a path in SVG."""
    steps = []
    for kind, text in re.findall("([MLQCZ])([^MLQCZ]*)", path):
        numbers = [float(it) for it in text.split()]
        steps.append((kind, list(zip(numbers[::2], numbers[1::2]))))
    return steps


def segments_of(steps):
    """The segments of all contours, in no order; a line to where it begins is none."""
    found, at, start = [], None, None
    for kind, places in steps:
        places = [tuple(map(tenths, place)) for place in places]
        if kind == "M":
            at = start = places[0]
            continue
        ends = places or [start]
        if kind in "QC" or ends[-1] != at:
            found.append(("L" if kind == "Z" else kind, at, *ends))
        at = ends[-1]
    return sorted(found)


def are_near(ours, theirs):
    """Whether segments are the same, but for a tenth in any of their numbers."""
    left = list(theirs)
    for segment in ours:
        for other in left:
            if segment[0] == other[0] and all(
                    abs(a - b) <= 1 for p, q in zip(segment[1:], other[1:]) for a, b in zip(p, q)):
                left.remove(other)
                break
        else:
            return False
    return not left


def characters_of(font, count):
    """Some characters of a font that end no line and are spelled by themselves."""
    found = [c for c in sorted(font.getBestCmap() or {})
             if c > 32 and not 0xD800 <= c < 0xE000 and c not in LINE_ENDS]
    return found[::max(1, len(found) // count)][:count]


def drawn(program, path, characters, place):
    """What the program draws of each: the glyphs of each line with their paths."""
    text = "".join(chr(c) + "\n" for c in characters).encode()
    options = ["--svg", "--preserve-default-ignorables"]
    if place:
        options.append("--variations=" + ",".join(f"{tag}={n}" for tag, n in place.items()))
    done = subprocess.run([program, *options, path], input=text, capture_output=True, timeout=120)
    pictures = done.stdout.decode(errors="replace").split('<g class="line"')[1:]
    return [re.findall('<path class="glyph" data-glyph="([0-9]+)"[^>]* d="([^"]*)"', picture)
            for picture in pictures]


def compare_font(args, path, counts, place=None):
    from fontTools.ttLib import TTFont
    try:
        font = TTFont(path, lazy=True)
        characters = characters_of(font, args.glyphs)
        cmap, glyf, glyphs = font.getBestCmap(), font.get("glyf"), font.getGlyphSet()
    except Exception:  # fontTools stops at what is malformed by any of its errors
        return
    pictures = drawn(args.program, path, characters, place)
    if not characters or len(pictures) != len(characters):
        return
    counts["fonts"] += 1
    for character, glyphs_drawn in zip(characters, pictures):
        name = cmap[character]
        if [int(glyph) for glyph, _ in glyphs_drawn] != [font.getGlyphID(name)]:
            continue  # blank, or not the glyph of the character
        try:
            theirs = segments_of(steps_at(font, name, place) if place
                                 else steps_of_glyf(glyf, name) if glyf is not None
                                 else steps_of_charstring(glyphs, name))
        except Exception:  # likewise
            continue
        ours = segments_of(steps_of_path(glyphs_drawn[0][1]))
        counts["glyphs"] += 1
        if not (are_near(ours, theirs) if place else ours == theirs):
            counts["differ"] += 1
            if counts["differ"] <= args.examples:
                print(f"{path} U+{character:04X} {name}\n"
                      f"  fontTools alone {[it for it in theirs if it not in ours][:3]}\n"
                      f"  fontshape alone {[it for it in ours if it not in theirs][:3]}", flush=True)


def box(x, y, width, height):
    """A glyph of three lines and a curve."""
    from fontTools.pens.ttGlyphPen import TTGlyphPen
    pen = TTGlyphPen(None)
    pen.moveTo((x, y))
    pen.lineTo((x + width, y))
    pen.qCurveTo((x + width + 30, y + height // 2), (x + width, y + height))
    pen.lineTo((x, y + height))
    pen.closePath()
    return pen.glyph()


def part(name, flags, **fields):
    from fontTools.ttLib.tables._g_l_y_f import GlyphComponent
    component = GlyphComponent()
    component.glyphName, component.flags = name, flags
    vars(component).update(fields)
    return component


def made_of(*parts):
    from fontTools.ttLib.tables._g_l_y_f import Glyph
    glyph = Glyph()
    glyph.numberOfContours, glyph.components = -1, list(parts)
    return glyph


def save_parts(path):
    """Saves a font of glyphs that are made of others."""
    from fontTools.fontBuilder import FontBuilder
    from fontTools.ttLib.tables._g_l_y_f import Glyph
    moved, scaled_offset, plain_offset = 2, 0x802, 0x1002
    glyphs = {
        ".notdef": Glyph(), "a": box(0, 0, 500, 400), "b": box(10, 20, 100, 50),
        "c": made_of(part("a", moved, x=0, y=0), part("b", 0, firstPt=3, secondPt=0)),
        "d": made_of(part("a", moved, x=5, y=-7, transform=[[.5, 0], [0, .5]]),
                     part("b", scaled_offset, x=100, y=200, transform=[[.5, .25], [-.25, .75]])),
        "e": made_of(part("b", moved, x=1000, y=0),
                     part("c", plain_offset, x=100, y=200, transform=[[-1, 0], [0, 1.5]])),
        "f": made_of(part("b", moved, x=0, y=0),
                     part("a", 0, firstPt=2, secondPt=3, transform=[[.5, 0], [0, .5]])),
    }
    builder = FontBuilder(1000, isTTF=True)
    builder.setupGlyphOrder(list(glyphs))
    builder.setupCharacterMap({ord(name): name for name in glyphs if len(name) == 1})
    builder.setupGlyf(glyphs)
    builder.setupHorizontalMetrics({name: (600, 0) for name in glyphs})
    builder.setupHorizontalHeader(ascent=800, descent=-200)
    builder.setupPost()
    builder.font.save(path)


def compare_variable(args, counts):
    """Compares fonts that vary, each at a random place."""
    for seed in range(args.variable):
        chance = random.Random(f"place {seed}")
        place = {tag: round(chance.uniform(low, high), 2) for tag, low, _, high in AXES}
        with tempfile.NamedTemporaryFile(suffix=".ttf") as made:
            made.write(variable_font(seed))
            made.flush()
            compare_font(args, made.name, counts, place)


def add_options(parser):
    parser.add_argument("--fonts", type=int, default=200)
    parser.add_argument("--variable", type=int, default=40, help="so many made fonts that vary")
    parser.add_argument("--glyphs", type=int, default=200, help="the most glyphs of a font")
    parser.add_argument("--examples", type=int, default=10)
    parser.add_argument("--program", default=str(FONTSHAPE))


def run(args):
    need_fonttools()
    need_fontshape(args.program)
    paths = sorted({path for pattern in PATTERNS for path in glob.glob(pattern, recursive=True)})
    counts = {"fonts": 0, "glyphs": 0, "differ": 0}
    with tempfile.NamedTemporaryFile(suffix=".ttf") as made:
        save_parts(made.name)
        compare_font(args, made.name, counts)
    compare_variable(args, counts)
    for path in paths[::max(1, len(paths) // args.fonts)][:args.fonts]:
        compare_font(args, path, counts)
    print(f"{counts['glyphs']} glyphs of {counts['fonts']} fonts drawn: {counts['differ']} differ "
          "from fontTools")
    return counts["differ"] == 0
