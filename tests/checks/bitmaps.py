"""Boxes of bitmaps, as `fontshape --show-extents` prints them, beside those of hb-shape 10.2.0.

Fonts are made from nothing, with `sbix`, with `CBLC` and `CBDT`, or with all three: strikes of several
sizes, PNG images of many sizes, the same images again, other types and formats, glyphs without
bytes, and records of subtables that meet; outlines for the rest. Then all glyphs of Noto Color Emoji
(Debian's package `fonts-noto-color-emoji`), if it is installed.

Of `--mutated N` more fonts some bytes of these tables are changed: no run may end by a signal, or take
more than five seconds. What they print isn't compared, since HarfBuzz drops tables.
"""
import random
import struct
import subprocess
import tempfile
import time
from pathlib import Path

from checks.comparison import add_beside_option, print_difference
from checks.fonts import add_table, bytes_of, installed, new_font
from checks.programs import FONTSHAPE, harfbuzz_ten, need_fontshape, need_fonttools

EMOJI = "/usr/share/fonts/truetype/noto/NotoColorEmoji.ttf"
GLYPHS = 12
FIRST = 0xE000
SECONDS = 5


def png(width, height, whole=True):
    """The head of a PNG image of this size."""
    head = b"\x89PNG\r\n\x1a\n" + struct.pack(">I4sII5B", 13, b"IHDR", width, height, 8, 6, 0, 0, 0)
    return head if whole else head[:-1]


def graphic(chance):
    """The bytes of a glyph in a strike of `sbix`."""
    kind = chance.random()
    if kind < 0.15:
        return b""
    place = struct.pack(">hh", chance.randrange(-300, 300), chance.randrange(-300, 300))
    if kind < 0.4:
        return place + b"dupe" + struct.pack(">H", chance.randrange(GLYPHS + 2))
    if kind < 0.5:
        return place + chance.choice([b"jpg ", b"tiff"]) + bytes(40)
    if kind < 0.55:
        return place + b"png " + png(30, 40, False)
    sides = [chance.choice([0, 1, 20, 96, 109, 136, 200, 65536]) for _ in range(2)]
    return place + b"png " + png(*sides)


def parts_at(parts, start):
    """Where parts in a row begin, and where the last one ends."""
    ends = [start]
    for part in parts:
        ends.append(ends[-1] + len(part))
    return ends


def sbix(chance):
    strikes = []
    for ppem in chance.sample([0, 16, 20, 64, 96, 109, 160, 160, 1000], chance.randrange(4)):
        parts = [graphic(chance) for _ in range(GLYPHS)]
        offsets = struct.pack(f">{GLYPHS + 1}I", *parts_at(parts, 4 + 4 * (GLYPHS + 1)))
        strikes.append(struct.pack(">HH", ppem, 72) + offsets + b"".join(parts))
    places = parts_at(strikes, 8 + 4 * len(strikes))[:-1]
    return struct.pack(f">HHI{len(places)}I", 1, 1, len(places), *places) + b"".join(strikes)


def metrics(chance, big):
    """The metrics of a bitmap."""
    sides = chance.randrange(256), chance.randrange(256)
    small = struct.pack(">BBbbB", *sides, chance.randrange(-128, 128), chance.randrange(-128, 128), 9)
    return small + (bytes(3) if big else b"")


def image(chance, form):
    """A bitmap in this format."""
    if chance.random() < 0.2:
        return b""
    head = b"" if form == 19 else metrics(chance, form == 18)
    return head + struct.pack(">I", 4) + bytes(4)


def subtable(chance, data, first, last):
    """A subtable of `CBLC` for these glyphs. Their bitmaps are added to `data`."""
    form, width = chance.choice([17, 17, 18, 19]), chance.choice([1, 3])
    images = [image(chance, form) for _ in range(first, last + 1)]
    start = len(data)
    data += b"".join(images)
    offsets = struct.pack(f">{len(images) + 1}{'I' if width == 1 else 'H'}", *parts_at(images, 0))
    return struct.pack(">HHI", width, form, start) + offsets + bytes(-len(offsets) % 4)


def cblc(chance):
    """Both tables."""
    data, strikes, lists = bytearray(b"\0\3\0\0"), [], []
    sizes = chance.sample([0, 16, 20, 64, 96, 109, 109, 136, 255], chance.randrange(4))
    at = 8 + 48 * len(sizes)
    for size in sizes:
        cuts = sorted(chance.sample(range(1, GLYPHS), 3))
        ranges = [(cuts[0], cuts[1]), (cuts[1] + chance.randrange(2), cuts[2]), (cuts[2], GLYPHS - 1)]
        ranges = [(first, last) for first, last in ranges if first <= last]
        tables = [subtable(chance, data, *it) for it in ranges]
        places = parts_at(tables, 8 * len(tables))
        records = b"".join(struct.pack(">HHI", *it, place) for it, place in zip(ranges, places))
        lists.append(records + b"".join(tables))
        strikes.append(struct.pack(">4I24xHHBBBB", at, len(lists[-1]), len(tables), 0, 1, GLYPHS - 1,
                                   chance.choice([size, size, 100]), size, 32, 1))
        at += len(lists[-1])
    return (struct.pack(">HHI", 3, 0, len(sizes)) + b"".join(strikes) + b"".join(lists),
            bytes(data))


def tables_of(chance):
    """The tables of a font that have bitmaps, by their tags."""
    kind, tables = chance.randrange(4), {}
    if kind != 1:
        tables["sbix"] = sbix(chance)
    if kind != 0:
        tables["CBLC"], tables["CBDT"] = cblc(chance)
    return tables


def font_with(tables):
    names = [".notdef"] + [f"g{i}" for i in range(1, GLYPHS)]
    font = new_font({FIRST + i: name for i, name in enumerate(names)}, {it: 500 for it in names})
    for tag, data in tables.items():
        add_table(font, tag, data)
    return bytes_of(font)


def mutated(chance, tables):
    """The same tables with some of their bytes changed, or cut."""
    changed = {tag: bytearray(data) for tag, data in tables.items()}
    for _ in range(chance.choice([1, 1, 2, 4, 16, 64])):
        data = changed[chance.choice(list(changed))]
        if not data:
            continue
        at = chance.randrange(min(len(data), chance.choice([60, len(data)])))
        kind = chance.random()
        if kind < 0.5:
            data[at] = chance.choice([0, 1, 2, 3, 17, 18, 127, 128, 255, chance.randrange(256)])
        elif kind < 0.9:
            data[at:at + 4] = chance.choice([b"\xff\xff\xff\xff", b"\x7f\xff\xff\xff", b"\0\0\xff\xff",
                                             b"dupe", struct.pack(">I", chance.randrange(len(data)))])
        else:
            del data[at:]
    return {tag: bytes(data) for tag, data in changed.items()}


def printed(words, path, characters):
    text = ",".join(f"{it:X}" for it in characters)
    words = [*words, path, "--show-extents", "--no-glyph-names", "--unicodes", text]
    return subprocess.run(words, capture_output=True, timeout=120)


def boxes(words, path, characters):
    """The glyphs that are printed."""
    return printed(words, path, characters).stdout.decode().strip("[]\n").split("|")


def compared(args, beside, path, characters):
    """How many glyphs differ. Shows the first."""
    theirs = boxes([beside, "--font-funcs=ot"], path, characters)
    ours = boxes([args.program], path, characters)
    different = [both for both in zip(theirs, ours) if both[0] != both[1]]
    for one, other in different[:1]:
        print_difference(path.name, one, other)
    return len(different) + abs(len(theirs) - len(ours))


def ends_well(args, path):
    """Whether a run over a mutated font ends by itself, and soon."""
    start = time.monotonic()
    done = printed([args.program], path, range(FIRST, FIRST + GLYPHS))
    return done.returncode >= 0 and time.monotonic() - start < SECONDS


def random_fonts(args, folder):
    """The paths of fonts made at random."""
    for number in range(args.fonts):
        path = Path(folder, f"{number}.ttf")
        path.write_bytes(font_with(tables_of(random.Random(f"{args.seed} {number}"))))
        yield path


def mutated_fonts(args, folder):
    """The paths of fonts whose tables were changed."""
    for number in range(args.mutated):
        chance = random.Random(f"{args.seed} mutated {number}")
        path = Path(folder, f"mutated-{number}.ttf")
        path.write_bytes(font_with(mutated(chance, tables_of(chance))))
        yield path


def runs_of(path):
    """The characters of a font, 200 at a time."""
    from fontTools.ttLib import TTFont
    characters = sorted(TTFont(path, lazy=True).getBestCmap())
    return [characters[at:at + 200] for at in range(0, len(characters), 200)]


def add_options(parser):
    parser.add_argument("--program", default=str(FONTSHAPE), help="the fontshape that is tried")
    add_beside_option(parser)
    parser.add_argument("--fonts", type=int, default=100, metavar="N")
    parser.add_argument("--mutated", type=int, default=100, metavar="N")
    parser.add_argument("--seed", type=int, default=1)
    parser.add_argument("--emoji", default=EMOJI, help="a font whose glyphs are compared, too")


def run(args):
    need_fontshape(args.program)
    need_fonttools()
    differ, glyphs, bad = 0, 0, 0
    with tempfile.TemporaryDirectory() as folder, harfbuzz_ten(args.hb) as beside:
        for path in random_fonts(args, folder):
            differ += compared(args, beside, path, range(FIRST, FIRST + GLYPHS))
            glyphs += GLYPHS
        for path in map(Path, installed([args.emoji])):
            for characters in runs_of(path):
                differ += compared(args, beside, path, characters)
                glyphs += len(characters)
        for path in mutated_fonts(args, folder):
            if not ends_well(args, path):
                print(f"{path.name} with seed {args.seed} ends badly")
                bad += 1
    print(f"boxes of {glyphs} glyphs: {differ} differ; {args.mutated} mutated fonts: {bad} end badly")
    return not differ and not bad
