"""Texts cut and joined by their flags: each piece must have the glyphs that it had in the whole.

That is what the flags UNSAFE_TO_BREAK and UNSAFE_TO_CONCAT promise, and what `hb-shape --verify`
tests of HarfBuzz.

The fonts are the installed DejaVu, Noto, Amiri and Scheherazade fonts (Debian's fonts-dejavu-core,
fonts-noto-core, fonts-hosny-amiri, fonts-sil-scheherazade), drawn at random, with all their tables
of lookups. The texts are random letters, marks and spaces of a script of the font, by random
features and both monotone levels. A text is cut before each cluster whose glyphs aren't
UNSAFE_TO_BREAK, and its pieces are shaped apart. Then it is taken apart before each cluster whose
glyphs aren't UNSAFE_TO_CONCAT; its even pieces are joined to one text, and its odd pieces to
another. Glyphs, clusters, offsets and advances are compared, and flags are not. Each text runs in
the direction of its script: in the other one graphemes are reversed, unless a text has digits and
no letters, and a piece that begins with a mark, or has no letter, may be reversed in another way
than the whole, in HarfBuzz too.
"""
import random
import re

from checks.comparison import UNSAFE_TO_BREAK, UNSAFE_TO_CONCAT, add_common_options, escaped
from checks.fonts import (AMIRI_FONTS, DEJAVU_FONTS, NOTO_FONTS, SCHEHERAZADE_FONTS, installed,
                          need_dejavu)
from checks.programs import lines, need_fonttools, need_fontshape
from checks.whole_fonts import WholeFont

# fonts of many lookups
RICH = re.compile("DejaVuSans|NotoSans-|NotoSerif-|NotoSansMono|NotoNaskh|NotoKufi|NotoSansArabic"
                  "|NotoNastaliq|Hebrew|miri|cheherazade")
SCRIPTS = ["Latn", "Grek", "Cyrl", "Hebr", "Arab", "Syrc", "Thai", "Armn", "Geor", "Ethi"]
BACKWARD = {"Hebr", "Arab", "Syrc"}
FEATURES = ["", "", "", "kern=0", "-liga", "smcp", "frac", "salt=2", "dlig", "-mark,-mkmk",
            "onum,pnum", "-ccmp", "-calt", "swsh", "ss01"]
GLYPH = re.compile(r"(\d+)=(\d+)((?:@-?\d+,-?\d+)?\+-?\d+(?:,-?\d+)?)(?:#(\d+))?(?:\||$)")


def glyphs(line, backward):
    """The glyphs of a line in the order of the text: number, cluster, position, flags."""
    found = [(int(glyph), int(cluster), position, int(flags or 0))
             for glyph, cluster, position, flags in GLYPH.findall(line[1:-1])]
    return found[::-1] if backward else found


def without_flags(line):
    return [glyph[:3] for glyph in line]


def pieces(line, flag, length):
    """The pieces of a text of so many characters, between its clusters without the flag: where
    each begins and ends."""
    cuts = [here[1] for before, here in zip(line, line[1:])
            if here[1] != before[1] and not here[3] & flag]
    return list(zip([0] + cuts, cuts + [length]))


def within(line, start, end, to):
    """The glyphs of the characters from `start` to `end`, as if these began at `to`."""
    return [(glyph, cluster - start + to, position) for glyph, cluster, position, _ in line
            if start <= cluster < end]


class Request:
    """What texts are shaped with."""

    def __init__(self, font, options, backward):
        self.font, self.options, self.backward = font, options, backward


class Test:
    """The program, and what was counted."""

    def __init__(self, program, examples):
        self.program, self.examples = program, examples
        self.texts, self.cuts, self.joins, self.failed = 0, 0, 0, 0

    def shaped(self, request, texts):
        command = [self.program, request.font, "--no-glyph-names", "--show-flags"]
        return [glyphs(line, request.backward) for line in lines(command + request.options, texts)]

    def check(self, kind, request, text, whole, made):
        """Counts a text whose pieces have other glyphs than the whole."""
        if made == without_flags(whole):
            return
        self.failed += 1
        if self.examples > 0:
            self.examples -= 1
            print(f"{kind} {request.font} {request.options}\n  text {escaped(text)}\n"
                  f"  whole  {without_flags(whole)}\n  pieces {made}")

    def cut(self, request, texts):
        """Shapes the pieces of each text apart."""
        wholes = self.shaped(request, texts)
        spans = [pieces(whole, UNSAFE_TO_BREAK, len(text)) for whole, text in zip(wholes, texts)]
        apart = [text[a:b] for text, span in zip(texts, spans) for a, b in span]
        parts = iter(self.shaped(request, apart))
        for text, whole, span in zip(texts, wholes, spans):
            made = [glyph for a, b in span for glyph in within(next(parts), 0, b - a, a)]
            self.cuts += len(span) - 1
            self.check("cut", request, text, whole, made)

    def join(self, request, texts):
        """Shapes the even pieces of each text together, and its odd pieces."""
        request = Request(request.font, request.options + ["--unsafe-to-concat"], request.backward)
        wholes = self.shaped(request, texts)
        spans = [pieces(whole, UNSAFE_TO_CONCAT, len(text)) for whole, text in zip(wholes, texts)]
        cut = [it for it in zip(texts, wholes, spans) if len(it[2]) > 2]
        halves = ["".join(text[a:b] for a, b in span[half::2])
                  for text, _, span in cut for half in (0, 1)]
        joined = iter(self.shaped(request, halves))
        for text, whole, span in cut:
            made = taken_apart((next(joined), next(joined)), span)
            self.joins += len(span) - 1
            self.check("join", request, text, whole, made)


def taken_apart(halves, span):
    """The glyphs of the pieces of a text, found in its even and its odd half."""
    at, made = [0, 0], []
    for i, (start, end) in enumerate(span):
        begin = at[i % 2]
        at[i % 2] += end - start
        made += within(halves[i % 2], begin, at[i % 2], start)
    return made


def try_font(test, chance, path, args):
    """Some lists of options over a font, if it has a script that is tried."""
    font = WholeFont(path)
    scripts = [tag for tag in SCRIPTS if len(font.by_script[tag]) > 5]
    for _ in range(args.lists if scripts else 0):
        tag = chance.choice(scripts)
        letters = font.by_script[tag]
        texts = ["".join(font.text(chance, letters) for _ in range(chance.randint(1, 4)))
                 for _ in range(args.texts)]
        features = chance.choice(FEATURES)
        backward = tag in BACKWARD
        options = ["--script=" + tag, "--direction=" + ("rtl" if backward else "ltr"),
                   f"--cluster-level={chance.randrange(2)}"]
        if features:
            options.append("--features=" + features)
        request = Request(path, options, backward)
        test.texts += args.texts
        test.cut(request, texts)
        test.join(request, texts)


def fonts_in_order(chance):
    """The installed fonts at random, those of many lookups first."""
    patterns = [DEJAVU_FONTS, NOTO_FONTS, AMIRI_FONTS, SCHEHERAZADE_FONTS]
    found = [path for path in installed(patterns) if "Emoji" not in path]
    chance.shuffle(found)
    return sorted(found, key=lambda path: not RICH.search(path))


def add_options(parser):
    parser.add_argument("--fonts", type=int, default=30, metavar="N",
                        help="installed fonts, those of many lookups first")
    parser.add_argument("--lists", type=int, default=8, metavar="N",
                        help="lists of options for each")
    parser.add_argument("--texts", type=int, default=20, metavar="N", help="texts for each list")
    add_common_options(parser, seed=7, examples=10)


def run(args):
    need_dejavu()
    need_fonttools()
    need_fontshape(args.program)
    chance = random.Random(args.seed)
    test = Test(args.program, args.examples)
    for path in fonts_in_order(chance)[:args.fonts]:
        try_font(test, chance, path, args)
    print(f"{test.texts} texts: cut at {test.cuts} places, taken apart and joined at "
          f"{test.joins}, {test.failed} failed")
    return test.failed == 0
