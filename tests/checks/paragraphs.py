"""Paragraphs that `fill_paragraph` fills, beside a greedy model over the glyphs of `hb-shape`,
and mixed lines beside raqm's library.

The paragraphs are the lines of tests/lines whose words part at spaces alone (letters, marks and
stops): Latin, Vietnamese composed and decomposed, Greek, and Hebrew and Arabic from right to
left, over DejaVu Sans and Noto, in several widths, down to one that cuts words. One has lines
that must end, and one is over a font that is made here: it kerns over spaces, so ends of lines
are unsafe.

`hb-shape` shapes the whole and, between its neighbours, the piece of each line whose ends aren't
both safe. From these the model makes all that the program prints: where each line ends (as late
as it fits, without its last spaces, after a space; if no word fits, where no glyph is unsafe to
break, but before no space), its width (the sum of the advances of its glyphs without its last
spaces), how far it reaches, and its runs with their glyphs.

The mixed lines are words of Latin, Greek, Cyrillic, Hebrew and Arabic lines and numbers, drawn at
random, over DejaVu Sans: the glyphs of a line from left to right, with clusters, advances and
offsets, are raqm's (`../raqm-lines.c`).
"""
import random
import re
import shutil
import subprocess
import tempfile
import unicodedata
from pathlib import Path

from checks.comparison import UNSAFE_TO_BREAK, escaped
from checks.cuts import BACKWARD, glyphs
from checks.fonts import DEJAVU, need_dejavu, new_font
from checks.programs import Skipped, TESTS, built, need_files, need_fonttools, need_harfbuzz

NOTO = "/usr/share/fonts/truetype/noto/Noto%s-Regular.ttf"
# a font, a script, a form of Unicode, and what each line has
PARAGRAPHS = [
    (DEJAVU, "Latn", "NFC", ""),
    (NOTO % "Sans", "Latn", "NFC", ""),
    (DEJAVU, "Latn", "NFC", "ngườ"),
    (DEJAVU, "Latn", "NFD", "ngườ"),
    (NOTO % "Serif", "Latn", "NFD", "ngườ"),
    (DEJAVU, "Grek", "NFC", ""),
    (DEJAVU, "Hebr", "NFC", ""),
    (NOTO % "SansHebrew", "Hebr", "NFC", ""),
    (DEJAVU, "Arab", "NFC", ""),
    (NOTO % "NaskhArabic", "Arab", "NFC", ""),
]
# rules of the font that is made here
KERNED = """feature kern { pos space [a e i o u] -90; pos [s t] space -40; pos v e -30; } kern;
feature liga { sub f f by x; } liga;"""
# how many times a paragraph's width is that of its lines
PARTS = (2, 5, 17, 80)
# characters after and before which a line can't end, but beside a space
STOPS = ".,;\u060c"
# the scripts of mixed lines
MIXED = ("Latn", "Grek", "Cyrl", "Hebr", "Arab")


def parts_at_spaces(line):
    """Whether a line may end after its spaces alone."""
    return all(c in STOPS or c == " " or unicodedata.category(c)[0] in "LM" for c in line)


def paragraph(script, form, has, between):
    """The lines of a script that part at spaces and have some letters, as one text."""
    lines = (TESTS / "lines" / f"{script}.txt").read_text(encoding="utf-8").splitlines()
    wanted = [line.strip() for line in lines if parts_at_spaces(line) and has in line]
    return unicodedata.normalize(form, between.join(wanted[:12]))


def kerned_font(path):
    """A font of ASCII that kerns over spaces."""
    characters = {c: "space" if c == 0x20 else chr(c) if chr(c).isalpha() else f"u{c:04X}"
                  for c in range(0x20, 0x7F)}
    advances = {name: 300 + 7 * at for at, name in enumerate([".notdef", *characters.values()])}
    new_font(characters, advances, KERNED).save(path)


def advance(position):
    """How far a printed glyph moves the pen."""
    return int(re.search(r"\+(-?\d+)", position)[1])


class Shaper:
    """`hb-shape` over a font, for texts of a script."""

    def __init__(self, program, font, script):
        self.font, self.backward = font, script in BACKWARD
        direction = "rtl" if self.backward else "ltr"
        self.command = [program, "--shaper=ot", font, "--single-par", "--no-glyph-names",
                        "--show-flags", f"--script={script}", f"--direction={direction}"]

    def shape(self, before, piece, after):
        """The glyphs of a piece of a text, in its order."""
        around = [f"--text-before={before}", f"--text-after={after}", f"--text={piece}"]
        # (6.0.0 writes the context before on standard error)
        done = subprocess.run(self.command + around, capture_output=True, check=True)
        return glyphs(done.stdout.decode().rstrip("\n"), self.backward)


def parts_of(text):
    """The parts of a text that are shaped: what stands between its line feeds."""
    return [(found.start(), found.end()) for found in re.finditer("[^\n]+", text)]


def bytes_before(text, at):
    """How many bytes stand before a place."""
    return len(text[:at].encode())


def reach(font):
    """How far a line in a font reaches above its baseline, and below it."""
    from fontTools.ttLib import TTFont
    with TTFont(font) as tables:
        if "OS/2" in tables and tables["OS/2"].fsSelection & 0x80:
            return tables["OS/2"].sTypoAscender, tables["OS/2"].sTypoDescender
        return tables["hhea"].ascent, tables["hhea"].descent


class Whole:
    """A text with the glyphs of the whole, cluster by cluster. A line feed is a cluster that has
    none."""

    def __init__(self, text, shaper):
        self.text, self.shaper = text, shaper
        self.parts = parts_of(text)
        self.shaped = [glyph for start, end in self.parts for glyph in self.piece(start, end)]
        feeds = {at for at, c in enumerate(text) if c == "\n"}
        self.starts = sorted({glyph[1] for glyph in self.shaped} | feeds)
        self.ends = [*self.starts[1:], len(text)]
        self.widths = [sum(advance(glyph[2]) for glyph in self.shaped if glyph[1] == start)
                       for start in self.starts]
        unsafe = {cluster for _, cluster, _, flags in self.shaped if flags & UNSAFE_TO_BREAK}
        begins = {start for start, _ in self.parts}
        self.safe = [start in begins or start not in unsafe for start in self.starts] + [True]

    def piece(self, start, end):
        """The glyphs of a piece between its neighbours, in its order."""
        text = self.text
        return [(glyph, cluster + start, position, flags) for glyph, cluster, position, flags
                in self.shaper.shape(text[:start], text[start:end], text[end:])]

    def is_safe_at(self, at):
        return at == len(self.text) or self.safe[self.starts.index(at)]

    def hangs(self, place):
        return self.text[self.starts[place]] in " \n"

    def must_end(self, place):
        """Whether a line must end before a cluster: after a line feed, and at the end."""
        return place == len(self.starts) or self.text[self.starts[place] - 1] == "\n"

    def may_end(self, place):
        """Whether a line may end before a cluster: after spaces too, but before a line feed."""
        return self.must_end(place) or (self.text[self.starts[place] - 1] == " "
                                        and not self.hangs(place))

    def width(self, start, end):
        """The width of the clusters between two places without the spaces that stand last."""
        while start < end and self.hangs(end - 1):
            end -= 1
        return sum(self.widths[start:end])

    def line_end(self, start, width):
        """Where the line that begins at a place ends."""
        last = next(k for k in range(start + 1, len(self.ends) + 1) if self.must_end(k))
        allowed = [k for k in range(start + 1, last + 1) if self.may_end(k)]
        safe = [k for k in range(start + 1, last + 1)
                if self.may_end(k) or (self.safe[k] and not self.hangs(k))]
        for ends in (allowed, safe):
            fitting = [k for k in ends if self.width(start, k) <= width]
            if fitting:
                return fitting[-1]
        return safe[0]

    def lines(self, width):
        """The places between which the lines are."""
        start = 0
        while start < len(self.starts):
            end = self.line_end(start, width)
            yield self.starts[start], self.ends[end - 1]
            start = end

    def glyphs_of(self, start, end):
        """The glyphs of a part of a line, and whether they are shaped again, since an end isn't
        safe."""
        again = not (self.is_safe_at(start) and self.is_safe_at(end))
        if again:
            return self.piece(start, end), again
        return [glyph for glyph in self.shaped if start <= glyph[1] < end], again

    def runs(self, start, end):
        """The runs of a line: what stands between line feeds, and each of these."""
        cuts = [at for at in range(start, end) if self.text[at] == "\n"]
        places = sorted({start, end, *cuts, *(at + 1 for at in cuts)})
        for first, last in zip(places, places[1:]):
            if self.text[first] == "\n":
                yield first, last, [], False
            else:
                yield first, last, *self.glyphs_of(first, last)


def printed_lines(whole, width):
    """What the program must print, and how many runs are shaped again."""
    text, level = whole.text, int(whole.shaper.backward)
    ascent, descent = reach(whole.shaper.font)
    printed, again = [], 0
    for start, end in whole.lines(width):
        rows, x, hang, wide = [], 0, end, 0
        while start < hang and text[hang - 1] in " \n":
            hang -= 1
        for first, last, glyphs_there, is_again in whole.runs(start, end):
            shown = [f"{glyph}={bytes_before(text, cluster)}{position}"
                     for glyph, cluster, position, _ in glyphs_there]
            rows.append(f"  run {bytes_before(text, first)}..{bytes_before(text, last)} font 0"
                        f" level {level} x {x} [{'|'.join(shown[::-1] if level else shown)}]")
            x += sum(advance(glyph[2]) for glyph in glyphs_there)
            wide += sum(advance(glyph[2]) for glyph in glyphs_there if glyph[1] < hang)
            again += is_again
        printed.append(f"line {bytes_before(text, start)}..{bytes_before(text, end)}"
                       f" {'rtl' if level else 'ltr'} width {wide} ascent {ascent} descent {descent}")
        printed += rows
    return printed, again


class Test:
    """The program, and what was counted."""

    def __init__(self, program, beside):
        self.program, self.beside = program, beside
        self.paragraphs, self.lines, self.again, self.failed = 0, 0, 0, 0

    def fill(self, font, text, *options):
        """What the program prints."""
        with tempfile.TemporaryDirectory() as folder:
            file = Path(folder, "text")
            file.write_text(text, encoding="utf-8")
            done = subprocess.run([self.program, font, f"--text-file={file}", *options],
                                  stdout=subprocess.PIPE, timeout=60)
        return done.stdout.decode().split("\n")[:-1]

    def check(self, font, script, text):
        """A paragraph in several widths."""
        whole = Whole(text, Shaper(self.beside, font, script))
        for part in PARTS:
            width = sum(whole.widths) // part
            wanted, again = printed_lines(whole, width)
            found = self.fill(font, text, f"--width={width}")
            self.paragraphs += 1
            self.lines += sum(line.startswith("line") for line in wanted)
            self.again += again
            if wanted != found:
                self.failed += 1
                print(f"{font} {script}, width {width}: {escaped(text)}")
                for theirs, ours in zip(wanted, found):
                    if theirs != ours:
                        print(f"  the model      {theirs}\n  fill_paragraph {ours}")
                        break


def words(script):
    """The words of the lines of a script that part at spaces."""
    lines = (TESTS / "lines" / f"{script}.txt").read_text(encoding="utf-8").splitlines()
    return [word for line in lines if parts_at_spaces(line) for word in line.split()]


def mixed_lines(count, seed):
    """Lines of words of several scripts and numbers."""
    drawn = random.Random(seed)
    known = [words(script) for script in MIXED]
    for _ in range(count):
        scripts = drawn.sample(known, drawn.randint(2, 3))
        line = [drawn.choice(drawn.choice(scripts)) if drawn.random() < 0.85
                else str(drawn.randint(0, 9999)) for _ in range(drawn.randint(2, 12))]
        yield " ".join(line)


def raqm_program(folder):
    """The program that prints raqm's glyphs."""
    if not (shutil.which("gcc") and shutil.which("pkg-config")
            and Path("/usr/include/raqm.h").exists()):
        raise Skipped("gcc, pkg-config or raqm's library (Debian's libraqm-dev) is not installed")
    flags = subprocess.run(["pkg-config", "--cflags", "--libs", "raqm", "freetype2"], check=True,
                           stdout=subprocess.PIPE).stdout.decode().split()
    program = f"{folder}/raqm-lines"
    subprocess.run(["gcc", "-O2", "-o", program, TESTS / "raqm-lines.c", *flags], check=True)
    return program


def beside_raqm(test, count, seed):
    """Mixed lines beside raqm: how many there are, and how many differ."""
    lines, failed = list(mixed_lines(count, seed)), 0
    with tempfile.TemporaryDirectory() as folder:
        given = "".join(f"{line}\n" for line in lines)
        done = subprocess.run([raqm_program(folder), DEJAVU], input=given.encode(),
                              stdout=subprocess.PIPE, check=True)
    for line, theirs in zip(lines, done.stdout.decode().split("\n")):
        rows = test.fill(DEJAVU, line)[1:]
        ours = "|".join(filter(None, (row[row.index("[") + 1:-1] for row in rows)))
        if ours != theirs:
            failed += 1
            print(f"{escaped(line)}\n  raqm           {theirs}\n  fill_paragraph {ours}")
    return len(lines), failed


def add_options(parser):
    parser.add_argument("--hb", default="hb-shape", help="hb-shape of HarfBuzz 6.0.0")
    parser.add_argument("--mixed", type=int, default=400,
                        help="how many mixed lines beside raqm (400)")
    parser.add_argument("--seed", type=int, default=1, help="what they are drawn by (1)")


def run(args):
    need_dejavu()
    need_files([font for font, *_ in PARAGRAPHS], "fonts-noto-core")
    need_fonttools()
    need_harfbuzz(args.hb, "6.0.0")
    test = Test(built("fill_paragraph"), args.hb)
    for font, script, form, has in PARAGRAPHS:
        test.check(font, script, paragraph(script, form, has, " "))
    test.check(DEJAVU, "Latn", paragraph("Latn", "NFC", "e", " \n"))
    with tempfile.TemporaryDirectory() as folder:
        kerned_font(f"{folder}/kerned.ttf")
        test.check(f"{folder}/kerned.ttf", "Latn", paragraph("Latn", "NFC", "the", " "))
    print(f"{test.paragraphs} paragraphs filled, {test.lines} lines, {test.again} runs shaped "
          f"again; {test.failed} paragraphs other than by the model")
    if test.again == 0 or test.failed > 0:
        return False
    mixed, failed = beside_raqm(test, args.mixed, args.seed)
    print(f"{mixed} mixed lines, {failed} other than by raqm")
    return failed == 0
