"""Fonts with Apple's tables with bytes changed in these: no run may end by a signal, or take more
than 12 seconds of processor time (the gate's machine may be slow and busy). 20,000 at night.

They are those of HarfBuzz's own tests, and fonts that are made at random (`apple_fonts`). Most
texts have 60 characters, one in twenty 10,000. Such fonts needn't be shaped as by HarfBuzz, which
drops a whole table for one error.
"""
import random

from checks.apple import apple_files, characters_of, form, text_over
from checks.apple_fonts import apple_font
from checks.hostile_runs import LENGTH, SECONDS, Runs, add_run_options
from checks.mutated import directory
from checks.programs import need_fonttools, need_fontshape
from checks.random_fonts import ARABIC, PLAIN, SYRIAC
from checks.suite import harfbuzz_suite

APPLE = [b"morx", b"kerx", b"ankr", b"trak", b"kern", b"feat", b"ltag"]
VALUES = [b"\0\0", b"\0\1", b"\xff\xff", b"\x7f\xff", b"\x80\0", b"\0\0\0\0", b"\xff\xff\xff\xff",
          b"\0\0\xff\xff", b"\0\1\0\0", b"\x40\0"]
GATE_SECONDS = 6 * SECONDS
# how many fonts are made
BASES = 60


class Base:
    """A font, its characters, and where Apple's tables stand in it."""

    def __init__(self, data, characters):
        self.data, self.characters = data, characters
        there = directory(data)
        self.tables = [(start, length) for tag, (_, start, length) in there.items()
                       if tag in APPLE and length >= 4]

    def changed(self, chance):
        """A copy with some bytes of these tables changed."""
        copy = bytearray(self.data)
        for _ in range(chance.choice((1, 1, 2, 4, 16))):
            start, length = chance.choice(self.tables)
            at = start + chance.randrange(min(length, chance.choice((60, 400, length))))
            change(chance, copy, at, start, length)
        return bytes(copy)


def change(chance, copy, at, start, length):
    """Changes a number, adds to it, or copies other bytes of the table there."""
    kind = chance.random()
    if kind < 0.4:
        at -= at % 2
        value = chance.choice(VALUES)
    elif kind < 0.6:
        value = bytes([copy[at] + chance.choice((-4, -2, -1, 1, 2, 4, 128)) & 255])
    elif kind < 0.8:
        value = bytes([chance.randrange(256)])
    else:
        other = start + chance.randrange(length)
        value = bytes(copy[other:other + chance.randrange(1, 24)])
    end = min(at + len(value), start + length)
    copy[at:end] = value[:end - at]


def bases_of(suite):
    """The fonts, before bytes are changed."""
    found = []
    for number in range(BASES):
        chance = random.Random(f"apple bytes {number}")
        alphabet = chance.choice([PLAIN, PLAIN, ARABIC, SYRIAC])
        data, _ = apple_font(chance, alphabet, chance.random() < 0.1)
        found.append(Base(data, alphabet["letters"] + alphabet["marks"]))
    found += [Base(path.read_bytes(), characters_of(path)[0]) for path in apple_files(suite)]
    return [base for base in found if base.tables and base.characters]


def take(runs, bases, name):
    """Runs over the font of this name."""
    chance = random.Random(name)
    base = chance.choice(bases)
    text = text_over(chance, base.characters, [0x20, 0x200D])
    length = LENGTH if chance.random() < 0.05 else 60
    runs.take(name, base.changed(chance), (text * length)[:length],
              form(chance, ["ltr", "ltr", "rtl", "ttb"]))


def add_options(parser):
    parser.add_argument("--fonts", type=int, default=300, metavar="N")
    parser.add_argument("--seed", type=int, default=1)
    parser.add_argument("--first", type=int, default=0, metavar="I",
                        help="the number of the first font")
    parser.add_argument("--suite", default="", help="HarfBuzz's folder test/shape/data")
    add_run_options(parser)


def run(args):
    need_fonttools()
    need_fontshape(args.program)
    with harfbuzz_suite(args.suite) as suite:
        bases = bases_of(suite)
    with Runs(args.program, GATE_SECONDS) as runs:
        for number in range(args.first, args.first + args.fonts):
            take(runs, bases, f"{args.seed} {number}")
        runs.print_counts()
        if args.keep:
            runs.keep(args.keep)
    return runs.wrong == 0 and runs.slow == 0
