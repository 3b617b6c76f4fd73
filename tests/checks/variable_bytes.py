"""Variable fonts (`variable_fonts`) with bytes changed in the tables that vary, at random points: no
run may end by a signal, or take more than 2 seconds. 20,000 at night.
"""
import random

from checks.hostile_runs import SECONDS, Runs, add_run_options
from checks.mutated import directory
from checks.programs import need_fonttools, need_fontshape
from checks.variable_fonts import CHARACTERS, variable_font
from checks.variations import FORMS, point

VARIED = [b"fvar", b"avar", b"gvar", b"HVAR", b"MVAR", b"GDEF", b"GPOS", b"GSUB"]
# how many fonts are changed
BASES = 40


def changed(chance, data):
    """A copy with some bytes of the tables that vary changed."""
    copy, tables = bytearray(data), directory(data)
    there = [tag for tag in VARIED if tag in tables]
    for _ in range(chance.choice((1, 1, 2, 4, 16))):
        _, start, length = tables[chance.choice(there)]
        at = start + chance.randrange(min(length, chance.choice((40, length))))
        kind = chance.random()
        if kind < 0.5:
            copy[at] = chance.choice((0, 1, 2, 0x40, 0x7F, 0x80, 0xC0, 0xFF, chance.randrange(256)))
        elif kind < 0.8:
            value = chance.choice((b"\xff\xff", b"\x7f\xff", b"\0\0", b"\x80\0", b"\xff\xff\xff\xff"))
            copy[at:at + len(value)] = value
        else:
            other = start + chance.randrange(length)
            size = min(chance.randrange(1, 20), len(copy) - max(at, other))
            copy[at:at + size] = copy[other:other + size]
    return bytes(copy)


def add_options(parser):
    parser.add_argument("--fonts", type=int, default=300, metavar="N")
    parser.add_argument("--seed", type=int, default=1)
    parser.add_argument("--first", type=int, default=0, metavar="I",
                        help="the number of the first font")
    add_run_options(parser)


def run(args):
    need_fonttools()
    need_fontshape(args.program)
    bases = [variable_font(f"bytes {number}") for number in range(BASES)]
    with Runs(args.program, SECONDS) as runs:
        for number in range(args.first, args.first + args.fonts):
            chance = random.Random(f"{args.seed} {number}")
            data = changed(chance, chance.choice(bases))
            text = "".join(chr(chance.choice(list(CHARACTERS))) for _ in range(60))
            runs.take(f"{args.seed} {number}", data, text, [point(chance), *chance.choice(FORMS)])
        runs.print_counts()
        if args.keep:
            runs.keep(args.keep)
    return runs.wrong == 0 and runs.slow == 0
