"""Fonts in CFF and CFF2 that mean harm: bombs made by hand, and small fonts with bytes changed.

A bomb runs with 5,000 letters and as many marks, which no table places, so that each glyph's box is
asked for; with half of them where boxes are printed, which asks once more. It must not take more
than 12 seconds of processor time (the gate's machine may be slow and busy) or more than 200 MB, nor
end by a signal. Mutated fonts run with 60 characters: 20,000 at night.
"""
import random

from checks.cff_fonts import (BLEND, CALLGSUBR, CALLSUBR, ENDCHAR, FLEX, HHCURVETO, HINTMASK,
                              HLINETO, HMOVETO, HSTEM, HVCURVETO, RETURN, RLINECURVE, RLINETO,
                              RMOVETO, RRCURVETO, VHCURVETO, VMOVETO, VSINDEX, VVCURVETO, called,
                              cff, cid, font, index, op, program, ranges, wide)
from checks.bomb_tables import words
from checks.hostile_runs import SECONDS, Runs, add_run_options
from checks.programs import need_fontshape

LETTER, MARK = 0x61, 0x301
LENGTH, GATE_SECONDS = 10_000, 6 * SECONDS
FORMS = [], ["--show-extents"], ["--svg"]
MANY = 65_000
PLAIN = program(0, op(HMOVETO), 100, 50, op(HLINETO), op(ENDCHAR))


def bomb(table, count=3, letter=1, mark=2, tag=b"CFF "):
    return font(tag, table, count, {LETTER: letter, MARK: mark})


def repeated(*leaf, wide_=False, lead=(0, op(HMOVETO))):
    """A glyph that runs these tokens again and again, by subroutines that call others ten times:
    more often than any glyph may."""
    end = () if wide_ else (op(RETURN),)
    subrs = [program(*leaf, *end)]
    for depth in range(5):
        call = called(depth, 6), op(CALLGSUBR)
        subrs.append(program(*call * 10, *end))
    glyph = program(*lead, called(5, 6), op(CALLGSUBR), *(() if wide_ else (op(ENDCHAR),)))
    glyphs = [glyph, glyph, glyph]
    if wide_:
        return bomb(wide(glyphs, globals_=subrs), tag=b"CFF2")
    return bomb(cff(glyphs, globals_=subrs))


def composed(charset):
    """Glyphs that are composed of A and acute, the last of `MANY` in the charset."""
    accented = program(0, 0, 65, 194, op(ENDCHAR))
    return bomb(cff([PLAIN, accented, accented] + [PLAIN] * (MANY - 3), charset=charset), MANY)


def calls_itself(operator, depth=1):
    """Subroutines that call the next one, and the last one the first."""
    subrs = [program(called((i + 1) % depth, depth), op(operator)) for i in range(depth)]
    glyph = program(called(0, depth), op(operator), op(ENDCHAR))
    parts = {"globals_": subrs} if operator == CALLGSUBR else {"locals_": subrs}
    return bomb(cff([glyph] * 3, **parts))


def counted(table, at, count):
    """The table with another count of 16 bits at a place."""
    return bomb(table[:at] + words(count) + table[at + 2:])


def stacked(count):
    return bomb(cff([program(0, op(HMOVETO), *[1] * count, op(RLINETO), op(ENDCHAR))] * 3))


# names of glyphs: other strings, of which the last two are A (34) and acute (125)
OTHER_NAMES = [400 + i for i in range(MANY - 3)]
SELECT = words(MANY) + b"".join(words(i) + b"\0" for i in range(MANY)) + words(MANY)
BOMBS = {
    "numbers": lambda: repeated(*[1] * 40, op(RLINETO)),
    "lines along the axes": lambda: repeated(*[1] * 48, op(HLINETO)),
    "curves": lambda: repeated(*[1] * 48, op(RRCURVETO)),
    "curves of four arguments": lambda: repeated(*[1] * 4, op(HVCURVETO)),
    "flexes": lambda: repeated(*[1] * 13, op(*FLEX)),
    "hints": lambda: repeated(1, 1, op(HSTEM)),
    "masks": lambda: repeated(op(HINTMASK, 0), lead=(1, 1, op(HSTEM))),
    "moves": lambda: repeated(1, op(HMOVETO)),
    "calls": lambda: repeated(),
    "unknown operators": lambda: repeated(op(2)),
    "513 arguments": lambda: repeated(*[1] * 513, op(HLINETO)),
    "blends of 200 regions": lambda: repeated(*[1] * 2, 1, op(BLEND), 1, op(BLEND), wide_=True),
    "composed of the last of 65,000 names": lambda: composed(b"\0" + words(*OTHER_NAMES, 34, 125)),
    "composed of the last of 65,000 ranges": lambda: composed(
        ranges(1, [*OTHER_NAMES, 34, 125], 0)),
    "the last of 65,000 names": lambda: bomb(
        cff([PLAIN] * MANY, charset=b"\0" + words(*OTHER_NAMES, 34, 125)), MANY,
        MANY - 2, MANY - 1),
    "the last of 65,000 ranges of names": lambda: bomb(
        cff([PLAIN] * MANY, charset=ranges(2, [*OTHER_NAMES, 34, 125], 0)), MANY,
        MANY - 2, MANY - 1),
    "the last of 65,000 ranges of Font DICTs": lambda: bomb(
        cid([PLAIN] * MANY, b"\3" + SELECT), MANY, MANY - 2, MANY - 1),
    "2^32 ranges of Font DICTs": lambda: bomb(
        wide([PLAIN[:-1]] * 3, b"\4\xff\xff\xff\xff" + bytes(6)), tag=b"CFF2"),
    "a subroutine that calls itself": lambda: calls_itself(CALLSUBR),
    "a global subroutine that calls itself": lambda: calls_itself(CALLGSUBR),
    "subroutines that call one another": lambda: calls_itself(CALLSUBR, 11),
    "48 arguments": lambda: stacked(48),
    "514 arguments": lambda: stacked(514),
    "65,535 names of the font": lambda: counted(cff([PLAIN] * 3), 4, 65535),
    "65,535 global subroutines": lambda: counted(cff([PLAIN] * 3), 63, 65535),
    "2^32 charstrings": lambda: bomb(
        wide([PLAIN[:-1]] * 3).replace(index([PLAIN[:-1]] * 3, True)[:4], b"\xff" * 4),
        tag=b"CFF2"),
}


# how many arguments operators take
TAKEN = {RLINETO: 2, HLINETO: 1, RRCURVETO: 6, VVCURVETO: 4, HHCURVETO: 5, VHCURVETO: 4,
         HVCURVETO: 5, RLINECURVE: 8, RMOVETO: 2, HSTEM: 2}


def random_pieces(chance):
    """Operators at random, most of them with as many arguments as they take."""
    tokens = []
    for _ in range(chance.randrange(1, 6)):
        operator = chance.choice(list(TAKEN))
        count = TAKEN[operator] * chance.choice([1, 1, 1, 2, 6])
        tokens += [chance.randrange(-300, 300) for _ in range(count)] + [op(operator)]
    if chance.random() < 0.3:
        tokens += [chance.randrange(-300, 300) for _ in range(13)] + [op(*FLEX)]
    return tokens


def random_glyph(chance, operators):
    """A charstring that moves, draws, and calls one of eight subroutines by one of these."""
    call = called(chance.randrange(8), 8), op(chance.choice(operators))
    return [chance.randrange(-50, 600), op(chance.choice([HMOVETO, VMOVETO])),
            *random_pieces(chance), *call, *random_pieces(chance)]


def base_font(chance):
    """The tag, the table, and how many glyphs a font has."""
    kind = chance.randrange(4)
    if kind == 3:
        subrs = [program(*random_pieces(chance)) for _ in range(8)]
        glyphs = [program(0, op(VSINDEX), *random_glyph(chance, [CALLGSUBR]), 5, 6, 1, op(BLEND),
                          op(HLINETO)) for _ in range(60)]
        select = b"\4" + words(0, 1, 0, 0, 0, 0, 60)
        return b"CFF2", wide(glyphs, select, globals_=subrs), 60
    subrs = [program(*random_pieces(chance), op(RETURN)) for _ in range(8)]
    glyphs = [program(*random_glyph(chance, [CALLSUBR, CALLGSUBR]), op(ENDCHAR))
              for _ in range(60)]
    glyphs[9] = program(30, 200, 65, 194, op(ENDCHAR))
    if kind == 0:
        names = b"\0" + words(*range(1, 58), 34, 125)
        return b"CFF ", cff(glyphs, subrs, subrs, chance.choice([b"", names])), 60
    if kind == 1:
        # a glyph more, so that two ranges have as many
        names = ranges(chance.choice([1, 2]), [1, 391], 29)
        return b"CFF ", cff(glyphs + glyphs[:1], subrs, subrs, names, [b"a", b"", b"\xff"] * 10), 61
    select = chance.choice([b"\0" + bytes(i % 2 for i in range(60)),
                            b"\3" + words(2, 0) + b"\0" + words(30) + b"\1" + words(60)])
    return b"CFF ", cid(glyphs, select, (subrs, subrs), subrs), 60


def mutated(chance, table):
    """A copy with some bytes changed, half of them in the first 300."""
    copy = bytearray(table)
    for _ in range(chance.choice((1, 1, 2, 4, 16, 64))):
        at = chance.randrange(min(len(copy), chance.choice((300, len(copy)))))
        kind = chance.random()
        if kind < 0.4:
            copy[at] = chance.choice((0, 1, 10, 11, 12, 14, 16, 28, 29, 127, 128, 255))
        elif kind < 0.7:
            copy[at] = chance.randrange(256)
        elif kind < 0.9:
            copy[at:at + 4] = chance.choice((b"\xff\xff", b"\x7f\xff\xff\xff", b"\0\0\xff\xff"))
        else:
            other = chance.randrange(len(copy))
            copy[at:at + 40] = copy[other:other + chance.randrange(60)]
    return bytes(copy)


def take_mutated(runs, seed, number):
    chance = random.Random(f"{seed} {number}")
    tag, table, count = base_font(chance)
    characters = {LETTER + i: 1 + i for i in range(26)} | {MARK + i: 30 + i for i in range(25)}
    text = "".join(chr(chance.choice(list(characters))) for _ in range(60))
    runs.take(f"{seed} {number}", font(tag, mutated(chance, table), count, characters), text,
              chance.choice(FORMS))


def add_options(parser):
    parser.add_argument("--fonts", type=int, default=300, metavar="N")
    parser.add_argument("--seed", type=int, default=1)
    parser.add_argument("--first", type=int, default=0, metavar="I",
                        help="the number of the first font")
    parser.add_argument("--bomb", metavar="NAME", choices=BOMBS, help="one bomb alone")
    parser.add_argument("--write", metavar="FILE", help="writes the font of that bomb")
    add_run_options(parser)


def run(args):
    need_fontshape(args.program)
    with Runs(args.program, GATE_SECONDS) as runs:
        for name in [args.bomb] if args.bomb else BOMBS:
            data = BOMBS[name]()
            if args.write:
                with open(args.write, "wb") as file:
                    file.write(data)
            text = chr(LETTER) + chr(MARK)
            for form in FORMS[:2]:
                pairs = LENGTH // 4 if form else LENGTH // 2
                runs.take(" ".join([name, *form]), data, text * pairs, form)
            runs.take(name + " --svg", data, text * 10, ["--svg"])
        for number in range(args.first, args.first + (0 if args.bomb else args.fonts)):
            take_mutated(runs, args.seed, number)
        runs.print_counts()
        if args.keep:
            runs.keep(args.keep)
    return runs.wrong == 0 and runs.slow == 0
