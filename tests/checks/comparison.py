"""Runs `fontshape` and `hb-shape` on the same texts, counts what differs and prints examples."""
import collections
import os
import re
import sys

from checks.programs import FONTSHAPE, lines

# flags of glyphs
UNSAFE_TO_BREAK, UNSAFE_TO_CONCAT = 1, 2


def add_common_options(parser, seed, examples):
    """The options that each comparison has."""
    parser.add_argument("--seed", type=int, default=seed)
    parser.add_argument("--examples", type=int, default=examples,
                        help="how many differences are shown")
    parser.add_argument("--program", "--fontshape", default=str(FONTSHAPE),
                        help="the fontshape that is tried")


def add_beside_option(parser):
    """The option of a comparison with HarfBuzz 10.2.0 (`programs.harfbuzz_ten`)."""
    parser.add_argument("--hb", metavar="PROGRAM", default="",
                        help="hb-shape 10.2.0 (else it is fetched from Debian's archive)")


def escaped(text):
    """A text in ASCII."""
    return text.encode("unicode_escape").decode()


def print_difference(where, theirs, ours):
    """What both programs print of something."""
    print(f"{where}\n  hb-shape  {theirs}\n  fontshape {ours}", flush=True)


def without_flag(line, flag):
    """A printed line without a flag of glyphs."""
    def cleared(flags):
        left = int(flags.group(1)) & ~flag
        return f"#{left}" if left else ""
    return re.sub("#([0-9]+)", cleared, line)


class Comparison:
    """Both programs on texts, counted by kind of font and script.

    In fonts of the kinds `loose` the flags UNSAFE_TO_CONCAT aren't compared. A difference that
    `known` explains, from the options, the text and both lines, is counted by itself."""

    def __init__(self, program, examples, beside="hb-shape", loose=(), known=lambda *_: False):
        self.program, self.examples, self.beside = program, examples, beside
        self.loose, self.known = loose, known
        self.explained = 0
        self.texts, self.differ, self.glyphs = (collections.Counter() for _ in range(3))

    def compare(self, kind, script, font, options, texts):
        theirs = lines([self.beside, "--shaper=ot", font] + options, texts)
        ours = lines([self.program, font] + options, texts)
        if len(theirs) != len(texts) or len(ours) != len(texts):
            sys.exit(f"{options}: not each text has a line: {len(theirs)}, {len(ours)} "
                     f"of {len(texts)}")
        self.glyphs[kind, script] += sum(line.count("|") + 1 for line in theirs)
        if kind in self.loose and "--unsafe-to-concat" in options:
            theirs, ours = ([without_flag(line, UNSAFE_TO_CONCAT) for line in side]
                            for side in (theirs, ours))
        found = [(text, a, b) for text, a, b in zip(texts, theirs, ours) if a != b]
        wrong = [it for it in found if not self.known(options, *it)]
        self.explained += len(found) - len(wrong)
        self.texts[kind, script] += len(texts)
        self.differ[kind, script] += len(wrong)
        if wrong and self.examples > 0:
            self.examples -= 1
            text, a, b = wrong[0]
            name = os.path.basename(font)
            print_difference(f"{kind} {script} {name} {options}\n  text {escaped(text)}", a, b)

    def totals(self):
        """How many texts were compared, and how many differ."""
        return sum(self.texts.values()), sum(self.differ.values())
