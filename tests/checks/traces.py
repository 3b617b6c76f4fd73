"""Traces of `fontshape --trace` beside those of hb-shape 10.2.0.

The real lines of tests/lines in nine scripts, and some words in Devanagari and Khmer. Each list
of `fontshape` must be the one that hb-shape has at the same moment: before the first lookup of
GSUB, after the last lookup of a stage, once each glyph has its advance, after GPOS, after
`kern`. hb-shape has more lists, between lookups and within them: these are passed over. After
each stage whose lookups change the list there must be one.
"""
import os
import re
import subprocess

from checks.comparison import add_beside_option, print_difference
from checks.fonts import DEJAVU, need_dejavu
from checks.programs import FONTSHAPE, TESTS, harfbuzz_ten, need_fontshape

FONTS = "/usr/share/fonts/truetype/"
SCRIPTS = {
    "Latn": [DEJAVU, FONTS + "noto/NotoSans-Regular.ttf"],
    "Grek": [DEJAVU],
    "Cyrl": [DEJAVU],
    "Armn": [DEJAVU],
    "Geor": [DEJAVU],
    "Hebr": [DEJAVU, FONTS + "noto/NotoRashiHebrew-Regular.ttf"],
    "Arab": [DEJAVU, FONTS + "scheherazade/Scheherazade-Regular.ttf",
             "/usr/share/fonts/opentype/fonts-hosny-amiri/Amiri-Regular.ttf"],
    "Thai": [FONTS + "noto/NotoLoopedThai-Regular.ttf"],
    "Laoo": [FONTS + "noto/NotoLoopedLao-Regular.ttf"],
    "Deva": [FONTS + "lohit-devanagari/Lohit-Devanagari.ttf"],
    "Khmr": [FONTS + "khmeros/KhmerOS.ttf"],
}
WORDS = {"Deva": ["क्षत्रिय", "हिन्दी", "र्कि", "श्री", "विद्यार्थी"],
         "Khmr": ["ខ្មែរ", "ស្រ្តី", "កម្ពុជា", "ភ្នំពេញ"]}

# What hb-shape says of a moment that `fontshape` names, by the first of these words that begins it.
MOMENTS = [
    ("start table GSUB", ["start table GSUB"]),
    ("start positioning", ["start table GPOS", "start table kern", "start fallback mark"]),
    ("end table GPOS", ["end table GPOS"]),
    ("end table kern", ["end table kern"]),
]


def texts_of(script):
    """The texts of a script."""
    if script in WORDS:
        return WORDS[script]
    return (TESTS / "lines" / f"{script}.txt").read_text().split("\n")[:-1]


def traces(command, texts):
    """The trace of each text: what is said of each list, and the list."""
    given = "".join(text + "\n" for text in texts).encode()
    done = subprocess.run([*command, "--trace", "--show-line-num"], input=given,
                          capture_output=True, timeout=600)
    found = [[] for _ in texts]
    for line in done.stderr.decode(errors="replace").split("\n"):
        entry = re.fullmatch(r"(\d+): trace: (.*)\tbuffer: (.*)", line)
        if entry:
            found[int(entry[1]) - 1].append((entry[2], entry[3]))
    return found


def wanted(said):
    """How hb-shape's words for a moment begin."""
    for begin, theirs in MOMENTS:
        if said.startswith(begin):
            return theirs
    lookups = said.partition(" lookups ")[2]
    return [f"end lookup {lookups.split(',')[-1]} "] if lookups else [""]


def missing(ours, theirs):
    """The first list of ours that hb-shape hasn't in its place, none if it has all."""
    at = 0
    for said, glyphs in ours:
        begins = tuple(wanted(said))
        if said == "start positioning" and not any(it.startswith(begins) for it, _ in theirs):
            continue
        right = (place for place in range(at, len(theirs))
                 if theirs[place][0].startswith(begins) and theirs[place][1] == glyphs)
        at = next(right, len(theirs)) + 1
        if at > len(theirs):
            return said, glyphs
    return None


def unseen(ours, theirs):
    """A list after the table GSUB or GPOS that hb-shape has and that is none of ours."""
    for end in "end table GSUB", "end table GPOS":
        last = [glyphs for said, glyphs in theirs if said.startswith(end)]
        if last and last[-1] not in [glyphs for _, glyphs in ours]:
            return end, last[-1]
    return None


def add_options(parser):
    parser.add_argument("--program", default=str(FONTSHAPE))
    add_beside_option(parser)
    parser.add_argument("--examples", type=int, default=10)


def run(args):
    need_dejavu()
    need_fontshape(args.program)
    count, lists, differ = 0, 0, 0
    with harfbuzz_ten(args.hb) as beside:
        for script, fonts in SCRIPTS.items():
            texts = texts_of(script)
            for font in filter(os.path.exists, fonts):
                ours = traces([args.program, font], texts)
                theirs = traces([beside, "--shaper=ot", font], texts)
                for text, mine, other in zip(texts, ours, theirs):
                    count, lists = count + 1, lists + len(mine)
                    fault = missing(mine, other) or unseen(mine, other)
                    if fault or (text and not mine):
                        differ += 1
                        if differ <= args.examples:
                            print_difference(f"{font} {text!r}", other, fault)
    print(f"{lists} lists of {count} traces: {differ} traces differ from hb-shape's")
    return differ == 0
