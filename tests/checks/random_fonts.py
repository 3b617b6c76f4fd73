"""Fonts that are made at random beside `hb-shape` of HarfBuzz 10, whole lines with flags.

They have lookups of every common kind with random flags, contexts with nested lookups, anchors,
pairs, and glyph classes that need not fit the glyphs. Half of the fonts are of letters and marks
by themselves, half of Arabic or Syriac with forms. A font depends on the seed and its number
alone. Where the two differ, the font, the text and both lines are printed.
"""
import random
import subprocess
import sys
import tempfile
from pathlib import Path

from checks.comparison import add_common_options, print_difference
from checks.fonts import new_font
from checks.programs import need_fonttools, need_harfbuzz, need_fontshape

PLAIN = {
    "letters": [ord(c) for c in "abcdef"],
    "marks": [0x300, 0x301, 0x323, 0x327],
    "script": "latn",
}
ARABIC = {
    "letters": [0x628, 0x627, 0x644, 0x645, 0x647, 0x621, 0x631, 0x640, 0x6D5],
    "marks": [0x64B, 0x64E, 0x651, 0x654, 0x655, 0x6E3, 0x670],
    "script": "arab",
}
SYRIAC = {
    "letters": [0x710, 0x712, 0x715, 0x716, 0x717, 0x718, 0x72A, 0x721],
    "marks": [0x730, 0x733, 0x742, 0x308],
    "script": "syrc",
}
SPACES = [0x20, 0x200C, 0x200D]
FORMS = ["isol", "fina", "medi", "init", "fin2", "fin3", "med2"]
LIGATURES = [f"lig{i}" for i in range(5)]
KINDS = ["single", "multiple", "ligature"]
FLAGS = ["0", "IgnoreMarks", "IgnoreMarks", "IgnoreLigatures", "IgnoreBaseGlyphs",
         "RightToLeft IgnoreMarks"]


def name_of(c):
    return {0x20: "space", 0x200C: "zwnj", 0x200D: "zwj"}.get(c, f"u{c:04X}")


class Maker:
    """The features of one font, as a feature file."""

    def __init__(self, chance, alphabet):
        self.chance, self.alphabet = chance, alphabet
        self.bases = [name_of(c) for c in alphabet["letters"]]
        self.marks = [name_of(c) for c in alphabet["marks"]]
        self.forms = {}
        if alphabet is not PLAIN:
            self.forms = {form: [f"{base}.{form}" for base in self.bases] for form in FORMS}
        self.shown = self.bases + self.glyphs_of_forms(FORMS[:4])
        self.glyphs = self.shown + self.marks + LIGATURES

    def glyphs_of_forms(self, forms):
        return [glyph for form in forms for glyph in self.forms.get(form, [])]

    def some(self, most):
        """A class of a few glyphs."""
        return f"[{' '.join(self.chance.sample(self.glyphs, self.chance.randint(1, most)))}]"

    def anchor(self):
        return f"<anchor {self.chance.randint(-50, 600)} {self.chance.randint(-200, 800)}>"

    def value(self):
        return "<%d %d %d %d>" % tuple(self.chance.randint(-99, 99) for _ in range(4))

    def classes(self):
        """Mostly the class that a glyph's name promises, sometimes another or none. A ligature
        stays one, or none is placed by its components where GPOS places no marks."""
        rows = {"base": [], "ligature": [], "mark": []}
        for glyph in self.glyphs + self.glyphs_of_forms(FORMS[4:]):
            kind = "base"
            if glyph in LIGATURES:
                kind = "ligature"
            elif glyph in self.marks:
                kind = "mark"
            if kind != "ligature" and self.chance.random() >= 0.8:
                kind = self.chance.choice(["base", "mark", None])
            if kind:
                rows[kind].append(glyph)
        lists = [f"[{' '.join(row)}]" if row else "" for row in rows.values()]
        return "table GDEF { GlyphClassDef %s, %s, %s, ; } GDEF;\n" % tuple(lists)

    def rules(self, kind):
        """Rules of one kind of substitution, no two for one input."""
        found = {}
        for _ in range(self.chance.randint(1, 4)):
            count = self.chance.randint(2, 4)
            many = [self.chance.choice(self.glyphs) for _ in range(count)]
            one = self.chance.choice(self.glyphs)
            if kind == "single":
                found[one] = f"sub {one} by {self.chance.choice(self.glyphs)};"
            elif kind == "multiple":
                found[one] = f"sub {one} by {' '.join(many[:3])};"
            else:
                joined = " ".join(many)
                found[joined] = f"sub {joined} by {self.chance.choice(LIGATURES)};"
        return " ".join(found.values())

    def around(self):
        """What stands before the input of a context, or after it."""
        return " ".join(self.some(4) for _ in range(self.chance.randint(0, 2)))

    def context(self, named):
        """One rule of context, which applies a lookup to its first glyph and perhaps to others."""
        before, after = self.around(), self.around()
        applied = []
        for _ in range(self.chance.randint(0, 2)):
            applied.append(self.chance.choice(["", " lookup " + self.chance.choice(named)]))
        applied.insert(0, " lookup " + self.chance.choice(named))
        inputs = [f"{self.some(5)}'{lookup}" for lookup in applied]
        return f"sub {before} {' '.join(inputs)} {after};"

    def lookup(self, name, body):
        flags = self.chance.choice(FLAGS)
        return f"lookup {name} {{ lookupflag {flags}; {body} }} {name};\n"

    def feature(self, tag, name, body):
        return f"feature {tag} {{ {self.lookup(name, body)} }} {tag};\n"

    def substitutions(self):
        named = [f"NAMED{i}" for i in range(3)]
        text = "".join(self.lookup(name, self.rules(self.chance.choice(KINDS))) for name in named)
        tags = ["ccmp", "liga", "calt", "clig", "rlig"]
        for tag in self.chance.sample(tags, self.chance.randint(1, 3)):
            if self.chance.random() < 0.5:
                rules = self.context(named)
            else:
                rules = self.rules(self.chance.choice(KINDS))
            text += self.feature(tag, tag.upper(), rules)
        return text

    def joined(self):
        text = ""
        for form, glyphs in self.forms.items():
            pairs = [pair for pair in zip(self.bases, glyphs) if self.chance.random() < 0.8]
            if pairs and self.chance.random() < 0.75:
                rules = " ".join(f"sub {base} by {glyph};" for base, glyph in pairs)
                text += self.feature(form, "FORM_" + form, rules)
        return text

    def attached(self, kind, glyphs):
        places = f"{self.anchor()} mark @FIRST {self.anchor()} mark @SECOND"
        if kind == "ligature":
            places += f" ligComponent {self.anchor()} mark @FIRST {self.anchor()} mark @SECOND"
        chosen = self.chance.sample(glyphs, 2)
        return " ".join(f"pos {kind} {glyph} {places};" for glyph in chosen)

    def end_of_stroke(self):
        return self.chance.choice([self.anchor(), "<anchor NULL>"])

    def cursive(self):
        glyphs = self.chance.sample(self.glyphs, 4)
        return " ".join(f"pos cursive {glyph} {self.end_of_stroke()} {self.end_of_stroke()};"
                        for glyph in glyphs)

    def kerned(self):
        pairs = {tuple(self.chance.sample(self.glyphs, 2)) for _ in range(4)}
        return " ".join(f"pos {a} {self.value()} {b} {self.value()};" for a, b in sorted(pairs))

    def moved(self):
        glyphs = self.chance.sample(self.glyphs, 3)
        return " ".join(f"pos {glyph} {self.value()};" for glyph in glyphs)

    def positions(self):
        kinds = {
            "mark": self.attached("base", self.shown),
            "abvm": self.attached("ligature", LIGATURES),
            "mkmk": self.attached("mark", self.marks),
            "curs": self.cursive(),
            "kern": self.kerned(),
            "dist": self.moved(),
        }
        text = ""
        for i, mark in enumerate(self.marks):
            text += f"markClass {mark} {self.anchor()} @{['FIRST', 'SECOND'][i % 2]};\n"
        for tag in self.chance.sample(sorted(kinds), self.chance.randint(0, 4)):
            text += self.feature(tag, "AT_" + tag, kinds[tag])
        return text

    def features(self):
        """The whole feature file."""
        text = ("languagesystem DFLT dflt;\n"
                f"languagesystem {self.alphabet['script']} dflt;\n")
        if self.chance.random() < 0.8:
            text += self.classes()
        return text + self.joined() + self.substitutions() + self.positions()


def save(path, maker):
    alphabet = maker.alphabet
    characters = {c: name_of(c) for c in alphabet["letters"] + alphabet["marks"] + SPACES}
    forms = maker.glyphs_of_forms(maker.forms)
    names = [".notdef", *dict.fromkeys([*characters.values(), *maker.glyphs, *forms])]
    advances = {name: 500 + i for i, name in enumerate(names)}
    new_font(characters, advances, maker.features()).save(path)


def random_texts(chance, alphabet, count):
    pool = alphabet["letters"] * 4 + alphabet["marks"] * 3 + SPACES
    return ["".join(chr(chance.choice(pool)) for _ in range(chance.randint(1, 10)))
            for _ in range(count)]


def random_options(chance, alphabet):
    more = [[], [], ["--direction=rtl"], ["--direction=ltr"], ["--unsafe-to-concat"],
            ["--features=-calt,liga[1:4]=0"]]
    return ["--show-flags", "--cluster-level=" + chance.choice("012"),
            "--script=" + alphabet["script"], *chance.choice(more)]


def printed(program, path, options, texts):
    """The lines that a program prints, however it ends."""
    given = "\n".join(texts).encode() + b"\n"
    run = subprocess.run([program, path, *options], input=given, stdout=subprocess.PIPE,
                         stderr=subprocess.DEVNULL)
    return run.stdout.decode(errors="replace").splitlines()


def compare_font(args, folder, number):
    """How many lines of the font with this number differ."""
    chance = random.Random(f"{args.seed} {number}")
    alphabet = chance.choice([PLAIN, PLAIN, ARABIC, SYRIAC])
    path = str(Path(folder, f"{number}.ttf"))
    save(path, Maker(chance, alphabet))
    texts = random_texts(chance, alphabet, args.lines)
    options = random_options(chance, alphabet)
    theirs, ours = (printed(it, path, options, texts) for it in (args.hb, args.program))
    if len(theirs) != len(texts):
        sys.exit(f"hb-shape printed {len(theirs)} lines for {len(texts)} texts over font {number} "
                 f"of seed {args.seed}")
    ours += [""] * (len(texts) - len(ours))
    wrong = [it for it in zip(texts, theirs, ours) if it[1] != it[2]]
    for text, a, b in wrong[:args.examples]:
        where = f"seed {args.seed}, font {number}, {' '.join(options)}: {ascii(text)}"
        print_difference(where, a, b)
    return len(wrong)


def add_options(parser):
    parser.add_argument("--fonts", type=int, default=300)
    parser.add_argument("--lines", type=int, default=200)
    parser.add_argument("--hb", default="hb-shape-10", help="hb-shape of HarfBuzz 10")
    add_common_options(parser, seed=1, examples=1000)


def run(args):
    need_fonttools()
    need_harfbuzz(args.hb, "10.")
    need_fontshape(args.program)
    with tempfile.TemporaryDirectory() as folder:
        wrong = sum(compare_font(args, folder, number) for number in range(args.fonts))
    texts = args.fonts * args.lines
    print(f"{texts} texts over {args.fonts} fonts made at random, {wrong} differ")
    return wrong == 0
