"""A small font whose tables are broken in each way that a number or a length can be.

Each 16 bits of GSUB, GPOS, GDEF, `kern` and `cmap` stand at 0, 1 and 65535 and at the place of the
number itself, and each table is cut to each of its prefixes. No run ends by a signal, or by a
status of its own but those of a shaped text (0) and of bytes that are no font (1). The font has
lookups of every kind that a feature file can ask for.
"""
import os
import struct
import subprocess
import tempfile

from checks.fonts import add_table, bytes_of, new_font
from checks.mutated import directory
from checks.programs import FONTSHAPE, need_fonttools, need_fontshape

TABLES = [b"GSUB", b"GPOS", b"GDEF", b"kern", b"cmap"]
LETTERS = "abcdefgh"
FEATURES = """
languagesystem DFLT dflt;
markClass [grave acute] <anchor 100 500> @TOP;
table GDEF {
    GlyphClassDef [a b c d f g h], [e], [grave acute], ;
    Attach e 1;
    LigatureCaretByPos e 200;
} GDEF;
lookup INNER { sub a by b; } INNER;
feature ccmp {
    lookup PARTS { sub f by a b; } PARTS;
    lookup GONE { sub h by NULL; } GONE;
} ccmp;
feature liga { lookupflag IgnoreMarks; sub c d by e; sub c d b by g; } liga;
feature calt {
    sub a' lookup INNER b' c;
    ignore sub g a' b;
    sub g a' lookup INNER;
    lookup MARKED {
        lookupflag UseMarkFilteringSet [acute];
        sub b' lookup INNER acute' a;
    } MARKED;
} calt;
feature rclt { rsub [a b] c' [d e] by d; } rclt;
feature salt { sub g from [a b c]; } salt;
feature kern {
    pos a b -50;
    enum pos [c d] [a b] <10 0 20 0>;
    pos [e f] -20 [g h];
    pos a' 10 c;
    pos g <1 2 3 4>;
} kern;
feature curs {
    lookupflag RightToLeft;
    pos cursive a <anchor 0 10> <anchor 100 20>;
    pos cursive b <anchor 5 10> <anchor NULL>;
} curs;
feature mark {
    pos base [a b c d] <anchor 200 600> mark @TOP;
    pos ligature e <anchor 10 10> mark @TOP ligComponent <anchor 20 20> mark @TOP;
} mark;
feature mkmk { pos mark grave <anchor 1 1> mark @TOP; } mkmk;
"""
TEXT = "abcfdcdb\u0301e\u0300\u0301cdbgabhabacbc\u0300d\u0301a"
OPTIONS = ["--features=salt,kern,curs", "--show-flags", "--script=Latn"]


def whole_font():
    """The bytes of the font: eight letters, two marks, and the features."""
    characters = {**{ord(c): c for c in LETTERS}, 0x300: "grave", 0x301: "acute"}
    advances = {name: 500 for name in [".notdef", *characters.values()]}
    font = new_font(characters, advances, FEATURES, glyph_names=False)
    head = struct.pack(">9H", 0, 1, 0, 26, 1, 2, 12, 1, 0)
    add_table(font, "kern", head + struct.pack(">2Hh2Hh", 1, 2, -30, 2, 3, 5))
    return bytes_of(font)


def broken_fonts(data):
    """Each broken font, with a name."""
    for tag, (entry, start, length) in directory(data).items():
        if tag not in TABLES:
            continue
        for at in range(0, length - 1, 2):
            for value in {0, 1, 0xFFFF, at}:
                copy = bytearray(data)
                copy[start + at:start + at + 2] = struct.pack(">H", value)
                yield f"{tag.decode()}: {value} at {at}", bytes(copy)
        for cut in range(length):
            copy = bytearray(data)
            copy[entry + 12:entry + 16] = struct.pack(">I", cut)
            yield f"{tag.decode()}: its first {cut} bytes", bytes(copy)


def status_of(program, path):
    run = subprocess.run([program, path, *OPTIONS], input=TEXT.encode() + b"\n", timeout=60,
                         stdout=subprocess.DEVNULL, stderr=subprocess.DEVNULL)
    return run.returncode


def add_options(parser):
    parser.add_argument("--program", default=str(FONTSHAPE))


def run(args):
    need_fonttools()
    need_fontshape(args.program)
    count, shaped, wrong = 0, 0, 0
    with tempfile.TemporaryDirectory() as folder:
        path = os.path.join(folder, "font.ttf")
        for name, data in broken_fonts(whole_font()):
            with open(path, "wb") as file:
                file.write(data)
            status = status_of(args.program, path)
            count, shaped = count + 1, shaped + (status == 0)
            if status not in (0, 1):
                wrong += 1
                print(f"{name}: status {status}")
    refused = count - shaped - wrong
    print(f"{count} fonts with a broken table: {shaped} shaped, {refused} refused, {wrong} wrong")
    return wrong == 0
