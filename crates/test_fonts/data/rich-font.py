#!/usr/bin/env python3
"""Writes `rich.ttf`, a small font with GDEF, GSUB, GPOS and `kern`, and `src/rich.rt`, its bytes for the tests. Debian's
python3-fonttools makes it; the same version makes the same bytes.

Glyphs are boxes. `f i` makes a ligature, of which each component has an anchor, `a` before `b` becomes `a.alt`; marks stand on
bases, on components of the ligature and on one another; A V is kerned by GPOS in Latin texts; in others `kern` kerns."""
import io
import os
import sys

from fontTools.feaLib.builder import addOpenTypeFeaturesFromString
from fontTools.fontBuilder import FontBuilder
from fontTools.pens.ttGlyphPen import TTGlyphPen
from fontTools.ttLib import newTable
from fontTools.ttLib.tables._k_e_r_n import KernTable_format_0

GLYPHS = {".notdef": 500, "A": 600, "V": 640, "a": 500, "b": 520, "f": 300, "i": 250, "f_i": 540, "a.alt": 505, "acute": 0, "grave": 0, "alpha": 480, "beta": 470}
CHARACTERS = {0x41: "A", 0x56: "V", 0x61: "a", 0x62: "b", 0x66: "f", 0x69: "i", 0x301: "acute", 0x300: "grave", 0x3B1: "alpha", 0x3B2: "beta"}
FEATURES = """
languagesystem DFLT dflt; languagesystem latn dflt; languagesystem grek dflt;
markClass [acute grave] <anchor 10 600> @TOP;
feature liga { sub f i by f_i; } liga;
feature calt { sub a' b by a.alt; } calt;
feature kern { script latn; pos A V -80; } kern;
feature mark {
  pos base [a b A V a.alt alpha] <anchor 250 700> mark @TOP;
  pos ligature f_i <anchor 120 710> mark @TOP ligComponent <anchor 400 720> mark @TOP;
} mark;
feature mkmk { pos mark [acute grave] <anchor 10 800> mark @TOP; } mkmk;
table GDEF { GlyphClassDef [A V a b f i a.alt alpha beta], [f_i], [acute grave], ; } GDEF;
"""


def box(width):
    pen = TTGlyphPen(None)
    right = max(width, 200) - 20
    pen.moveTo((20, 0)); pen.lineTo((20, 600)); pen.lineTo((right, 600)); pen.lineTo((right, 0)); pen.closePath()
    return pen.glyph()


def made():
    font = FontBuilder(1000, isTTF=True)
    font.setupGlyphOrder(list(GLYPHS))
    font.setupCharacterMap(CHARACTERS)
    font.setupGlyf({name: box(width) for name, width in GLYPHS.items()})
    font.setupHorizontalMetrics({name: (width, 20) for name, width in GLYPHS.items()})
    font.setupHorizontalHeader(ascent=800, descent=-200)
    font.setupPost(keepGlyphNames=False)
    font.setupMaxp()
    font.updateHead(created=0, modified=0)
    addOpenTypeFeaturesFromString(font.font, FEATURES)
    kern = newTable("kern")
    kern.version, part = 0, KernTable_format_0(apple=False)
    part.coverage, part.tupleIndex, part.kernTable = 1, None, {("A", "V"): -30, ("alpha", "beta"): -60}
    kern.kernTables = [part]
    font.font["kern"] = kern
    font.font.recalcTimestamp = False
    out = io.BytesIO()
    font.font.save(out)
    return out.getvalue()


def main():
    here = os.path.dirname(os.path.abspath(__file__))
    data = made()
    with open(os.path.join(here, "rich.ttf"), "wb") as file:
        file.write(data)
    lines = [data[at:at + 44].hex() for at in range(0, len(data), 44)]
    with open(os.path.join(here, "../src/rich.rt"), "w") as file:
        file.write("//! The bytes of `data/rich.ttf`, which `data/rich-font.py` writes.\n\n")
        file.write("/// The font's bytes in hexadecimal digits.\npub const RICH: &str = \"\\\n")
        file.write("".join("    " + line + "\\\n" for line in lines) + "\";\n")
    print(len(data), "bytes", file=sys.stderr)


if __name__ == "__main__":
    main()
