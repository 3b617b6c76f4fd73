"""Installed fonts, copies of them without some tables, and fonts made from nothing."""
import glob
import io

from checks.programs import need_files

DEJAVU = "/usr/share/fonts/truetype/dejavu/DejaVuSans.ttf"
# patterns of installed fonts, by Debian's package
DEJAVU_FONTS = "/usr/share/fonts/truetype/dejavu/*.ttf"
NOTO_FONTS = "/usr/share/fonts/truetype/noto/*.ttf"
AMIRI_FONTS = "/usr/share/fonts/opentype/fonts-hosny-amiri/*.ttf"
SCHEHERAZADE_FONTS = "/usr/share/fonts/truetype/scheherazade/*.ttf"
# OpenType's and Apple's tables of lookups
LOOKUPS = ("GSUB", "GPOS", "GDEF", "BASE", "JSTF", "morx", "mort", "kerx", "trak")


def need_dejavu():
    """The check is skipped without DejaVu Sans."""
    need_files([DEJAVU], "fonts-dejavu-core")


def installed(patterns):
    """The paths of the installed fonts of some patterns, in order."""
    return sorted({path for pattern in patterns for path in glob.glob(pattern)})


def save_without(path, tags, copy, glyph_names=True):
    """Saves a copy of a font without some tables, and without names of glyphs if these aren't
    wanted. Returns the font."""
    from fontTools.ttLib import TTFont
    font = TTFont(path)
    for tag in tags:
        if tag in font:
            del font[tag]
    if not glyph_names:
        font["post"].formatType = 3.0
    font.save(copy)
    return font


def new_font(characters, advances, features="", glyph_names=True, os2=False):
    """A font of 1,000 units whose glyphs have no outlines. `characters` has the glyph of each
    character, `advances` the advance of each glyph in order, `features` is a feature file."""
    from fontTools.feaLib.builder import addOpenTypeFeaturesFromString
    from fontTools.fontBuilder import FontBuilder
    from fontTools.ttLib.tables._g_l_y_f import Glyph
    builder = FontBuilder(1000, isTTF=True)
    builder.setupGlyphOrder(list(advances))
    builder.setupCharacterMap(characters)
    builder.setupGlyf({name: Glyph() for name in advances})
    builder.setupHorizontalMetrics({name: (advance, 0) for name, advance in advances.items()})
    builder.setupHorizontalHeader(ascent=800, descent=-200)
    if os2:
        builder.setupOS2()
    builder.setupPost(keepGlyphNames=glyph_names)
    if features:
        addOpenTypeFeaturesFromString(builder.font, features)
    return builder.font


def add_table(font, tag, data):
    """Gives a font a table of these bytes."""
    from fontTools.ttLib.tables.DefaultTable import DefaultTable
    font[tag] = DefaultTable(tag)
    font[tag].data = data


def bytes_of(font):
    """A font as the bytes of its file."""
    out = io.BytesIO()
    font.save(out)
    return out.getvalue()
