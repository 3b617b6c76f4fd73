#!/usr/bin/env python3
"""Categories and positions of the scripts of India: crates/indic_shaper, src/categories.

    tests/indic-categories.py --check [FOLDER]   compares the tables with the files of a version of
                                                 Unicode, in FOLDER or where Debian's package
                                                 unicode-data has them
    tests/indic-categories.py --write FOLDER     writes the tables from those of a newer version

A category follows from Indic_Syllabic_Category, a position from Indic_Positional_Category and the
block, by the rules of HarfBuzz 10.2.0; the characters that it has otherwise are listed here, with
its reason. The tables are those of Unicode 16.0. With an older version's files the characters that
it has are compared; those that a later version changed are named in `CHANGED`, and any other
difference ends the check with status 1.
"""

import re
import sys
from pathlib import Path

TABLES = Path(__file__).resolve().parent.parent / "crates" / "indic_shaper" / "src" / "categories"
DEBIAN = Path("/usr/share/unicode")
PAGE = 32
BLOCKS = {
    "Basic Latin", "Latin-1 Supplement", "Devanagari", "Bengali", "Gurmukhi", "Gujarati", "Oriya",
    "Tamil", "Telugu", "Kannada", "Malayalam", "Myanmar", "Khmer", "Vedic Extensions",
    "General Punctuation", "Superscripts and Subscripts", "Devanagari Extended",
    "Myanmar Extended-B", "Myanmar Extended-A", "Myanmar Extended-C"}
CATEGORIES = ("X C V N H ZWNJ ZWJ M SM A PLACEHOLDER DOTTEDCIRCLE RS MPST REPHA RA CM SYMBOL CS "
              "SMPST").split()
PLACES = ("START REPH PRE_M PRE_C BASE_C AFTER_MAIN ABOVE_C BEFORE_SUB BELOW_C AFTER_SUB "
          "BEFORE_POST POST_C AFTER_POST SMVD END").split()
SYLLABIC = {
    "C": "Consonant Consonant_Dead Consonant_Head_Letter Consonant_Initial_Postfixed",
    "V": "Vowel Vowel_Independent", "N": "Nukta Tone_Mark", "H": "Virama Invisible_Stacker",
    "ZWNJ": "Non_Joiner", "ZWJ": "Joiner", "A": "Cantillation_Mark", "RS": "Register_Shifter",
    "M": "Consonant_Killer Pure_Killer Vowel_Dependent", "REPHA": "Consonant_Preceding_Repha",
    "SM": "Bindu Gemination_Mark Syllable_Modifier Visarga", "SYMBOL": "Avagraha",
    "PLACEHOLDER": "Brahmi_Joining_Number Consonant_Placeholder Number Number_Joiner",
    "CM": "Consonant_Final Consonant_Medial Consonant_Subjoined Consonant_Succeeding_Repha",
    "CS": "Consonant_With_Stacker"}
POSITIONAL = {
    "PRE_C": "Left", "ABOVE_C": "Top Top_And_Left",
    "BELOW_C": "Bottom Top_And_Bottom Top_And_Bottom_And_Left",
    "POST_C": "Right Bottom_And_Right Left_And_Right Top_And_Bottom_And_Right "
              "Top_And_Left_And_Right Top_And_Right",
    "AFTER_MAIN": "Overstruck", "PRE_M": "Visual_order_left"}
# Characters with another category than that of their property.
CHARACTERS = {
    # Each script's Ra, which may become a reph, and Khmer's.
    "RA": "0930 09B0 09F0 0A30 0AB0 0B30 0BB0 0C30 0CB0 0D30 179A 1004 101B 105A",
    # What acts more like a bindu; Grantha's marks, which Tamil may use; Myanmar's tones.
    "SM": "0953 0954 11301..11303 1038 1087..108D 108F 109A..109C",
    # A sign that may stand behind a bindi, and one that is a vowel sign (HarfBuzz's issue 524).
    "MPST": "0A40", "M": "0A51",
    # What acts like a consonant.
    "C": "0A72 0A73 1CF5 1CF6 104E",
    # Signs that should stand behind a visarga or a nasal alone: tone marks.
    "A": "1CE2..1CE8 1CED 1032 1036",
    # What takes marks of its own, as an avagraha does.
    "SYMBOL": "A8F2..A8F7 1CE9..1CEC 1CEE..1CF1",
    # Nuktas of Grantha and others (issues 552 and 2849).
    "N": "1133B 1133C 0AFB 0B55",
    # What signs may stand on (pull requests 623, 1613 and 3511, issue 2384; specification of Myanmar).
    "PLACEHOLDER": "2015 2022 25FB..25FE 09FC 0C80 0D04 17D9 104A",
    "DOTTEDCIRCLE": "25CC",
    # Of Khmer and Myanmar alone: in no syllable here.
    "X": "FE00..FE0F 17CC 17C9 17CA 17C6 17CB 17CD..17D1 17C7 17C8 17DD 17D3 103A 103E 1060 103C "
         "103D 1082 103B 105E 105F 1063 1064 1069..106D AA7B"}
# Where vowel signs go, by the part of the base that they stand at: of a block, else of any other.
SIGNS = {
    "POST_C": ("AFTER_SUB", {"Bengali": "AFTER_POST", "Gurmukhi": "AFTER_POST",
                             "Gujarati": "AFTER_POST", "Oriya": "AFTER_POST",
                             "Tamil": "AFTER_POST", "Malayalam": "AFTER_POST"}),
    "ABOVE_C": ("AFTER_SUB", {"Gurmukhi": "AFTER_POST", "Oriya": "AFTER_MAIN",
                              "Telugu": "BEFORE_SUB", "Kannada": "BEFORE_SUB"}),
    "BELOW_C": ("AFTER_SUB", {"Gurmukhi": "AFTER_POST", "Gujarati": "AFTER_POST",
                              "Tamil": "AFTER_POST", "Telugu": "BEFORE_SUB",
                              "Kannada": "BEFORE_SUB", "Malayalam": "AFTER_POST"})}
# Characters that have another category or position in Unicode 16.0, by the version of the files.
CHANGED = {"15.0.0": set(), "16.0.0": set()}


def property_lines(path):
    for line in path.read_text(encoding="utf-8").splitlines():
        fields = [field.strip() for field in line.partition("#")[0].split(";")]
        if len(fields) > 1:
            yield fields


def span(text):
    first, _, last = text.partition("..")
    return range(int(first, 16), int(last or first, 16) + 1)


def property_of(path):
    return {c: fields[1] for fields in property_lines(path) for c in span(fields[0])}


def by_value(table):
    return {value: name for name, values in table.items() for value in values.split()}


class Properties:
    def __init__(self, folder):
        head = (folder / "IndicSyllabicCategory.txt").open(encoding="utf-8").readline()
        self.version = re.search(r"-([\d.]+)\.txt", head).group(1)
        self.syllabic = property_of(folder / "IndicSyllabicCategory.txt")
        self.place = property_of(folder / "IndicPositionalCategory.txt")
        self.block = property_of(folder / "Blocks.txt")
        self.known = {int(fields[0], 16) for fields in property_lines(folder / "UnicodeData.txt")}


SYLLABIC_OF, PLACE_OF = by_value(SYLLABIC), by_value(POSITIONAL)
LISTED = {c: name for name, spans in CHARACTERS.items() for each in spans.split() for c in span(each)}


def category(c, p):
    if c in LISTED:
        return LISTED[c]
    if c != 0xA0 and p.block.get(c) not in BLOCKS:
        return "X"
    found = SYLLABIC_OF.get(p.syllabic.get(c), "X")
    # A modifier with no place of its own may stand behind others.
    return "SMPST" if found == "SM" and c not in p.place else found


def sign_place(c, place, block):
    if place == "PRE_C":
        return "PRE_M"
    if block == "Telugu" and place == "POST_C":
        return "BEFORE_SUB" if c <= 0xC42 else "AFTER_SUB"
    if block == "Kannada" and place == "POST_C":
        return "AFTER_SUB" if 0xCC3 <= c <= 0xCD6 else "BEFORE_SUB"
    other, places = SIGNS[place]
    return places.get(block, other)


def position(c, kind, p):
    block = p.block.get(c, "")
    if c == 0xB01:  # Oriya's bindu, by its specification
        return "BEFORE_SUB"
    if c == 0xA51:  # HarfBuzz's issue 524
        return "BELOW_C"
    if kind in ("C", "CS", "RA", "CM", "V", "PLACEHOLDER", "DOTTEDCIRCLE"):
        return "BASE_C"
    if kind in ("SM", "SMPST", "A", "SYMBOL"):
        return "SMVD"
    if kind not in ("RS", "H", "M", "MPST"):
        return "END"
    place = PLACE_OF.get(p.place.get(c), "END")
    if kind in ("M", "MPST") and not is_foreign(block):
        return sign_place(c, place, block)
    return place


def is_foreign(block):
    """Blocks whose vowel signs have categories by their place, and are in no syllable here."""
    return block.startswith(("Khmer", "Myanmar"))


def sort(c, p):
    kind = category(c, p)
    place = position(c, kind, p)
    if kind in ("M", "MPST") and is_foreign(p.block.get(c, "")):
        kind = "X"
    return PLACES.index(place) * 64 + CATEGORIES.index(kind)


def array(name):
    text = (TABLES / f"{name}.rt").read_text()
    return [int(value) for value in re.findall(r"\d+", text.partition("= [")[2])]


def table():
    pages, blocks = array("pages"), array("blocks")
    near = [n for block in pages for n in blocks[block * PAGE:(block + 1) * PAGE]]
    return near + [blocks[0]] * (0x110000 - len(near))


def write_array(name, kind, head, values, width):
    rows = (values[i:i + width] for i in range(0, len(values), width))
    body = "".join("    " + " ".join(f"{v}," for v in row) + "\n" for row in rows)
    (TABLES / f"{name}.rt").write_text(
        f"//! {head}\n"
        "// Made by tests/indic-categories.py from the files of Unicode 16.0. Do not edit.\n\n"
        f"#[rattlefmt::skip]\npub(crate) static {name.upper()}: [{kind}; {len(values)}] = [\n"
        f"{body}];\n")


def write(values):
    none = PLACES.index("END") * 64
    blocks, pages = {(none,) * PAGE: 0}, []
    last = max(c for c, value in enumerate(values) if value != none)
    for start in range(0, last + 1, PAGE):
        pages.append(blocks.setdefault(tuple(values[start:start + PAGE]), len(blocks)))
    write_array("pages", "u8", "The block of each 32 characters; past the end it is the first one.",
                pages, 16)
    write_array("blocks", "u16", "64 times the position and the category of 32 characters each, "
                "every block once; the first has no category.",
                [n for block in blocks for n in block], 16)


def of_files(p):
    return [sort(c, p) for c in range(0x110000)]


def check(p):
    given, wanted = table(), of_files(p)
    other = {c for c in p.known if given[c] != wanted[c]}
    wrong = sorted(other ^ CHANGED[p.version])
    for c in wrong[:20]:
        print(f"U+{c:04X}: {given[c]} in the table, {wanted[c]} by the files", file=sys.stderr)
    count = len(p.known)
    print(f"{count} characters of Unicode {p.version}: {count - len(other)} equal, "
          f"{len(other)} changed since, {len(wrong)} wrong")
    return 1 if wrong else 0


def main(arguments):
    if arguments[:1] == ["--check"] and len(arguments) < 3:
        folder = Path(arguments[1]) if len(arguments) == 2 else DEBIAN
        if not (folder / "IndicSyllabicCategory.txt").exists():
            print(f"skipped: no files of Unicode in {folder} (Debian's package unicode-data)")
            return 77
        return check(Properties(folder))
    if arguments[:1] == ["--write"] and len(arguments) == 2:
        write(of_files(Properties(Path(arguments[1]))))
        return 0
    print(__doc__, file=sys.stderr)
    return 2


if __name__ == "__main__":
    sys.exit(main(sys.argv[1:]))
