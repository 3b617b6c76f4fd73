#!/usr/bin/env python3
"""Categories of the Universal Shaping Engine: crates/universal_shaper, src/categories.

    tests/syllable-categories.py --check [FOLDER]   compares the tables with the files of a version
                                                    of Unicode, in FOLDER or where Debian's package
                                                    unicode-data has them
    tests/syllable-categories.py --write FOLDER     writes the tables from those of a newer version

A category follows from properties by the rules of the engine's specification, as HarfBuzz 10.2.0
reads them (`category` below), once some values are replaced (`tests/syllable-categories.txt`). The
tables are those of Unicode 16.0. With an older version's files the characters that it has are
compared; those whose category a later version changed are named in `CHANGED`, and any other
difference ends the check with status 1.
"""

import re
import sys
from pathlib import Path

ROOT = Path(__file__).resolve().parent.parent
TABLES = ROOT / "crates" / "universal_shaper" / "src" / "categories"
NAMES = ROOT / "crates" / "syllables" / "src" / "categories" / "universal.rt"
REPLACED = Path(__file__).resolve().with_suffix(".txt")
DEBIAN = Path("/usr/share/unicode")
NEAR, PAGE = 0x20000, 32
# Characters that have another category in Unicode 16.0, by the version of the files. There the
# vowel signs U and UU of Malayalam are below the letter, and Batak's killers Reordering_Killer.
CHANGED = {"15.0.0": {0xD41, 0xD42, 0x1BF2, 0x1BF3}, "16.0.0": set()}
# Scripts whose characters have no category: they have shapers of their own, or none.
OTHER_SCRIPTS = {"Arabic", "Lao", "Samaritan", "Syriac", "Thai"}

POSITIONS = {
    "F": {"Abv": "Top", "Blw": "Bottom", "Pst": "Right"},
    "M": {"Abv": "Top", "Blw": "Bottom Bottom_And_Left Bottom_And_Right", "Pst": "Right",
          "Pre": "Left Top_And_Bottom_And_Left"},
    "CM": {"Abv": "Top", "Blw": "Bottom Overstruck"},
    "V": {"Abv": "Top Top_And_Bottom Top_And_Bottom_And_Right Top_And_Right",
          "Blw": "Bottom Overstruck Bottom_And_Right", "Pst": "Right",
          "Pre": "Left Top_And_Left Top_And_Left_And_Right Left_And_Right"},
    "VM": {"Abv": "Top", "Blw": "Bottom Overstruck", "Pst": "Right", "Pre": "Left"},
    "SM": {"Abv": "Top", "Blw": "Bottom"},
    "FM": {"Abv": "Top", "Blw": "Bottom", "Pst": "Not_Applicable"},
}
# Categories of one value of Indic_Syllabic_Category each, or of several.
PLAIN = {
    "N": "Brahmi_Joining_Number", "FM": "Syllable_Modifier",
    "CM": "Nukta Gemination_Mark Consonant_Killer", "CS": "Consonant_With_Stacker",
    "HN": "Number_Joiner", "G": "Hieroglyph", "HM": "Hieroglyph_Modifier",
    "HR": "Hieroglyph_Mirror", "J": "Hieroglyph_Joiner",
    "SB": "Hieroglyph_Mark_Begin Hieroglyph_Segment_Begin",
    "SE": "Hieroglyph_Mark_End Hieroglyph_Segment_End", "ZWNJ": "Non_Joiner",
    "RK": "Reordering_Killer", "R": "Consonant_Preceding_Repha Consonant_Prefixed",
    "SM": "Symbol_Modifier",
}


def property_lines(path):
    """The fields of each line of a file of properties."""
    for line in path.read_text(encoding="utf-8").splitlines():
        fields = [field.strip() for field in line.partition("#")[0].split(";")]
        if len(fields) > 1:
            yield fields


def span(text):
    first, _, last = text.partition("..")
    return range(int(first, 16), int(last or first, 16) + 1)


def property_of(path, field=1, only=None):
    return {c: fields[field] for fields in property_lines(path) if only in (None, fields[1])
            for c in span(fields[0])}


def general_categories(path):
    values, first = {}, 0
    for fields in property_lines(path):
        c = int(fields[0], 16)
        if fields[1].endswith("First>"):
            first = c
        for each in range(first, c + 1) if fields[1].endswith("Last>") else [c]:
            values[each] = fields[2]
    return values


class Properties:
    def __init__(self, folder):
        head = (folder / "IndicSyllabicCategory.txt").open(encoding="utf-8").readline()
        self.version = re.search(r"-([\d.]+)\.txt", head).group(1)
        self.syllabic = property_of(folder / "IndicSyllabicCategory.txt")
        self.position = property_of(folder / "IndicPositionalCategory.txt")
        lines = property_lines(folder / "ArabicShaping.txt")
        self.joining = {int(fields[0], 16): fields[2] for fields in lines}
        self.hidden = property_of(folder / "DerivedCoreProperties.txt",
                                  only="Default_Ignorable_Code_Point")
        self.script = property_of(folder / "Scripts.txt")
        self.general = general_categories(folder / "UnicodeData.txt")
        for fields in property_lines(REPLACED):
            values = {"syllabic": self.syllabic, "position": self.position}[fields[1]]
            values.update(dict.fromkeys(span(fields[0]), fields[2]))


def is_base(syllabic, general, joining):
    if syllabic in ("Number", "Consonant", "Consonant_Head_Letter", "Tone_Letter",
                    "Vowel_Independent"):
        return True
    if joining in ("C", "D", "L", "R") and syllabic != "Joiner":
        return True
    return general == "Lo" and syllabic in (
        "Avagraha", "Bindu", "Consonant_Final", "Consonant_Medial", "Consonant_Subjoined", "Vowel",
        "Vowel_Dependent")


def kinds_of(c, p):
    """The categories that the rules give to a character, without positions: exactly one."""
    syllabic, general = p.syllabic.get(c, "Other"), p.general.get(c, "Cn")
    letter, hidden = general == "Lo", c in p.hidden
    base = is_base(syllabic, general, p.joining.get(c))
    generic = (syllabic == "Consonant_Placeholder"
               or c in (0x2015, 0x2022, *range(0x25FB, 0x25FF)))
    joiner = syllabic == "Joiner" or hidden and general in ("Mc", "Me", "Mn")
    # Fillers of Hangul and controls of shorthand stay bases and others, though they can't be seen.
    filler = c in (0x115F, 0x1160, 0x3164, 0xFFA0, 0x1BCA0, 0x1BCA1, 0x1BCA2, 0x1BCA3)
    unseen = hidden and not filler and syllabic == "Other" and not joiner or general == "Cn"
    yield from (kind for kind, values in PLAIN.items() if syllabic in values.split())
    rules = {
        "B": base, "GB": generic, "CGJ": joiner, "WJ": unseen,
        "F": (syllabic == "Consonant_Final" and not letter
              or syllabic == "Consonant_Succeeding_Repha"),
        "M": (syllabic == "Consonant_Medial" and not letter
              or syllabic == "Consonant_Initial_Postfixed"),
        "SUB": syllabic == "Consonant_Subjoined" and not letter,
        # Sinhala's halant may modify a vowel, that of Tai Tham joins letters behind vowels, too.
        "H": syllabic == "Virama" and c != 0xDCA, "HVM": c == 0xDCA,
        "IS": syllabic == "Invisible_Stacker" and c != 0x1A60, "Sk": c == 0x1A60,
        "V": (syllabic == "Pure_Killer"
              or not letter and syllabic in ("Vowel", "Vowel_Dependent")),
        "VM": (syllabic in ("Tone_Mark", "Cantillation_Mark", "Register_Shifter", "Visarga")
               or not letter and syllabic == "Bindu"),
        "O": ((general == "Po"
               or syllabic in ("Consonant_Dead", "Joiner", "Modifying_Letter", "Other"))
              and not (base or generic or joiner or unseen or syllabic == "Symbol_Modifier")),
    }
    yield from (kind for kind, holds in rules.items() if holds)


def category(c, p):
    listed = c in p.general and (c in p.syllabic or c in p.position or c in p.joining)
    if not (listed or c in p.hidden) or p.script.get(c) in OTHER_SCRIPTS:
        return "O"
    kinds = list(kinds_of(c, p))
    assert len(kinds) == 1, f"U+{c:04X} is {kinds}"
    places = POSITIONS.get(kinds[0])
    if not places:
        return kinds[0]
    place = p.position.get(c, "Not_Applicable")
    return kinds[0] + next(suffix for suffix, values in places.items() if place in values.split())


def numbers():
    """The number of each category, by its name in the crate of grammars."""
    return {name: int(value)
            for name, value in re.findall(r"pub const (\w+): u8 = (\d+);", NAMES.read_text())}


def far(c):
    return "CGJ" if 0xE0100 <= c <= 0xE01EF else "WJ" if 0xE0000 <= c <= 0xE0FFF else "O"


def array(name):
    text = (TABLES / f"{name}.rt").read_text()
    return [int(value) for value in re.findall(r"\d+", text.partition("= [")[2])]


def table():
    """What the crate gives to each character."""
    pages, blocks = array("pages"), array("blocks")
    near = [n for block in pages for n in blocks[block * PAGE:(block + 1) * PAGE]]
    number = numbers()
    return near + [number[far(c)] for c in range(NEAR, 0x110000)]


def write_array(name, head, values, width):
    rows = (values[i:i + width] for i in range(0, len(values), width))
    body = "".join("    " + " ".join(f"{v}," for v in row) + "\n" for row in rows)
    (TABLES / f"{name}.rt").write_text(
        f"//! {head}\n"
        "// Made by tests/syllable-categories.py from the files of Unicode 16.0. Do not edit.\n\n"
        f"#[rattlefmt::skip]\npub(crate) static {name.upper()}: [u8; {len(values)}] = [\n"
        f"{body}];\n")


def write(values):
    blocks, pages = {}, []
    for start in range(0, NEAR, PAGE):
        pages.append(blocks.setdefault(tuple(values[start:start + PAGE]), len(blocks)))
    write_array("pages", "The block of each 32 characters before U+20000.", pages, 16)
    write_array("blocks", "The categories of 32 characters each, every block once.",
                [n for block in blocks for n in block], 24)


def of_files(p):
    number = numbers()
    return [number[category(c, p).upper()] for c in range(0x110000)]


def check(p):
    given, wanted = table(), of_files(p)
    other = {c for c in p.general if given[c] != wanted[c]}
    wrong = sorted(other ^ CHANGED[p.version])
    for c in wrong[:20]:
        print(f"U+{c:04X}: {given[c]} in the table, {wanted[c]} by the files", file=sys.stderr)
    count = len(p.general)
    print(f"{count} characters of Unicode {p.version}: {count - len(other)} equal, "
          f"{len(other)} changed since, {len(wrong)} wrong")
    return 1 if wrong else 0


def main(arguments):
    if arguments[:1] == ["--check"] and len(arguments) < 3:
        folder = Path(arguments[1]) if len(arguments) == 2 else DEBIAN
        if not (folder / "IndicSyllabicCategory.txt").exists():
            print(f"skipped: no files of Unicode in {folder} (Debian's package unicode-data)")
            return 77
        return check(Properties(folder))
    if arguments[:1] == ["--write"] and len(arguments) == 2:
        write(of_files(Properties(Path(arguments[1]))))
        return 0
    print(__doc__, file=sys.stderr)
    return 2


if __name__ == "__main__":
    sys.exit(main(sys.argv[1:]))
