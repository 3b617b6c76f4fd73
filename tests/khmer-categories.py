#!/usr/bin/env python3
"""Categories of the scripts of India, of Khmer and of Myanmar: crates/syllabic, src/categories.

    tests/khmer-categories.py --check [FOLDER]   compares the tables with the files of a version of
                                                 Unicode, in FOLDER or where Debian's package
                                                 unicode-data has them
    tests/khmer-categories.py --write FOLDER     writes the tables from those of a newer version

A category follows from Indic_Syllabic_Category, in the blocks of these scripts, and for vowels of
Khmer and Myanmar from Indic_Positional_Category, as HarfBuzz 10.2.0 has it (`category` below);
those of `tests/khmer-categories.txt` replace what follows. The table is that of Unicode 16.0. With
an older version's files the characters that it has are compared; those whose category a later
version changed are named in `CHANGED`, and any other difference ends the check with status 1.
"""

import re
import sys
from pathlib import Path

ROOT = Path(__file__).resolve().parent.parent
TABLES = ROOT / "crates" / "syllabic" / "src" / "categories"
NAMES = ROOT / "crates" / "syllables" / "src" / "categories" / "indic.rt"
REPLACED = Path(__file__).resolve().with_suffix(".txt")
DEBIAN = Path("/usr/share/unicode")
PAGE = 32
# Characters that have another category in Unicode 16.0, by the version of the files.
CHANGED = {"15.0.0": set(), "16.0.0": set()}
BLOCKS = {
    "Basic Latin", "Latin-1 Supplement", "Devanagari", "Bengali", "Gurmukhi", "Gujarati", "Oriya",
    "Tamil", "Telugu", "Kannada", "Malayalam", "Myanmar", "Khmer", "Vedic Extensions",
    "General Punctuation", "Superscripts and Subscripts", "Devanagari Extended",
    "Myanmar Extended-A", "Myanmar Extended-B", "Myanmar Extended-C",
}
# The values of Indic_Syllabic_Category that have each category; all others are X.
VALUES = {
    "C": "Consonant Consonant_Dead Consonant_Head_Letter Consonant_Initial_Postfixed",
    "V": "Vowel Vowel_Independent",
    "N": "Nukta Tone_Mark",
    "H": "Virama Invisible_Stacker",
    "ZWNJ": "Non_Joiner",
    "ZWJ": "Joiner",
    "M": "Vowel_Dependent Pure_Killer Consonant_Killer",
    "SM": "Bindu Visarga Gemination_Mark Syllable_Modifier",
    "A": "Cantillation_Mark",
    "PLACEHOLDER": "Consonant_Placeholder Number Number_Joiner Brahmi_Joining_Number",
    "RS": "Register_Shifter",
    "REPHA": "Consonant_Preceding_Repha",
    "CM": "Consonant_Final Consonant_Medial Consonant_Subjoined Consonant_Succeeding_Repha",
    "SYMBOL": "Avagraha",
    "CS": "Consonant_With_Stacker",
}
CATEGORY = {value: name for name, values in VALUES.items() for value in values.split()}
# Where the last part of a vowel of several parts stands decides.
PLACES = {
    "VPRE": "Left",
    "VABV": "Top Top_And_Left",
    "VBLW": "Bottom Top_And_Bottom Top_And_Bottom_And_Left",
    "VPST": ("Right Bottom_And_Right Left_And_Right Top_And_Bottom_And_Right "
             "Top_And_Left_And_Right Top_And_Right"),
}
PLACE = {value: name for name, values in PLACES.items() for value in values.split()}


def property_lines(path):
    """The characters and the value of each line of a file of properties."""
    for line in path.read_text(encoding="utf-8").splitlines():
        fields = [field.strip() for field in line.partition("#")[0].split(";")]
        if len(fields) > 1:
            first, _, last = fields[0].partition("..")
            yield range(int(first, 16), int(last or first, 16) + 1), fields[1]


def property_of(path):
    return {c: value for span, value in property_lines(path) for c in span}


class Properties:
    def __init__(self, folder):
        head = (folder / "IndicSyllabicCategory.txt").open(encoding="utf-8").readline()
        self.version = re.search(r"-([\d.]+)\.txt", head).group(1)
        self.syllabic = property_of(folder / "IndicSyllabicCategory.txt")
        self.position = property_of(folder / "IndicPositionalCategory.txt")
        self.block = property_of(folder / "Blocks.txt")
        self.replaced = property_of(REPLACED)
        self.assigned = property_of(folder / "extracted" / "DerivedGeneralCategory.txt")


def category(c, p):
    """The name of a character's category."""
    block = p.block.get(c, "No_Block")
    name = CATEGORY.get(p.syllabic.get(c), "X") if block in BLOCKS else "X"
    if name == "SM" and c not in p.position:
        name = "SMPST"
    name = p.replaced.get(c, name)
    if name == "M" and block.startswith(("Khmer", "Myanmar")):
        name = PLACE[p.position[c]]
    return name


def numbers():
    """The number of each category, by its name in the crate of grammars."""
    return {name: int(value)
            for name, value in re.findall(r"pub const (\w+): u8 = (\d+);", NAMES.read_text())}


def of_files(p):
    number = numbers()
    return [number[category(c, p)] for c in range(0x110000)]


def numbers_in(name):
    return [int(n) for n in re.findall(r"\d+", (TABLES / f"{name}.rt").read_text().partition("= [")[2])]


def table():
    """What the crate gives to each character: the block of a page, past the end none."""
    pages, blocks = numbers_in("pages"), numbers_in("blocks")
    values = [blocks[page * PAGE + c] for page in pages for c in range(PAGE)]
    return values + [0] * (0x110000 - len(values))


def write_array(name, head, values):
    lines = ("    " + ", ".join(map(str, values[i:i + 16])) + ",\n" for i in range(0, len(values), 16))
    (TABLES / f"{name}.rt").write_text(
        f"//! {head}\n// Made by tests/khmer-categories.py from the files of Unicode 16.0. Do not edit.\n\n"
        f"#[rattlefmt::skip]\npub(crate) static {name.upper()}: [u8; {len(values)}] = [\n"
        + "".join(lines) + "];\n")


def write(values):
    """Writes each block of 32 characters once, the one without categories first."""
    last = max(c for c, value in enumerate(values) if value)
    found = [tuple(values[c:c + PAGE]) for c in range(0, last + 1, PAGE)]
    blocks = list(dict.fromkeys([(0,) * PAGE] + found))
    write_array("pages", "The block of each 32 characters; past the end there is none.",
                [blocks.index(block) for block in found])
    write_array("blocks", "The categories of 32 characters each, every block once; the first has none.",
                [value for block in blocks for value in block])


def check(p):
    given, wanted = table(), of_files(p)
    have = [c for c, value in p.assigned.items() if value != "Cn"]
    other = {c for c in have if given[c] != wanted[c]}
    wrong = sorted(other ^ CHANGED[p.version])
    for c in wrong[:20]:
        print(f"U+{c:04X}: {given[c]} in the table, {wanted[c]} by the files", file=sys.stderr)
    print(f"{len(have)} characters of Unicode {p.version}: {len(have) - len(other)} equal, "
          f"{len(other)} changed since, {len(wrong)} wrong")
    return 1 if wrong else 0


def main(arguments):
    if arguments[:1] == ["--check"] and len(arguments) < 3:
        folder = Path(arguments[1]) if len(arguments) == 2 else DEBIAN
        if not (folder / "IndicSyllabicCategory.txt").exists():
            print(f"skipped: {folder} has no files of Unicode (package unicode-data)")
            return 77
        return check(Properties(folder))
    if arguments[:1] == ["--write"] and len(arguments) == 2:
        write(of_files(Properties(Path(arguments[1]))))
        return 0
    print(__doc__, file=sys.stderr)
    return 2


if __name__ == "__main__":
    sys.exit(main(sys.argv[1:]))
