"""Unicode's BidiTest.txt and BidiCharacterTest.txt, and each bracket of BidiBrackets.txt, through
`bidi` (the program `test_bidi`); on request random texts and mixed real lines beside FriBidi.

A line of BidiTest.txt has classes and not characters: one character of each class stands for it. Of
brackets each opening one is tried before each closing one, between letters of both directions: the
closing one is on level 0 if the two are a pair, and else on level 1.

Where FriBidi differs, ICU decides, place by place: FriBidi 1.0.8 resolves some brackets wrongly
where marks or controls stand between. Both are known to go another way at two places: a mark after a
bracket that N0 sets takes its direction, and in an override a PDI that matches nothing takes that of
the override (X6a: "in all cases"). ICU puts a text that is left to right as a whole on one level, whatever its
controls say, and so is asked only then.
"""
import ctypes
import ctypes.util
import random
import re
import subprocess
from pathlib import Path

from checks.mixed import mixed_text, real_lines
from checks.programs import built, need_files

UNICODE = Path("/usr/share/unicode")
CLASSES = UNICODE / "BidiTest.txt"
CHARACTERS = UNICODE / "BidiCharacterTest.txt"
BRACKETS = UNICODE / "BidiBrackets.txt"
# a character of each class
OF_CLASS = {
    "L": "0061", "R": "05D0", "AL": "0627", "EN": "0031", "ES": "002B", "ET": "0023",
    "AN": "0660", "CS": "002C", "B": "2029", "S": "0009", "WS": "0020", "ON": "0021",
    "BN": "00AD", "NSM": "0300", "LRE": "202A", "LRO": "202D", "RLE": "202B", "RLO": "202E",
    "PDF": "202C", "LRI": "2066", "RLI": "2067", "FSI": "2068", "PDI": "2069",
}
# the bits of BidiTest.txt, each with the digit of BidiCharacterTest.txt for its direction
DIRECTIONS = ((1, "2"), (2, "0"), (4, "1"))
# U+2329 and U+232A are canonically equivalent to these
EQUIVALENT = {0x2329: 0x3008, 0x232A: 0x3009}


def lines_of(path):
    """The lines of a file of Unicode without comments, and those that have nothing else."""
    lines = (line.split("#")[0].strip() for line in path.read_text(encoding="utf-8").splitlines())
    return [line for line in lines if line]


def character_cases():
    """Each line of BidiCharacterTest.txt: what is given, and the levels and the order wanted."""
    for line in lines_of(CHARACTERS):
        text, direction, paragraph, levels, order = line.split(";")
        yield f"{text};{direction}", f"{paragraph};{levels};{order}"


def class_cases():
    """Each line of BidiTest.txt, once for each direction that it is to be tried in."""
    levels = order = ""
    for line in lines_of(CLASSES):
        if line.startswith("@Levels:"):
            levels = " ".join(line[len("@Levels:"):].split())
        elif line.startswith("@Reorder:"):
            order = " ".join(line[len("@Reorder:"):].split())
        elif not line.startswith("@"):
            classes, bits = line.split(";")
            text = " ".join(OF_CLASS[name] for name in classes.split())
            for bit, direction in DIRECTIONS:
                if int(bits) & bit:
                    yield f"{text};{direction}", f"{levels};{order}"


def bracket_cases():
    """Each opening bracket before each closing one."""
    rows = [line.split(";") for line in lines_of(BRACKETS)]
    pairs = [(int(row[0], 16), int(row[1], 16)) for row in rows if row[2].strip() == "o"]
    closing = {first: EQUIVALENT.get(last, last) for first, last in pairs}
    for first, _ in pairs:
        for _, last in pairs:
            paired = closing[first] == EQUIVALENT.get(last, last)
            level, order = ("0", "0 1 2 3 4") if paired else ("1", "0 1 4 3 2")
            yield f"0061 {first:04X} 05D0 {last:04X} 05D0;0", f"0;0 0 1 {level} 1;{order}"


def answers(program, given):
    """What the program writes to these lines, a line each."""
    done = subprocess.run([program], input=("\n".join(given) + "\n").encode(), capture_output=True)
    written = done.stdout.decode().splitlines()
    if done.returncode != 0 or len(written) != len(given):
        print(f"status {done.returncode}: {len(given)} lines, {len(written)} written")
        return None
    return written


def compare(program, what, cases):
    """Whether the program writes what the cases want. Those of BidiTest.txt name no level of the
    paragraph."""
    given, wanted = zip(*cases)
    written = answers(program, given)
    if written is None:
        return False
    wrong = 0
    for line, want, wrote in zip(given, wanted, written):
        if wrote != want and wrote.split(";", 1)[1] != want:
            wrong += 1
            if wrong <= 10:
                print(f"wrong: {line}: {wrote}, not {want}")
    print(f"{len(given) - wrong} of {len(given)} {what} right")
    return wrong == 0


# ---- beside FriBidi

# letters, numbers, separators, marks, spaces, brackets and controls, whose classes have not changed
ALPHABET = ([0x61, 0x62, 0x5D0, 0x5D1, 0x627, 0x628, 0x31, 0x32, 0x661, 0x662, 0x2B, 0x2D, 0x23, 0x24,
             0x2C, 0x2E, 0x3A, 0x300, 0x64B, 0x20, 0x20, 0x9, 0x21, 0x26, 0x28, 0x29, 0x5B, 0x5D,
             0x2329, 0x232A, 0x3008, 0x3009, 0xAD, 0x200B, 0x200D, 0x200E, 0x200F, 0x61C]
            + list(range(0x202A, 0x202F)) + list(range(0x2066, 0x206A)))
MARKS = {0x300, 0x64B}
PAIRED = {0x28, 0x29, 0x5B, 0x5D, 0x2329, 0x232A, 0x3008, 0x3009}
# what X9 removes
REMOVED = {0xAD, 0x200B, 0x200D, *range(0x202A, 0x202F)}
# FRIBIDI_PAR_LTR, FRIBIDI_PAR_RTL and FRIBIDI_PAR_ON
BASES = {"0": 0x110, "1": 0x111, "2": 0x40}


class FriBidi:
    """The levels and the visual order of a line by FriBidi's library."""

    def __init__(self):
        self.library = ctypes.CDLL("libfribidi.so.0")
        self.library.fribidi_get_par_embedding_levels_ex.restype = ctypes.c_int
        self.library.fribidi_reorder_line.restype = ctypes.c_int

    def line(self, text, base):
        """The level of the paragraph, the levels of the line after L1, and its order by L2."""
        count = len(text)
        given = (ctypes.c_uint32 * count)(*text)
        types = (ctypes.c_uint32 * count)()
        brackets = (ctypes.c_uint32 * count)()
        self.library.fribidi_get_bidi_types(given, count, types)
        self.library.fribidi_get_bracket_types(given, count, types, brackets)
        direction = ctypes.c_uint32(base)
        levels = (ctypes.c_int8 * count)()
        if not self.library.fribidi_get_par_embedding_levels_ex(
                types, brackets, count, ctypes.byref(direction), levels):
            return None
        places = (ctypes.c_int * count)(*range(count))
        if not self.library.fribidi_reorder_line(0, types, count, 0, direction, levels, None,
                                                 places):
            return None
        return direction.value & 1, list(levels), list(places)


class Icu:
    """The levels and the visual order of a line by ICU's library, whose names end with its version."""

    def __init__(self):
        name = ctypes.util.find_library("icuuc")
        self.library = name and ctypes.CDLL(name)
        self.version = name and re.search(r"[0-9]+", name).group()
        if name:
            self.call("open").restype = ctypes.c_void_p
            self.call("getLevels").restype = ctypes.POINTER(ctypes.c_uint8)
            self.call("getParaLevel").restype = ctypes.c_uint8
            self.bidi = ctypes.c_void_p(self.call("open")())

    def call(self, name):
        return getattr(self.library, f"ubidi_{name}_{self.version}")

    def line(self, text, digit):
        """What `FriBidi.line` gives, or nothing if ICU is not installed."""
        if not self.library:
            return None
        count, error = len(text), ctypes.c_int(0)
        given = (ctypes.c_uint16 * count)(*text)
        base = ctypes.c_uint8({"0": 0, "1": 1, "2": 0xFE}[digit])
        self.call("setPara")(self.bidi, given, ctypes.c_int32(count), base, None,
                             ctypes.byref(error))
        levels = self.call("getLevels")(self.bidi, ctypes.byref(error))
        places = (ctypes.c_int32 * count)()
        self.call("getVisualMap")(self.bidi, places, ctypes.byref(error))
        return self.call("getParaLevel")(self.bidi), levels[:count], list(places)


def random_text(source):
    """A random text of one paragraph, of few kinds of characters at a time."""
    alphabet = source.sample(ALPHABET, source.randint(2, 12))
    return [source.choice(alphabet) for _ in range(source.randint(1, 40))]


def is_same(wrote, theirs):
    """Whether a line is as another library has it. What X9 removes is left out of both."""
    if theirs is None:
        return False
    paragraph, levels, order = wrote.split(";")
    levels = levels.split()
    left = [place for place, level in enumerate(levels) if level != "x"]
    return (int(paragraph) == theirs[0]
            and [int(levels[place]) for place in left] == [theirs[1][place] for place in left]
            and [int(place) for place in order.split()]
            == [place for place in theirs[2] if levels[place] != "x"])


def is_stray(text, place):
    """Whether the PDI at a place matches nothing, and stands in an override. No text is so long that
    an embedding overflows."""
    opened = []
    for c in text[:place]:
        if c in (0x202A, 0x202B, 0x202D, 0x202E):
            opened.append("override" if c >= 0x202D else "embedding")
        elif c in (0x2066, 0x2067, 0x2068):
            opened.append("isolate")
        elif c == 0x202C and opened and opened[-1] != "isolate":
            opened.pop()
        elif c == 0x2069 and "isolate" in opened:
            while opened.pop() != "isolate":
                pass
    return "isolate" not in opened and bool(opened) and opened[-1] == "override"


def is_known(text, place):
    """Whether both other libraries are known to go another way at this place of a text: at a mark
    after a bracket, and at a PDI that matches nothing in an override."""
    if text[place] == 0x2069:
        return is_stray(text, place)
    before = [c for c in text[:place] if c not in REMOVED and c not in MARKS]
    return text[place] in MARKS and bool(before) and before[-1] in PAIRED


def is_decided(text, wrote, theirs, others):
    """Whether each level is as one of two libraries has it, or the place is known."""
    if theirs is None or others is None:
        return False
    levels = wrote.split(";")[1].split()
    return all(level == "x" or int(level) in (theirs[1][place], others[1][place])
               or is_known(text, place) for place, level in enumerate(levels))


def beside_fribidi(program, what, texts):
    """Compares texts, each with the digit of its direction, with FriBidi."""
    fribidi, icu = FriBidi(), Icu()
    given = [" ".join(f"{c:04X}" for c in text) + f";{digit}" for text, digit in texts]
    written = answers(program, given)
    if written is None:
        return False
    same = decided = wrong = 0
    for (text, digit), line, wrote in zip(texts, given, written):
        theirs = fribidi.line(text, BASES[digit])
        if is_same(wrote, theirs):
            same += 1
        elif is_decided(text, wrote, theirs, icu.line(text, digit)):
            decided += 1
        else:
            wrong += 1
            if wrong <= 10:
                print(f"differs: {line}: {wrote}, FriBidi {theirs}, ICU {icu.line(text, digit)}")
    print(f"{same} of {len(texts)} {what} as FriBidi has them, {decided} as ICU has them where "
          f"FriBidi has not, {wrong} unexplained")
    return wrong == 0


def add_options(parser):
    parser.add_argument("--fribidi", type=int, default=0, metavar="COUNT",
                        help="compare so many random texts, and as many mixed lines, with "
                             "FriBidi's library, too")
    parser.add_argument("--seed", type=int, default=1, help="the seed of the random texts")


def run(args):
    need_files([CLASSES, CHARACTERS, BRACKETS], "unicode-data")
    program = built("test_bidi")
    right = [
        compare(program, "lines of BidiCharacterTest.txt", character_cases()),
        compare(program, "cases of BidiTest.txt", class_cases()),
        compare(program, "pairs of brackets", bracket_cases()),
    ]
    if args.fribidi:
        source, lines = random.Random(args.seed), real_lines()
        texts = [(random_text(source), source.choice("012")) for _ in range(args.fribidi)]
        mixed = [(mixed_text(source, lines), source.choice("012")) for _ in range(args.fribidi)]
        right += [beside_fribidi(program, "random texts", texts),
                  beside_fribidi(program, "mixed lines", mixed)]
    return all(right)
