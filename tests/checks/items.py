"""Runs of random and real texts by `text_items` (the program `test_items`) beside raqm's library: the
script of each character.

raqm's scripts are seen by answering its calls of HarfBuzz (`../raqm-runs.c`). The rules of both are
written here once more, from UAX 24 and from what raqm does; both programs must follow them on every
text. Then where the two differ, it is by one of these rules, and the check counts the texts of each:

- `clusters`: a run never cuts a grapheme cluster, so a mark with a script of its own has that of its
  base; raqm gives it its own.
- `extensions`: Script_Extensions is asked; raqm has the property Script alone.
- `brackets`: all brackets of UAX 9 pair; in raqm ASCII, CJK and quotation marks.
- `apostrophes`: a closing mark that closes nothing changes nothing; in raqm it closes all that is open.
- `closed`: a pair is closed once; in raqm its opening one stays open.
- `first`: what stands before the first script has that script, so a bracket there, too; in raqm it is
  Common, and so is what closes it.
"""
import random
import shutil
import subprocess
import tempfile
from pathlib import Path

from checks.bidi import lines_of
from checks.mixed import mixed_text, real_lines
from checks.programs import Skipped, TESTS, built, need_files

UNICODE = Path("/usr/share/unicode")
FONT = "/usr/share/fonts/truetype/dejavu/DejaVuSans.ttf"
FILES = [UNICODE / name for name in (
    "Scripts.txt", "ScriptExtensions.txt", "PropertyValueAliases.txt", "BidiBrackets.txt",
    "auxiliary/GraphemeBreakProperty.txt", "emoji/emoji-data.txt")]
RULES = ("clusters", "extensions", "brackets", "apostrophes", "closed", "first")
MARKS = [(0x3C, 0x3E), (0xAB, 0xBB), (0x2018, 0x2019), (0x201C, 0x201D), (0x2039, 0x203A)]
RAQM_PAIRS = [(0x28, 0x29), (0x5B, 0x5D), (0x7B, 0x7D), *MARKS] + [
    (c, c + 1) for c in (*range(0x3008, 0x3012, 2), *range(0x3014, 0x301C, 2))]


def table(name, column=1):
    """A property's values by character."""
    values = {}
    for line in lines_of(UNICODE / name):
        fields = [field.strip() for field in line.split(";")]
        first, _, last = fields[0].partition("..")
        for c in range(int(first, 16), int(last or first, 16) + 1):
            values[c] = fields[column]
    return values


class Properties:
    """What the rules ask of characters."""

    def __init__(self):
        self.script = table("Scripts.txt")
        self.breaks = table("auxiliary/GraphemeBreakProperty.txt")
        names = {}
        for line in lines_of(UNICODE / "PropertyValueAliases.txt"):
            fields = [field.strip() for field in line.split(";")]
            if fields[0] == "sc":
                names[fields[1]] = fields[2]
        self.tags = {name.replace("_", ""): tag for tag, name in names.items()}
        self.listed = {c: {names[tag] for tag in value.split()}
                       for c, value in table("ScriptExtensions.txt").items()}
        rows = [line.split(";") for line in lines_of(UNICODE / "BidiBrackets.txt")]
        pairs = [(int(row[0], 16), int(row[1], 16)) for row in rows if row[2].strip() == "o"]
        same = {0x2329: 0x3008, 0x232A: 0x3009}
        self.pairs = {"here": [(a, same.get(b, b)) for a, b in pairs] + MARKS, "raqm": RAQM_PAIRS}
        self.closing = {key: {b for _, b in value} | ({0x232A} if key == "here" else set())
                        for key, value in self.pairs.items()}
        self.pictographs = {
            c for line in lines_of(UNICODE / "emoji/emoji-data.txt") if "Extended_Pictographic" in line
            for c in span(line.split(";")[0].strip())}

    def script_of(self, c):
        return self.script.get(c, "Unknown")


def span(text):
    first, _, last = text.partition("..")
    return range(int(first, 16), int(last or first, 16) + 1)


def is_explicit(script):
    return script not in ("Common", "Inherited")


def is_joined(known, text, place):
    """Whether no grapheme cluster ends before a place: GB3 to GB13 but GB6 to GB8 and GB9c, of which
    the texts have no characters."""
    kinds = [known.breaks.get(c, "Other") for c in text[:place + 1]]
    before, after = kinds[-2:]
    if before == "CR" and after == "LF":
        return True
    if {before, after} & {"CR", "LF", "Control"}:
        return False
    if after in ("Extend", "ZWJ", "SpacingMark") or before == "Prepend":
        return True
    if before == "ZWJ" and text[place] in known.pictographs:
        at = place - 2
        while at >= 0 and kinds[at] == "Extend":
            at -= 1
        return at >= 0 and text[at] in known.pictographs
    flags = 0
    while flags < place and kinds[place - 1 - flags] == "Regional_Indicator":
        flags += 1
    return after == "Regional_Indicator" and flags % 2 == 1


def clusters_of(known, text, rules):
    """The places where clusters begin; each character by itself without that rule."""
    return [place for place in range(len(text))
            if place == 0 or "clusters" not in rules or not is_joined(known, text, place)]


def scripts(known, text, rules):
    """The script of each character, where `rules` are as here, and the others as in raqm."""
    starts = clusters_of(known, text, rules)
    units = [text[start:end] for start, end in zip(starts, starts[1:] + [len(text)])]
    own = [next(filter(is_explicit, map(known.script_of, unit)), "Common") for unit in units]
    pairs = dict(known.pairs["here" if "brackets" in rules else "raqm"])
    closing = known.closing["here" if "brackets" in rules else "raqm"]
    current = next(filter(is_explicit, own), "Common") if "first" in rules else "Common"
    made, opened = [], []
    for place, (unit, script) in enumerate(zip(units, own)):
        listed = known.listed.get(unit[0], set()) if "extensions" in rules else set()
        following = next(filter(is_explicit, own[place + 1:]), "Common")
        if current in listed:
            pass
        elif is_explicit(script):
            current = script
        elif following in listed:
            current = following
        c = unit[0]
        if not is_explicit(script) and ("first" in rules or place > 0):
            if c in pairs:
                opened.append((pairs[c], current))
            elif c in closing:
                c = 0x3009 if c == 0x232A else c
                kept = list(opened)
                while kept and kept[-1][0] != c:
                    kept.pop()
                if kept:
                    current = kept[-1][1]
                    opened = kept[:-1] if "closed" in rules else kept
                elif "apostrophes" not in rules:
                    opened = []
        made += [current] * len(unit)
    for place in range(len(made) - 2, -1, -1):
        if made[place] == "Common":
            made[place] = made[place + 1]
    return made


# ---- both programs

# letters, digits, marks, signs and brackets of few scripts, whose properties the versions of Unicode
# agree on
ALPHABET = [ord(c) for c in "abαβждאבابअक漢字あアㄅ가"] + [
    0x20, 0x20, 0x31, 0x2E, 0x21, 0x2D, 0x342, 0x363, 0x483, 0x64B, 0x3099, 0x1CD1, 0x660, 0x966, 0x9E6,
    0x640, 0x3003, 0x30FB, 0x30FC, 0x2E43, 0x3006, 0x200D, 0xFE0F, 0x1F600, 0x2764, 0x1F3FD, 0x1F1E6,
    0x28, 0x29, 0x28, 0x29, 0x5B, 0x5D, 0x3C, 0x3E, 0xAB, 0xBB, 0x2018, 0x2019, 0x2019, 0x201C, 0x201D,
    0x2329, 0x232A, 0x3008, 0x3009, 0x300C, 0x300D, 0x2045, 0x2046, 0x27E8, 0x27E9]


def random_text(source):
    """A random text, of few kinds of characters at a time."""
    alphabet = source.sample(ALPHABET, source.randint(2, 14))
    return [source.choice(alphabet) for _ in range(source.randint(1, 40))]


def written_by(command, given):
    """What a program writes to these lines, a line each."""
    done = subprocess.run(command, input=("\n".join(given) + "\n").encode(), capture_output=True)
    written = done.stdout.decode().splitlines()
    return written if done.returncode == 0 and len(written) == len(given) else None


def by_character(line, tags, offsets):
    """The script of each character of a line with runs, by its tag."""
    made = [None] * (len(offsets) - 1)
    place = {offset: at for at, offset in enumerate(offsets)}
    for run in filter(None, line.split(";")):
        start, end, name = run.split()[:3]
        for at in range(place[int(start)], place[int(end)]):
            made[at] = tags.get(name, name)
    return made


def raqm_runs(folder):
    """The program that writes raqm's runs, built."""
    for needed in ("gcc", "pkg-config"):
        if not shutil.which(needed):
            raise Skipped(f"no {needed} to build with (Debian's {needed})")
    program = Path(folder) / "raqm-runs"
    flags = subprocess.run(["pkg-config", "--cflags", "--libs", "raqm", "harfbuzz", "freetype2"],
                           capture_output=True)
    if flags.returncode != 0:
        raise Skipped("no raqm to build with (Debian's libraqm-dev)")
    subprocess.run(["gcc", "-O2", "-rdynamic", TESTS / "raqm-runs.c", "-o", program,
                    *flags.stdout.decode().split()], check=True)
    return program


def compare(known, texts, ours, theirs):
    """Whether both programs follow their rules, with a table of the rules that they differ by."""
    given = [" ".join(f"{c:04X}" for c in text) + ";2" for text in texts]
    here, there = written_by(ours, given), written_by(theirs, given)
    if here is None or there is None:
        print("a program failed")
        return False
    wrong, same, counts = 0, 0, dict.fromkeys(RULES, 0)
    plain = {name: name for name in known.tags.values()} | {"Zinh": "Zyyy"}
    for text, line, our, their in zip(texts, given, here, there):
        offsets = [0]
        for c in text:
            offsets.append(offsets[-1] + len(chr(c).encode("utf-8", "surrogatepass")))
        our = by_character(our, known.tags, offsets)
        their = by_character(their, plain, list(range(len(text) + 1)))
        by_tag = {name: known.tags[name.replace("_", "")] for name in set(known.script.values())}
        by_tag["Unknown"] = "Zzzz"
        mine = [by_tag[name] for name in scripts(known, text, set(RULES))]
        raqm = [by_tag[name] for name in scripts(known, text, set())]
        same += our == their
        for rule in RULES:
            counts[rule] += mine != [by_tag[name] for name in scripts(known, text, set(RULES) - {rule})]
        if our != mine or their != raqm:
            wrong += 1
            if wrong <= 10:
                print(f"differs: {line}\n  here {our}, by the rules {mine}\n"
                      f"  raqm {their}, by its rules {raqm}")
    print(f"{len(texts)} texts: {same} as raqm has them; by each rule differ: "
          + ", ".join(f"{rule} {count}" for rule, count in counts.items())
          + f"; {wrong} unexplained")
    return wrong == 0


def add_options(parser):
    parser.add_argument("--count", type=int, default=1000, help="how many random texts, and as many real")
    parser.add_argument("--seed", type=int, default=1, help="the seed of the random texts")


def run(args):
    need_files(FILES + [FONT], "unicode-data, fonts-dejavu-core")
    known, source, lines = Properties(), random.Random(args.seed), real_lines()
    with tempfile.TemporaryDirectory() as folder:
        theirs = [raqm_runs(folder), FONT]
        ours = [built("test_items")]
        return all([
            compare(known, [random_text(source) for _ in range(args.count)], ours, theirs),
            compare(known, [mixed_text(source, lines) for _ in range(args.count)], ours, theirs),
        ])
