"""HarfBuzz's own tests, through `fontshape`.

These are the tests that HarfBuzz 10.2.0 runs itself: its folders `in-house`, `aots` and
`text-rendering-tests`, without those that it leaves out and those of other systems' shapers. Each
has a font, options, characters, and the line that `hb-shape` prints.

`suite.txt` lists the tests that pass. The check fails if one of them doesn't pass, and names those
that begin to, which `--write` adds. `--table` prints how many pass of each kind.

The tests are fetched from Debian's source package (`tests/harfbuzz-suite.sh`), if `--suite` doesn't
name the folder.
"""
import collections
import contextlib
import re
import struct
import subprocess
import tempfile
from pathlib import Path

from checks.comparison import print_difference
from checks.programs import FONTSHAPE, Skipped, TESTS, need_fontshape

LIST = TESTS / "suite.txt"
FOLDERS = ("in-house", "aots", "text-rendering-tests")
APPLE = {b"morx", b"mort", b"kerx", b"trak", b"feat"}
# which shapers and functions of fonts are asked for: `fontshape` has one of each
OF_OTHERS = ("--shaper=coretext", "--shaper=directwrite", "--shaper=uniscribe")
# the kinds of tests, by the names of their files
KINDS = [
    ("Apple's tables", "MORX|KERN|aat|coretext|macos"),
    ("Indic", "indic|SHKNDA"), ("Khmer", "khmer"), ("Myanmar", "myanmar"),
    ("Universal Shaping Engine", "use|SHBALI|SHLANA|SHARAN|tibetan|sinhala|mongolian"),
    ("Arabic, Hebrew, Thai, Hangul", "arabic|hebrew|sara-am|hangul"),
    ("emoji, selectors, ignorables", "emoji|variation-selectors|default-ign|color"),
    ("AOTS: lookups, character maps", "aots"),
]


class Test:
    """A test: its name, its font, its options, its characters, and what is to be printed."""

    def __init__(self, name, folder, line):
        font, options, self.unicodes, self.wanted = line.split(";")
        self.name, self.font = name, (folder / font).resolve()
        self.options = tuple(it for it in options.split() if not it.startswith("--font-funcs="))
        if self.wanted != "*":
            self.options += ("--unsafe-to-concat",)

    def passes(self, written):
        """Whether this is what is to be printed; `*` stands for any line."""
        return bool(written) if self.wanted == "*" else written == self.wanted

    def text(self):
        """The characters as a line of their own, none if there is no such line."""
        if "--single-par" in self.options:
            return None
        numbers = [int(it, 16) for it in re.findall("[0-9A-Fa-f]+", self.unicodes.replace("U+", ""))]
        if any(it == 10 or 0xD800 <= it < 0xE000 or it > 0x10FFFF for it in numbers):
            return None
        return "".join(map(chr, numbers))

    def kind(self):
        """What the test is of."""
        if any(it.startswith("--variations") for it in self.options):
            return "variable fonts"
        tables = tables_of(self.font)
        if tables & APPLE:
            return "Apple's tables"
        if tables & {b"CFF ", b"CFF2"} and not self.name.startswith("aots"):
            return "fonts with CFF"
        folder, file = self.name.split(":")[0].split("/")
        for kind, pattern in KINDS:
            if re.match(pattern, folder if folder == "aots" else file):
                return kind
        return "others"


def tables_of(font):
    """The tags of the tables of a font."""
    head = font.read_bytes()[:4096]
    if head[:4] == b"ttcf":
        return set()
    count = min(struct.unpack(">H", head[4:6])[0], 64) if len(head) > 6 else 0
    return {head[12 + 16 * i:16 + 16 * i] for i in range(count)}


def tests_of(suite, folder):
    """The tests of a folder, in the order of HarfBuzz's list of files."""
    listed = (suite / folder / "meson.build").read_text(encoding="utf-8").split("disabled")[0]
    found = []
    for file in sorted(set(re.findall(r"'([^']+)\.tests'", listed))):
        path = suite / folder / "tests" / f"{file}.tests"
        lines = [line.strip() for line in path.read_text(encoding="utf-8").splitlines()]
        lines = [line for line in lines if line and line[0] not in "#/\""
                 and not any(it in line for it in OF_OTHERS)]
        found += [Test(f"{folder}/{file}:{number}", path.parent, line)
                  for number, line in enumerate(lines, start=1)]
    return found


def printed(program, test, words, given=b""):
    """What the program prints of these tests: the lines, or why there are none."""
    done = subprocess.run([program, test.font, *test.options, *words], input=given,
                          capture_output=True, timeout=120)
    lines = done.stdout.decode(errors="replace").split("\n")[:-1]
    return lines, f"status {done.returncode}: {done.stderr.decode(errors='replace').strip()}"


def written_of(program, tests):
    """What the program prints of each test: those of a font with the same options by one run."""
    together, written = collections.defaultdict(list), {}
    for test in tests:
        if test.text() is None:
            lines, why = printed(program, test, ["--unicodes", test.unicodes])
            written[test.name] = lines[0] if lines else why
        else:
            together[test.font, test.options].append(test)
    for some in together.values():
        given = "".join(test.text() + "\n" for test in some).encode()
        lines, why = printed(program, some[0], [], given)
        for number, test in enumerate(some):
            written[test.name] = lines[number] if number < len(lines) else why
    return written


def numbers_of(spans):
    """The numbers of `1,3-5`."""
    found = set()
    for span in spans.split(","):
        first, _, last = span.partition("-")
        found.update(range(int(first), int(last or first) + 1))
    return found


def spans_of(numbers):
    """Numbers as `1,3-5`."""
    spans = []
    for number in sorted(numbers):
        if spans and spans[-1][1] + 1 == number:
            spans[-1][1] = number
        else:
            spans.append([number, number])
    return ",".join(f"{first}-{last}" if first < last else f"{first}" for first, last in spans)


def listed():
    """The names of the tests that are listed."""
    found = set()
    for line in LIST.read_text(encoding="utf-8").splitlines():
        if not line.startswith("#"):
            file, spans = line.split()
            found.update(f"{file}:{number}" for number in numbers_of(spans))
    return found


def write_list(names):
    """Writes the list of these tests."""
    files = collections.defaultdict(list)
    for name in names:
        file, number = name.split(":")
        files[file].append(int(number))
    lines = [f"{file} {spans_of(numbers)}\n" for file, numbers in sorted(files.items())]
    about = "# HarfBuzz's tests that pass, by their numbers in each file (compare.py suite --write)\n"
    LIST.write_text(about + "".join(lines), encoding="utf-8")


def print_table(tests, passing):
    """How many tests there are of each kind, and how many pass."""
    all_of = collections.Counter(test.kind() for test in tests)
    good = collections.Counter(test.kind() for test in tests if test.name in passing)
    print("| tests | pass | of |\n|---|---|---|")
    for kind, count in all_of.most_common():
        print(f"| {kind} | {good[kind]:,} | {count:,} |")
    print(f"| all | {len(passing):,} | {len(tests):,} |")


def compare(suite, args):
    tests = [test for folder in FOLDERS for test in tests_of(suite, folder)]
    written = written_of(args.program, tests)
    passing = {test.name for test in tests if test.passes(written[test.name])}
    if args.write:
        write_list(passing | listed())
    if args.table:
        print_table(tests, passing)
    wanted, shown = listed(), 0
    for test in tests:
        if test.name not in passing and (args.failing or test.name in wanted):
            shown += 1
            if shown <= args.examples:
                where = " ".join([test.name, test.font.name, *test.options, test.unicodes])
                print_difference(where, test.wanted, written[test.name])
    for name in sorted(passing - wanted):
        print(f"passes, and isn't listed (--write adds it): {name}")
    stopped = sorted(wanted - passing)
    print(f"{len(passing)} of HarfBuzz's {len(tests)} tests pass; {len(stopped)} of the "
          f"{len(wanted)} that are listed don't{': ' + ' '.join(stopped[:20]) if stopped else ''}")
    return not stopped


def add_options(parser):
    parser.add_argument("--suite", default="", help="HarfBuzz's folder test/shape/data")
    parser.add_argument("--write", action="store_true", help="add tests to the list that pass")
    parser.add_argument("--table", action="store_true", help="print how many of each kind pass")
    parser.add_argument("--failing", action="store_true", help="show all tests that don't pass")
    parser.add_argument("--examples", type=int, default=20, help="how many tests are shown")
    parser.add_argument("--program", default=str(FONTSHAPE), help="the fontshape that is tried")


@contextlib.contextmanager
def harfbuzz_suite(folder):
    """HarfBuzz's folder test/shape/data: `folder`, or if that is empty the one of Debian's source
    package, fetched for as long as it is used. The check is skipped if it can't be had."""
    if folder:
        yield Path(folder)
        return
    with tempfile.TemporaryDirectory() as fetched:
        done = subprocess.run([TESTS / "harfbuzz-suite.sh", fetched], stdout=subprocess.DEVNULL,
                              stderr=subprocess.PIPE)
        if done.returncode:
            raise Skipped("HarfBuzz's source package can't be fetched from Debian's archive")
        yield Path(fetched)


def run(args):
    need_fontshape(args.program)
    with harfbuzz_suite(args.suite) as folder:
        return compare(folder, args)
