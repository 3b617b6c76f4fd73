"""Random options and input beside `hb-shape` of HarfBuzz 10, byte by byte.

Each run has a font, a list of options and some lines, with marks, joiners, scripts from right to
left, bytes that aren't UTF-8, and no line at all. The fonts are two copies of DejaVu Sans without
GSUB and GPOS: one with `kern`, one without. Lists differ in all that `fontshape` takes but
`--mode`, `--no-layout`, `--svg`, `--html`, `--trace` and `-v`, which `hb-shape` takes for `--ned`. A run differs if a
byte of standard output does, or if one ends with status 0 and the other doesn't.

Left out is where the two are known to differ. A line from right to left has a script: HarfBuzz has
a native direction without one. There are no variation selectors: HarfBuzz 10 places marks after
them, and breaks lines beside them, otherwise than HarfBuzz 6 and the libraries. A line whose kerning
is switched off, or that runs down, isn't asked for UNSAFE_TO_CONCAT: HarfBuzz 10 sets it there.
"""
import random
import subprocess
import tempfile
from pathlib import Path

from checks.comparison import add_common_options, print_difference
from checks.fonts import DEJAVU, LOOKUPS, need_dejavu, save_without
from checks.programs import need_fonttools, need_harfbuzz, need_fontshape

LETTERS = ["A", "V", "T", "o", ".", " ", "\u00c1", "\u00e9", "f", "i", "1", "\u2044", "2",
           "\u05d0", "\u05e9", "\u0416", "\u0391", "\u4e00", "\U0001f600"]
MARKS = ["\u0301", "\u0323", "\u0302", "\u200d", "\u200c", "\u00ad", "\u034f", "\r", "\t"]
WRONG = [b"\xff", b"\xc3", b"\xe2\x82", b"\xf0\x9f\x98", b"\xed\xa0\x80", b"\xc0\xaf", b"\x80",
         b"\xf4\x90\x80\x80"]
SWITCHES = [
    "--utf8-clusters", "--bot", "--eot", "--preserve-default-ignorables",
    "--remove-default-ignorables", "--unsafe-to-concat", "--safe-to-insert-tatweel",
    "--no-glyph-names", "--no-positions", "--no-advances", "--no-clusters", "--ned",
    "--show-extents", "--show-flags", "--show-text", "--show-unicode", "--show-line-num",
    "--verbose", "--single-par",
]
FEATURES = ["kern", "-kern", "kern=0", "kern[3:5]=0", "kern[:2]=0,-liga", "kern[1]=0 liga", ""]
NUMBERS = ["41", "U+0041", "U+0041,U+0042", "0041 0301 42", "<U+05D0|U+05B8>", "1F600", "uni0041",
           "u41x42", "\\u0041\\u0301", "{41;42}", "41 A 42"]
SIZES = ["upem", "2048", "4096", "2048 4096", "1024,2048", "-2048", "0"]
ODD_SIZES = ["12", "1000", "1000 999", "17,23", "-100", "3", "100000"]


def save_fonts(folder):
    """Copies of DejaVu Sans without tables of lookups, one with `kern`."""
    save_without(DEJAVU, LOOKUPS, folder / "kern.ttf")
    save_without(DEJAVU, LOOKUPS + ("kern",), folder / "plain.ttf")


def random_line(chance, wrong):
    """A random line with marks, and with bytes that are wrong if they are asked for."""
    line = b""
    for _ in range(chance.randrange(9)):
        draw = chance.random()
        if wrong and draw < 0.2:
            line += chance.choice(WRONG)
        else:
            line += chance.choice(LETTERS if draw < 0.7 else MARKS).encode()
    return line


def random_word(chance):
    """A random text as an argument: no byte that isn't UTF-8, and none that ends a line."""
    return random_line(chance, False).decode().replace("\r", "")


def shaping_options(chance):
    options = []
    if chance.random() < 0.3:
        names = ["ltr", "rtl", "ttb", "btt", "l", "RTL"]
        one_word = ["--direction=" + chance.choice(names)]
        options += chance.choice([one_word, ["--direction", "ltr"]])
    if options or chance.random() < 0.3:
        options.append("--script=" + chance.choice(["Latn", "latn", "Hebr", "Grek"]))
    if chance.random() < 0.2:
        options.append("--language=" + chance.choice(["en_US.UTF-8", "fa", "de-AT"]))
    if chance.random() < 0.3:
        options.append(f"--cluster-level={chance.randrange(3)}")
    if chance.random() < 0.3:
        one_word = ["--features=" + chance.choice(FEATURES)]
        options += chance.choice([one_word, ["--features", chance.choice(FEATURES[:-1])]])
    if chance.random() < 0.1:
        options.append("--shapers=" + chance.choice(["ot", "fallback", "ot,fallback"]))
    if chance.random() < 0.2:
        options.append(f"--invisible-glyph={chance.choice([0, 3, 36, 65535])}")
    if chance.random() < 0.2:
        glyph = chance.choice([0, 5, 70000])
        options.append(f"--not-found-variation-selector-glyph={glyph}")
    if chance.random() < 0.25:
        options.append("--font-size=" + chance.choice(SIZES + ODD_SIZES))
    return options


def context_options(chance):
    options = []
    for side in ("before", "after"):
        if chance.random() < 0.2:
            options.append(f"--text-{side}={random_word(chance) or 'x'}")
        elif chance.random() < 0.1:
            options.append(f"--unicodes-{side}={chance.choice(NUMBERS)}")
    return options


def source_options(chance, given):
    """Options that say what is shaped, and what is given on standard input."""
    draw = chance.random()
    if draw < 0.5:
        return [], given
    if draw < 0.6:
        return ["--text-file=given"], b""
    if draw < 0.65:
        return ["--text-file", "-"], given
    if draw < 0.75:
        one_word = ["--unicodes=" + chance.choice(NUMBERS)]
        return chance.choice([one_word, ["-u", chance.choice(NUMBERS)]]), b""
    if draw < 0.85:
        return ["--text", random_word(chance)], b""
    return [random_word(chance) + chance.choice(["", "\n", "\nA"])], b""


def has_no_kerning(options):
    words = {word.partition("=")[2] if word.startswith("--") else word for word in options}
    return bool({"-kern", "kern=0", "ttb", "btt"} & words)


def random_run(chance):
    """The words of a run, what its file holds, and what is given on standard input."""
    font = chance.choice(["kern.ttf", "plain.ttf"])
    count = chance.randrange(4)
    given = b"\n".join(random_line(chance, True) for _ in range(count))
    given += b"\n" if chance.random() < 0.7 else b""
    source, piped = source_options(chance, given)
    options = shaping_options(chance) + context_options(chance)
    options += [switch for switch in SWITCHES if chance.random() < 0.12]
    if chance.random() < 0.3:
        forms = [["--output-format=json"], ["--output-format=text"], ["-O", "json"]]
        options += chance.choice(forms)
    if chance.random() < 0.1:
        options += chance.choice([["--output-file=written"], ["-o", "written"]])
    if has_no_kerning(options):
        options = [word for word in options if word != "--unsafe-to-concat"]
    text_alone = len(source) == 1 and source[0] and not source[0].startswith("-")
    if text_alone and chance.random() < 0.2:
        return options + [font, "--"] + source, given, piped
    return [font] + options + source, given, piped


def printed(program, words, given, folder):
    """A run: what it writes, in a file too, and its status."""
    done = subprocess.run([program, *words], input=given, capture_output=True, cwd=folder,
                          timeout=60)
    written = folder / "written"
    if written.exists():
        done.stdout += written.read_bytes()
        written.unlink()
    return done


def compare(args, folder):
    """How many runs differ."""
    chance = random.Random(args.seed)
    differ = 0
    for number in range(args.runs):
        words, given, piped = random_run(chance)
        (folder / "given").write_bytes(given)
        theirs = printed(args.hb, words, piped, folder)
        ours = printed(args.program, words, piped, folder)
        succeeded = theirs.returncode == 0, ours.returncode == 0
        if theirs.stdout != ours.stdout or succeeded[0] != succeeded[1]:
            differ += 1
            if differ <= args.examples:
                print_difference(f"run {number}: {words} on {given!r}",
                                 f"{theirs.returncode} {theirs.stdout!r}",
                                 f"{ours.returncode} {ours.stdout!r} {ours.stderr!r}")
    return differ


def add_options(parser):
    parser.add_argument("--runs", type=int, default=2000)
    parser.add_argument("--hb", default="hb-shape-10", help="hb-shape of HarfBuzz 10")
    add_common_options(parser, seed=1, examples=5)


def run(args):
    need_dejavu()
    need_fonttools()
    need_harfbuzz(args.hb, "10.")
    need_fontshape(args.program)
    with tempfile.TemporaryDirectory() as name:
        save_fonts(Path(name))
        differ = compare(args, Path(name))
    print(f"options: {args.runs} runs, {differ} differ")
    return differ == 0
