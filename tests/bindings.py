#!/usr/bin/env python3
"""Compares bindings/ with the program `fontshape`: the example in C, the package for Python, installed by pip into a folder
of its own, and the example of the crate for Rust if there is a cargo, on a hundred lines over the DejaVu and Noto fonts that
are installed, Latin, Greek, Hebrew, Arabic, Thai and Hangul, with features, directions, scripts and languages, and, if there
is a fontTools, over a variable font at places of its axis. The example in C runs under valgrind, if that is installed; the
tests of the package run if pytest is, those of the crate with cargo.

Then `calls.c` calls each function of luthgarn.h with right and wrong inputs, with each block of memory refused in turn, and
`--calls N` (10000) times at random, with a stack of 1 MiB; and 200 times under valgrind.

The archive is built by `rt lib` if it isn't there. With `--over-ci` it is built over what `rt ci` has just proved in this
folder, and luthgarn_c alone is proved again.

Ends with status 77, and says why, if gcc, make or DejaVu Sans are missing, or there is no rt to build a program with.
"""
import argparse
import importlib.util
import os
import random
import resource
import shutil
import subprocess
import sys
import tempfile

from checks.archive import ARCHIVE, build_archive
from checks.programs import DEBIAN_PYTHON, FONTSHAPE, build as build_program

HERE = os.path.dirname(os.path.abspath(__file__))
BINDINGS = os.path.join(HERE, "..", "bindings")
C = os.path.join(BINDINGS, "c")
DEJAVU = "/usr/share/fonts/truetype/dejavu/DejaVuSans.ttf"
NOTO = "/usr/share/fonts/truetype/noto/Noto%s-Regular.ttf"
STACK = 1 << 20  # what luthgarn.h asks for
VALGRIND = ["valgrind", "-q", "--error-exitcode=9", "--leak-check=full"]
WORDS = {
    "Latin": ["AVATAR", "office", "fjord", "Čau", "příliš", "1/2", "x̂é", "ﬀi", "Tö", "q\u0301\u0323", "a\u200db", "i̇", "—", "St."],
    "Greek": ["Ἀχιλλεύς", "ΑΥΤ", "μῆνις", "ά", "ͅα"],
    "Hebrew": ["שָׁלוֹם", "עִבְרִית", "בּ", "אֱ", "יִ"],
    "Arabic": ["السَّلام", "عليكم", "لا", "كتاب", "ۓ", "ب\u200dب", "١٢٣"],
    "Thai": ["น้ำ", "กำ", "ที่", "ภาษา"],
    "Hangul": ["한국어", "각", "각", "〮가"],
    "Weights": ["A", "AAA", "AVA"],
}
# a font, the words of its lines, options as the examples take them
KINDS = [
    (DEJAVU, "Latin", []),
    (DEJAVU, "Latin", ["-f", "-kern", "-f", "liga=0", "-f", "salt[1:4]"]),
    (DEJAVU, "Latin", ["-l", "sr", "-s", "Cyrl"]),
    (DEJAVU, "Latin", ["-l", "sr-Cyrl-x" + "-abcdefgh" * 7, "-s", "Cyrl"]),
    (DEJAVU, "Greek", ["-f", "ccmp=0"]),
    (DEJAVU, "Hebrew", []),
    (DEJAVU, "Arabic", []),
    (DEJAVU, "Arabic", ["-d", "rtl", "-s", "arab", "-l", "fa", "-f", "init=0"]),
    (DEJAVU, "Hebrew", ["-d", "ltr"]),
    (NOTO % "Sans", "Latin", ["-f", "smcp", "-f", "frac"]),
    (NOTO % "SansHebrew", "Hebrew", []),
    (NOTO % "NaskhArabic", "Arabic", ["-l", "ur"]),
    (NOTO % "SansArabic", "Arabic", ["-f", "-rlig"]),
    (NOTO % "SansThai", "Thai", []),
    (DEJAVU, "Latin", ["-d", "ttb"]),
    (DEJAVU, "Latin", ["-v", "wght=700"]),
]
# of a variable font: at its default, on the way, before and where another glyph comes, and past both ends
WEIGHTS = [[], ["-v", "wght=525"], ["-v", "wght=649"], ["-v", "wdth=80", "-v", "wght=650"], ["-v", "wght=1000"], ["-v", "wght=1"]]


def skip(why):
    print("bindings: skipped: " + why)
    sys.exit(77)


def run(words, text=b"", status=0, before=None, folder=None):
    """What a program writes."""
    done = subprocess.run(words, input=text, stdout=subprocess.PIPE, stderr=subprocess.PIPE, timeout=600, preexec_fn=before, cwd=folder)
    if done.returncode != status:
        sys.exit("bindings: status %d of %s\n%s" % (done.returncode, " ".join(words), done.stderr.decode(errors="replace")))
    return done.stdout


def build(work, over_ci):
    """The words of each program but `fontshape`."""
    if not (FONTSHAPE.exists() and ARCHIVE.exists() or shutil.which("rt")):
        skip("not all is built, and there is no rt")
    build_program("fontshape", "--", "--version")
    if not FONTSHAPE.exists():
        sys.exit("bindings: fontshape can't be built")
    if over_ci or not ARCHIVE.exists():
        build_archive(over_ci)
    run(["make", "-C", C])
    gcc = ["gcc", "-std=gnu99", "-O1", "-Wall", "-Wextra", "-Werror", "-pthread", "-Wl,--wrap=malloc,--wrap=realloc,--wrap=free"]
    run(gcc + ["-o", os.path.join(work, "calls"), os.path.join(HERE, "calls.c"), os.path.join(C, "libluthgarn.a")])
    valgrind = VALGRIND if shutil.which("valgrind") else []
    programs = {"C": valgrind + [os.path.join(C, "shape")], "C, installed": installed_program(work), "Python": python_program(work)}
    if shutil.which("cargo"):
        programs["Rust"] = rust_program(work)
    else:
        print("bindings: the crate for Rust is left out: there is no cargo")
    if not valgrind:
        print("bindings: the program in C runs without valgrind, which isn't installed")
    return programs


def installed_program(work):
    """The example in C over the shared library, both installed below a folder."""
    folder, program = os.path.join(work, "installed"), os.path.join(work, "shape")
    run(["make", "-C", C, "install", "PREFIX=" + folder])
    library = os.path.join(folder, "lib")
    words = ["-I" + os.path.join(folder, "include"), "-L" + library, "-Wl,-rpath," + library, "-lluthgarn"]
    run(["gcc", "-o", program, os.path.join(C, "shape.c")] + words)
    return [program]


def python_program(work):
    """The package's program, once pip has installed the package into a folder, without network, or from where it stands if
    there is no pip. Its tests run, if there is a pytest."""
    package, folder = os.path.join(BINDINGS, "python"), os.path.join(work, "python")
    if importlib.util.find_spec("pip"):
        run([sys.executable, "-m", "pip", "install", "--quiet", "--no-deps", "--no-index", "--target", folder, package])
    else:
        folder = os.path.join(package, "src")
        print("bindings: the package for Python isn't installed: there is no pip")
    os.environ["PYTHONPATH"] = folder
    if importlib.util.find_spec("pytest"):
        run([sys.executable, "-B", "-m", "pytest", "-q", "-p", "no:cacheprovider", package])
    else:
        print("bindings: the package's tests are left out: there is no pytest")
    return [sys.executable, "-B", "-m", "luthgarn"]


def rust_program(work):
    """The example of the crate, once its tests have passed."""
    target = os.path.join(work, "rust")
    how = ["--quiet", "--offline", "--manifest-path", os.path.join(BINDINGS, "rust", "Cargo.toml"), "--target-dir", target]
    run(["cargo", "test"] + how)
    run(["cargo", "build", "--release", "--example", "shape"] + how)
    return [os.path.join(target, "release", "examples", "shape")]


def lines_of(rng, script, count):
    words = WORDS[script]
    return ["  ".join(rng.choice(words + WORDS["Latin"][:3]) for _ in range(rng.randint(1, 6))).replace("  ", " ") for _ in range(count)]


def compare(programs, rng, variable):
    count = 0
    options = {"-f": "--features=", "-v": "--variations=", "-d": "--direction=", "-s": "--script=", "-l": "--language="}
    for font, script, asked in KINDS + [(font, "Weights", asked) for font in variable for asked in WEIGHTS]:
        if not os.path.exists(font):
            continue
        lines = lines_of(rng, script, 10)
        text = ("\n".join(lines) + "\n").encode()
        given = {}
        for option, word in zip(asked[::2], asked[1::2]):
            given.setdefault(option, []).append(word)
        words = [options[option] + ",".join(found) for option, found in given.items()]
        for name, program in programs.items():
            # (clusters count characters in Python, bytes in the others)
            form = ["--no-glyph-names"] + ["--utf8-clusters"] * (name != "Python")
            right = run([FONTSHAPE] + form + words + [font], text).decode().splitlines()
            found = run(program + [font] + asked, text).decode().splitlines()
            for line, a, b in zip(lines, right, found):
                if a != b:
                    sys.exit("bindings: %s of %s, %s %s\n%s\nfontshape %s\n%s %s" % (line, os.path.basename(font), script, asked, name, a, name, b))
            if len(found) != len(right):
                sys.exit("bindings: %s writes %d lines for %d" % (name, len(found), len(right)))
        count += len(lines)
    print("bindings: %d lines, the same from fontshape and %s" % (count, ", ".join(programs)))


def variable_font(work):
    """A file, if this Python or Debian's has fontTools."""
    path = os.path.join(work, "variable.ttf")
    for python in (sys.executable, DEBIAN_PYTHON):
        if os.path.exists(python) and not subprocess.run([python, "-c", "import fontTools"], stderr=subprocess.DEVNULL).returncode:
            run([python, "-B", "-c", "import sys, bindings; bindings.write_variable_font(sys.argv[1])", path], folder=HERE)
            return [path]
    print("bindings: variable fonts are left out: there is no fontTools")
    return []


def write_variable_font(path):
    """Writes a font whose A is 600 wide, and 100 wider at its greatest weight, 900. From the middle of the axis on, 650, another
    glyph stands for it, which is 200 wider still."""
    from fontTools.fontBuilder import FontBuilder
    from fontTools.ttLib.tables._g_l_y_f import Glyph
    from fontTools.ttLib.tables.TupleVariation import TupleVariation
    names = [".notdef", "A", "A.bold"]
    builder = FontBuilder(1000, isTTF=True)
    builder.setupGlyphOrder(names)
    builder.setupCharacterMap({0x41: "A"})
    builder.setupGlyf({name: Glyph() for name in names})
    builder.setupHorizontalMetrics({name: (800 if name == "A.bold" else 600, 0) for name in names})
    builder.setupHorizontalHeader(ascent=800, descent=-200)
    builder.setupNameTable({})
    builder.setupFvar([("wght", 100, 400, 900, "Weight")], [])
    # (the second of the four points for metrics is the right one)
    builder.setupGvar({name: [TupleVariation({"wght": (0, 1, 1)}, [(0, 0), (100, 0), (0, 0), (0, 0)])] for name in names[1:]})
    builder.addFeatureVariations([([{"wght": (0.5, 1)}], {"A": "A.bold"})])
    builder.setupPost(keepGlyphNames=False)
    builder.save(path)


def refusals(programs):
    """Wrong words: each program says why it stops, and writes no glyphs."""
    for name, program in programs.items():
        for words in ([DEJAVU, "-f", "===="], [DEJAVU, "-v", "weight=700"], [os.path.join(HERE, "bindings.py")], [DEJAVU, "-d", "sideways"]):
            done = subprocess.run(program + words, input=b"a\n", stdout=subprocess.PIPE, stderr=subprocess.PIPE)
            if done.returncode in (0, 9) or done.returncode < 0 or done.stdout or not done.stderr:
                sys.exit("bindings: %s on %s: status %d" % (name, words, done.returncode))


def main():
    parser = argparse.ArgumentParser(description=__doc__, formatter_class=argparse.RawDescriptionHelpFormatter)
    parser.add_argument("--calls", type=int, default=10000)
    parser.add_argument("--seed", type=int, default=1)
    parser.add_argument("--over-ci", action="store_true", help="rt ci has just run here, in a folder where nothing was built before")
    given = parser.parse_args()
    for program in ("gcc", "make"):
        if not shutil.which(program):
            skip("there is no " + program)
    if not os.path.exists(DEJAVU):
        skip("there is no DejaVu Sans")
    with tempfile.TemporaryDirectory() as work:
        programs = build(work, given.over_ci)
        variable = variable_font(work)
        compare(programs, random.Random(given.seed), variable)
        refusals(programs)
        calls = os.path.join(work, "calls")
        little = lambda: resource.setrlimit(resource.RLIMIT_STACK, (STACK, STACK))
        sys.stdout.write(run([calls, DEJAVU, str(given.calls), str(given.seed)] + variable, before=little).decode())
        if shutil.which("valgrind"):
            words = VALGRIND + [calls, DEJAVU, "200", str(given.seed + 1)] + variable
            sys.stdout.write("under valgrind " + run(words).decode().splitlines()[-1] + "\n")


if __name__ == "__main__":
    main()
