"""Where the programs are, how they are built and started, and what must be installed."""
import contextlib
import importlib.util
import os
import subprocess
import sys
import tempfile
from pathlib import Path

ROOT = Path(__file__).resolve().parents[2]
TESTS = ROOT / "tests"
CRATES = ROOT / "crates"
DEBIAN_PYTHON = "/usr/bin/python3"


class Skipped(Exception):
    """A check can't run here. The argument says what is missing."""


def program_of(crate):
    """The path of a crate's program."""
    return CRATES / crate / "out" / crate


FONTSHAPE = program_of("fontshape")


def build(crate, *arguments):
    """Builds the program of a crate by a run of it, however that ends, if it isn't built."""
    given = CRATES / crate / "stdin"
    if not program_of(crate).exists():
        with open(given if given.exists() else os.devnull, "rb") as source:
            subprocess.run(["rt", "run", *arguments], cwd=CRATES / crate, stdin=source,
                           stdout=subprocess.DEVNULL)


def built(crate, *arguments):
    """The program of a crate. The script ends if it isn't built, and can't be."""
    build(crate, *arguments)
    program = program_of(crate)
    if not program.exists():
        sys.exit(f"the program {crate} isn't built, and can't be")
    return program


def need_fontshape(path):
    """The check is skipped if `path` isn't there after `fontshape` was built."""
    if not os.path.exists(path):
        build("fontshape")
    if not os.path.exists(path):
        raise Skipped("the program fontshape isn't built, and can't be")


def need_files(paths, packages):
    """The check is skipped if one of these files is missing."""
    missing = [path for path in paths if not os.path.exists(path)]
    if missing:
        raise Skipped(f"no {missing[0]} (Debian's {packages})")


def need_fonttools():
    """The check is skipped without fontTools. Debian's Python starts the script again if another
    one runs it that lacks Debian's packages."""
    if importlib.util.find_spec("fontTools"):
        return
    debian = os.path.exists(DEBIAN_PYTHON)
    if debian and not os.path.samefile(DEBIAN_PYTHON, sys.executable):
        os.execv(DEBIAN_PYTHON, [DEBIAN_PYTHON, "-B"] + sys.argv)
    raise Skipped("python3-fonttools is not installed (Debian's package)")


def need_harfbuzz(program, wanted):
    """The check is skipped unless `program` is HarfBuzz's hb-shape of the version `wanted`."""
    try:
        done = subprocess.run([program, "--version"], stdout=subprocess.PIPE)
    except OSError:
        raise Skipped(f"{program} is not installed (6.0.0: Debian's libharfbuzz-bin)") from None
    if f" {wanted}" not in done.stdout.decode().split("\n")[0]:
        raise Skipped(f"{program} is of another HarfBuzz than {wanted}")


@contextlib.contextmanager
def harfbuzz_ten(program):
    """hb-shape of HarfBuzz 10.2.0: `program`, or if that is empty the one of Debian's archive,
    fetched for as long as it is used. The check is skipped if it can't be had."""
    if program:
        need_harfbuzz(program, "10.2.0")
        yield program
        return
    with tempfile.TemporaryDirectory() as folder:
        done = subprocess.run([TESTS / "harfbuzz-ten.sh", folder], stdout=subprocess.DEVNULL,
                              stderr=subprocess.PIPE)
        if done.returncode:
            raise Skipped("HarfBuzz 10.2.0 can't be fetched from Debian's archive")
        yield os.path.join(folder, "hb-shape")


def lines(command, texts):
    """What a program prints for each of some texts, a line for each. Its failure ends the
    script."""
    given = "".join(text + "\n" for text in texts).encode()
    done = subprocess.run(command, input=given, capture_output=True, timeout=600)
    if done.returncode != 0:
        said = done.stderr.decode(errors="replace")
        sys.exit(f"{' '.join(map(str, command))}: status {done.returncode}: {said}")
    return done.stdout.decode().split("\n")[:-1]
