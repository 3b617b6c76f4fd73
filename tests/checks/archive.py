"""The library for C as an archive, and what it is built over."""
import shutil
import subprocess
import sys
from pathlib import Path

from checks.programs import CRATES, ROOT

CRATE = "luthgarn_c"
ARCHIVE = CRATES / CRATE / "out" / f"lib{CRATE}.a"


def crates():
    """What each crate of the repository stands on, by its name."""
    found = {}
    for line in (ROOT / "crates.txt").read_text().splitlines():
        head, mark, libraries = line.partition("#")[0].partition(":")
        if mark:
            found[head.split()[0]] = libraries.split()
    return found


def below(stands_on, crate):
    """The crates of the repository that a crate reaches."""
    found, left = set(), [crate]
    while left:
        own = [it for it in stands_on[left.pop()] if it in stands_on and it not in found]
        found.update(own)
        left += own
    return sorted(found)


def statements(name):
    """What `rt ci` leaves of a library that it proved: its statements."""
    return CRATES / name / "out" / "rlib" / f"{name}.rlib"


def words_over_statements():
    """The compiler's words for the archive. It proves the crate itself, and takes what is below
    as `rt ci` proved it."""
    kit = Path(shutil.which("rt")).resolve().parents[1]
    stands_on = crates()
    words = [kit / "bin" / "rattle", "build", "--crate-name", CRATE, "src/lib.rt"]
    for name in ["std", *stands_on[CRATE]]:
        library = statements(name) if name in stands_on else kit / "rlibs" / f"{name}.rlib"
        words += ["--extern", f"{name}={library}"]
    own = [statements(name).parent for name in below(stands_on, CRATE)]
    for folder in [kit / "rlibs", *own]:
        words += ["-L", f"dependency={folder}"]
    words += ["--antt-project", kit / "rattle" / "logic" / "antt-project.json"]
    words += ["--logic-built", kit / "logic_built"]
    words += ["--toolchain", kit / "toolchain", "--backend", "llvm"]
    return words + ["--links", f"{CRATE}=", "--crate-type", "staticlib", "-o", ARCHIVE]


def build_archive(over_ci):
    """Builds the archive. `over_ci` says that `rt ci` has just left the statements of each
    library: `rt lib` takes none of these, and would prove them all again, so it comes second. The
    script ends if the archive can't be built."""
    stands = over_ci and all(statements(it).exists() for it in below(crates(), CRATE))
    ARCHIVE.parent.mkdir(exist_ok=True)
    for words in ([words_over_statements()] if stands else []) + [["rt", "lib"]]:
        done = subprocess.run(words, cwd=CRATES / CRATE, stdout=subprocess.PIPE,
                              stderr=subprocess.STDOUT)
        if not done.returncode and ARCHIVE.exists():
            return
    sys.exit(f"{ARCHIVE.name} can't be built\n{done.stdout.decode(errors='replace')[-2000:]}")
