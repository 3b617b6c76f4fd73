#!/usr/bin/env python3
"""Tries wrong bodies that are too slow for the gate: the prover must refuse each.

    tests/wrong-bodies.py [CRATE ..]

They are the must-fail edits of crates whose proof takes minutes, since `rt ci` proves each crate
with edits twice. Each is a file of tests/wrong-bodies/CRATE. Here they are put where `rt must-fail`
finds them, in a copy of the tree, and are tried there.

Status 0 says that each was refused.
"""
import shutil
import subprocess
import sys
import tempfile
from pathlib import Path

from checks.programs import CRATES, ROOT, TESTS

BODIES = TESTS / "wrong-bodies"
# what `rt` reads beside the crates
READ = ("HANDLES", "crates.txt")


def main():
    asked = sys.argv[1:] or sorted(it.name for it in BODIES.iterdir())
    with tempfile.TemporaryDirectory() as room:
        root = Path(room)
        for name in READ:
            shutil.copy(ROOT / name, root / name)
        shutil.copytree(CRATES, root / "crates", symlinks=True,
                        ignore=shutil.ignore_patterns("must-fail"))
        for crate in asked:
            shutil.copytree(BODIES / crate, root / "crates" / crate / "must-fail")
        return subprocess.run(["rt", "must-fail", *asked], cwd=root).returncode


if __name__ == "__main__":
    sys.exit(main())
