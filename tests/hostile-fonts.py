#!/usr/bin/env -S python3 -B
"""Runs `fontshape` over fonts that are broken or mean harm: it must end soon, and never by a signal.

    tests/hostile-fonts.py KIND [OPTION ..]
    tests/hostile-fonts.py KIND --help

Status 0: each run ended as it should. 1: some did not. 77: something is not installed.
"""
from checks import apple_bytes, bombs, broken_bytes, broken_tables, cff, search, variable_bytes
from checks.command import run_kind

KINDS = {
    "bombs": bombs,
    "search": search,
    "tables": broken_tables,
    "bytes": broken_bytes,
    "cff": cff,
    "variable": variable_bytes,
    "apple": apple_bytes,
}

if __name__ == "__main__":
    run_kind(__doc__, KINDS)
