#!/usr/bin/env python3
"""Writes the table of Script_Extensions, crates/text_items/src/extension_table.rt, from the rows of the
kit's `ucd_script`; with `--check` says whether it is up to date.

The contract of `text_items` `extensions::listed` says that the table has what those rows have.
"""
import argparse
import re
import subprocess
import sys
from pathlib import Path

TABLE = Path(__file__).resolve().parents[1] / "crates/text_items/src/extension_table.rt"
HEAD = """//! The scripts that Script_Extensions lists for characters.
// Written by tests/extension-table.py from the kit's `ucd_script`. Do not edit.
"""


def kit():
    """The folder of the kit's crate `ucd_script`."""
    page = subprocess.run(["rt", "doc"], capture_output=True, check=True).stdout.decode().strip()
    return Path(page).parent / "rattle/ucd_script/specs"


def numbers(folder):
    """The number of each script."""
    text = (folder / "Script.antt").read_text(encoding="utf-8")
    return {name: int(number) for name, number in
            re.findall(r"^script_number (\w+) = (\d+)$", text, re.MULTILINE)}


def rows(folder):
    """Each row: its first and last character, and the numbers of its scripts."""
    text = (folder / "ScriptExtensionRows.antt").read_text(encoding="utf-8")
    number = numbers(folder)
    for first, last, names in re.findall(r"\(0x(\w+), 0x(\w+), ([\w ∷]+)∷ \[\]\)", text):
        yield int(first, 16), int(last, 16), [number[name] for name in names.replace("∷", " ").split()]


def listed(name, kind, values, width):
    """A static of these values, several in a line."""
    lines = [", ".join(values[at:at + width]) for at in range(0, len(values), width)]
    body = "".join(f"    {line},\n" for line in lines)
    return f"#[rattlefmt::skip]\npub(crate) static {name}: [{kind}; {len(values)}] = [\n{body}];\n"


def table():
    """The text of the table."""
    runs, offsets, scripts, end = [], [0, 0], [], 0
    for first, last, names in rows(kit()):
        if first > end:
            runs.append((first, 0))
        scripts += names
        offsets.append(len(scripts))
        runs.append((last + 1, len(offsets) - 2))
        end = last + 1
    runs.append((0x110000, 0))
    packed = [f"0x{end * 2048 + number:08X}" for end, number in runs]
    return "\n".join([
        HEAD,
        "/// For runs of characters the end of each, times 2048, and the number of its list; 0 is no list.\n"
        + listed("RUNS", "u32", packed, 8),
        "/// Where the list of each number begins, and where the last one ends.\n"
        + listed("OFFSETS", "u16", [str(offset) for offset in offsets], 16),
        "/// The lists: numbers of scripts.\n" + listed("SCRIPTS", "u8", [str(n) for n in scripts], 20),
    ])


def main():
    parser = argparse.ArgumentParser(description=__doc__.split("\n\n")[0])
    parser.add_argument("--check", action="store_true", help="write nothing")
    made = table()
    if not parser.parse_args().check:
        TABLE.write_text(made, encoding="utf-8")
    elif TABLE.read_text(encoding="utf-8") != made:
        sys.exit("extension_table.rt isn't what the kit's rows make of it")
    print("extension table: up to date")


if __name__ == "__main__":
    main()
