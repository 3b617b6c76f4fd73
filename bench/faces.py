#!/usr/bin/env python3
"""Prints what look-ups, runs, plans and openings of a face cost: faces.py FOLDER FONT PLAIN KERN.

FOLDER has `faces`; over PLAIN, which is FONT without tables of lookups, and KERN, which has `kern` beside it, runs are measured.
Where `faces` was built without runs, or without rustybuzz, their columns are empty."""
import os, re, subprocess, sys, tempfile
from texts import KINDS, SCRIPTED, SYLLABLES

FOLDER, FONT, PLAIN, KERN = sys.argv[1:5]
SIZES = 5, 80, 2000
# What a run is: guessing and shaping, without filling.
OURS = "*run_kept*"
# HarfBuzz and rustybuzz have a shaper for Hebrew, and compose other marks in runs of more than 32.
OTHERWISE = "hebrew", "marks33"
RUNS = {"hbrun": "hb_run", "rbrun": "*::rustybuzz_run*", "run": OURS, "runopened": OURS, "kern": OURS, "kernopened": OURS, "layout": OURS, "layoutopened": OURS,
        "scripted": "*run_scripted*"}


def counted(engine, font, text, times, inside=None):
    """Instructions of so many times, in all or inside of a function, and what is printed. None if there is no such engine."""
    words = ["valgrind", "--tool=callgrind", "--callgrind-out-file=/dev/null"] + [f"--toggle-collect={inside}"] * bool(inside)
    done = subprocess.run(words + [f"{FOLDER}/faces", engine, font, text, str(times)], capture_output=True, text=True)
    if done.returncode == 2: return None
    if done.returncode: raise SystemExit(done.stderr[-2000:])
    return int(re.search(r"Collected : *(\d+)", done.stderr).group(1)), done.stdout


def cost(engine, font, text, low=2, high=6, inside=None):
    first, second = (counted(engine, font, text, n, inside) for n in (low, high))
    return second and ((second[0] - first[0]) / (high - low), second[1])


def written(folder, kind, size):
    """A file with so many characters of a kind; words have no spaces."""
    text = KINDS.get(kind) or SCRIPTED.get(kind) or SYLLABLES[kind][0]
    if size <= 20: text = "".join(text.split())
    path = f"{folder}/{kind}-{size}.txt"
    open(path, "w", newline="").write((text * (size // len(text) + 1))[:size])
    return path


def row(folder, kind, size, engines, font):
    """Instructions a character of each engine. All must print the same, but the others where they shape otherwise."""
    found = {engine: cost(engine, font, written(folder, kind, size), inside=RUNS.get(engine)) for engine in engines}
    same = {f[1] for engine, f in found.items() if f and not (engine in ("hbrun", "rbrun") and kind in OTHERWISE)}
    if len(same) > 1: raise SystemExit(f"{kind} {size}: {found}")
    return [f"{f[0] / size:,.0f}" if f else "" for f in found.values()]


with tempfile.TemporaryDirectory() as folder:
    print("Glyph and advance of a character, 2,000 characters, instructions a character\n")
    print("| text | HarfBuzz | `FontFace` | `OpenedFace` |\n|---|---|---|---|")
    for kind in KINDS:
        print(f"| {kind} | " + " | ".join(row(folder, kind, 2000, ("hblook", "look", "opened"), FONT)) + " |", flush=True)
    for what, font, engines in ("without lookups", PLAIN, ("hbrun", "rbrun", "run", "runopened")), ("with `kern`", KERN, ("hbrun", "rbrun", "kern", "kernopened")), \
            ("with all tables of lookups", FONT, ("hbrun", "rbrun", "layout", "layoutopened")):
        for size in SIZES:
            print(f"\nRuns {what}, plan kept, {size:,} characters, instructions a character\n")
            print("| text | HarfBuzz | rustybuzz | `FontFace` | `OpenedFace` |\n|---|---|---|---|---|")
            for kind in KINDS:
                print(f"| {kind} | " + " | ".join(row(folder, kind, size, engines, font)) + " |", flush=True)
    for size in 5, 40, 80, 2000:
        print(f"\nRuns by the shaper of the script with all tables of lookups, plan kept, {size:,} characters, instructions a character\n")
        print("| text | HarfBuzz | rustybuzz | `OpenedOpenTypeFace` |\n|---|---|---|---|")
        for kind in SCRIPTED:
            print(f"| {kind} | " + " | ".join(row(folder, kind, size, ("hbrun", "rbrun", "scripted"), FONT)) + " |", flush=True)
    print("\nThe same over fonts of the script, of those that are installed; HarfBuzz : rustybuzz : here, instructions a character\n")
    print("| text | font | 40 | 80 | 2,000 |\n|---|---|---|---|---|")
    for kind, (_, fonts) in SYLLABLES.items():
        for font in filter(os.path.exists, fonts):
            cells = (" : ".join(row(folder, kind, size, ("hbrun", "rbrun", "scripted"), font)) for size in (40, 80, 2000))
            print(f"| {kind} | {os.path.basename(font)} | " + " | ".join(cells) + " |", flush=True)
    print("\nA word of five with all tables of lookups, instructions: a run with its plan, less one whose plan is kept; the face opened, too\n")
    print("| text | what | HarfBuzz | rustybuzz | `OpenTypeFace` | `OpenedOpenTypeFace` |\n|---|---|---|---|---|---|")
    for kind in "latin", "cyrillic":
        text = written(folder, kind, 5)
        kept, planned, first = ([cost(engine, FONT, text) for engine in engines] for engines in (
            ("hbrun", "rbrun", "layout", "layoutopened"), ("hbplan", "rbplan", "plan", "planopened"), ("hbfirst", "rbfirst", "first", "firstopened")))
        print(f"| {kind} | plan | " + " | ".join(p and f"{p[0] - k[0]:,.0f}" or "" for p, k in zip(planned, kept)) + " |")
        print(f"| {kind} | first word | " + " | ".join(f and f"{f[0]:,.0f}" or "" for f in first) + " |", flush=True)
    print("\nOpening, instructions\n\n| | |\n|---|---|")
    text = written(folder, "latin", 5)
    for engine, what in (("hbopen", "HarfBuzz: a font, and one glyph of it"), ("open", "`FontFace::from_slice`"), ("openonce", "that and `OpenedFace::new`")):
        print(f"| {what} | {cost(engine, FONT, text)[0]:,.0f} |", flush=True)
