#!/usr/bin/env python3
"""Prints the tables of docs/SPEED.md: tables.py FOLDER, with `bench` and `heap.so` in it."""
import re, subprocess, sys, tempfile
from collections import defaultdict

FOLDER = sys.argv[1]
GUESS = "hb_buffer_guess_segment_properties"
# What a run is, of each engine: a function's cost has that of all that it calls, so none of these calls another.
RUNS = {"hb": rf"^(hb_shape_full|{GUESS})$", "hbplan": rf"^(hb_shape_plan_execute|{GUESS})$",
        "ours": r"^bench_runs::runs::run_fresh", "kept": r"^bench_runs::runs::run_kept"}
FITS = r"^bench_runs::runs::plan_fits"


def functions(path):
    """What each function took, with all that it called, by its name."""
    names, own, called, function, callee = {}, defaultdict(int), defaultdict(int), None, None
    calls = False

    def name(text):
        number, known = re.match(r"(\(\d+\)) ?(.*)", text).groups()
        return names.setdefault(number, known)

    for line in open(path, errors="replace"):
        if line.startswith("fn="): function = name(line[3:].rstrip())
        elif line.startswith("cfn="): callee = name(line[4:].rstrip())
        elif line.startswith("calls="): calls = True
        elif re.match(r"[0-9+*-]", line) and len(line.split()) == 2:
            cost = int(line.split()[1])
            if not calls: own[function] += cost
            elif callee != function: called[function] += cost
            calls = False
    return {f: own[f] + called[f] for f in set(own) | set(called)}


glyphs = {}


def counted(engine, level, kind, size, times):
    """Instructions in all and by function. Both libraries must give the same number of glyphs."""
    with tempfile.TemporaryDirectory() as folder:
        out = f"{folder}/counted"
        words = [f"{FOLDER}/bench", engine, str(level), kind, str(size), str(times)]
        done = subprocess.run(["valgrind", "--tool=callgrind", f"--callgrind-out-file={out}"] + words, capture_output=True, text=True)
        if done.returncode: raise SystemExit(done.stderr[-2000:])
        if done.stdout == "0 glyphs\n" or glyphs.setdefault((level, kind, size), done.stdout) != done.stdout:
            raise SystemExit(f"{' '.join(words)}: {done.stdout}")
        whole = int(re.search(r"Collected : *(\d+)", done.stderr).group(1))
        return whole, functions(out)


def run(engine, kind, size, level=1, pattern=None):
    """Instructions of a run: guessing, and shaping with a plan that is kept or with one of its own. Or of another part."""
    pattern = pattern or RUNS[engine]
    low, high = (2, 4) if size >= 1000 else (20, 60)
    first, second = (sum(v for f, v in counted(engine, level, kind, size, n)[1].items() if re.search(pattern, f)) for n in (low, high))
    return (second - first) / (high - low)


def whole(engine, kind, size, level=1):
    """Instructions of filling and of the work."""
    return (counted(engine, level, kind, size, 3)[0] - counted(engine, level, kind, size, 2)[0])


def heap(engine, kind, size, times):
    """Blocks taken anew, growths, and the most bytes held at once."""
    words = [f"{FOLDER}/bench", engine, "1", kind, str(size), str(times)]
    done = subprocess.run(words, capture_output=True, text=True, env={"LD_PRELOAD": f"{FOLDER}/heap.so"})
    return [int(n) for n in re.search(r"heap (\d+) (\d+) (\d+)", done.stderr).groups()]


def taken(engine, kind, size):
    """Calls of a run that take memory, in a buffer that has room."""
    few, many = heap(engine, kind, size, 20), heap(engine, kind, size, 60)
    return "{:g} and {:g}".format(*((many[i] - few[i]) / 40 for i in (0, 1)))


def peak(engine, kind, size):
    return (heap(engine, kind, size, 1)[2] - heap(engine, kind, size, 0)[2]) / size


def row(*cells):
    print("| " + " | ".join(cells) + " |", flush=True)


def head(*cells):
    print()
    row(*cells)
    print("|" + "---|" * len(cells))


KINDS = [("ASCII letters", "letters"), ("Latin letters with accents", "accents"), ("stacks of marks", "stacks"),
         ("Hebrew with points", "hebrew"), ("precomposed letters", "precomposed"), ("runs of 32 marks out of order", "worst32"),
         ("runs of 32 marks in order", "sorted32"), ("one run of marks", "onerun"), ("ignorables that are deleted", "hide"),
         ("digits", "digits")]
head("text", "HarfBuzz", "here", "ratio")
for said, kind in KINDS:
    theirs, ours = run("hbplan", kind, 1000) / 1000, run("kept", kind, 1000) / 1000
    row(said, f"{theirs:,.0f}", f"{ours:,.0f}", f"{ours / theirs:.2f}")

head("word", "`hb_shape_plan_execute`", "`shape_with_plan`", "`fits`", "`hb_shape`", "`shape`")
for said, kind, size in [("5 letters", "letters", 5), ("10 letters", "letters", 10), ("8 letters with accents", "accents", 8),
                         ("8 letters of Hebrew with points", "hebrew", 8)]:
    row(said, *(f"{run(engine, kind, size, pattern=pattern):,.0f}" for engine, pattern in
                [("hbplan", None), ("kept", None), ("kept", FITS), ("hb", None), ("ours", None)]))

head("blocks taken, and growths, of a word", "`hb_shape_plan_execute`", "`shape_with_plan`", "`hb_shape`", "`shape`")
for said, kind, size in [("10 letters", "letters", 10), ("8 letters with accents", "accents", 8)]:
    row(said, *(taken(engine, kind, size) for engine in ("hbplan", "kept", "hb", "ours")))

head("hostile text, 1,000 and 10,000 characters", "HarfBuzz", "here")
for said, kind, level, engines in [("marks whose clusters chain", "chain", 1, ("hb", "ours")),
                                   ("graphemes whose clusters chain, at MONOTONE_GRAPHEMES", "graphemes", 0, ("hb", "ours")),
                                   ("variation sequences whose clusters chain", "variants", 1, ("hb", "ours")),
                                   ("deletion beside one large cluster", "deleted", 1, ("hbdelete", "delete"))]:
    row(said, *(" and ".join(f"{whole(e, kind, n, level) / n:,.0f}" for n in (1000, 10000)) for e in engines))

head("bytes a character at the peak", "HarfBuzz", "here")
for said, kind in [("letters", "letters"), ("letters with accents", "accents")]:
    row(f"{said}, 1,024 and 100,000", *(" and ".join(f"{peak(e, kind, n):,.0f}" for n in (1024, 100000)) for e in ("hb", "ours")))

# Works of the buffer by their numbers, each with the function that does it.
WORKS = [("mark", "mark"), ("delete, plain", "delete"), ("merge all", "merge"), ("delete, falling clusters", "delete"),
         ("delete, rejoining clusters", "delete"), ("merge each two neighbours, falling clusters", "merge_neighbours"),
         ("merge graphemes that chain", "merge_graphemes")]
head("the buffer's calls, instructions an item", "1,000", "10,000", "100,000")
for number, (said, function) in enumerate(WORKS):
    row(said, *(f"{run('buffer', 'plain', n, number, rf'^bench_runs::buffer::{function}$') / n:,.0f}" for n in (1000, 10000, 100000)))

head("cutting lines, instructions a glyph", "width 0", "width 60,000", "one line")
for even, odd in [(600, 600), (-600, -600), (0, 0), (600, -600)]:
    row(f"advances {even} and {odd}", *(f"{run('lines', f'{even},{odd},{width}', 100000, pattern='^bench_runs::lines::cut$') / 100000:,.0f}"
                                        for width in (0, 60000, 2**32 - 1)))
