#!/bin/sh
# Plants wrong rules in the definitions, one at a time, and counts those that a worked case refuses. The worked
# cases are of the definitions alone, so that no body can make a wrong rule pass: not even one that does what the
# wrong rule says.
#
# A plant is a file of tests/rules: the worked cases that must refuse it, as CRATE/FUNCTION, a function of the
# crate's module `worked`, or of another one if it is named (`row:`), and edits (`file:`, `old:`, `new:`), each old
# text standing once in its file. Cases stand in specs/Worked, and what is proved of them by hand in proofs/*Rows.
# Names of plants may be given, or of crates, whose rows are then tried. All is done on a copy. Plants in the crate
# of their cases are tried some at a time, each in definitions and cases of its own, which are copies of the crate's
# under another name. A plant in a crate below that is tried alone and over sources, since what is proved of that
# crate need not hold under it.
#
# Status 0 says that each was refused, for a case that no longer holds.
cd "$(dirname "$0")/.." || exit 1
work=$(mktemp -d) || exit 1
trap 'rm -rf "$work"' EXIT
mkdir "$work/crates" "$work/tests" && cp -r HANDLES "$work" && cp -r tests/rules "$work/tests" || exit 1
python3 - "$work" "$@" << 'PYTHON'
import os, pathlib, re, shutil, subprocess, sys

work = pathlib.Path(sys.argv[1])
asked = set(sys.argv[2:])
here = pathlib.Path.cwd()

def parts(plant):
    row, edits, file = None, [], None
    for line in plant.read_text().splitlines():
        key, _, value = line.partition(": ")
        if key == "row":
            row = tuple(value.split("/"))
        elif key == "file":
            file = pathlib.Path(value)
        elif key == "old":
            old = value
        elif key == "new":
            edits.append((file, old, value))
    return row, edits

# what each crate of this repository stands on
stands_on = {}
for line in (here / "crates.txt").read_text().splitlines():
    name, _, rest = line.partition(":")
    if name.strip() and not name.startswith("#"):
        stands_on[name.split()[0]] = rest.split()

def below(crate):
    """The crate and those of this repository that it stands on."""
    if crate not in stands_on:
        sys.exit(f"no such crate: {crate}")
    return {crate}.union(*(below(c) for c in stands_on[crate] if c in stands_on))

def over_sources(crate, only):
    """The command that checks a function over the sources of the crates below, of which it reads what the
    function cites. What is proved of those crates need no longer hold."""
    kit = pathlib.Path(shutil.which("rt")).resolve().parents[1]
    own = sorted(below(crate), key=lambda c: len(below(c)))
    words = []
    for name in own[:-1]:
        words += ["--lib", f"{name}={work}/crates/{name}/src/lib.rt"]
    for name in sorted({"std"}.union(*(stands_on[c] for c in own)) - set(stands_on)):
        words += ["--extern", f"{name}={kit}/rlibs/{name}.rlib"]
    return [f"{kit}/bin/rattle", "check", "--crate-name", crate, "src/lib.rt", *words,
            "-L", f"dependency={kit}/rlibs", "--antt-project", f"{kit}/rattle/logic/antt-project.json",
            "--logic-built", f"{kit}/logic_built", "--jobs", "1", "--only", only]

def path_of(row):
    crate, function = row
    return f"{crate}::{function}" if "::" in function else f"{crate}::worked::{function}"

def said_of(row, edited=()):
    """What the check of a row's function says."""
    crate, only = row[0], path_of(row)
    crates = {file.parts[1] for file in edited}
    command = over_sources(crate, only) if crates - {crate} else ["rt", "check", "--jobs", "1", "--only", only]
    run = subprocess.run(command, cwd=f"crates/{crate}", capture_output=True, text=True)
    return run.stdout + run.stderr

def verdict_on(said, edited, place=""):
    """A plant is refused for a worked case that no longer holds, and no error in a file that the plant edits."""
    errors = re.findall(r"^\S+?:\d+:\d+: error: .*", said, re.M)
    errors = [line for line in errors if place in line.partition(": error:")[0].split("/") or not place]
    files = re.findall(r"^(\S+?):\d+:\d+: error: `([^`\s]+)`:", "\n".join(errors), re.M)
    cases = [case for file, case in files if re.search(r"/Worked|proofs/(\w+/)*\w+Rows", file)]
    names = tuple(str(pathlib.Path(file.parts[2], place, *file.parts[3:])) for file in edited)
    wrong = [line for line in errors if names and line.partition(":")[0].endswith(names)]
    if cases and not wrong:
        return "refused", ", ".join(sorted(set(cases)))
    if errors or not (place or "only=1 proved=1" in said):
        return "broken", "\n".join(errors) or said[-2000:]
    return "proved", ""

def replaced(name, text, file, edits):
    """The text of a file with a plant in it."""
    for edited, old, new in edits:
        if edited == file:
            if text.count(old) != 1:
                sys.exit(f"{name}: {text.count(old)} times in {file}: {old}")
            text = text.replace(old, new)
    return text

def copied(crate, place, name, edits):
    """A copy of the crate's definitions and lemmas under a name of its own, with a plant in it."""
    for part in ("specs", "proofs"):
        base = pathlib.Path("crates", crate, part)
        for file in sorted(base.rglob("*.antt")):
            inner = file.relative_to(base)
            if inner.parts[0].startswith("Planted") or any(folder[0].islower() for folder in inner.parts[:-1]):
                continue
            text = replaced(name, file.read_text(), file, edits)
            text = re.sub(rf"Rattle\.{crate}\.(specs|proofs)\.(?=[A-Z])", rf"Rattle.{crate}.\1.{place}.", text)
            target = base / place / inner
            if str(inner) == "Lib.antt":
                target, text = base / f"{place}.antt", re.sub(r"^mod ", "pub mod ", text, flags=re.M)
            target.parent.mkdir(parents=True, exist_ok=True)
            target.write_text(text)

def answers_of(row):
    return pathlib.Path("crates", row[0], "proofs", *path_of(row).split("::")[1:], "Answers.antt")

def names_cases(row):
    """Whether the row's proof does no more than name cases that stand elsewhere."""
    return not re.search(r"^returns\S* c = (?!\w+$)", answers_of(row).read_text(), re.M)

def try_together(row, group):
    """The verdicts on plants in the row's own crate, by one check: the row's proof cites the cases of each copy. One
    copy has no plant, and must hold."""
    crate, answers = row[0], answers_of(row)
    touched = [answers, *(pathlib.Path("crates", crate, part, "Lib.antt") for part in ("specs", "proofs"))]
    before = {file: file.read_text() for file in touched if file.exists()}
    uses = re.findall(rf"^use Rattle\.{crate}\.(specs|proofs)\.([A-Z][\w.]*)\.\{{(.*)\}}$", before[answers], re.M)
    cites, modules = "", ""
    for number, (name, edits) in enumerate([("nothing", []), *group]):
        place = f"Planted{number}"
        copied(crate, place, name, edits)
        modules += f"pub mod {place}\n"
        for part, module, names in uses:
            new = ", ".join(f"{n} as {n}_{number}" for n in names.split(", "))
            cites += f"use Rattle.{crate}.{part}.{place}.{module}.{{{new}}}\n"
    for file, text in before.items():
        file.write_text((cites if file == answers else modules) + text)
    said = said_of(row)
    for file, text in before.items():
        file.write_text(text)
    for place in pathlib.Path("crates", crate).glob("*/Planted*"):
        shutil.rmtree(place) if place.is_dir() else place.unlink()
    wrong = [line for line in said.splitlines() if "error: " in line and re.search(r"\bPlanted0\b", line)]
    if wrong or "only=1" not in said:
        sys.exit(f"a copy of {'/'.join(row)} doesn't hold before any plant: {wrong or said[-2000:]}")
    for number, (name, edits) in enumerate(group, 1):
        yield name, verdict_on(said, [file for file, _, _ in edits], f"Planted{number}")

def try_alone(row, name, edits):
    before = {file: file.read_text() for file, _, _ in edits}
    for file, text in before.items():
        file.write_text(replaced(name, text, file, edits))
    said = said_of(row, before)
    for file, text in before.items():
        file.write_text(text)
    return verdict_on(said, before)

plants = {p.stem: parts(p) for p in sorted((here / "tests/rules").glob("*.plant"))}
unknown = asked - set(plants) - {row[0] for row, _ in plants.values()}
if unknown:
    sys.exit(f"no such plant or crate: {', '.join(sorted(unknown))}")
if asked:
    plants = {name: (row, edits) for name, (row, edits) in plants.items() if name in asked or row[0] in asked}
rows = sorted({row for row, _ in plants.values()})
crates = {c for crate, _ in rows for c in below(crate)}
for crate in sorted(crates):
    shutil.copytree(here / "crates" / crate, work / "crates" / crate, ignore=shutil.ignore_patterns("out"))
    # what is proved of a crate below those that are tried is only read, so a link will do
    if (here / "crates" / crate / "out").exists():
        copy = shutil.copy2 if crate in {row[0] for row in rows} else os.link
        shutil.copytree(here / "crates" / crate / "out", work / "crates" / crate / "out", copy_function=copy)
lines = (here / "crates.txt").read_text().splitlines(keepends=True)
(work / "crates.txt").write_text("".join(line for line in lines if line.partition(":")[0] in crates))
os.chdir(work)
TOGETHER = 24
refused = 0
for row in rows:
    of_row = [(name, edits) for name, (its, edits) in plants.items() if its == row]
    own = [(name, edits) for name, edits in of_row if {file.parts[1] for file, _, _ in edits} == {row[0]}]
    verdicts = {}
    for start in range(0, len(own) if names_cases(row) else 0, TOGETHER):
        verdicts |= try_together(row, own[start:start + TOGETHER])
    alone = [name for name, _ in of_row if name not in verdicts or verdicts[name][0] == "broken"]
    if alone and "only=1 proved=1" not in said_of(row):
        sys.exit(f"{'/'.join(row)} doesn't hold before any plant")
    for name, edits in of_row:
        verdict, why = try_alone(row, name, edits) if name in alone else verdicts[name]
        refused += verdict == "refused"
        print(f"{name}: {verdict} {why}", flush=True)
print(f"{refused} of {len(plants)} wrong rules refused")
sys.exit(refused != len(plants))
PYTHON
