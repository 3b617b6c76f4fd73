"""`prepared`, `normal` and `same` lines of `shapeline` beside a model of the rules.

Sessions are random, over all modes, levels, directions and flags, faces that lack characters, and
runs of marks shorter and longer than 32. A last line counts the texts on which a rule that asks
the last mark alone would give another result: these are the ones that see the rule.
"""
import random
import subprocess

from checks.normalising_model import CIRCLE, LONGEST_RUN, MIRRORS, SPLITS, State
from checks.programs import built

BASES = [0x41, 0x61, 0x62, 0x65, 0xC2, 0xC5, 0xE1, 0xE2, 0xE9, 0x1EA1, 0x1EA4, 0x1EB9, 0x5D0,
         0x5E9, 0xFB2A, 0xFB2C, 0xFB49, 0x627, 0x3A9, 0x2126, 0x212B]
OTHERS = [0x20, 0x28, 0x29, 0x31, 0x3C, 0x5D, 0x7B, 0x2003, 0x2010, 0x2011, 0x2014, 0x200C, 0x200D,
          0xFF9E, CIRCLE, 0x1F1E6, 0x1F1E7, 0x1F3FB, 0x1F600, 0xE0041]
MARKS = [0x301, 0x302, 0x308, 0x30A, 0x344, 0x323, 0x5BC, 0x5C1]
CLASSLESS = [0x20DD, 0x903, 0x34F, 0xFE00, 0xFE01]
EVERY = sorted({*BASES, *OTHERS, *MARKS, *CLASSLESS, *MIRRORS, 0x302, 0x3A9, 0xFE31})


def random_marks(rng):
    count = rng.choice([0, 0, 1, 1, 2, 3, 4, 6, rng.randrange(20, 45), rng.randrange(60, 75)])
    kinds = rng.sample(MARKS, rng.randrange(1, 5))
    if rng.random() < 0.15:
        kinds.append(rng.choice(CLASSLESS))
    if count > 20 and rng.random() < 0.5:
        # marks that may compose, with lower ones between
        few = [rng.choice(MARKS) for _ in range(rng.randrange(1, 4))]
        return [rng.choice(MARKS), *[rng.choice(MARKS[-3:])] * (count - len(few)), *few]
    if rng.random() < 0.4:
        # mostly one ccc, whose marks canonical order leaves as they stand
        return [rng.choice(kinds) if rng.random() < 0.1 else kinds[0] for _ in range(count)]
    return [rng.choice(kinds) for _ in range(count)]


def random_text(rng):
    text = random_marks(rng) if rng.random() < 0.1 else []
    for _ in range(rng.randrange(1, 6)):
        text.append(rng.choice(BASES if rng.random() < 0.75 else OTHERS))
        text += random_marks(rng)
    return text


def respelled(rng, text):
    """The text with some characters split and some neighbours exchanged, lawfully or not."""
    parts = []
    for c in text:
        parts += SPLITS[c] if c in SPLITS and rng.random() < 0.5 else (c,)
    text = [part for part in parts if part]
    for _ in range(rng.randrange(3)):
        i = rng.randrange(len(text))
        text[i:i + 2] = text[i:i + 2][::-1]
    return text


def session(rng):
    lines = ["face 1000"]
    lack = rng.choice([0, 0.05, 0.3])
    for glyph, c in enumerate(EVERY):
        if rng.random() >= lack:
            lines.append(f"glyph {c:04X} {glyph} 500")
    for _ in range(rng.randrange(2, 8)):
        if rng.random() < 0.7:
            lines.append(f"mode {rng.randrange(5)}")
        if rng.random() < 0.7:
            lines.append(f"level {rng.randrange(3)}")
        if rng.random() < 0.4:
            lines.append("dir " + rng.choice(["auto", "auto", "ltr", "rtl", "ttb", "btt"]))
        if rng.random() < 0.4:
            flags = sum(flag for flag in (2, 4, 8, 16, 32, 64, 128) if rng.random() < 0.4)
            lines.append(f"flags {flags}")
        text = random_text(rng)
        words = [f"{c:04X}" for c in text]
        if rng.random() < 0.75:
            lines.append(" ".join(["text", *words]))
        else:
            other = [f"{c:04X}" for c in respelled(rng, text)]
            lines.append(" ".join(["same", *words, "/", *other]))
    return lines


def add_options(parser):
    parser.add_argument("--sessions", type=int, default=4000)
    parser.add_argument("--seed", type=int, default=1)


def run(args):
    program = built("shapeline")
    rng = random.Random(args.seed)
    lines = ["#"]
    for _ in range(args.sessions):
        lines += session(rng)
    done = subprocess.run([program], input="\n".join(lines) + "\n", capture_output=True,
                          text=True, check=False)
    printed = iter([it for it in done.stdout.splitlines() if not it.startswith("glyphs")])
    state, compared, wrong, begin = State(), 0, 0, 0
    for number, said in enumerate(lines):
        begin = number if said.startswith("face") else begin
        for expected in state.take(said.split()):
            compared += 1
            found = next(printed, "nothing")
            if found != expected:
                wrong += 1
                if wrong <= 3:
                    print(*lines[begin:number + 1], f"model   {expected}", f"program {found}", "",
                          sep="\n")
    wrong += sum(1 for _ in printed) + (done.returncode != 0)
    pairs = compared - 2 * state.texts
    print(f"{state.texts} texts and {pairs} pairs of {args.sessions} sessions: "
          f"{wrong} lines differ")
    print(f"{state.long} texts hold a run of more than {LONGEST_RUN}; a rule that asks the last "
          f"mark alone would give another result on {state.parted}")
    return wrong == 0 and state.parted > 0
