"""Broken copies of DejaVu Sans: bytes changed at random, and prefixes.

Each run ends within a second of processor time, never by a signal, and in one of two ways: with
status 0, or with status 1 and the line that says that it is no font, or has no outlines. In every
third font the table GPOS is taken out of its directory, so that its table `kern` is read; every
second run draws. The first font that is wrong ends the check, and is kept.
"""
import os
import random
import resource
import subprocess
import sys
import tempfile

from checks.fonts import DEJAVU, need_dejavu
from checks.mutated import directory
from checks.programs import FONTSHAPE, need_fontshape

TEXT = ("AVATo \u00c5\u0308\u0301e\u0323\u0302 fi\u00df \u05e9\u05c1\u05b8\u05dc \u4e00\u2003x"
        "\ufe00\U0001f600 \u1f84")
# the tables that are broken, and what `fontshape` says where there is no font
READ = [b"GDEF", b"GSUB", b"GPOS", b"cmap", b"head", b"hhea", b"hmtx", b"maxp", b"loca", b"glyf",
        b"post", b"kern", b"OS/2"]
NO_FONT = (b": not a font file\n", b": no outlines to draw, since it has no table glyf, CFF or CFF2\n")
KEPT = "/tmp/hostile.ttf"


def spans(data):
    """The directory, and each table that is read: where it begins and ends."""
    tables = directory(data)
    found = [(0, 12 + 16 * len(tables))]
    for tag, (_, start, length) in tables.items():
        if tag in READ:
            # the beginning of a table has its counts and offsets
            found += [(start, start + length), (start, start + min(length, 64))]
    return found


def changed(chance, data, places):
    """A copy with 1 to 1,000 bytes changed, all within a few places."""
    copy = bytearray(data)
    begin, end = chance.choice(places) if chance.random() < 0.9 else (0, len(data))
    for _ in range(chance.choice([1, 2, 5, 20, 100, 1000])):
        at = chance.randrange(begin, end)
        any_byte, flipped = chance.randrange(256), copy[at] ^ 1 << chance.randrange(8)
        copy[at] = chance.choice([0, 255, any_byte, flipped])
    return bytes(copy)


def limit_processor_time():
    resource.setrlimit(resource.RLIMIT_CPU, (10, 10))


def measured(command):
    """The status of a run, what it says of an error, and its processor time."""
    before = resource.getrusage(resource.RUSAGE_CHILDREN)
    done = subprocess.run(command, capture_output=True, preexec_fn=limit_processor_time)
    after = resource.getrusage(resource.RUSAGE_CHILDREN)
    seconds = after.ru_utime + after.ru_stime - before.ru_utime - before.ru_stime
    return done.returncode, done.stderr, seconds


def broken_font(chance, whole, places, number):
    """The broken copy with this number."""
    data = whole.replace(b"GPOS", b"GPOT", 1) if number % 3 == 0 else whole
    if number % 4 == 3:
        return data[:chance.randrange(len(data))]
    return changed(chance, data, places)


def add_options(parser):
    parser.add_argument("--fonts", type=int, default=3000, metavar="N")
    parser.add_argument("--seed", type=int, default=7)
    parser.add_argument("--program", default=str(FONTSHAPE))


def run(args):
    need_dejavu()
    need_fontshape(args.program)
    chance = random.Random(args.seed)
    with open(DEJAVU, "rb") as file:
        whole = file.read()
    places = spans(whole)
    shaped, refused, longest = 0, 0, 0.0
    with tempfile.TemporaryDirectory() as folder:
        path = os.path.join(folder, "font.ttf")
        for number in range(args.fonts):
            broken = broken_font(chance, whole, places, number)
            with open(path, "wb") as file:
                file.write(broken)
            form = "--svg" if number // 2 % 2 else "--show-extents"
            status, error, seconds = measured([args.program, path, TEXT, form])
            right = status == 0 and not error or status == 1 and error.endswith(NO_FONT)
            if not right or seconds > 1.0:
                with open(KEPT, "wb") as file:
                    file.write(broken)
                said = error.decode(errors="replace")
                sys.exit(f"font {number} ({KEPT}): status {status}, {seconds:.2f} s: {said}")
            shaped, refused = shaped + (status == 0), refused + (status == 1)
            longest = max(longest, seconds)
    print(f"{args.fonts} broken fonts: {shaped} shaped, {refused} are no font; the longest run "
          f"took {longest * 1000:.0f} ms")
    return True
