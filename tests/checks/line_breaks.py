"""Unicode's LineBreakTest.txt through `line_breaks` (the program `test_unicode`).

The crate follows the rules of a later version of Unicode than the file may be of. Where the two
differ, one of the reasons below must explain each place: a rule that a later version brought. Any
other difference is wrong, and so is a reason that explains none while the file is of version 15.0.
"""
import re
import subprocess
from collections import Counter
from pathlib import Path

from checks.programs import Skipped, built

FILE = Path("/usr/share/unicode/auxiliary/LineBreakTest.txt")
# what stands before a place and after it, the sign here, and the rule of a later version
REASONS = [
    (r"(002C|002E)( 0308)?$", r"^003[0-9]", "×",
     "LB25 of 16.0: IS × NU, with no tailoring for numbers"),
    (r"^002D( 0308)?$", r"^(0023|05D0|00A7|50005|0E01)", "×",
     "LB20a of 16.0: no break after a hyphen that begins a word"),
    (r"0022( 0308)? 0020$", r"^(0028|2329)", "÷",
     "LB15a of 15.1: QU SP* × only after an opening quotation mark"),
    (r"0075 00AB 0020$", r"^(0028|007B)", "÷",
     "LB15a of 15.1: and only if nothing but a space or a break is before that"),
    (r"(0028|007B) 00AB 0020$", r"^0308", "×",
     "LB15a of 15.1: no break after spaces there, whatever follows"),
    (r"0308 0020$", r"^00BB (0029|007D)", "×",
     "LB15b of 15.1: no break before a closing quotation mark that ends a phrase"),
    (r"0020$", r"^002E 003", "÷",
     "LB15c of 16.0: a break before a decimal point after a space"),
    (r"05D0 002D$", r"^05D0", "÷",
     "LB21a of 16.0: a hyphen between Hebrew letters may end a line"),
]


def reason_for(signs, places, at):
    """Why the sign before the character `at` may differ."""
    before, after = " ".join(places[:at]), " ".join(places[at:])
    for left, right, sign, reason in REASONS:
        if signs[at] == sign and re.search(left, before) and re.search(right, after):
            return reason
    return None


def compare(lines, written):
    """How many lines are as in the file, how many places each reason explains, and what none
    does."""
    same, explained, wrong = 0, Counter(), []
    for line, mine in zip(lines, written):
        theirs, ours = line.split(), mine.split()
        if theirs[1::2] != ours[1::2]:
            wrong.append(f"other characters: {line}")
            continue
        same += theirs == ours
        for at, (their, our) in enumerate(zip(theirs[::2], ours[::2])):
            if their != our:
                reason = reason_for(ours[::2], theirs[1::2], at)
                if reason:
                    explained[reason] += 1
                else:
                    wrong.append(f"{line}: {our} before character {at + 1}")
    return same, explained, wrong


def add_options(parser):
    pass


def run(_args):
    if not FILE.is_file():
        raise Skipped(f"{FILE} is not installed (Debian's package unicode-data)")
    program = built("test_unicode")
    text = FILE.read_text(encoding="utf-8")
    lines = [line for line in (line.split("#")[0].strip() for line in text.splitlines()) if line]
    done = subprocess.run([program], input=text.encode(), capture_output=True)
    written = done.stdout.decode().splitlines()
    if done.returncode != 0 or not lines or len(lines) != len(written):
        print(f"status {done.returncode}: {len(lines)} lines, {len(written)} written")
        return False
    same, explained, wrong = compare(lines, written)
    if "LineBreakTest-15.0.0" in text:
        wrong += [f"explains nothing: {reason}" for *_, reason in REASONS if not explained[reason]]
    for what in wrong:
        print(f"wrong: {what}")
    for reason, count in explained.most_common():
        print(f"{count} places: {reason}")
    print(f"{same} of {len(lines)} lines of LineBreakTest.txt as in the file, "
          f"{len(lines) - same} by later rules, {len(wrong)} wrong")
    return not wrong
