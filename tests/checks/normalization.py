"""Unicode's NormalizationTest.txt through the normaliser (the program `test_unicode`).

The program writes each column's normalised lists, in the two modes that split fully. Columns 1 to
3 of a line must have one list, and so must 4 and 5. Two texts of one canonical form (the file's
third column, and its fifth one) must have one list, and two of other forms other lists, except for
forms that differ by the place of one of three marks, whose ccc in shaping sets it apart from the
marks of its combining class: these are listed with their reason.
"""
import bz2
import subprocess
from pathlib import Path

from checks.programs import Skipped, built

FILE = Path("/usr/share/unicode/NormalizationTest.txt")
# a mark that moves, and why two forms that have it may have one list
MOVED = {
    "0F39": "U+0F39 has class 127, other marks of combining class 216 keep theirs",
    "0FC6": "U+0FC6 has class 254, other marks of combining class 220 keep theirs",
    "1A60": "U+1A60 has class 254, other marks of combining class 9 keep theirs",
}
MODES = (1, 3)


def file_bytes():
    """The file, which Debian may have compressed."""
    packed = Path(f"{FILE}.bz2")
    if FILE.is_file():
        return FILE.read_bytes()
    if packed.is_file():
        return bz2.decompress(packed.read_bytes())
    raise Skipped(f"{FILE} is not installed (Debian's package unicode-data)")


def why_one_list(form, other):
    """Why two forms may have one list: the mark that both have, and that moves."""
    for mark, reason in MOVED.items():
        if mark in form and mark in other:
            return reason
    return None


class Lists:
    """The list of each form, the forms of each list, and what was wrong."""

    def __init__(self):
        self.list_of, self.form_of, self.excused = {}, {}, {}
        self.number, self.line, self.wrong = 0, "", 0

    def fail(self, what):
        self.wrong += 1
        print(f"line {self.number}: {what}: {self.line}")

    def note(self, mode, form, found):
        """A form has one list, and a list one form."""
        if self.list_of.setdefault((mode, form), found) != found:
            self.fail(f"another list of one form, mode {mode}")
            self.list_of[mode, form] = found
        other = self.form_of.setdefault((mode, found), form)
        if other != form:
            reason = why_one_list(form, other)
            if reason is None:
                self.fail(f"one list of two forms, mode {mode}")
            elif mode == MODES[0]:
                self.excused[other, form] = reason

    def take(self, number, columns, found):
        """A line of the file, and the lists of its five columns in both modes."""
        self.number, self.line = number, f"{columns}|{found}"
        columns, found = columns.split(";"), found.split(";")
        for own, mode in enumerate(MODES):
            first, second, third, fourth, fifth = found[own:10:2]
            if not first == second == third:
                self.fail(f"columns 1 to 3, mode {mode}")
            if fourth != fifth:
                self.fail(f"columns 4 and 5, mode {mode}")
            self.note(mode, columns[2], third)
            self.note(mode, columns[4], fifth)


def add_options(parser):
    pass


def run(_args):
    given = file_bytes()
    program = built("test_unicode")
    stripped = (line.split("#")[0] for line in given.decode().split("\n"))
    lines = [line for line in stripped if ";" in line]
    done = subprocess.run([program], input=given, stdout=subprocess.PIPE)
    written = done.stdout.decode().splitlines()
    if done.returncode != 0:
        print(*written[-1:])
        return False
    if len(lines) != len(written):
        print(f"{len(lines)} lines, and {len(written)} are written")
        return False
    lists = Lists()
    for number, (columns, found) in enumerate(zip(lines, written), 1):
        lists.take(number, columns, found)
    for (form, other), reason in lists.excused.items():
        print(f"one list: {form} / {other}: {reason}")
    print(f"{len(lines)} lines of NormalizationTest.txt normalised, {len(lists.excused)} pairs of "
          f"forms have one list, {lists.wrong} wrong")
    return len(lines) > 0 and lists.wrong == 0
