#!/usr/bin/env -S python3 -B
"""Runs the built programs on their sessions, and compares what they write and their status.

    tests/sessions.py [FILE ..]
    tests/sessions.py --night

Those of tests/sessions are of `shapeline`, those of the other folders of the program that these are
called after; tests/sessions/README.md says how a session is written. If no file is named it takes all, then the
inputs that fuzzing kept, in tests/fuzz, then runs `shapeline` with each of its reads failing in
turn, and with each of its writes, until a run has no such call, and `fontshape` on a long text, to
a full device and a closed pipe, and with an argument that isn't UTF-8. It ends with status 1 if something isn't as it should be, and says at which case,
input or call.

With `--night` it runs a page of a heavy font and the trace of a long line instead.
"""
import os
import re
import resource
import shlex
import shutil
import subprocess
import sys
import tempfile
from pathlib import Path

from checks.programs import CRATES, FONTSHAPE, TESTS, build, program_of

PROGRAM = program_of("shapeline")
FILL_PARAGRAPH = program_of("fill_paragraph")
# the programs of folders, and of tests/sessions
PROGRAMS = {"sessions": PROGRAM, "fontshape": FONTSHAPE, "fill_paragraph": FILL_PARAGRAPH}
GIVEN = ("tall.ttf", "two.ttc", "flat.ttf", "axes.ttf", "heavy.ttf", "varied.ttf", "drawn.otf",
         "lines")
FILES = [CRATES / "fontshape/data/tiny.ttf", *(TESTS / "fontshape" / name for name in GIVEN)]

# How long a run may take, in seconds.
LIMIT = 60

# What a backslash and a letter stand for.
LETTERS = {"r": b"\r", "t": b"\t", "\\": b"\\"}


class Block:
    """A case, or what a section says of all its cases."""

    def __init__(self, number, title, section=None):
        self.number, self.title = number, title
        self.words, self.said = [], b""
        self.given = section.given if section else b""
        self.wanted = section.wanted if section else b""
        self.status = section.status if section else 0
        self.left_out = section.left_out if section else []
        self.begin = section.begin if section else ""


def line_of(text):
    """The bytes that a line stands for, with a line feed at their end unless a backslash ends
    it."""
    data, end = b"", b"\n"
    for escape, other in re.findall(r"(\\x[0-9A-F]{2}|\\[rt\\]|\\$)|(.)", text):
        if other == "\\":
            raise ValueError("a backslash begins no escape")
        if other:
            data += other.encode()
        elif escape == "\\":
            end = b""
        elif escape[1] == "x":
            data += bytes.fromhex(escape[2:])
        else:
            data += LETTERS[escape[1]]
    return data + end


def words_of(text):
    """Arguments, with the quotes of a shell; U+0301 stands for that character."""
    return [re.sub(r"U\+([0-9A-F]{4})", lambda m: chr(int(m[1], 16)), word)
            for word in shlex.split(text)]


def read_line(block, text, folder):
    """Reads a line of a block, and refuses one that begins as none does."""
    mark, _, rest = text.partition(" ")
    if mark == "$":
        block.words = words_of(rest)
    elif mark == "<":
        block.given += line_of(rest)
    elif mark == ">":
        block.wanted += line_of(rest)
    elif mark == "!":
        block.said += line_of(rest)
    elif mark == "answers":
        block.wanted += (folder / rest).read_bytes()
    elif mark == "status":
        block.status = int(rest)
    elif mark == "without":
        block.left_out = rest.split()
    elif mark == "from":
        block.begin = rest
    elif mark != "#":
        raise ValueError(f"no line of a block begins so: {text}")


def blocks_of(file):
    """The blocks of a file, each as its lines with their numbers."""
    block = []
    for number, line in enumerate([*file.read_text().split("\n"), ""], 1):
        if line:
            block.append((number, line))
        elif block:
            yield block
            block = []


def cases_of(file):
    """The cases of a file, each with what its section says. A section that no case follows is a
    case itself."""
    cases, section, place = [], Block(0, ""), file
    try:
        for lines in blocks_of(file):
            number, first = lines[0]
            place = f"{file}:{number}"
            if first.startswith("= "):
                section = block = Block(number, first[2:])
                lines = lines[1:]
                cases.append(section)
            elif all(line.startswith("#") for _, line in lines):
                continue
            else:
                block = Block(number, section.title, section)
                if cases[-1:] == [section]:
                    cases.pop()
                cases.append(block)
            for number, line in lines:
                place = f"{file}:{number}"
                read_line(block, line, file.parent)
    except ValueError as fault:
        sys.exit(f"{place}: {fault}")
    return cases


def run(program, case, folder):
    """What a run of a case writes, also on standard error, and its status: negative after a
    signal, none if the run goes on too long."""
    try:
        ended = subprocess.run([program, *case.words], input=case.given, capture_output=True,
                               cwd=folder, timeout=LIMIT)
    except subprocess.TimeoutExpired as late:
        return late.stdout or b"", late.stderr or b"", None
    return ended.stdout, ended.stderr, ended.returncode


def shown(data):
    """Some bytes as they are printed, a line for each line of theirs."""
    return "".join(f"    {line!r}\n" for line in data.splitlines(keepends=True)) or "    nothing\n"


def compared(written, left_out, begin):
    """What is written, from the line on that begins with this word, except for the lines that begin
    with these."""
    begins = tuple(word.encode() for word in left_out)
    lines = re.findall(rb"[^\n]*\n|[^\n]+$", written)
    first = next((at for at, line in enumerate(lines) if line.startswith(begin.encode())),
                 len(lines))
    return b"".join(line for line in lines[first:] if not line.startswith(begins))


def fault_of(program, case, folder):
    """What is wrong with a run of a case, or nothing."""
    written, said, status = run(program, case, folder)
    found = compared(written, case.left_out, case.begin)
    if found != case.wanted:
        return f"it should write\n{shown(case.wanted)}  and writes\n{shown(found)}"
    if status != case.status:
        return f"it should end with status {case.status}, and ends with {status}\n"
    if said != case.said:
        return f"it should say\n{shown(case.said)}  and says\n{shown(said)}"
    return ""


def run_sessions(files, folder):
    """Runs all cases, and says which aren't as they should be. Returns whether all are."""
    count, bad = 0, 0
    for file in files:
        program = PROGRAMS[file.resolve().parent.name]
        for case in cases_of(file):
            count += 1
            fault = fault_of(program, case, folder)
            if fault:
                bad += 1
                words = shlex.join(case.words)
                print(f"{file}:{case.number}: {case.title} {words}\n  on\n{shown(case.given)}"
                      f"  {fault}", end="")
    print(f"sessions: {count - bad} of {count} cases in {len(files)} files end as they should")
    return count > 0 and bad == 0


def limit_processor_time():
    """Ends a run by a signal after a second of processor time."""
    resource.setrlimit(resource.RLIMIT_CPU, (1, 1))


def run_fuzzed():
    """Runs the inputs that fuzzing kept. Each ends within a second of processor time, never by a
    signal, and in one of two ways: with status 0 and no error line, or with status 2 and the
    malformed line's number. Returns whether all do."""
    inputs = sorted((TESTS / "fuzz").iterdir())
    for file in inputs:
        ended = subprocess.run([PROGRAM], input=file.read_bytes(), stdout=subprocess.PIPE,
                               timeout=LIMIT, preexec_fn=limit_processor_time, check=False)
        last = (ended.stdout.splitlines() or [b""])[-1]
        malformed, other = last.startswith(b"error: line "), last.startswith(b"error: ")
        wanted = 2 if malformed else None if other else 0
        if ended.returncode != wanted:
            print(f"{file}: status {ended.returncode}, and the last line is {last!r}")
            return False
    print(f"fuzzing: {len(inputs)} inputs end as they should")
    return len(inputs) > 0


# Lines that only set something: more than 8 reads take, so that some stand in two of them.
SET = b"glyph 0041 1 600\nglyph 0302 2 0\nglyph 0301 3 0\nglyph 00C2 4 600\n" * 1100

# A line of each kind that is answered, a malformed one, and what is written.
ASKED = b"text 41\nsame 41 / 41\nlines 100 41\ntext\nword\n"
ANSWERED = (b"prepared 0041@0\nnormal 0041@0\nglyphs 0@0(0,0,0,0)/0\nsame yes\nline 0-1 0@0\n"
            b"prepared\nnormal\nglyphs\nerror: line 5\n")


def run_failing(work, kind, number, given):
    """A run in which the read or the write with this number fails, counted from 1. Returns what it
    writes, its status, and how many such calls it makes."""
    source, count = work / "given", work / "count"
    source.write_bytes(given)
    variables = {"LD_PRELOAD": work / "refuse.so", f"REFUSED_{kind}": number,
                 f"COUNTED_{kind}S": count}
    environment = os.environ | {name: str(value) for name, value in variables.items()}
    with source.open("rb") as reader:
        ended = subprocess.run([PROGRAM], stdin=reader, stdout=subprocess.PIPE, env=environment,
                               timeout=LIMIT, check=False)
    return ended.stdout, ended.returncode, int(count.read_text())


def run_all_failing(work, kind, given, whole, least):
    """Has each read or each write fail in turn, until a run has no such call. A failure ends a run
    with status 1: that of a read says so and nothing else, after that of a write nothing more is
    written. Returns whether all is so, and the last run is whole and has more than so many
    calls."""
    for number in range(1, 1000):
        written, status, calls = run_failing(work, kind, number, given)
        if calls < number and (written, status) == whole and calls > least:
            print(f"failing calls: {calls} of {kind.lower()}, each ends as it should")
            return True
        right = written == b"error: input\n" if kind == "READ" else whole[0].startswith(written)
        if status != 1 or calls != number or not right:
            print(f"call {number} of {kind.lower()} fails, of {calls}: status {status}, and this "
                  "is written:")
            print(shown(written), end="")
            return False
    print(f"no run was without the failing call of {kind.lower()}")
    return False


def run_failing_calls():
    """Has each read and each write of a session fail in turn. Returns whether all is as it should
    be."""
    with tempfile.TemporaryDirectory() as folder:
        work = Path(folder)
        library, source = work / "refuse.so", TESTS / "refuse.c"
        flags = ["-O1", "-Wall", "-Werror", "-shared", "-fPIC"]
        subprocess.run(["gcc", *flags, "-o", library, source, "-ldl"], check=True)
        reads = run_all_failing(work, "READ", SET, (b"", 0), 7)
        return run_all_failing(work, "WRITE", ASKED, (ANSWERED, 2), 2) and reads


def run_long_text(folder):
    """`fontshape` writes a text of 3,000 letters whole, and reads a language's name of 30,000
    bytes. Returns whether it does."""
    wanted = b"[" + b"|".join(b"2=%d+600" % at for at in range(3000)) + b"]\n"
    words = [FONTSHAPE, "tiny.ttf", "--no-glyph-names", "--language=" + "ab-" * 10000]
    ended = subprocess.run(words, input=b"A" * 3000 + b"\n", stdout=subprocess.PIPE, cwd=folder,
                           timeout=LIMIT)
    right = (ended.returncode, ended.stdout) == (0, wanted)
    if not right:
        print("fontshape doesn't write 3,000 letters whole")
    return right


def run_full_device(folder):
    """A write that fails ends `fontshape` with status 1, and it says so. Returns whether it
    does."""
    with open("/dev/full", "wb") as full:
        words = [FONTSHAPE, "tiny.ttf", "AB"]
        ended = subprocess.run(words, stdout=full, stderr=subprocess.PIPE, cwd=folder,
                               timeout=LIMIT)
    said = b"error: standard output: No space left on device (os error 28)\n"
    right = (ended.returncode, ended.stderr) == (1, said)
    if not right:
        print(f"fontshape on a full device: status {ended.returncode}, {ended.stderr}")
    return right


def run_closed_pipe(folder):
    """`fontshape` ends in silence once nobody reads on, as `head` does after its lines. Returns
    whether it does."""
    reader, writer = os.pipe()
    os.close(reader)
    words = [FONTSHAPE, "tiny.ttf", "AB"]
    ended = subprocess.run(words, stdout=writer, stderr=subprocess.PIPE, cwd=folder, timeout=LIMIT)
    os.close(writer)
    right = (ended.returncode, ended.stderr) == (0, b"")
    if not right:
        print(f"fontshape to a closed pipe: status {ended.returncode}, {ended.stderr}")
    return right


def says_malformed(program, folder, option, more):
    """Whether a program says which argument isn't UTF-8, and from where on."""
    words = [program, "tiny.ttf", option, b"\xC3\xA9\xC3("]
    ended = subprocess.run(words, capture_output=True, cwd=folder, timeout=LIMIT)
    said = b"error: argument 3 isn't UTF-8 from its byte 3 on" + more + b"\n"
    right = (ended.returncode, ended.stdout, ended.stderr) == (2, b"", said)
    if not right:
        print(f"{program} on a malformed argument: status {ended.returncode}, {ended.stderr}")
    return right


def run_malformed_argument(folder):
    """`fontshape` and `fill_paragraph` say which argument isn't UTF-8. Returns whether they do."""
    more = b": give the text by --text-file or --unicodes"
    right = says_malformed(FONTSHAPE, folder, "--bot", more)
    return says_malformed(FILL_PARAGRAPH, folder, "--text", b"") and right


def draws_heavy_font(folder, form, most):
    """Whether lines over a heavy font are drawn in little time, in fewer bytes than `most`: A has
    65,536 points, and B is made of 256 of itself, again and again."""
    given = b"A" * 5000 + b"\n" + b"A" * 5000 + b"\n" + b"B" * 5000 + b"\n"
    ended = subprocess.run([FONTSHAPE, "heavy.ttf", form], input=given, stdout=subprocess.PIPE,
                           cwd=folder, timeout=LIMIT, preexec_fn=limit_processor_time)
    right = ended.returncode == 0 and 2_500_000 < len(ended.stdout) < most
    if not right:
        print(f"fontshape draws a heavy font by {form}: status {ended.returncode}, "
              f"{len(ended.stdout)} bytes")
    return right


def run_heavy_font(folder):
    """The picture of a line has at most a megabyte. Returns whether it does."""
    return draws_heavy_font(folder, "--svg", 3_001_000)


def run_heavy_page(folder):
    """On a page a line has at most three megabytes more than its picture, for its text, its places
    and its table. Returns whether it does."""
    return draws_heavy_font(folder, "--html=-", 12_020_000)


def run_long_trace(folder):
    """The trace of a line has at most a megabyte and its last words. Returns whether it has."""
    given = b"A" * 100_000 + b"\n"
    ended = subprocess.run([FONTSHAPE, "tiny.ttf", "--trace"], input=given, capture_output=True,
                           cwd=folder, timeout=LIMIT)
    lines = ended.stderr.split(b"\n")
    right = (ended.returncode == 0 and len(ended.stderr) < 1_000_100
             and lines[-2:] == [b"trace: the rest is left out", b""])
    if not right:
        print(f"fontshape traces a long line: status {ended.returncode}, "
              f"{len(ended.stderr)} bytes, and at last {lines[-2:]}")
    return right


def main():
    build("shapeline")
    build("fontshape")
    build("fill_paragraph")
    at_night = sys.argv[1:] == ["--night"]
    named = [] if at_night else [Path(name) for name in sys.argv[1:]]
    with tempfile.TemporaryDirectory() as folder:
        for file in FILES:
            shutil.copy(file, folder)
        if at_night:
            sys.exit(0 if all([run_heavy_page(folder), run_long_trace(folder)]) else 1)
        all_files = sorted(file for name in PROGRAMS for file in (TESTS / name).glob("*.txt"))
        right = [run_sessions(named or all_files, folder)]
        if not named:
            right += [run_fuzzed(), run_failing_calls(), run_long_text(folder),
                      run_full_device(folder), run_closed_pipe(folder),
                      run_malformed_argument(folder), run_heavy_font(folder)]
    sys.exit(0 if all(right) else 1)


if __name__ == "__main__":
    main()
