#!/usr/bin/env -S python3 -B
"""Prints what lines of mixed text cost in `fill_paragraph` and in raqm, which calls FriBidi and HarfBuzz:

    bench/paragraphs.py [PROGRAM]

PROGRAM is a built `fill_paragraph`, that of its crate if it is left out. The lines are those of `tests/compare.py paragraphs`,
over DejaVu Sans. Instructions a character, counted by callgrind as the difference between 1,000 lines and 500 of them; `once` is
a text of its own for each of 20 lines. It wants gcc, valgrind and Debian's libraqm-dev, and is run by hand."""
import re, subprocess, sys, tempfile
from pathlib import Path
HERE = Path(__file__).resolve().parent
sys.path.insert(0, str(HERE.parent / "tests"))
from checks.fonts import DEJAVU
from checks.paragraphs import mixed_lines, raqm_program
from checks.programs import program_of

# what is counted, by the name of a function
OURS = {"lines": "text_lines::layout::laid_out", "levels": "bidi::text::resolved_levels"}
THEIRS = {"raqm_layout": "raqm_layout", "plans": "hb_shape_plan_create_cached2",
          "levels": "fribidi_get_par_embedding_levels_ex", "classes": "fribidi_get_bidi_types",
          "brackets": "fribidi_get_bracket_types"}


def counted(folder, command, text, names):
    """The instructions inside each of these functions, in a run on a text."""
    counts = Path(folder, "counts")
    subprocess.run(["valgrind", "--tool=callgrind", f"--callgrind-out-file={counts}", *command], input=text.encode(),
                   check=True, stdout=subprocess.DEVNULL, stderr=subprocess.DEVNULL)
    table = subprocess.run(["callgrind_annotate", "--inclusive=yes", "--threshold=100", counts], check=True,
                           stdout=subprocess.PIPE).stdout.decode()
    found = re.findall(r"^ *([\d,]+) \([^)]*\)  [^ ]*?:(\S+)", table, re.M)
    return {key: sum(int(count.replace(",", "")) for count, function in found if function.split("::<")[0] == name)
            for key, name in names.items()}


def differences(folder, command, names):
    """Instructions a character, from 500 lines to 1,000."""
    texts = ["".join(f"{line}\n" for line in mixed_lines(count, 1)) for count in (500, 1000)]
    few, many = (counted(folder, command, text, names) for text in texts)
    return {key: round((many[key] - few[key]) / (len(texts[1]) - len(texts[0]))) for key in names}


def once(folder, command):
    """Instructions a character where each line is a text of its own."""
    lines = list(mixed_lines(20, 1))
    total = sum(counted(folder, command, line, OURS)["lines"] for line in lines)
    return round(total / sum(map(len, lines)))


with tempfile.TemporaryDirectory() as folder:
    ours = [sys.argv[1] if len(sys.argv) > 1 else program_of("fill_paragraph"), DEJAVU]
    print("here:", differences(folder, ours, OURS), "once:", once(folder, ours))
    print("raqm:", differences(folder, [raqm_program(folder), DEJAVU], THEIRS))
