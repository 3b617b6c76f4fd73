"""Runs of `fontshape` over fonts that mean harm: what was wrong with them, and which took most."""
import os
import resource
import subprocess
import tempfile
import time
from pathlib import Path

from checks.mutated import need_bases
from checks.programs import FONTSHAPE, need_fonttools, need_fontshape

LENGTH, SECONDS, MEGABYTES = 10_000, 2.0, 200
# a shaped text, no font, and a text that is refused
STATUSES = (0, 1, 3)
KEPT = "# seed and number of a mutated font, how much text, what the font was cut from; " \
       "seconds and megabytes\n"


def limit_run(seconds=40):
    """Limits what a run may take."""
    os.nice(10)
    resource.setrlimit(resource.RLIMIT_CPU, (seconds, seconds))
    if "ASAN" not in os.environ:
        resource.setrlimit(resource.RLIMIT_AS, (2 << 30, 2 << 30))


def measured(command, text):
    """The status of a run, its processor time, and the most memory that it took, in megabytes."""
    process = subprocess.Popen(command, stdin=subprocess.PIPE, stdout=subprocess.DEVNULL,
                               stderr=subprocess.DEVNULL, preexec_fn=limit_run)
    try:
        process.stdin.write(text.encode() + b"\n")
        process.stdin.close()
    except BrokenPipeError:
        pass
    _, status, used = os.wait4(process.pid, 0)
    process.returncode = os.waitstatus_to_exitcode(status)
    return process.returncode, used.ru_utime + used.ru_stime, used.ru_maxrss / 1024


class Runs:
    """Runs, what was wrong with them, and what each took. A run is slow that takes more than
    `limit` seconds."""

    def __init__(self, program, limit):
        self.program, self.limit = program, limit
        self.shaped, self.wrong, self.slow, self.taken = 0, 0, 0, []

    def __enter__(self):
        self.began = time.time()
        self.folder = tempfile.TemporaryDirectory()
        self.path = str(Path(self.folder.name, "font.ttf"))
        return self

    def __exit__(self, *_):
        self.folder.cleanup()

    def take(self, name, data, text, options):
        """Runs the program over the font of these bytes."""
        with open(self.path, "wb") as file:
            file.write(data)
        status, seconds, memory = measured([self.program, self.path, *options], text)
        self.shaped += status == 0
        self.taken.append((seconds, memory, name))
        slow, large = seconds > self.limit, memory > MEGABYTES
        self.slow += slow
        # (a run that is slow may have been ended for it)
        self.wrong += large or status not in STATUSES and not slow
        if slow or large or status not in STATUSES:
            print(f"{name}: status {status}, {seconds:.2f} s, {memory:.0f} MB", flush=True)

    def print_counts(self):
        slowest, largest = max(self.taken), max(self.taken, key=lambda it: it[1])
        print(f"{len(self.taken)} hostile fonts: {self.shaped} shaped, the rest refused; "
              f"{self.wrong} wrong, {self.slow} slow; longest {slowest[0]:.2f} s ({slowest[2]}), "
              f"most memory {largest[1]:.0f} MB ({largest[2]}); "
              f"{time.time() - self.began:.0f} s in all")

    def keep(self, path):
        """Writes which 30 fonts took most time, and 10 most memory."""
        worst = sorted(self.taken, reverse=True)[:30]
        worst += sorted(self.taken, key=lambda it: -it[1])[:10]
        with open(path, "w", encoding="utf-8") as file:
            file.write(KEPT)
            for seconds, memory, name in dict.fromkeys(worst):
                file.write(f"{name} {seconds:.2f} {memory:.0f}\n")


def add_run_options(parser):
    parser.add_argument("--keep", metavar="FILE",
                        help="writes which 30 fonts took most time, and 10 most memory")
    parser.add_argument("--program", default=str(FONTSHAPE))


def need_all(program):
    """What is needed to make these fonts and to run over them."""
    need_fonttools()
    need_bases()
    need_fontshape(program)
