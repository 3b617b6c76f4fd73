"""Mutated fonts at random: a search for those that take long.

Each runs with a text of 10,000 characters: no run ends by a signal, or takes more than 200 MB.
Fonts that take more than two seconds of processor time are named, of which docs/SAFE_AND_TOTAL.md
says the bound, and the search goes on. `--keep FILE` writes which were worst. Such a list is
tests/hostile/worst.txt, which `bombs` runs.
"""
from checks.hostile_runs import SECONDS, Runs, add_run_options, need_all
from checks.mutated import load_bases, mutated_font


def add_options(parser):
    parser.add_argument("--fonts", type=int, default=20000, metavar="N")
    parser.add_argument("--seed", type=int, default=1)
    parser.add_argument("--first", type=int, default=0, metavar="I",
                        help="the number of the first font")
    add_run_options(parser)


def run(args):
    need_all(args.program)
    bases = load_bases()
    with Runs(args.program, SECONDS) as runs:
        for index in range(args.first, args.first + args.fonts):
            runs.take(*mutated_font(bases, args.seed, index))
        runs.print_counts()
        if args.keep:
            runs.keep(args.keep)
    return runs.wrong == 0
