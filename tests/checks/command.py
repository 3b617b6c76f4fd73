"""The command line of a script with several kinds of checks: `SCRIPT KIND [OPTION ..]`."""
import argparse
import sys

from checks.programs import Skipped

SKIPPED = 77


def run_kind(about, kinds):
    """Runs the kind that the command line names. The script ends with status 0 if all is as it
    should be, with 77 if the check was skipped, and else with 1."""
    plain = argparse.RawDescriptionHelpFormatter
    parser = argparse.ArgumentParser(description=about, formatter_class=plain)
    named = parser.add_subparsers(metavar="KIND", required=True)
    for name, kind in kinds.items():
        first_line = kind.__doc__.split("\n")[0]
        own = named.add_parser(name, help=first_line, description=kind.__doc__,
                               formatter_class=plain)
        kind.add_options(own)
        own.set_defaults(run=kind.run)
    args = parser.parse_args()
    try:
        right = args.run(args)
    except Skipped as lack:
        print(f"skipped: {lack}")
        sys.exit(SKIPPED)
    sys.exit(0 if right else 1)
