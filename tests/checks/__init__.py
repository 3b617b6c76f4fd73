"""The kinds of checks that `compare.py` and `hostile-fonts.py` start.

Each kind is a module with three members: `__doc__`, whose first line says what it checks;
`add_options(parser)`; and `run(args)`, which returns whether all is as it should be, or raises
`Skipped` if something is not installed.
"""
