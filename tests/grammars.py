#!/usr/bin/env python3
"""grammars.py [--check]: writes the tables of states of crates/syllables, for each specs/NAMEGrammar.antt.

A table is src/NAME/table.rt; proofs/NAMETable.antt names for each state one before it and the category between, and has the
kernel compute that the table is that of the grammar. With --check nothing is written: says which files are not up to date."""
import os, re, sys, textwrap

CRATE = os.path.join(os.path.dirname(os.path.abspath(__file__)), "../crates/syllables")
sys.setrecursionlimit(100000)

# ---- patterns, and what they leave to match behind a character: specs/Pattern.antt and specs/Derivatives.antt
NOTHING, EMPTY = ("Nothing",), ("Empty",)


def nullable(p):
    if p[0] == "Then": return nullable(p[1]) and nullable(p[2])
    if p[0] == "Or": return nullable(p[1]) or nullable(p[2])
    return p[0] in ("Empty", "Star")


def offers(p, q):
    return offers(p, q[1]) or offers(p, q[2]) if q[0] == "Or" else p == q


def either(p, q):
    if p == NOTHING: return q
    if p[0] == "Or": return either(p[1], either(p[2], q))
    if q == NOTHING: return p
    return q if offers(p, q) else ("Or", p, q)


def seq(p, q):
    if p == NOTHING: return NOTHING
    if p == EMPTY: return q
    if p[0] == "Then": return ("Then", p[1], seq(p[2], q))
    if p[0] == "Or": return either(seq(p[1], q), seq(p[2], q))
    return ("Then", p, q)


def deriv(c, p):
    if p[0] == "One": return EMPTY if c in p[1] else NOTHING
    if p[0] == "Then":
        rest = seq(deriv(c, p[1]), p[2])
        return either(rest, deriv(c, p[2])) if nullable(p[1]) else rest
    if p[0] == "Or": return either(deriv(c, p[1]), deriv(c, p[2]))
    if p[0] == "Star": return seq(deriv(c, p[1]), p)
    return NOTHING


def step(c, state):
    rests = ((kind, deriv(c, p)) for kind, p in state)
    return tuple((kind, p) for kind, p in rests if p != NOTHING)


def machine(grammar, columns):
    """The states, where each goes by each category, and for each from 2 on a state before it and the category between."""
    states, numbers, parents, rows = [(), grammar], {(): 0, grammar: 1}, [], []
    while len(rows) < len(states):
        row = []
        for c in range(columns):
            after = step(c, states[len(rows)])
            if after not in numbers:
                numbers[after] = len(states)
                parents.append((len(rows), c))
                states.append(after)
            row.append(numbers[after])
        rows.append(row)
    return states, rows, parents


def kind_of(state):
    return next((kind for kind, p in state if nullable(p)), 255)


def reached(rows, first, letters):
    """The states that texts of some categories lead to."""
    found, todo = set(), [first]
    while todo:
        after = {rows[todo[-1]][c] for c in letters} - found
        todo[-1:] = after
        found |= after
    return found


def check_waits(name, rows, kinds):
    """A scan may wait without a find only in a state that goes to itself, and in a run of the characters that keep it
    there scans from each place must come to one such state: then what is remembered of one scan ends the others."""
    silent = {s for s in range(1, len(rows)) if kinds[s] == 255}
    stays = {s: {c for c, t in enumerate(rows[s]) if t == s} for s in silent}
    for s in silent:
        ways = [[t if t in silent else 0 for t in row] for row in rows]
        ways[s] = [0 if t == s else t for t in ways[s]]
        assert s not in reached(ways, s, range(len(rows[s]))), f"{name}: state {s} is waited in by way of others"
        waits = {t for t in reached(rows, 1, stays[s]) if t in silent and stays[t] & stays[s]}
        assert len(waits) <= 1, f"{name}: scans wait in {sorted(waits)}"


# ---- grammars, as specs/ have them
def one_by_one(join, none):
    """`in_turn` and `any_of`."""
    def joined(patterns):
        if not patterns: return none
        return patterns[0] if len(patterns) == 1 else (join, patterns[0], joined(patterns[1:]))
    return joined


WORDS = {"Nothing": NOTHING, "Empty": EMPTY, "One": lambda cs: ("One", cs), "Star": lambda p: ("Star", p),
         "Then": lambda p: lambda q: ("Then", p, q), "Or": lambda p: lambda q: ("Or", p, q),
         "opt": lambda p: ("Or", p, EMPTY), "one": lambda c: ("One", (c,)), "plus": lambda p: ("Then", p, ("Star", p)),
         "in_turn": one_by_one("Then", EMPTY), "any_of": one_by_one("Or", NOTHING)}
TOKEN = r"[A-Za-z_]\w*|\d+|\[\]|[(),∷]"


def expression(tokens, words):
    """Reads a list, a pair or an application, and returns what it is."""
    def atom():
        token = tokens.pop(0)
        if token == "(":
            inside = expression(tokens, words)
            if tokens[0] == ",":
                tokens.pop(0)
                inside = (inside, expression(tokens, words))
            assert tokens.pop(0) == ")"
            return inside
        if token == "[]": return ()
        return int(token) if token.isdigit() else words[token]

    value = atom()
    while tokens and tokens[0] not in (")", ",", "∷"): value = value(atom())
    if tokens and tokens[0] == "∷":
        tokens.pop(0)
        return (value,) + expression(tokens, words)
    return value


def function(parameter, body, words):
    return lambda value: expression(list(body), {**words, parameter: value})


def definitions(name, words):
    """What specs/NAME.antt defines, beside these words: each definition is its type in a line, and an equation."""
    words = dict(words)
    text = re.sub(r"^--.*$", "", open(f"{CRATE}/specs/{name}.antt").read(), flags=re.M)
    for used in re.findall(r"^use Rattle\.syllables\.specs\.(\w+Categories)\.", text, flags=re.M):
        words = definitions(used, words)
    for block in re.split(r"^abbrev pub ", text, flags=re.M)[1:]:
        head, body = block.split("\n", 1)[1].split("=", 1)
        word, *parameters = head.split()
        tokens = re.findall(TOKEN, body)
        words[word] = function(parameters[0], tokens, words) if parameters else expression(tokens, words)
    return words


def categories_in(p):
    return set(p[1]) if p[0] == "One" else set().union(*map(categories_in, p[1:]))


# ---- files
def wrapped(numbers):
    return textwrap.fill(" ".join(f"{n}," for n in numbers), 99, initial_indent="    ", subsequent_indent="    ")


def table_source(name, rows, kinds, columns):
    flat = [state for row in rows for state in row]
    return f"""//! The table of `{name}_grammar`, which a proof computes to be the grammar's.
// Written by tests/grammars.py from specs/{name.capitalize()}Grammar.antt. Do not edit.

/// How many categories there are.
pub(super) const COLUMNS: u8 = {columns};

/// For each state the next one by each category.
#[rattlefmt::skip]
pub(super) static ROWS: [u16; {len(flat)}] = [
{wrapped(flat)}
];

/// For each state the kind of what has been read, 255 if it is no syllable.
#[rattlefmt::skip]
pub(super) static KINDS: [u8; {len(kinds)}] = [
{wrapped(kinds)}
];
"""


def proof_source(name, parents):
    lines = [" ∷ ".join(f"({s}, {c})" for s, c in parents[i:i + 10]) for i in range(0, len(parents), 10)]
    written = "\n    ∷ ".join(lines)
    return f"""-- The table of `{name}_grammar` passes the tests. `parents` names for each state from 2 on a state before it and the category between.
-- Written by tests/grammars.py from specs/{name.capitalize()}Grammar.antt. Do not edit.
use Rattle.std.proofs.Common.{{◌≡◌, ℕ, ◌<◌, true, List, [], ◌∷◌, length, refl, arith}}
use Rattle.syllables.specs.Grammar.{{Grammar}}
use Rattle.syllables.specs.{name.capitalize()}Grammar.{{{name}_grammar}}
use Rattle.syllables.specs.Tables.{{grown, state_in, rows_hold, kinds_hold, all_in_columns}}
use Rattle.syllables.specs.declared.{name}.table.TheConstants.{{COLUMNS, ROWS, KINDS}}

abbrev parents : List (ℕ × ℕ)
parents =
    {written}
    ∷ []

-- what the grammar leaves to match in each state
abbrev pub rests : List Grammar
rests = grown ([] ∷ {name}_grammar ∷ []) parents

pub some : 1 < length rests
some = omega arith

pub start : state_in rests 1 ≡ {name}_grammar
start = refl

pub dead : state_in rests 0 ≡ []
dead = refl

pub rows : rows_hold rests COLUMNS rests ROWS ≡ true
rows = refl

pub columns : all_in_columns COLUMNS rests ≡ true
columns = refl

pub kinds : kinds_hold rests KINDS ≡ true
kinds = refl
"""


def files_of(name):
    grammar = definitions(f"{name.capitalize()}Grammar", WORDS)[f"{name}_grammar"]
    columns = 1 + max(c for kind, p in grammar for c in categories_in(p))
    states, rows, parents = machine(grammar, columns)
    kinds = [kind_of(state) for state in states]
    check_waits(name, rows, kinds)
    return {f"src/{name}/table.rt": table_source(name, rows, kinds, columns),
            f"proofs/{name.capitalize()}Table.antt": proof_source(name, parents)}


def stale(path, text):
    try: return open(f"{CRATE}/{path}").read() != text
    except FileNotFoundError: return True


def main():
    specs = sorted(os.listdir(f"{CRATE}/specs"))
    names = [f[:-len("Grammar.antt")].lower() for f in specs if re.fullmatch(r"\w+Grammar\.antt", f)]
    files = {path: text for name in names for path, text in files_of(name).items()}
    wrong = [path for path, text in files.items() if stale(path, text)]
    for path in wrong:
        print(f"crates/syllables/{path}", "is not up to date" if "--check" in sys.argv else "is written")
        if "--check" not in sys.argv:
            os.makedirs(os.path.dirname(f"{CRATE}/{path}"), exist_ok=True)
            open(f"{CRATE}/{path}", "w").write(files[path])
    return 1 if wrong and "--check" in sys.argv else 0


if __name__ == "__main__": sys.exit(main())
