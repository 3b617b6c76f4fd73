#!/usr/bin/env python3
"""Prints what the lookups of real fonts ask for, in the units of docs/SAFE_AND_TOTAL.md, "Time".

    bench/demand.py [FONT ..]    all fonts of /usr/share/fonts if none is named

A line for each table of lookups, and one for both tables of a font, the most demanding last: the font, the table, what the walks
over a list cost for each item, and what an item costs at most in all, in a text that repeats the dearest glyph, with all lookups of
all features. Marks that are passed over, searches for bases and NULL offsets are left out. Wants fontTools."""
import glob, os, sys
from collections import defaultdict
from fontTools.ttLib import TTCollection, TTFont

SUBTABLE = STEP = 8
PLAIN = 16
NESTED = 32
LISTED = 8
RULE_SETS = "ChainSubRuleSet", "ChainPosRuleSet", "SubRuleSet", "PosRuleSet"
CLASS_SETS = "ChainSubClassSet", "ChainPosClassSet", "SubClassSet", "PosClassSet"


def either(table, names):
    return next(getattr(table, name) for name in names if hasattr(table, name))


def rule(of, input_count):
    """How many glyphs and lookups a rule names, and which lookups, each at which of its glyphs."""
    records = getattr(of, "SubstLookupRecord", None) or getattr(of, "PosLookupRecord", None) or []
    beside = [getattr(of, name, None) or [] for name in ("Backtrack", "LookAhead")]
    return input_count + sum(map(len, beside)) + len(records), [(it.LookupListIndex, it.SequenceIndex) for it in records]


def rules_of_set(found, names, part):
    inputs = lambda it: getattr(it, "Input", None) or getattr(it, "Class", None) or []
    rules = [it.replace("ClassSet", "ClassRule").replace("RuleSet", "Rule") for it in names]
    return [rule(it, part + 1 + len(inputs(it))) for it in either(found, rules)] if found else []


def context(table, chained, part):
    """The rules of each glyph that a subtable of context begins with. A rule costs a part of its set."""
    if table.Format == 3:
        coverage = table.InputCoverage if chained else table.Coverage
        beside = len(table.BacktrackCoverage) + len(table.LookAheadCoverage) if chained else 0
        count, named = rule(table, LISTED * (len(coverage) + beside))
        return {glyph: [(count, named)] for glyph in coverage[0].glyphs}
    if table.Format == 1:
        sets = either(table, RULE_SETS)
        return {glyph: rules_of_set(found, RULE_SETS, part) for glyph, found in zip(table.Coverage.glyphs, sets)}
    by_class = [rules_of_set(found, CLASS_SETS, part) for found in either(table, CLASS_SETS)]
    classes = (table.InputClassDef if chained else table.ClassDef).classDefs
    of = lambda glyph: classes.get(glyph, 0)
    return {glyph: by_class[of(glyph)] if of(glyph) < len(by_class) else [] for glyph in table.Coverage.glyphs}


def begun(kind, table, positions):
    """The rules, or the ligatures, of each glyph that a subtable that isn't plain begins with."""
    if kind in ((7, 8) if positions else (5, 6)): return context(table, kind == (8 if positions else 6), 0 if positions else 1)
    if positions: return {}
    if kind == 4: return {glyph: [(1 + len(it.Component), []) for it in found] for glyph, found in table.ligatures.items()}
    if kind == 8:
        count = LISTED * (1 + len(table.BacktrackCoverage) + len(table.LookAheadCoverage))
        return {glyph: [(count, [])] for glyph in table.Coverage.glyphs}
    return {glyph: [] for glyph in (table.alternates if kind == 3 else table.mapping)}


def lookup(it, positions):
    """What its walk costs for each item; of each glyph how many subtables begin with it, and their rules."""
    extension = 9 if positions else 7
    tables = [(t.ExtensionLookupType, t.ExtSubTable) if it.LookupType == extension else (it.LookupType, t) for t in it.SubTable]
    plain = not {7, 8} & {kind for kind, _ in tables} if positions else it.LookupType in (1, 2, 3)
    glyphs = defaultdict(lambda: [0, []])
    for kind, table in [] if plain else tables:
        for glyph, found in begun(kind, table, positions).items():
            glyphs[glyph][0] += 1
            glyphs[glyph][1] += found
    return len(tables) * (PLAIN if plain else STEP), glyphs


def tried(count, rules):
    """What a lookup costs at a place, without what its rules name."""
    return SUBTABLE * count + sum(1 + glyphs for glyphs, _ in rules)


def demand(table, positions):
    """What all walks cost for each item, and with them the dearest glyph."""
    lookups = [lookup(it, positions) for it in table.LookupList.Lookup]
    used = {i for it in table.FeatureList.FeatureRecord for i in it.Feature.LookupListIndex if i < len(lookups)}
    nested = [NESTED + walk + max((tried(*it) for it in glyphs.values()), default=0) for walk, glyphs in lookups]
    way = LISTED if positions else 0
    at_glyph = defaultdict(int)
    for i in used:
        for glyph, (count, rules) in lookups[i][1].items():
            named = max((sum(nested[n] + way * at for n, at in names if n < len(nested)) for _, names in rules), default=0)
            at_glyph[glyph] += tried(count, rules) + named
    walks = sum(lookups[i][0] for i in used)
    return walks, walks + max(at_glyph.values(), default=0)


def main():
    rows = []
    for path in sys.argv[1:] or sorted(glob.glob("/usr/share/fonts/**/*.[ot]t[fc]", recursive=True)):
        for font in TTCollection(path).fonts if path.endswith("c") else [TTFont(path, lazy=True)]:
            name, found = os.path.basename(path), []
            for tag in "GSUB", "GPOS":
                if tag in font and font[tag].table.LookupList and font[tag].table.FeatureList:
                    found.append((name, tag) + demand(font[tag].table, tag == "GPOS"))
            both = (name, "both", sum(it[2] for it in found), sum(it[3] for it in found))
            rows += [*found, both] if len(found) == 2 else found
    for row in sorted(rows, key=lambda it: it[3]): print(*row)


main()
