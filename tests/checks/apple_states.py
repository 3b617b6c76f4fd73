"""Random state tables, for fonts with Apple's tables (`apple_fonts`).

No walk loops: an entry that stays at its glyph leads to a state further on, and glyphs that are
inserted have a class at which nothing is inserted. HarfBuzz leaves a state table out if glyphs out
of its classes change nothing in the first state, and a set of the text's glyphs shares none with
those of the classes. The end of the text and deleted glyphs don't count for that, nor do glyphs of
ligatures and of some insertions. So in half of the tables glyphs out of the classes lead out of
the first state; in the others the end of the text and deleted glyphs do as these, and where a font
has such glyphs, the classes have the glyph of the first letter, which is in each text.
"""
from checks import apple_tables as tables
from checks.apple_tables import END_OF_TEXT, DELETED_GLYPH, OUT_OF_BOUNDS, words

NONE = 0xFFFF
STAYS = 0x4000
INSERTS_BEFORE = 0x0800


class States:
    """A state table. `entry()` draws what an entry has: its flags, and more numbers; `plain`
    are those of one that does nothing. Glyphs that are `inert` have a class at which `entry` isn't
    asked for."""

    def __init__(self, made, entry, plain, inert=()):
        self.made, self.chance, self.inert = made, made.chance, inert
        self.count = self.chance.randint(2, 5)
        self.is_quiet = self.chance.random() < 0.5
        self.set_classes()
        last = self.count - 1
        self.entries = [(0, 0, *plain), (1, 0, *plain), (last, 0, *plain)]
        # where inserted glyphs lead
        self.idle = self.chance.choice([[0, 1], [2]])
        for _ in range(self.chance.randint(1, 8)):
            stays = self.chance.random() < 0.2
            own, *more = entry()
            if stays and inert and 2 not in self.idle:
                own &= ~INSERTS_BEFORE
            following = self.chance.randrange(stays, self.count)
            self.entries.append((following, STAYS * stays, own, *more))
        self.rows = [self.row(state) for state in range(self.count)]
        self.begin()

    def set_classes(self):
        """Classes of some glyphs, rarely one that all tables have, or one past the last."""
        lowest = 5 if self.inert else 4
        self.class_count = lowest + self.chance.randint(1, 4)
        self.classes = {}
        for glyph in self.made.some(1, 8):
            self.classes[glyph] = self.chance.randrange(lowest, self.class_count)
            if self.chance.random() < 0.05:
                self.classes[glyph] = self.chance.choice([0, 1, 2, 3, self.class_count])
        if self.made.grows and self.is_quiet:
            self.classes.setdefault(self.made.first, lowest)
        self.classes.update(dict.fromkeys(self.inert, 4))

    def row(self, state):
        """The entries of a state, by classes. Where glyphs are inserted at the end of the text, the
        walk doesn't go back to them; where it goes back to those before a glyph, they lead to the
        last state, in which it goes on."""
        goes_on = [number for number, entry in enumerate(self.entries) if not entry[1] & STAYS]
        fit = [number for number, entry in enumerate(self.entries)
               if number in goes_on or entry[0] > state]
        choices = {END_OF_TEXT: goes_on, 4: self.idle} if self.inert else {}
        return [self.chance.choice(choices.get(kind, fit)) for kind in range(self.class_count)]

    def begin(self):
        """Sees to it that HarfBuzz may leave the table out only where it changes nothing."""
        first = self.rows[0]
        first[OUT_OF_BOUNDS] = 0 if self.is_quiet else 1
        if self.is_quiet:
            first[END_OF_TEXT] = first[DELETED_GLYPH] = 0

    def bytes_with(self, extras=(), extra_heads=None):
        """The table, with what its kind has behind it (`apple_tables.state_table`)."""
        classes = self.made.lookup(self.classes, lambda glyph: OUT_OF_BOUNDS)
        entries = [words(following, flags | own, *more)
                   for following, flags, own, *more in self.entries]
        return tables.state_table(self.class_count, classes, self.rows, entries, extras,
                                  extra_heads)


# ---- morx

def rearrangement(made):
    """Kind 0: spans, and verbs."""
    chance = made.chance

    def entry():
        flags = chance.choice([0, 0x8000, 0x8000, 0x2000, 0x2000, 0xA000])
        return [flags | chance.choice([0, chance.randrange(16)])]
    return States(made, entry, [0]).bytes_with()


def contextual(made):
    """Kind 1: lookup tables for the marked glyph and the current one."""
    chance = made.chance
    lookups = [made.lookup({glyph: made.glyph() for glyph in made.some(1, 6)},
                           lambda glyph: glyph % 0x10000, formats=(0, 2, 4, 6, 6, 8, 10))
               for _ in range(chance.randint(1, 3))]

    def entry():
        indices = [chance.choice([NONE, chance.randrange(len(lookups))]) for _ in range(2)]
        return [chance.choice([0, 0x8000]), *indices]
    table = States(made, entry, [0, NONE, NONE])
    return table.bytes_with([tables.lookup_list(lookups)])


def ligature_actions(made, component_count):
    """A list of actions: each has its place among the components less the glyph, and flags."""
    chance, found = made.chance, []
    count = chance.randint(1, 4)
    for i in range(count):
        distance = chance.randrange(-made.count // 2, max(component_count - 4, 1))
        store = 0x40000000 * (chance.random() < 0.2)
        last = 0x80000000 * (i == count - 1)
        found.append(last | store | distance & 0x3FFFFFFF)
    return found


def ligature(made):
    """Kind 2: components on a stack, and actions."""
    chance = made.chance
    component_count = chance.choice([8, made.count, 2 * made.count])
    actions, starts = [], []
    for _ in range(chance.randint(1, 3)):
        starts.append(len(actions))
        actions += ligature_actions(made, component_count)
    components = [chance.choice([0, 0, 1, 2, 3, 5]) for _ in range(component_count)]
    ligatures = [made.glyph() for _ in range(chance.randint(4, 16))]

    def entry():
        return [chance.choice([0, 0x8000, 0x8000, 0x2000, 0xA000]), chance.choice(starts)]
    table = States(made, entry, [0, 0])
    return table.bytes_with([tables.longs(*actions), words(*components), words(*ligatures)])


def insertion(made):
    """Kind 5: glyphs beside the marked glyph and the current one."""
    chance = made.chance
    listed = [chance.choice(made.inert) for _ in range(chance.randint(4, 12))]
    if chance.random() < 0.1:
        listed += [chance.choice(made.inert) for _ in range(31)]

    def count(index):
        return 0 if index == NONE else min(chance.choice([0, 1, 1, 2, 3, 31]), len(listed) - index)

    def entry():
        indices = [chance.choice([NONE, chance.randrange(len(listed))]) for _ in range(2)]
        flags = chance.choice([0, 0x8000]) | chance.choice([0, 0x3C00 & chance.randrange(65536)])
        return [flags | count(indices[0]) << 5 | count(indices[1]), *indices]
    table = States(made, entry, [0, NONE, NONE], made.inert)
    return table.bytes_with([words(*listed)])


def noncontextual(made):
    """Kind 4: each glyph by a lookup table."""
    return made.lookup({glyph: made.glyph() for glyph in made.some(1, 8)},
                       lambda glyph: glyph, formats=(0, 2, 4, 6, 6, 8, 10))


# ---- kerx and kern

def stacked(made):
    """Format 1 of `kerx`: glyphs on a stack, and lists of values, which an odd one ends."""
    chance = made.chance
    values = [made.value() | chance.choice([0, 1]) for _ in range(chance.randint(1, 14))]
    if chance.random() < 0.2:
        values[chance.randrange(len(values))] = -32768

    def entry():
        index = chance.choice([NONE, 2 * chance.randrange(len(values) + 1)])
        return [chance.choice([0, 0x8000, 0x8000, 0x2000, 0xA000]), index]
    return States(made, entry, [0, NONE]).bytes_with([tables.shorts(*values)])


def attaching(made):
    """Format 4 of `kerx`: glyphs on marked ones, by points of the outline, anchors or places."""
    chance = made.chance
    kind = chance.choice([0, 1, 1, 1, 2, 2])
    count = chance.randint(1, 5)
    if kind == 2:
        data = tables.shorts(*[made.value() for _ in range(4 * count)])
    else:
        data = words(*[chance.randrange(4) for _ in range(2 * count)])

    def entry():
        index = chance.choice([NONE, chance.randrange(count + (chance.random() < 0.1))])
        return [chance.choice([0, 0x8000, 0x8000]), index]
    table = States(made, entry, [0, NONE])
    return table.bytes_with([data], lambda at: [kind << 30 | at])


def old_stacked(made):
    """Format 1 of `kern`: as in `kerx`, but an entry has its list in its flags."""
    chance = made.chance
    values = [made.value() | chance.choice([0, 1]) for _ in range(chance.randint(1, 14))]

    def entry():
        index = chance.choice([None, chance.randrange(len(values))])
        return [chance.choice([0, 0x8000, 0x8000]), index]
    table = States(made, entry, [0, None])
    entries = [(following, flags | own, index) for following, flags, own, index in table.entries]
    return tables.kern_1(table.class_count, table.classes, table.rows, entries, values)
