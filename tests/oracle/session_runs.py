"""Random runs of requests at the prompt: entries over earlier entries, previews and withdrawals.

`random_run(seed)` makes one, of the verbs that are given. session.py says what the session is before each request; entries use
the names that it shows, declare some of them again, and declare new ones. Some entries are none: they have no unit, or several, or
imports, or start too low, or are damaged.
"""
import random

from damage import WAYS, damaged, damaged_text
from format_check import FIXED, MAX_GLOBALS, MAX_ROWS
from session import ENTER, FRESH, PREVIEW, VERBS, WITHDRAW, Request, all_names, classes, outcome, visible
from sheets import LISTED, ORDERS, Class, Decl, Generator, Sheet, Unit, add_tower, generate
from tree import Node, text_of

MOST_REQUESTS = 15
FEW_LENT = 30
GAPS = [0] * 8 + [1, 2, 5, 40]
SIZES = [3, 6, 10, 15, 25, 40]
# questions that entries are bent towards; more often those that earlier classes can be asked; 15 needs an import
TARGETS = [*range(5, 15), *range(16, 22), 10, 13, 13, 14, 14, 20, 20, 21, 21]


# Random entries

class EarlierClass(Class):
    """A class of an earlier entry: its methods are the merged ones, by the entry's numbers of their names."""

    def __init__(self, name, earlier, numbers):
        super().__init__(name, None, (), {
            numbers[each.name]: Node(6, numbers[each.name], 0, [Node(11) for _ in range(each.params)])
            for each in earlier.methods if each.name in numbers})


class EntryGenerator(Generator):
    """Makes an entry over a session; `names` is its list."""

    def __init__(self, rng, size, targets, session, names, start):
        super().__init__(rng, size, targets)
        self.names = names
        self.pool = list(range(25, 25 + len(names)))
        self.start = start
        self.earlier = self.earlier_names(session)
        self.scopes[0].update(self.earlier)

    def earlier_names(self, session):
        """What the names of the entry mean in the session, by the entry's numbers."""
        own = {name: number for number, name in enumerate([*FIXED, *self.names], 1)}
        numbers = {number: own[name] for number, name in enumerate(all_names(session)) if name in own}
        records = {each.number: each for each in classes(session)}

        def meaning(name, each):
            if each.code == 2:
                earlier = records.get(each.number)
                return Decl("class", record=EarlierClass(name, earlier, numbers) if earlier else each.number)
            return Decl("fun") if each.code == 1 else Decl("global", bool(each.mutable))

        shown = [each for each in visible(session).values() if each.name in numbers]
        return {numbers[each.name]: meaning(numbers[each.name], each) for each in shown}

    def add_import(self, unit, other):
        """An entry has no imports."""

    def program(self):
        unit = Unit()
        self.plan_tables(unit)
        self.plan_imports(unit, [unit])
        for each in unit.classes.values():
            self.plan_parent(each)
        self.make_unit(unit)
        self.finish_unit(unit)
        return Node(0, self.start, unit.function if self.chance(0.8) else 0, [unit.node])

    def plan_parent(self, each):
        """Often a class of an earlier entry."""
        super().plan_parent(each)
        near = [name for name, decl in self.earlier.items()
                if isinstance(decl.record, EarlierClass) and name not in each.unit.scope]
        if near and self.chance(0.4):
            each.node.b = self.rng.choice(near)
            each.parent = self.earlier[each.node.b].record

    def instance_of(self, depth):
        """Often of an earlier class that is not hidden."""
        node, visible = super().instance_of(depth), self.visible()
        near = [name for name, decl in self.earlier.items() if isinstance(decl.record, EarlierClass) and visible[name] is decl]
        if near and self.chance(0.5):
            node.a = self.rng.choice(near)
        return node

    def weight(self, decl):
        """Earlier names are used more often than others that are outermost."""
        earlier = any(decl is each for each in self.earlier.values()) and not isinstance(decl.record, int)
        return 5 if earlier else super().weight(decl)


def random_entry(rng, session, words, start):
    """A sheet of one unit without imports."""
    while True:
        targets = rng.sample(TARGETS, rng.choice([1, 1, 1, 2, 3, len(TARGETS)])) if rng.random() < 0.5 else ()
        names = rng.sample(words, rng.randrange(3, len(words) + 1))
        generator = EntryGenerator(rng, int(rng.choice(SIZES) * rng.uniform(0.4, 1.3)), targets, session, names, start)
        root = generator.program()
        if rng.random() < 0.01 and not add_tower(root, rng, 64):
            continue
        if len(root.all()) <= MAX_ROWS:
            return Sheet(root, generator.names, rng, rng.choice(ORDERS))


def random_start(rng, session):
    if session.globals and rng.random() < 0.05:
        return rng.randrange(min(session.globals, MAX_GLOBALS + 1))
    if rng.random() < 0.004:
        return MAX_GLOBALS
    return min(session.globals + rng.choice(GAPS), MAX_GLOBALS)


def any_sheet(rng, session):
    """A sheet of any units, which start high enough. None starts at 1,000,000: after it few entries would."""
    while True:
        sheet = generate(rng.randrange(10**9), 10, 0.3)
        if sheet.rows[0][6] < MAX_GLOBALS:
            sheet.rows[0][6] = max(sheet.rows[0][6], min(session.globals, MAX_GLOBALS))
            return sheet


def random_text(rng, session, words):
    """The text and the names of an entry, or of what is none."""
    share = rng.random()
    if share < 0.03:
        words, names = damaged(rng.randrange(10**9), rng.choice(WAYS[rng.choice([1, 2, 3, 3, 3, 4])]))
        return text_of([words[i:i + 8] for i in range(0, len(words), 8)]).encode(), bytes(names)
    if share < 0.06:
        sheet = any_sheet(rng, session)
    else:
        sheet = random_entry(rng, session, words, random_start(rng, session))
    if share > 0.99:
        return damaged_text(rng, text_of(sheet.rows).encode())[0], sheet.names
    return text_of(sheet.rows).encode(), sheet.names


def random_request(rng, session, words, verbs):
    """An entry where the verb is not to be had."""
    share = rng.random()
    if share < 0.08 and WITHDRAW in verbs:
        return Request(WITHDRAW)
    text, names = random_text(rng, session, words)
    lent = rng.randrange(FEW_LENT) if rng.random() < 0.06 else MAX_ROWS
    return Request(PREVIEW if share < 0.18 and PREVIEW in verbs else ENTER, text, names, lent)


def random_run(seed, verbs=VERBS):
    rng = random.Random(seed)
    words = rng.sample(LISTED, rng.randrange(4, 17))
    session, run = FRESH, []
    for _ in range(rng.randrange(1, MOST_REQUESTS + 1)):
        run.append(random_request(rng, session, words, verbs))
        session = outcome(session, run[-1])[1]
    return run
