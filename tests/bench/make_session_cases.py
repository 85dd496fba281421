"""make_session_cases.py FOLDER

Writes the runs of entries that are timed, as FOLDER/RUN.runs, in the form that `oracle --time-sessions` reads: entries, which are
accepted, and between them entries to be timed over the session as it then stands, with the identifier SESSION_ENTRIES_ROWS.

- ordinary: a session of up to 1,000 entries, each a line or two as a member would try them.
- full: 999 entries that leave little room under any limit of a session.
- parts: sessions that hold much of one thing.
- deep: 1,000 classes, each before its parent, which need the most stack.
"""
import random
import sys
from pathlib import Path

sys.path.insert(0, str(Path(__file__).resolve().parent.parent / "oracle"))
from directed import array, block, call, do, give, is_a, let, lit, member, method, nil, put, record, unit, use, var, when
from sheets import INIT, Sheet, class_chain
from tree import Node, text_of

FIRST_LISTED = 25
CORE = range(1, 10)
UI_EVENT = 7
# a fixed name that serves as a field
X = 14
ROWS = [10, 100, 1000]
SIZES = [0, 100, 200, 400, 800, 999, 1000]


def plus(left, right):
    return Node(57, kids=[left, right])


class Entry:
    """An entry to be: its list grows with the names that are used."""

    def __init__(self):
        self.names, self.stmts, self.classes = [], [], []

    def number(self, name):
        if isinstance(name, int):
            return name
        if name not in self.names:
            self.names.append(name)
        return FIRST_LISTED + self.names.index(name)

    def use(self, name):
        return use(self.number(name))

    def let(self, name, value):
        self.stmts.append(let(self.number(name), value))

    def var(self, name, value):
        self.stmts.append(var(self.number(name), value))

    def do(self, value):
        self.stmts.append(do(value))

    def call(self, name, *args):
        return call(self.use(name), *map(self.use, args))

    def closure(self, earlier):
        """A function of two parameters that returns one which captures a parameter and a local."""
        p, q, total = map(self.number, (b"p", b"q", b"sum"))
        inner = lit([], give(plus(plus(use(total), use(q)), self.use(earlier))))
        return lit([p, q], block(let(total, plus(use(p), self.use(earlier))), give(inner)))

    def record(self, name, parent, fields, methods=()):
        """A class whose constructor has one argument, with more fields and methods."""
        this, value = self.number(b"self"), self.number(b"value")
        init = method(INIT, put(member(use(this), X), use(value)), params=[this, value])
        others = [method(self.number(each), give(member(use(this), X)), params=[this]) for each in methods]
        fields = [X, *map(self.number, fields)]
        self.classes.append(record(self.number(name), self.number(parent) if parent else 0, fields, [init, *others]))

    def sheet(self, start):
        each = unit(*self.stmts, classes=self.classes)
        return Sheet(Node(0, start, each.kids[-1], [each]), self.names, random.Random(1), "preorder")

    @property
    def rows(self):
        return 4 + sum(len(each.all()) for each in [*self.stmts, *self.classes]) + len(self.classes)

    @property
    def globals(self):
        """How many it takes: one for each let of the body but those of functions."""
        return sum(each.kind == 29 and each.kids[0].kind != 52 for each in self.stmts)


class Run:
    """Requests, and what the session holds for later entries to use."""

    def __init__(self, seed):
        self.rng, self.requests = random.Random(seed), []
        self.fresh()

    def fresh(self):
        self.requests.append(("fresh", "fresh", b"", b""))
        self.values, self.functions, self.classes = [], [], []
        self.globals = self.entries = 0

    def ask(self, name, word, sheet):
        self.requests.append((name, word, text_of(sheet.rows).encode(), sheet.names))

    def enter(self, entry):
        self.ask(str(self.entries), "enter", entry.sheet(self.globals))
        self.globals += entry.globals
        self.entries += 1

    def time(self, name, rows=ROWS):
        for count in rows:
            entry = self.timed(count)
            assert entry.rows == count, (entry.rows, count)
            self.ask(f"{name}_{self.entries}_{count}", "time", entry.sheet(self.globals))

    def value(self):
        """An earlier variable; in a fresh session a core class."""
        return self.rng.choice(self.values or CORE)

    def function(self):
        return self.rng.choice(self.functions) if self.functions else None

    def class_name(self):
        return self.rng.choice(self.classes) if self.classes else None

    def timed(self, rows):
        """An entry of so many rows that looks ordinary: lets, calls, functions with captures, classes, earlier names in all."""
        entry, group = Entry(), 0
        entry.let(b"new_0", entry.use(self.value()))
        entry.do(entry.call(self.function() or b"new_0", b"new_0"))
        while entry.rows + 40 <= rows:
            group += 1
            name, made, shape = (b"%s_%d" % (word, group) for word in (b"new", b"make", b"Form"))
            entry.let(name, plus(entry.use(self.value()), entry.use(self.value())))
            entry.let(made, entry.closure(self.value()))
            entry.do(entry.call(made, name, self.value()))
            if group % 3 == 1:
                entry.record(shape, self.class_name() or UI_EVENT, [b"size"], [b"area"])
                entry.do(entry.call(shape, self.value()))
            elif self.classes:
                entry.do(is_a(entry.use(self.value()), entry.number(self.class_name())))
        if rows - entry.rows:
            entry.do(array(*(entry.use(self.value()) for _ in range(rows - entry.rows - 2))))
        return entry

    def write(self, path):
        with open(path, "wb") as out:
            for name, word, text, names in self.requests:
                out.write(b"%s %s %d %d\n" % (name.encode(), word.encode(), len(text), len(names)) + text + names)


class Ordinary(Run):
    """Up to two declarations an entry; a class in every fifth, often below an earlier one; four of five bring a new name."""

    def next(self):
        entry, i = Entry(), self.entries
        [self.variable, self.closure, self.result, self.shape, self.statements][i % 5](entry, b"%d" % i)
        self.enter(entry)

    def variable(self, entry, i):
        entry.let(b"total_" + i, plus(entry.use(self.value()), entry.use(self.value())))
        entry.var(b"count", entry.use(b"total_" + i))
        self.values += [b"total_" + i] + [b"count"] * (b"count" not in self.values)

    def closure(self, entry, i):
        entry.let(b"step_" + i, entry.closure(self.value()))
        entry.var(b"last", entry.call(b"step_" + i, self.value(), self.value()))
        self.functions.append(b"step_" + i)
        self.values += [b"last"] * (b"last" not in self.values)

    def result(self, entry, i):
        again = self.value()
        entry.let(b"result_" + i, entry.call(self.function(), self.value(), self.value()))
        entry.var(again, entry.use(b"result_" + i))
        self.values.append(b"result_" + i)

    def shape(self, entry, i):
        parent = self.class_name() if self.rng.random() < 0.5 and len(self.classes) < 30 else None
        fields, methods = [b"width", b"height"][:self.rng.randrange(3)], [b"area", b"name"][:self.rng.randrange(3)]
        entry.record(b"Shape_" + i, parent, fields, methods)
        entry.let(b"item", entry.call(b"Shape_" + i, self.value()))
        self.classes.append(b"Shape_" + i)
        self.values += [b"item"] * (b"item" not in self.values)

    def statements(self, entry, i):
        entry.stmts.append(put(entry.use(b"count"), plus(entry.use(b"count"), entry.use(self.value()))))
        entry.do(entry.call(self.function(), self.value(), b"item"))
        test = is_a(entry.use(b"item"), entry.number(self.class_name()))
        entry.stmts.append(when(test, do(call(member(entry.use(b"item"), entry.number(b"area"))))))


class Full(Run):
    """Four declarations an entry, one of them a class with eight members, names of some thirty bytes."""

    def next(self):
        entry, i = Entry(), self.entries
        new = b"the_name_of_a_variable_or_so_%05d" % i if i < 870 else self.value()
        entry.let(new, plus(entry.use(self.value()), entry.use(self.value())))
        step, shape = b"function_number_%03d" % (i % 20), b"class_number_%03d" % (i % 40)
        entry.let(step, entry.closure(self.value()))
        parent = None if i < 40 else b"class_number_%03d" % ((i + 1) % 40)
        entry.record(shape, parent, [b"width", b"height", b"depth"], [b"area", b"name", b"grow"])
        entry.var(b"item", entry.call(shape, new))
        self.enter(entry)
        for name, names in ((new, self.values), (step, self.functions), (shape, self.classes)):
            if name not in names:
                names.append(name)


def ordinary():
    run = Ordinary(1)
    for size in SIZES:
        while run.entries < size:
            run.next()
        run.time("ordinary")
    return run


def full():
    run = Full(2)
    while run.entries < 999:
        run.next()
    run.time("full")
    return run


def parts():
    """Each of these twice, the second time with twice as much."""
    run = Run(3)
    for half in (1, 2):
        for make in (entries, names, long_names, one_place, declarations, classes, fields, methods):
            run.fresh()
            for entry in make(half):
                run.enter(entry)
            run.time(f"{make.__name__}{half}", [10])
    run.fresh()
    run.time("nothing", [10])
    return run


def entries(half):
    return [Entry() for _ in range(499 * half)]


def listing(names):
    entry = Entry()
    entry.names += names
    return entry


def names(half):
    return [listing([b"%03d" % i for i in range(500 * half)])]


def long_names(half):
    return [listing([b"%031d" % i for i in range(500 * half)])]


def one_place(half):
    """Names whose first place in the name index is 0: their last byte makes the value before it end in eleven zero bits."""
    found, i = [], 0
    while len(found) < 500 * half:
        i += 1
        value = fnv(b"%d-" % i) % 2048
        if value < 256 and value != 10:
            found.append(b"%d-%c" % (i, value))
    assert {fnv(name) % 2048 for name in found} == {0}
    return [listing(found)]


def fnv(name):
    value = 2166136261
    for byte in name:
        value = (value ^ byte) * 16777619 % 2**32
    return value


def declarations(half):
    made = []
    for _ in range(4 * half):
        made.append(Entry())
        for i in range(500):
            made[-1].let(b"%03d" % i, nil())
    return made


def with_records(count, *rest):
    entry = Entry()
    entry.classes += [record(entry.number(b"%03d" % i), *rest) for i in range(count)]
    return entry


def classes(half):
    return [with_records(500) for _ in range(half)]


def members_of(half, add):
    """Classes that inherit 160 members."""
    parent = Entry()
    parent.classes.append(record(parent.number(b"A")))
    add(parent, parent.classes[0])
    children = [Entry() for _ in range(3 * half)]
    for entry in children:
        entry.classes += [record(entry.number(b"B%d" % i), entry.number(b"A")) for i in range(8)]
    return [parent, *children]


def fields(half):
    return members_of(half, lambda entry, each: each.kids.extend(Node(10, entry.number(b"%03d" % i)) for i in range(160)))


def methods(half):
    return members_of(half, lambda entry, each: each.kids.extend(method(entry.number(b"%03d" % i)) for i in range(160)))


def deep():
    run, sheet = Run(4), class_chain(1000, 0, upwards=True)
    run.ask(f"deep_0_{len(sheet.rows)}", "time", sheet)
    return run


def main():
    folder = Path(sys.argv[1])
    folder.mkdir(parents=True, exist_ok=True)
    for make in (ordinary, full, parts, deep):
        make().write(folder / f"{make.__name__}.runs")


if __name__ == "__main__":
    main()
