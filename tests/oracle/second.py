"""A second resolver: questions 5 to 22 and the answer rows, written from document 01 and F-6 of document 02 alone.

`printed_rows(rows, lent)` gives what the program prints of a sheet that passes questions 1 to 4. planted.py changes the text
of this file, a fault at a time, to see whether the recorded cases notice it. session.py resolves entries with the same class.
"""
from collections import namedtuple

CORE = {1: 3, 2: 4, 3: 5, 4: 7, 5: 8, 6: 9, 7: 100, 8: 101, 9: 102}
CORE_FIELDS = {100: range(10, 19), 101: (19, 20, 21), 102: (21, 19)}
NULL, INIT, MAIN_UNIT = 22, 23, 24
NONE, FUNCTION, CLASS, GLOBAL, ARGUMENT, LOCAL, CAPTURED, TRUE, FALSE = range(9)
MAX_COLUMN = 16383
LENT = 16384

# what a name means, in the order of an answer row; `function` is 0 but for arguments and locals
Decl = namedtuple("Decl", "code index function mutable", defaults=(0, 0, 0))


class No(Exception):
    """A question's no: its row, for the position, and its name."""

    def __init__(self, question, row, name):
        self.question = question
        self.row = row
        self.name = name


class Function:
    """`captured` has the captured declarations in order, each with the row of its first use."""

    def __init__(self, row, record, is_unit):
        self.row = row
        self.record = record
        self.is_unit = is_unit
        self.locals = 0
        self.captured = {}
        self.escaping = set()


class Resolver:
    def __init__(self, rows):
        self.rows = rows
        self.kids = [self.kids_of(row) for row in range(len(rows))]
        self.scopes = [{name: Decl(CLASS, number) for name, number in CORE.items()}]
        self.slots = [0]
        self.globals = self.a(0)
        self.loops = 0
        self.open_functions = []
        self.functions = {}
        self.answers = {}
        self.distances = {}
        self.literals = {}
        self.calls = []
        self.parents = {}
        self.classes = [row for row in range(len(rows)) if self.kind(row) == 4]
        self.fields = {number: list(names) for number, names in CORE_FIELDS.items()}
        self.methods = {number: {} for number in CORE_FIELDS}
        for row in self.classes:
            self.fields[256 + row] = list(self.named(row, 10))
            self.methods[256 + row] = self.named(row, 6)

    # the sheet

    def kind(self, row):
        return self.rows[row][0]

    def a(self, row):
        return self.rows[row][6]

    def b(self, row):
        return self.rows[row][7]

    def kids_of(self, row):
        kids, kid = [], self.rows[row][2]
        while kid:
            kids.append(kid)
            kid = self.rows[kid][1]
        return kids

    def of_kind(self, row, kind):
        return [kid for kid in self.kids[row] if self.kind(kid) == kind]

    def named(self, row, kind):
        return {self.a(kid): kid for kid in self.of_kind(row, kind)}

    def position(self, row):
        file, line, column = self.rows[row][3:6]
        return [file, line, min(column, MAX_COLUMN)]

    # scopes

    @property
    def function(self):
        return self.open_functions[-1]

    def open_scope(self):
        self.scopes.append({})
        self.slots.append(self.slots[-1])

    def close_scope(self):
        self.scopes.pop()
        self.slots.pop()

    def declare(self, row, name, decl):
        if name in self.scopes[-1]:
            raise No(16, row, name)
        self.scopes[-1][name] = decl
        return decl

    def lookup(self, name):
        for scope in reversed(self.scopes):
            if name in scope:
                return scope[name]
        return Decl(NONE)

    def declare_let(self, row):
        mutable = int(self.b(row) == 1)
        if self.function.is_unit:
            decl = Decl(GLOBAL, self.globals, 0, mutable)
            self.globals += 1
        else:
            decl = Decl(LOCAL, self.slots[-1], self.function.row, mutable)
            self.slots[-1] += 1
            self.function.locals = max(self.function.locals, self.slots[-1])
        return self.declare(row, self.a(row), decl)

    def answer(self, row, decl):
        self.answers[row] = (decl, self.function)

    def is_outer(self, decl, function):
        return decl.function not in (0, function.row)

    def capture(self, function, decl, row):
        if self.is_outer(decl, function):
            function.captured.setdefault(decl, row)

    # units

    def walk(self):
        for unit in self.kids[0]:
            self.walk_unit(unit)

    def walk_unit(self, unit):
        self.open_scope()
        for row in self.of_kind(unit, 3):
            self.walk_import(unit, row)
        for row in self.of_kind(unit, 4):
            self.declare(row, self.a(row), Decl(CLASS, 256 + row))
        self.walk_function(self.kids[unit][-1], 0)
        self.close_scope()

    def offered(self, unit):
        """Tables of what a unit offers: functions, classes, constants."""
        return [
            {name: Decl(FUNCTION, self.b(row)) for name, row in self.named(unit, 7).items()},
            {name: Decl(CLASS, 256 + row) for name, row in self.named(unit, 4).items()},
            {name: Decl(GLOBAL, self.b(row)) for name, row in self.named(unit, 8).items()},
        ]

    def walk_import(self, unit, row):
        tables = self.offered(self.a(row)) if self.a(row) != unit else []
        self.import_all(row, tables)
        self.import_listed(row, tables)

    def import_all(self, row, tables):
        for table in tables if self.b(row) == 1 else []:
            for name, decl in table.items():
                self.declare(row, name, decl)

    def import_listed(self, row, tables):
        for kid in self.kids[row]:
            found = [table[self.a(kid)] for table in tables if self.a(kid) in table]
            if not found:
                raise No(15, row, self.a(kid))
            self.declare(row, self.a(kid), found[0])

    # functions

    def walk_function(self, row, record):
        function = self.functions[row] = Function(row, record, self.b(row) == 1)
        *params, body = self.kids[row]
        self.open_scope()
        for index, param in enumerate(params):
            self.declare(param, self.a(param), Decl(ARGUMENT, index, row))
        outer_loops, self.loops = self.loops, 0
        self.open_functions.append(function)
        self.statement(body)
        self.open_functions.pop()
        self.loops = outer_loops
        self.close_scope()
        return function

    def literal(self, row):
        inner = self.walk_function(self.kids[row][0], 256 + self.a(row) if self.a(row) else 0)
        for decl, first in inner.captured.items():
            self.capture(self.function, decl, first)
            if decl.code == LOCAL and decl.mutable and decl.function == self.function.row:
                self.function.escaping.add(decl)
        self.literals[row] = (inner, self.function)

    def class_declaration(self, row):
        record = self.a(row)
        if self.b(record):
            parent = self.lookup(self.b(record))
            if parent.code != CLASS:
                raise No(11, row, self.b(record))
            self.parents[256 + record] = parent.index
        for method in self.of_kind(record, 6):
            self.walk_function(method, 256 + record)

    # statements

    def statement(self, row):
        kind, kids = self.kind(row), self.kids[row]
        if kind in (23, 24):
            if self.loops == 0:
                raise No(5, row, 0)
        elif kind in (20, 22, 28):
            self.expression(kids[0])
        elif kind == 21:
            self.assign(row, *kids)
        elif kind == 25:
            self.block(kids)
        elif kind == 26:
            self.expression(kids[0])
            for part in kids[1:]:
                self.statement(part)
        elif kind == 27:
            self.loop(*kids)
        elif kind == 29:
            self.let(row, kids[0])
        else:
            self.class_declaration(row)

    def assign(self, row, left, right):
        self.expression(left)
        self.expression(right)
        if self.kind(left) == 50 and not self.lookup(self.a(left)).mutable:
            raise No(6, row, self.a(left))
        if self.kind(left) == 54:
            self.register(self.a(left))

    def register(self, field):
        fields = self.fields.get(self.function.record)
        if fields is not None and field not in fields:
            fields.append(field)

    def block(self, kids):
        self.open_scope()
        for row in kids:
            if self.kind(row) == 29 and self.kind(self.kids[row][0]) == 52:
                self.hoist(row, self.kids[row][0])
        for row in kids:
            self.statement(row)
        self.close_scope()

    def hoist(self, row, literal):
        if self.function.is_unit and self.b(row) == 0:
            decl = self.declare(row, self.a(row), Decl(FUNCTION, self.kids[literal][0]))
        else:
            decl = self.declare_let(row)
        self.answer(row, decl)

    def loop(self, init, test, step, body):
        self.open_scope()
        self.statement(init)
        self.expression(test)
        self.loops += 1
        self.statement(step)
        self.statement(body)
        self.loops -= 1
        self.close_scope()

    def let(self, row, value):
        self.expression(value)
        if self.kind(value) == 52:
            self.answers.setdefault(row, (Decl(NONE), self.function))
            return
        if self.a(row) in self.scopes[-1]:
            raise No(7, row, self.a(row))
        if self.b(row) >= 2:
            self.answer(row, self.declare(row, self.a(row), Decl(GLOBAL, self.b(row) - 2)))
        else:
            self.answer(row, self.declare_let(row))

    # expressions

    def expression(self, row):
        kind, kids = self.kind(row), self.kids[row]
        if kind == 50:
            self.identifier(row)
        elif kind == 51:
            self.host_constant(row)
        elif kind == 52:
            self.literal(row)
        elif kind == 55:
            self.expression(kids[0])
            self.instance_of(row)
        elif kind == 59:
            self.call(kids[0], kids[1:])
        else:
            for kid in kids:
                self.expression(kid)

    def identifier(self, row):
        name = self.a(row)
        decl = self.lookup(name)
        if decl.code == NONE:
            raise No(9 if name == NULL else 8, row, name)
        self.capture(self.function, decl, row)
        self.answer(row, decl)
        self.distances[row] = self.distance(decl)

    def distance(self, decl):
        """How many open functions lie inside the one that a local or argument belongs to; 0 for all else."""
        if decl.function == 0:
            return 0
        return [function.row for function in reversed(self.open_functions)].index(decl.function)

    def host_constant(self, row):
        if self.a(row) != MAIN_UNIT:
            raise No(17, row, self.a(row))
        self.answer(row, Decl(TRUE if self.function.row == self.b(0) else FALSE))

    def instance_of(self, row):
        decl = self.lookup(self.a(row))
        if decl.code != CLASS:
            raise No(10, row, self.a(row))
        self.answer(row, decl)

    def call(self, callee, args):
        self.expression(callee)
        if self.kind(callee) == 50:
            self.constructor_call(callee, self.lookup(self.a(callee)), len(args))
        if self.kind(callee) == 54:
            base = self.kids[callee][0]
            if self.kind(base) == 50 and self.lookup(self.a(base)).code == CLASS:
                self.method_call(callee, base, self.lookup(self.a(base)).index, len(args))
        for arg in args:
            self.expression(arg)

    def constructor_call(self, callee, decl, count):
        if decl.code == CLASS:
            if decl.index not in self.methods:
                raise No(12, callee, self.a(callee))
            self.calls.append((decl.index, count, callee))

    def method_call(self, callee, base, record, count):
        name = self.a(callee)
        if record not in self.methods:
            raise No(17, callee, name)
        if name not in self.methods[record]:
            raise No(13, callee, name)
        method = self.methods[record][name]
        if len(self.of_kind(method, 11)) != count:
            raise No(14, callee, name)
        self.answer(callee, Decl(FUNCTION, method))
        del self.answers[base]

    # after the walk

    def inherit_all(self):
        done = set(CORE_FIELDS)
        for row in self.classes:
            self.inherit(256 + row, done, [])

    def inherit(self, record, done, below):
        if record in done:
            return
        row = record - 256
        if record in below:
            raise No(18, row, self.a(row))
        parent = self.parents.get(record)
        if parent is not None:
            if parent in self.methods:
                self.inherit(parent, done, below + [record])
            else:
                raise No(19, row, self.a(row))
            self.methods[record] = {**self.methods[parent], **self.methods[record]}
            above = self.fields[parent]
            self.fields[record] = above + [field for field in self.fields[record] if field not in above]
        done.add(record)

    def check_calls(self):
        for record, count, callee in self.calls:
            name = self.a(callee)
            init = self.methods[record].get(INIT)
            if init is None:
                raise No(20, callee, name)
            if len(self.of_kind(init, 11)) != count + 1:
                raise No(21, callee, name)

    # answer rows

    def answer_rows(self):
        rows = []
        for row in range(len(self.rows)):
            if self.kind(row) == 4:
                rows += self.class_rows(row)
            elif self.kind(row) == 6:
                rows += self.function_rows(row)
            elif self.kind(row) == 52:
                inner, outer = self.literals[row]
                rows += [[row, *self.seen(decl, outer)] for decl in self.captures(inner)]
            elif row in self.answers:
                rows.append([row, *self.seen(*self.answers[row]), self.distances.get(row, 0)])
        return [row + [0] * (8 - len(row)) for row in rows]

    def captures(self, function):
        return list(function.captured)

    def seen(self, decl, function):
        """A declaration as a function sees it."""
        if self.is_outer(decl, function):
            return Decl(CAPTURED, self.captures(function).index(decl), 0, decl.mutable)
        return decl

    def function_rows(self, row):
        function = self.functions[row]
        escaping = sorted(function.escaping)
        counts = [row, 20, function.locals, len(function.captured), len(escaping)]
        return [counts] + [[row, *decl] for decl in self.captures(function)] + [[row, *decl] for decl in escaping]

    def class_rows(self, row):
        fields, methods = self.fields[256 + row], self.methods[256 + row]
        parent, is_parent = self.parents.get(256 + row, 0), int(256 + row in self.parents.values())
        rows = [[row, 22, parent, is_parent, len(fields), len(methods)]]
        rows += [[row, 23, slot, name] for slot, name in enumerate(fields)]
        return rows + [[row, 24, name, function] for name, function in methods.items()]


def printed_rows(rows, lent=LENT):
    resolver = Resolver(rows)
    try:
        resolver.walk()
        resolver.inherit_all()
        resolver.check_calls()
    except No as no:
        return [[no.question, *resolver.position(no.row), no.name, 0, 0, 0]]
    out = resolver.answer_rows()
    if 8 * len(out) > lent:
        return [[22, 0, 0, 0, 0, 0, 0, 0]]
    return [[0, 0, 0, 0, 0, len(out), resolver.globals, 0]] + out
