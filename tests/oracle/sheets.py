"""Random sheets that pass questions 1 to 4.

`generate(seed, size, errors)` makes a program as a tree and numbers its rows. The generator keeps the scopes in mind, so
that most programs resolve; a share of them, `errors`, is bent towards the no of some questions from 5 to 21.
"""
import random
import sys

from tree import Node, MAX_WORD, ordered, positions, rows_of, text_of, words_of

NULL, INIT, MAIN_UNIT = 22, 23, 24
CORE = {1: 3, 2: 4, 3: 5, 4: 7, 5: 8, 6: 9, 7: 100, 8: 101, 9: 102}
WITH_RECORD = (7, 8, 9)
ORDERS = ["preorder", "breadth", "random", "random", "runs", "runs"]
LISTED = [b"a", b"b", b"c", b"f", b"g", b"h", b"p", b"q", b"A", b"B", b"C", b"D", b"nul", b"Int6", b"init2", b"`", b"a`b",
          b'"', b" ", b"\xff\xfe", b"\x00", b"\r", b"a b", b"\xc3\xa9", b"y" * 254, b"y" * 255]
LEAF_KINDS = [40, 41, 42, 43, 44, 45, 46]


class Decl:
    """A declaration: `sort` is class, fun, global, local or arg."""

    def __init__(self, sort, mutable=False, function=None, record=None):
        self.sort = sort
        self.mutable = mutable
        self.function = function
        self.record = record


class Class:
    def __init__(self, name, unit, fields, methods):
        self.name = name
        self.unit = unit
        self.methods = methods
        self.parent = None
        self.node = Node(4, name, 0, [Node(10, field) for field in fields] + list(methods.values()))

    def own(self, method):
        return self.methods.get(method)

    def climb(self):
        """This class and those above it, as planned; each once."""
        met, at = [], self
        while isinstance(at, Class) and at not in met:
            met.append(at)
            at = at.parent
        return met

    def init(self):
        found = [each.methods[INIT] for each in self.climb() if INIT in each.methods]
        return found[0] if found else None


class Unit:
    def __init__(self):
        self.node = Node(2)
        self.imports = []
        self.fun_exports = {}
        self.const_exports = {}
        self.classes = {}
        self.scope = {}


class Function:
    """The function that is being made; `record` is its class's node, or 0."""

    def __init__(self, unit, is_unit, record):
        self.unit = unit
        self.is_unit = is_unit
        self.record = record
        self.loops = 0


def param_count(function):
    return sum(kid.kind == 11 for kid in function.kids)


class Generator:
    def __init__(self, rng, size, targets=()):
        self.rng = rng
        self.left = size
        self.targets = targets
        self.rate = rng.choice([0.05, 0.1] if len(targets) > 3 else [0.1, 0.3, 0.7])
        self.noise = rng.choice([0, 0, 0.004])
        self.deepest = rng.choice([14, 24, 40, 58])
        self.closures = rng.choice([0.5, 1.5, 4])
        self.hierarchy = rng.random() < 0.15
        self.stray = rng.choice(["anywhere", "in a function in a loop", "before a loop"])
        self.start = rng.choice([0, 0, 1, 2, 5, 1_000_000])
        self.names = rng.sample(LISTED, rng.randrange(3, 13))
        self.pool = list(range(25, 25 + len(self.names)))
        self.odd_names = [NULL, INIT, MAIN_UNIT] + rng.sample(range(1, 22), 4)
        self.scopes = [{name: Decl("class", record=number) for name, number in CORE.items()}]
        self.functions = []
        self.pending = []
        self.all_functions = []

    # choices

    def chance(self, share):
        return self.rng.random() < share

    def wrong(self, question):
        """Is the no of this question to be made here?"""
        return self.chance(self.rate if question in self.targets else self.noise)

    def aims(self, *questions):
        return any(question in self.targets for question in questions)

    def some_name(self, odd=0.06):
        return self.rng.choice(self.odd_names if self.chance(odd) else self.pool)

    def fresh_name(self, taken):
        """A name that is not taken, or None."""
        free = [name for name in self.pool if name not in taken]
        if self.chance(0.06):
            free = [name for name in self.odd_names if name not in taken] or free
        return self.rng.choice(free) if free else None

    def fresh_names(self, most):
        names = []
        for _ in range(self.rng.randrange(most + 1)):
            name = self.fresh_name(names)
            if name is not None:
                names.append(name)
        return names

    def node(self, kind, a=0, b=0, kids=()):
        self.left -= 1
        return Node(kind, a, b, kids)

    # scopes

    @property
    def function(self):
        return self.functions[-1]

    def visible(self):
        found = {}
        for scope in self.scopes:
            found.update(scope)
        return found

    def names_where(self, test):
        return [name for name, decl in self.visible().items() if test(decl)]

    # units, imports, classes

    def program(self):
        units = [Unit() for _ in range(self.rng.choice([1, 1, 1, 2, 2, 3, 4]))]
        if self.chance(0.01):
            units = []
        for unit in units:
            self.plan_tables(unit)
        for unit in units:
            self.plan_imports(unit, units)
        for unit in units:
            for each in unit.classes.values():
                self.plan_parent(each)
        for i, unit in enumerate(units):
            rest = max(0, self.left) * (len(units) - 1 - i) // (len(units) - i)
            self.left -= rest
            self.make_unit(unit)
            self.left += rest
        for unit in units:
            self.finish_unit(unit)
        main = self.rng.choice(units).function if units and self.chance(0.8) else 0
        return Node(0, self.start, main, [unit.node for unit in units])

    def plan_tables(self, unit):
        wanted = self.aims(11, 13, 14, 18, 19, 20, 21)
        most = 6 if self.hierarchy else self.rng.choice([0, 1, 2]) + wanted
        for name in self.fresh_names(most) or self.pool[:wanted]:
            unit.classes[name] = self.plan_class(name, unit)
        for name in self.fresh_names(self.rng.choice([0, 1, 3])):
            unit.fun_exports[name] = None
        if self.start:
            for name in self.fresh_names(2):
                unit.const_exports[name] = self.rng.randrange(self.start)

    def plan_class(self, name, unit):
        methods = {}
        wanted = self.fresh_names(2) + ([INIT] if self.chance(1 if self.aims(21) else 0.6) else [])
        for method in dict.fromkeys(wanted):
            params = self.param_names()
            if method == INIT and not params and self.chance(0.9):
                params = [self.pool[0]]
            methods[method] = Node(6, method, 0, [Node(11, param) for param in params])
        return Class(name, unit, self.fresh_names(self.rng.choice([1, 3])), methods)

    def param_names(self):
        names = self.fresh_names(self.rng.choice([1, 1, 2, 3]))
        if names and self.wrong(16):
            names.append(self.rng.choice(names))
        return names

    def plan_imports(self, unit, units):
        for _ in range(self.rng.choice([0, 0, 1, 2]) + self.aims(15, 16)):
            other = self.rng.choice(units)
            self.add_import(unit, other)
        for name, each in unit.classes.items():
            self.define_in_unit(unit, name, Decl("class", record=each))

    def define_in_unit(self, unit, name, decl):
        """A class that clashes with an import gets another name."""
        if name in unit.scope and not self.wrong(16):
            name = self.fresh_name(set(unit.scope) | set(unit.classes))
            if name is None:
                unit.imports.clear()
                unit.scope = {}
                name = decl.record.name
            decl.record.name = decl.record.node.a = name
        unit.scope[name] = decl

    def add_import(self, unit, other):
        offered = {} if unit is other else self.offered(other)
        repeated = len(offered) < len(other.fun_exports) + len(other.classes) + len(other.const_exports)
        clash = repeated or any(name in unit.scope for name in offered)
        everything = self.chance(0.5) and (unit is other or not clash or self.wrong(16))
        listed = []
        if everything:
            unit.scope.update(offered)
        for name in self.rng.sample(list(offered), self.rng.randrange(len(offered) + 1)):
            if name not in unit.scope or self.wrong(16):
                listed.append(Node(9, name))
                unit.scope[name] = offered[name]
        if self.wrong(15):
            listed.insert(self.rng.randrange(len(listed) + 1), Node(9, self.some_name()))
        if everything or listed or self.chance(0.2):
            unit.imports.append(Node(3, other.node, int(everything), listed))

    def offered(self, unit):
        names = {name: Decl("global") for name in unit.const_exports}
        names.update({each.name: Decl("class", record=each) for each in unit.classes.values()})
        names.update({name: Decl("fun") for name in unit.fun_exports})
        return names

    def plan_parent(self, each):
        scope = each.unit.scope
        near = [name for name, decl in scope.items() if decl.sort == "class"]
        if self.chance(0.4):
            near += WITH_RECORD
        name = self.rng.choice(near or [0]) if self.chance(0.95 if self.hierarchy else 0.7) else 0
        if self.wrong(19):
            name = self.rng.randrange(1, 7)
        if self.wrong(11):
            name = self.some_name()
        decl = scope.get(name) or self.scopes[0].get(name)
        record = decl.record if decl and decl.sort == "class" else None
        circle = isinstance(record, Class) and each in record.climb()
        if circle and not self.wrong(18):
            name, record = 0, None
        each.node.b = name
        each.parent = record

    def make_unit(self, unit):
        self.scopes.append(dict(unit.scope))
        unit.function = Node(6, self.rng.choice([0, self.some_name()]), 1)
        self.all_functions.append(unit.function)
        self.pending = list(unit.classes.values())
        self.rng.shuffle(self.pending)
        self.functions.append(Function(unit, True, 0))
        self.scopes.append({})
        unit.function.kids = [self.block(3, top=True)]
        self.scopes.pop()
        self.functions.pop()
        self.scopes.pop()

    def finish_unit(self, unit):
        """Function exports may name any function of the sheet."""
        exports = [Node(7, name, self.rng.choice(self.all_functions)) for name in unit.fun_exports]
        consts = [Node(8, name, number) for name, number in unit.const_exports.items()]
        classes = [each.node for each in unit.classes.values()]
        self.rng.shuffle(exports)
        unit.node.kids = unit.imports + exports + consts + classes + [unit.function]

    # functions

    def fill_function(self, node, depth, record, make_body=None):
        """Makes the body of a function whose parameters stand."""
        self.all_functions.append(node)
        function = Function(self.function.unit, False, record)
        self.functions.append(function)
        self.scopes.append({kid.a: Decl("arg", function=function) for kid in node.kids})
        make_body = make_body or self.rng.choice([self.block] * 2 + [self.part])
        node.kids.append(make_body(depth + 1))
        self.scopes.pop()
        self.functions.pop()

    def literal(self, depth):
        records = list(self.function.unit.classes.values())
        record = self.rng.choice(records).node if records and self.chance(0.3) else 0
        return self.literal_of(record, depth)

    def literal_of(self, record, depth, make_body=None):
        params = [self.node(11, name) for name in self.param_names()]
        function = self.node(6, self.rng.choice([0, self.some_name()]), 0, params)
        self.fill_function(function, depth + 1, record, make_body)
        return self.node(52, record, 0, [function])

    def class_declaration(self, depth):
        each = self.pending.pop()
        decl = self.visible().get(each.node.b)
        if each.node.b and not (decl and decl.sort == "class") and not self.wrong(11):
            each.node.b, each.parent = 0, None
        node = self.node(30, each.node)
        for method in each.methods.values():
            self.fill_function(method, 3, each.node)
        return node

    # statements

    def block(self, depth, top=False):
        block = self.node(25)
        self.scopes.append({})
        count = self.rng.randrange(1, 7 if top else 5) if self.left > 0 else self.rng.randrange(2)
        hoisted = [self.hoist(depth) for _ in range(count)]
        for let in hoisted:
            if top and self.pending and self.chance(0.9 if self.aims(13) else 0.3):
                block.kids.append(self.class_declaration(depth + 1))
            block.kids.append(self.let_literal(let, depth + 1) if let else self.stmt(depth + 1))
        while top and self.left > 0 and self.chance(0.9):
            block.kids.append(self.stmt(depth + 1))
        while top and self.pending:
            block.kids.append(self.class_declaration(depth + 1))
        self.scopes.pop()
        return block

    def hoist(self, depth):
        """Perhaps a literal let, declared at the block's start."""
        if self.left <= 0 or depth > self.deepest or not self.chance(0.35):
            return None
        scope = self.scopes[-1]
        name = self.fresh_name(scope)
        if scope and self.wrong(16):
            name = self.rng.choice(list(scope))
        if name is None:
            return None
        mutable = self.chance(0.4)
        if self.function.is_unit:
            scope[name] = Decl("global", True) if mutable else Decl("fun")
        else:
            scope[name] = Decl("local", mutable, self.function)
        return Node(29, name, int(mutable))

    def let_literal(self, let, depth):
        self.left -= 1
        let.kids = [self.literal(depth + 1)]
        return let

    def stmt(self, depth):
        if self.left <= 0 or depth > self.deepest:
            return self.last_stmt(depth)
        if self.is_stray_place() and self.wrong(5):
            return self.node(self.rng.choice([23, 24]))
        makers = [self.let] * 6 + [self.assign] * 4 + [self.simple] * 5 + [self.if_stmt] * 2 + [self.for_stmt] * 2
        makers += [lambda depth: self.block(depth)] * 4 + [self.returned_literal]
        makers += [self.let] * (6 if self.aims(7) else 0)
        makers += [self.sibling_blocks] * (0 if self.function.is_unit else 3)
        if self.function.loops:
            makers += [lambda depth: self.node(self.rng.choice([23, 24]))] * 2
        if self.aims(5):
            makers += [self.for_stmt] * 6 + [self.returned_literal] * 6
        if self.pending and self.function.is_unit:
            makers += [self.class_declaration] * 2
        return self.rng.choice(makers)(depth)

    def is_stray_place(self):
        """Is a break here in no loop, and where such are wanted?"""
        outer = any(function.loops for function in self.functions)
        return not self.function.loops and (self.stray == "anywhere" or self.stray == "in a function in a loop" and outer)

    def last_stmt(self, depth):
        if self.function.loops and self.chance(0.3):
            return self.node(23)
        return self.node(20, kids=[self.leaf()])

    def simple(self, depth):
        return self.node(self.rng.choice([20, 20, 22, 28]), kids=[self.expr(depth + 1)])

    def let(self, depth):
        value = self.plain_expr(depth + 1)
        scope = self.scopes[-1]
        name = self.fresh_name(scope)
        if scope and self.wrong(7):
            name = self.rng.choice(list(scope))
        if name is None:
            return self.node(20, kids=[value])
        if self.start and self.chance(0.1):
            scope[name] = Decl("global")
            return self.node(29, name, 2 + self.rng.randrange(self.start), [value])
        mutable = self.chance(0.5)
        sort = "global" if self.function.is_unit else "local"
        scope[name] = Decl(sort, mutable, self.function)
        return self.node(29, name, int(mutable), [value])

    def sibling_blocks(self, depth):
        self.scopes.append({})
        block = self.node(25, kids=[self.block(depth + 1) for _ in range(self.rng.choice([2, 2, 3]))])
        self.scopes.pop()
        return block

    def returned_literal(self, depth):
        return self.node(22, kids=[self.literal(depth + 1)])

    def part(self, depth):
        """A statement that stands in no block: a branch, a body, a part of a for."""
        if self.left > 0 and depth < self.deepest and self.chance(0.15):
            return self.let_literal(Node(29, self.some_name(), self.rng.randrange(2)), depth)
        return self.stmt(depth)

    def assign(self, depth):
        left = self.assigned(depth + 1)
        if self.function.record and depth < self.deepest and self.chance(0.2):
            return self.node(21, kids=[left, self.literal_of(self.function.record, depth + 1, self.member_assign)])
        return self.node(21, kids=[left, self.expr(depth + 1)])

    def member_assign(self, depth):
        return self.node(21, kids=[self.node(54, self.some_name(), 0, [self.leaf()]), self.leaf()])

    def assigned(self, depth):
        mutable = self.names_where(lambda decl: decl.mutable)
        fixed = self.names_where(lambda decl: not decl.mutable)
        if self.wrong(6):
            return self.node(50, self.rng.choice(fixed))
        if mutable and self.chance(0.5):
            return self.ident(mutable)
        if self.chance(0.7):
            return self.node(54, self.some_name(0.2), 0, [self.expr(depth + 1)])
        if self.chance(0.7):
            return self.node(53, kids=[self.expr(depth + 1), self.expr(depth + 1)])
        return self.leaf()

    def if_stmt(self, depth):
        test = self.expr(depth + 1)
        parts = [self.part(depth + 1) for _ in range(self.rng.choice([1, 2]))]
        return self.node(26, kids=[test] + parts)

    def for_stmt(self, depth):
        self.scopes.append({})
        stray = self.stray == "before a loop" and not self.function.loops and self.wrong(5)
        init = self.node(23) if stray else self.part(depth + 1)
        test = self.expr(depth + 1)
        self.function.loops += 1
        step = self.part(depth + 1)
        make_body = self.rng.choice([self.block] * 2 + [self.part])
        if self.stray == "in a function in a loop" and depth < self.deepest and self.wrong(5):
            make_body = self.literal_with_break
        body = make_body(depth + 1)
        self.function.loops -= 1
        self.scopes.pop()
        return self.node(27, kids=[init, test, step, body])

    def literal_with_break(self, depth):
        return self.node(20, kids=[self.literal_of(0, depth + 1, lambda depth: self.node(24))])

    # expressions

    def expr(self, depth):
        if self.left > 0 and depth <= self.deepest and self.chance(0.06 * self.closures):
            return self.literal(depth)
        return self.plain_expr(depth)

    def plain_expr(self, depth):
        """An expression that is no literal."""
        if self.left <= 0 or depth > self.deepest:
            return self.leaf()
        makers = [self.name_use] * 9 + [lambda depth: self.leaf()] * 4 + [self.operator] * 3 + [self.call] * 4
        makers += [self.instance_of, self.host_constant, self.dict]
        makers += [self.call] * (6 if self.aims(12, 13, 14, 17, 20, 21) else 2 if self.function.unit.classes else 0)
        makers += [self.instance_of] * (4 if self.aims(10) else 0)
        return self.rng.choice(makers)(depth)

    def exprs(self, depth, count):
        return [self.expr(depth) for _ in range(count)]

    def leaf(self):
        if self.chance(0.5):
            return self.name_use(0)
        kind = self.rng.choice(LEAF_KINDS)
        free = kind >= 43
        return self.node(kind, self.any_word() if free else 0, self.any_word() if free else 0)

    def any_word(self):
        return self.rng.choice([0, 1, 7, 2000, MAX_WORD])

    def name_use(self, depth):
        visible = self.visible()
        if self.wrong(9) and NULL not in visible:
            return self.node(50, NULL)
        if self.wrong(8):
            unknown = [name for name in self.pool + self.odd_names if name not in visible and name != NULL]
            if unknown:
                return self.node(50, self.rng.choice(unknown))
        return self.ident(list(visible))

    def ident(self, names):
        """One of the names, most often one that is captured."""
        visible = self.visible()
        return self.node(50, self.rng.choices(names, [self.weight(visible[name]) for name in names])[0])

    def weight(self, decl):
        if decl.sort in ("local", "arg"):
            return 3 if decl.function is self.function else 8
        return 0.03 if decl.record in CORE.values() else 1

    def operator(self, depth):
        kind = self.rng.choice([47, 53, 54, 56, 57, 58])
        count = {47: self.rng.randrange(4), 53: 2, 54: 1, 56: 1, 57: 2, 58: 3}[kind]
        a = self.some_name(0.2) if kind == 54 else self.any_word() if kind in (56, 57) else 0
        b = self.any_word() if kind in (56, 57) else 0
        return self.node(kind, a, b, self.exprs(depth + 1, count))

    def dict(self, depth):
        values = self.exprs(depth + 2, self.rng.randrange(3))
        return self.node(48, kids=[self.node(49, self.any_word(), self.any_word(), [value]) for value in values])

    def instance_of(self, depth):
        value = self.expr(depth + 1)
        classes = self.names_where(lambda decl: decl.sort == "class")
        name = self.some_name() if self.wrong(10) or not classes else self.rng.choice(classes)
        return self.node(55, name, 0, [value])

    def host_constant(self, depth):
        return self.node(51, self.some_name(0.2) if self.wrong(17) else MAIN_UNIT)

    # calls

    def call(self, depth):
        makers = [self.plain_call] * 2 + [self.constructor_call] * 2 + [self.class_method_call] * 2
        makers += [self.constructor_call] * (20 if self.aims(12, 20, 21) else 0)
        makers += [self.class_method_call] * (20 if self.aims(13, 14, 17) else 0)
        return self.rng.choice(makers)(depth)

    def call_with(self, callee, count, depth):
        args = []
        if count and self.aims(20, 21) and depth < self.deepest and self.chance(0.5):
            args = [self.constructor_call(depth + 1)]
        return self.node(59, kids=[callee] + args + self.exprs(depth + 1, count - len(args)))

    def plain_call(self, depth):
        callee = self.callee(depth + 1)
        return self.call_with(callee, self.rng.randrange(3), depth)

    def callee(self, depth):
        """A callee that is neither a class nor a member of one."""
        values = self.names_where(lambda decl: decl.sort != "class")
        if not values:
            return self.literal(depth) if self.left > 0 else self.node(40)
        if self.chance(0.6):
            return self.ident(values)
        return self.node(54, self.some_name(0.2), 0, [self.ident(values)])

    def classes(self, test):
        names = self.names_where(lambda decl: isinstance(decl.record, Class) and test(decl.record))
        visible = self.visible()
        return [(name, visible[name].record) for name in names]

    def constructor_call(self, depth):
        if self.wrong(12):
            name = self.rng.randrange(1, 7)
            if self.visible()[name].sort == "class":
                return self.call_with(self.node(50, name), self.rng.randrange(2), depth)
        if self.wrong(20):
            bare = [name for name, each in self.classes(lambda each: not each.init())] + list(WITH_RECORD)
            return self.call_with(self.node(50, self.rng.choice(bare)), self.rng.randrange(2), depth)
        ready = self.classes(lambda each: each.init() and (param_count(each.init()) > 0 or self.wrong(21)))
        if not ready:
            return self.plain_call(depth)
        name, each = self.rng.choice(ready)
        count = max(0, param_count(each.init()) - 1)
        if self.wrong(21):
            count += 1
        return self.call_with(self.node(50, name), count, depth)

    def class_method_call(self, depth):
        if self.wrong(17):
            name = self.rng.randrange(1, 7)
            if self.visible()[name].sort == "class":
                return self.method_call(name, self.some_name(), self.rng.randrange(2), depth)
        if self.wrong(13):
            return self.missing_method_call(depth)
        ready = self.classes(lambda each: each.methods)
        if not ready:
            return self.plain_call(depth)
        name, each = self.rng.choice(ready)
        method = self.rng.choice(list(each.methods))
        count = param_count(each.methods[method])
        if self.wrong(14):
            count = count - 1 if count and self.chance(0.5) else count + 1
        return self.method_call(name, method, count, depth)

    def method_call(self, name, method, count, depth):
        return self.call_with(self.node(54, method, 0, [self.node(50, name)]), count, depth)

    def missing_method_call(self, depth):
        """Of a class of the sheet or of the core, at best one that a parent has."""
        choices = [(name, self.some_name(0.2)) for name in WITH_RECORD if self.visible()[name].record == CORE[name]]
        inherited = []
        for name, each in self.classes(lambda each: True):
            above = [method for parent in each.climb()[1:] for method in parent.methods]
            inherited += [(name, method) for method in above if not each.own(method)]
            choices += [(name, method) for method in [self.some_name(), INIT] if not each.own(method)]
        if not choices:
            return self.plain_call(depth)
        name, method = self.rng.choice(inherited if inherited and self.chance(0.6) else choices)
        return self.method_call(name, method, self.rng.randrange(3), depth)


def add_tower(root, rng, depth):
    """Below some leaf of the sheet, a chain of rows that reaches the depth."""
    level = {root: 0}
    for node in root.all():
        for kid in node.kids:
            level[kid] = level[node] + 1
    spots = [node for node in level if node.kind in (20, 22, 28) and level[node] < depth]
    if not spots:
        return False
    spot = rng.choice(spots)
    value = Node(40)
    for _ in range(depth - level[spot] - 1):
        value = Node(rng.choice([47, 56]), 0, 0, [value])
    spot.kids = [value]
    # rows that went may be named by function exports
    kept = set(root.all())
    return all(x in kept for node in kept for x in (node.a, node.b) if isinstance(x, Node)) and classes_declared(kept)


def classes_declared(nodes):
    return all(any(each.kind == 30 and each.a is node for each in nodes) for node in nodes if node.kind == 4)


class Sheet:
    """A generated sheet: its tree, its rows, and its byte list of names."""

    def __init__(self, root, names, rng, order, late=()):
        self.root = root
        self.names = b"".join(name + b"\n" for name in names)
        self.order = order
        nodes = ordered(root, rng, order, late)
        self.preorder = nodes == root.all()
        self.rows = rows_of(nodes, positions(rng, len(nodes)))

    @property
    def words(self):
        return words_of(self.rows)


def generate(seed, size=50, errors=0.5):
    """A sheet of about `size` rows; `errors` is the share that is bent towards a no."""
    rng = random.Random(seed)
    while True:
        targets = rng.sample(range(5, 22), rng.choice([1, 1, 1, 2, 3, 17])) if rng.random() < errors else ()
        generator = Generator(rng, int(size * rng.uniform(0.4, 1.3)), targets)
        root = generator.program()
        if rng.random() < 0.03 and not add_tower(root, rng, 64):
            continue
        if len(root.all()) <= 2048:
            return Sheet(root, generator.names, rng, rng.choice(ORDERS))


def class_chain(count, fields=1, upwards=False):
    """Chained classes, each with new fields: many answer rows of few sheet rows. `upwards` each stands before its parent."""
    names = [b"n%d" % i for i in range(count * (fields + 1))]
    number = lambda i: 25 + i
    classes = []
    for i in range(count):
        own = [Node(10, number(count + i * fields + j)) for j in range(fields)]
        classes.append(Node(4, number(i), number(i - 1) if i else 0, own))
    if upwards:
        classes.reverse()
    body = Node(25, kids=[Node(30, each) for each in classes])
    unit = Node(2, kids=classes + [Node(6, 0, 1, [body])])
    return Sheet(Node(0, 0, 0, [unit]), names, random.Random(count), "preorder")


def main():
    seed, size, errors = int(sys.argv[1]), int(sys.argv[2]), float(sys.argv[3])
    sheet = generate(seed, size, errors)
    with open(sys.argv[4], "w") as out:
        out.write(text_of(sheet.rows))
    with open(sys.argv[5], "wb") as out:
        out.write(sheet.names)


if __name__ == "__main__":
    main()
