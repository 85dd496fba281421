"""Faults to plant: what each is, then pairs of a text that occurs once in the file and what stands in its place.

RESOLVER is of second.py, FORMAT and TEXT of format_check.py, COLUMNS, COLUMN_REPLIES and COLUMN_SIZES of columns_cases.py,
FINDING of find_cases.py, ORDERING of order_cases.py. `format_faults(source)` adds to FORMAT those that can be listed by rule: each demand left out, each
child list a little too wide or too narrow, kinds taken for statements or expressions.
"""
import re

from format_check import CHILDREN

CAPTURE = "function.captured.setdefault(decl, row)"
CAPTURES = "return list(function.captured)"
ESCAPES = "if decl.code == LOCAL and decl.mutable and decl.function == self.function.row:"
ADD_ESCAPE = "self.function.escaping.add(decl)"
IN_SCOPE = "if self.a(row) in self.scopes[-1]:"
CONSTANT = "if self.b(row) >= 2:\n"
NEW_SLOTS = "self.slots.append(self.slots[-1])"
LOCALS = "self.function.locals = max(self.function.locals, self.slots[-1])"
PARAMS = "        for index, param in enumerate(params):\n"
IMPORTS = "        self.import_all(row, tables)\n        self.import_listed(row, tables)\n"
ALL_HEAD = "def import_all(self, row, tables):\n"
LISTED_HEAD = "def import_listed(self, row, tables):\n"
ARGS = "        for arg in args:\n            self.expression(arg)\n"
IMMUTABLE = "not self.lookup(self.a(left)).mutable"
PARENT_METHODS = "{**self.methods[parent], **self.methods[record]}"
PARENT_FIELDS = "above + [field for field in self.fields[record] if field not in above]"
COUNTED = "if len(self.of_kind(method, 11)) != count:"
INIT_COUNTED = "if len(self.of_kind(init, 11)) != count + 1:"
SIDES = "        self.expression(left)\n        self.expression(right)\n"
HOISTS = "            if self.kind(row) == 29 and self.kind(self.kids[row][0]) == 52:\n"
HOIST_CALL = "                self.hoist(row, self.kids[row][0])\n"
HOIST_FUNCTION = "if self.function.is_unit and self.b(row) == 0:"
STEP = "        self.loops += 1\n        self.statement(step)\n"
LOOP_HEAD = "        self.statement(init)\n        self.expression(test)\n"
ORDERS = {"functions, constants, classes": (0, 2, 1), "classes, functions, constants": (1, 0, 2),
          "classes, constants, functions": (1, 2, 0), "constants, functions, classes": (2, 0, 1),
          "constants, classes, functions": (2, 1, 0)}


def above(row):
    """The row that a row stands under, as text."""
    return f"next(each for each in range(len(self.rows)) if {row} in self.kids[each])"


CAPTURE_FAULTS = [
    ("captures numbered by the lowest row that uses them", CAPTURE,
     "function.captured[decl] = min(row, function.captured.get(decl, row))",
     CAPTURES, "return sorted(function.captured, key=function.captured.get)"),
    ("captures numbered by the row of first use", CAPTURES,
     "return sorted(function.captured, key=function.captured.get)"),
    ("captures numbered by slot", CAPTURES, "return sorted(function.captured)"),
    ("captures numbered by name", CAPTURES,
     "return sorted(function.captured, key=lambda decl: self.a(function.captured[decl]))"),
    ("captures numbered backwards", CAPTURES, "return list(function.captured)[::-1]"),
    ("a literal's sources in the order of the function it stands in", "for decl in self.captures(inner)]",
     "for decl in sorted(self.captures(inner), key=lambda decl: self.seen(decl, outer)[1])]"),
    ("captures of an inner literal come after all others", CAPTURES,
     "return sorted(function.captured, key=lambda decl: not any(each == (decl, function) for each in "
     "self.answers.values()))"),
    ("a captured variable is not mutable", ".index(decl), 0, decl.mutable)", ".index(decl), 0, 0)"),
    ("a captured variable is always mutable", ".index(decl), 0, decl.mutable)", ".index(decl), 0, 1)"),
    ("a captured variable cannot be assigned", IMMUTABLE,
     IMMUTABLE + " or self.kind(left) == 50 and self.is_outer(self.lookup(self.a(left)), self.function)"),
    ("arguments are not captured", "return decl.function not in (0, function.row)",
     "return decl.code == LOCAL and decl.function != function.row"),
    ("immutable locals escape", ESCAPES, "if decl.code == LOCAL and decl.function == self.function.row:"),
    ("arguments escape", ESCAPES, "if decl.code != LOCAL or decl.mutable and decl.function == self.function.row:"),
    ("locals of outer functions escape", ESCAPES, "if decl.code == LOCAL and decl.mutable:"),
    ("only assigned locals escape", "            raise No(6, row, self.a(left))\n",
     "            raise No(6, row, self.a(left))\n        self.put = getattr(self, 'put', set()) | "
     "{self.answers.get(left)[:1]"
     " if self.kind(left) == 50 else 0}\n",
     "escaping = sorted(function.escaping)",
     "escaping = sorted(each for each in function.escaping if (each,) in getattr(self, 'put', ()))"),
    ("locals of the unit's first literal escape only", ESCAPES,
     "if decl.code == LOCAL and decl.mutable and decl.function == self.function.row and len(self.open_functions) == 2:"),
    ("an escape for each literal", "self.escaping = set()", "self.escaping = []", ADD_ESCAPE,
     "self.function.escaping.append(decl)"),
    ("an escape for each let", ADD_ESCAPE, "self.function.escaping.add((decl, id(decl)))",
     "escaping = sorted(function.escaping)", "escaping = [decl for decl, _ in sorted(function.escaping)]"),
    ("escapes in the order of the walk", "self.escaping = set()", "self.escaping = {}", ADD_ESCAPE,
     "self.function.escaping.setdefault(decl)", "escaping = sorted(function.escaping)",
     "escaping = list(function.escaping)"),
    ("escapes before captures", "[[row, *decl] for decl in self.captures(function)] + [[row, *decl] for decl in escaping]",
     "[[row, *decl] for decl in escaping] + [[row, *decl] for decl in self.captures(function)]"),
]

SLOT_FAULTS = [
    ("inner functions start at slot 0", PARAMS, "        self.slots[-1] = 0\n" + PARAMS),
    ("scopes start at slot 0", NEW_SLOTS, "self.slots.append(0)"),
    ("siblings take new slots", "        self.slots.pop()\n", "        self.slots[-2:] = [max(self.slots[-2:])]\n"),
    ("a function's slots are not given back", "        self.loops = outer_loops\n        self.close_scope()\n",
     "        self.loops = outer_loops\n        self.slots[-2] = self.slots[-1]\n        self.close_scope()\n"),
    ("a for's slots are not given back", "        self.loops -= 1\n        self.close_scope()\n",
     "        self.loops -= 1\n        self.slots[-2] = self.slots[-1]\n        self.close_scope()\n"),
    ("a for starts at slot 0", LOOP_HEAD, "        self.slots[-1] = 0\n" + LOOP_HEAD),
    ("the local count is the number of lets", LOCALS, "self.function.locals += 1"),
    ("the local count is the last slot's", LOCALS, "self.function.locals = self.slots[-1]"),
    ("the local count is without outer slots", LOCALS,
     "self.function.locals = max(self.function.locals, self.slots[-1] - self.first)", PARAMS,
     "        self.first = self.slots[-1]\n" + PARAMS),
    ("the local count is at least the outer slots", PARAMS, "        function.locals = self.slots[-1]\n" + PARAMS),
    ("an inner function's slots count for the outer", "        return function\n",
     "        for outer in self.open_functions[1:]:\n            outer.locals = max(outer.locals, function.locals)\n"
     "        return function\n"),
    ("a constant let takes a slot", CONSTANT, CONSTANT + "            self.slots[-1] += 1\n"),
    ("a constant let takes a slot and counts", CONSTANT, CONSTANT + "            self.slots[-1] += 1\n            "
     + LOCALS + "\n"),
    ("a constant let takes a global", CONSTANT, CONSTANT + "            self.globals += 1\n"),
    ("a constant let is a local in a function", CONSTANT, "if self.b(row) >= 2 and self.function.is_unit:\n"),
    ("a constant let is mutable", "Decl(GLOBAL, self.b(row) - 2)", "Decl(GLOBAL, self.b(row) - 2, 0, 1)"),
    ("a constant let's global is 2 too high", "Decl(GLOBAL, self.b(row) - 2)", "Decl(GLOBAL, self.b(row))"),
    ("a constant let hides nothing", CONSTANT, CONSTANT
     + "            self.answer(row, Decl(GLOBAL, self.b(row) - 2))\n            return\n        if self.b(row) >= 2:\n"),
    ("parameters take slots", PARAMS, PARAMS + "            self.slots[-1] += 1\n"),
    ("a literal let in a part takes a slot", "            self.answers.setdefault(row, (Decl(NONE), self.function))\n",
     "            self.slots[-1] += row not in self.answers\n"
     "            self.answers.setdefault(row, (Decl(NONE), self.function))\n"),
    ("globals start at 0", "self.globals = self.a(0)", "self.globals = 0"),
    ("each unit's globals start anew", "        for row in self.of_kind(unit, 3):\n",
     "        self.globals = self.a(0)\n        for row in self.of_kind(unit, 3):\n"),
    ("final globals without the start", "len(out), resolver.globals, 0]", "len(out), resolver.globals - rows[0][6], 0]"),
    ("lets in blocks of a unit are locals", "        if self.function.is_unit:\n",
     "        if self.function.is_unit and len(self.scopes) == 4:\n"),
    ("a block's globals are given back", "            self.statement(row)\n        self.close_scope()\n",
     "            self.statement(row)\n        if self.function.is_unit and len(self.scopes) > 4:\n"
     "            self.globals -= sum(each.code == GLOBAL for each in self.scopes[-1].values())\n"
     "        self.close_scope()\n"),
    ("globals numbered in the order of rows", "Decl(GLOBAL, self.globals, 0, mutable)",
     "Decl(GLOBAL, self.a(0) + self.ranks.index(row) if row in self.ranks else self.globals, 0, mutable)",
     "        self.slots = [0]\n", "        self.slots = [0]\n        self.ranks = []\n",
     "    resolver = Resolver(rows)\n", "    first, resolver = Resolver(rows), Resolver(rows)\n    try:\n"
     "        first.walk()\n"
     "    except No:\n        pass\n    resolver.ranks = sorted(row for row, (decl, _) in first.answers.items()"
     " if first.kind(row) == 29 and first.b(row) < 2 and decl.code == GLOBAL)\n"),
    ("globals are not mutable", "Decl(GLOBAL, self.globals, 0, mutable)", "Decl(GLOBAL, self.globals, 0, 0)"),
]

SCOPE_FAULTS = [
    ("a hoisted literal is the function in every function", HOIST_FUNCTION, "if self.b(row) == 0:"),
    ("a mutable hoisted literal of a unit is the function", HOIST_FUNCTION, "if self.function.is_unit:"),
    ("a hoisted literal in a unit's block is a global", HOIST_FUNCTION,
     "if self.function.is_unit and self.b(row) == 0 and len(self.scopes) == 4:"),
    ("hoisted literals are declared where they stand", HOISTS + HOIST_CALL + "        for row in kids:\n",
     HOISTS + HOIST_CALL),
    ("only a unit hoists", HOISTS, HOISTS.replace(":\n", " and self.function.is_unit:\n")),
    ("mutable literals are not hoisted", HOISTS, HOISTS.replace(":\n", " and self.b(row) == 0:\n")),
    ("hoisted backwards", "        for row in kids:\n" + HOISTS, "        for row in kids[::-1]:\n" + HOISTS),
    ("hoisted only before the first other statement", HOISTS,
     HOISTS.replace(":\n", " and all(self.kind(each) == 29 for each in kids[:kids.index(row)]):\n")),
    ("a literal let in a part is declared", "            self.answers.setdefault(row, (Decl(NONE), self.function))\n",
     "            if row not in self.answers:\n                self.answer(row, self.declare_let(row))\n"),
    ("a literal let in a part gives no row", "            self.answers.setdefault(row, (Decl(NONE), self.function))\n", ""),
    ("a literal let in a part asks 7", "        if self.kind(value) == 52:\n            self.answers",
     "        if self.kind(value) == 52:\n            if row not in self.answers and self.a(row) in self.scopes[-1]:\n"
     "                raise No(7, row, self.a(row))\n            self.answers"),
    ("a literal let in a block asks 7 of its own name", "        if self.kind(value) == 52:\n            self.answers",
     "        if self.kind(value) == 52:\n            if row in self.answers and self.a(row) in self.scopes[-2]:\n"
     "                raise No(7, row, self.a(row))\n            self.answers"),
    ("two hoisted are 7", HOIST_CALL, "                if self.a(row) in self.scopes[-1]:\n"
     "                    raise No(7, row, self.a(row))\n" + HOIST_CALL),
    ("a second let is 16", IN_SCOPE, "if False:"),
    ("a let with a hoisted name is 16", IN_SCOPE, "if self.a(row) in self.scopes[-1] and "
     "not any(self.kind(self.kids[each][0]) == 52 and self.a(each) == self.a(row) for each in self.answers"
     " if self.kind(each) == 29):"),
    ("a constant let does not ask 7", IN_SCOPE, "if self.b(row) >= 2:\n            self.scopes[-1].pop(self.a(row), 0)\n"
     "        " + IN_SCOPE),
    ("a let must not hide one of its function", IN_SCOPE, "if self.lookup(self.a(row)).function == self.function.row:"),
    ("a let must not hide a local or argument", IN_SCOPE, "if self.lookup(self.a(row)).function:"),
    ("a let must not hide an import or class of its unit", IN_SCOPE,
     "if self.a(row) in self.scopes[-1] or self.a(row) in self.scopes[1]:"),
    ("a let must not hide a core name", IN_SCOPE, "if self.a(row) in self.scopes[-1] or self.a(row) < 25:"),
    ("a let is open in its value", "    def let(self, row, value):\n        self.expression(value)\n",
     "    def let(self, row, value):\n        if self.kind(value) == 52 or self.a(row) in self.scopes[-1] or self.b(row) "
     ">= 2:\n"
     "            self.expression(value)\n        else:\n            self.answer(row, self.declare_let(row))\n"
     "            self.expression(value)\n            return\n"),
    ("a for opens no scope", "        self.open_scope()\n" + LOOP_HEAD, LOOP_HEAD, "        self.loops -= 1\n"
     "        self.close_scope()\n",
     "        self.loops -= 1\n"),
    ("a for's body has its own scope", "        self.statement(step)\n        self.statement(body)\n",
     "        self.statement(step)\n        self.open_scope()\n        self.statement(body)\n        self.close_scope()\n"),
    ("branches open scopes", "            for part in kids[1:]:\n                self.statement(part)\n",
     "            for part in kids[1:]:\n                self.open_scope()\n                self.statement(part)\n"
     "                self.close_scope()\n"),
    ("an else is not walked", "for part in kids[1:]:", "for part in kids[1:2]:"),
    ("an else is walked before the then", "for part in kids[1:]:", "for part in kids[:0:-1]:"),
    ("a bare body opens a scope", "        self.statement(body)\n        self.open_functions.pop()\n",
     "        self.open_scope()\n        self.statement(body)\n        self.close_scope()\n"
     "        self.open_functions.pop()\n"),
    ("a block body shares the parameters' scope", "        self.statement(body)\n        self.open_functions.pop()\n",
     "        if self.kind(body) == 25 and not function.is_unit:\n            for row in self.kids[body]:\n"
     "                if self.kind(row) == 29 and self.kind(self.kids[row][0]) == 52:\n"
     "                    self.hoist(row, self.kids[row][0])\n            for row in self.kids[body]:\n"
     "                self.statement(row)\n        else:\n            self.statement(body)\n"
     "        self.open_functions.pop()\n"),
    ("the outermost declaration counts", "for scope in reversed(self.scopes):", "for scope in self.scopes:"),
    ("the core counts first", "for scope in reversed(self.scopes):", "for scope in self.scopes[:1] + self.scopes[:0:-1]:"),
    ("a unit's names stay for the next", "        self.walk_function(self.kids[unit][-1], 0)\n        self.close_scope()\n",
     "        self.walk_function(self.kids[unit][-1], 0)\n"),
]

LOOP_FAULTS = [
    ("a step is outside the loop", STEP, "        self.statement(step)\n        self.loops += 1\n"),
    ("an init is in the loop", LOOP_HEAD, "        self.loops += 1\n        self.statement(init)\n        self.loops -= 1\n"
     "        self.expression(test)\n"),
    ("an init in an outer loop is in none", LOOP_HEAD,
     "        outer, self.loops = self.loops, 0\n        self.statement(init)\n        self.loops = outer\n"
     "        self.expression(test)\n"),
    ("loops reach into functions", "outer_loops, self.loops = self.loops, 0", "outer_loops = self.loops"),
    ("loops reach into methods", "outer_loops, self.loops = self.loops, 0",
     "outer_loops, self.loops = self.loops, self.loops if self.a(row) and record else 0"),
    ("a function ends the loop around it", "        self.loops = outer_loops\n", ""),
    ("a loop ends the loop around it", "self.loops -= 1", "self.loops = 0"),
    ("a loop never ends", "        self.loops -= 1\n", ""),
    ("continue is not asked", "if self.loops == 0:", "if self.loops == 0 and kind == 23:"),
    ("break is not asked", "if self.loops == 0:", "if self.loops == 0 and kind == 24:"),
    ("5 is not asked in a unit function", "if self.loops == 0:", "if self.loops == 0 and not self.function.is_unit:"),
    ("the step is walked after the body", "        self.statement(step)\n        self.statement(body)\n",
     "        self.statement(body)\n        self.statement(step)\n"),
    ("the test is walked before the init", LOOP_HEAD, "        self.expression(test)\n        self.statement(init)\n"),
]

ORDER_FAULTS = [
    ("a let's name is asked before its value", "    def let(self, row, value):\n",
     "    def let(self, row, value):\n        if self.kind(value) != 52 and self.a(row) in self.scopes[-1]:\n"
     "            raise No(7, row, self.a(row))\n"),
    ("an assignment is asked before its right side",
     "        if self.kind(left) == 50 and not self.lookup(self.a(left)).mutable:\n"
     "            raise No(6, row, self.a(left))\n",
     "", SIDES,
     "        self.expression(left)\n        if self.kind(left) == 50 and not self.lookup(self.a(left)).mutable:\n"
     "            raise No(6, row, self.a(left))\n        self.expression(right)\n"),
    ("an assignment's right side first", SIDES, "        self.expression(right)\n        self.expression(left)\n"),
    ("a field is registered before the right side", SIDES,
     "        self.expression(left)\n        if self.kind(left) == 54:\n            self.register(self.a(left))\n"
     "        self.expression(right)\n"),
    ("a field is registered before both sides", SIDES,
     "        if self.kind(left) == 54:\n            self.register(self.a(left))\n" + SIDES),
    ("instanceof is asked before its value", "            self.expression(kids[0])\n            self.instance_of(row)\n",
     "            self.instance_of(row)\n            self.expression(kids[0])\n"),
    ("arguments before the callee's checks", "        self.expression(callee)\n        if self.kind(callee) == 50:\n",
     "        self.expression(callee)\n" + ARGS + "        if self.kind(callee) == 50:\n", ARGS + "\n", "\n"),
    ("arguments before the callee", "        self.expression(callee)\n        if self.kind(callee) == 50:\n",
     ARGS + "        self.expression(callee)\n        if self.kind(callee) == 50:\n", ARGS + "\n", "\n"),
    ("arguments backwards", "        for arg in args:\n", "        for arg in args[::-1]:\n"),
    ("arguments of a constructor call are not walked", ARGS,
     "        if self.kind(callee) == 50 and self.lookup(self.a(callee)).code == CLASS:\n            return\n" + ARGS),
    ("arguments of a class method's call are not walked", ARGS,
     "        if self.kind(callee) == 54 and self.kids[callee][0] not in self.answers:\n            return\n" + ARGS),
    ("parts backwards", "            for kid in kids:\n", "            for kid in kids[::-1]:\n"),
    ("methods before the parent", "        record = self.a(row)\n",
     "        record = self.a(row)\n        for method in self.of_kind(record, 6):\n"
     "            self.walk_function(method, 256 + record)\n",
     "            self.parents[256 + record] = parent.index\n        for method in self.of_kind(record, 6):\n"
     "            self.walk_function(method, 256 + record)\n", "            self.parents[256 + record] = parent.index\n"),
    ("methods backwards", "        for method in self.of_kind(record, 6):\n",
     "        for method in self.of_kind(record, 6)[::-1]:\n"),
    ("methods after their unit's function", "        for method in self.of_kind(record, 6):\n"
     "            self.walk_function(method, 256 + record)\n", "",
     "        self.walk_function(self.kids[unit][-1], 0)\n",
     "        self.walk_function(self.kids[unit][-1], 0)\n        for each in self.of_kind(unit, 4):\n"
     "            for method in self.of_kind(each, 6):\n                self.walk_function(method, 256 + each)\n"),
    ("calls before classes", "        resolver.inherit_all()\n        resolver.check_calls()\n",
     "        resolver.check_calls()\n        resolver.inherit_all()\n"),
    ("a unit's classes and calls before the next unit", "            self.walk_unit(unit)\n",
     "            self.walk_unit(unit)\n            if any(self.parents.get(256 + row) == 256 + row for row in "
     "self.of_kind(unit, 4)):\n"
     "                self.inherit_all()\n"),
    ("22 before the calls", "        resolver.check_calls()\n",
     "        if 8 * len(resolver.answer_rows()) > lent:\n            return [[22, 0, 0, 0, 0, 0, 0, 0]]\n"
     "        resolver.check_calls()\n"),
]

CLASS_FAULTS = [
    ("calls in the order of callee rows", "in self.calls:", "in sorted(self.calls, key=lambda call: call[2]):"),
    ("the last call first", "in self.calls:", "in self.calls[::-1]:"),
    ("calls in the order of classes", "in self.calls:", "in sorted(self.calls, key=lambda call: call[0]):"),
    ("inner calls before the outer", ARGS, "        mine = [each for each in self.calls[-1:] if each[2] == callee]\n"
     "        self.calls = self.calls[:len(self.calls) - len(mine)]\n" + ARGS + "        self.calls += mine\n"),
    ("all 20 before any 21", "        for record, count, callee in self.calls:\n",
     "        for record, count, callee in self.calls:\n            if INIT not in self.methods[record]:\n"
     "                raise No(20, callee, self.a(callee))\n"
     "        for record, count, callee in self.calls:\n"),
    ("an inherited init is not seen", "init = self.methods[record].get(INIT)",
     "init = self.named(record - 256, 6).get(INIT) if record > 255 else None"),
    ("the parent's init stands for the own", "init = self.methods[record].get(INIT)",
     "init = self.methods[self.parents.get(record, record)].get(INIT) or self.methods[record].get(INIT)"),
    ("21 wants as many parameters as arguments", INIT_COUNTED, "if len(self.of_kind(init, 11)) != count:"),
    ("21 takes too few arguments", INIT_COUNTED, "if len(self.of_kind(init, 11)) < count + 1:"),
    ("21 takes too many arguments", INIT_COUNTED, "if len(self.of_kind(init, 11)) > count + 1:"),
    ("21 is not asked of an init without parameters", INIT_COUNTED,
     "if len(self.of_kind(init, 11)) not in (0, count + 1):"),
    ("12 for the core records", "if decl.index not in self.methods:", "if decl.index < 256:"),
    ("20 for the core classes", "                raise No(12, callee, self.a(callee))\n",
     "                raise No(20, callee, self.a(callee))\n"),
    ("the name of a core record is 0", "name = self.a(callee)\n            init",
     "name = self.a(callee) if record > 255 else 0\n            init"),
    ("20 names init", "raise No(20, callee, name)", "raise No(20, callee, INIT)"),
    ("20 stands at the call", "raise No(20, callee, name)", f"raise No(20, {above('callee')}, name)"),
    ("21 stands at the call", "raise No(21, callee, name)", f"raise No(21, {above('callee')}, name)"),
    ("20 stands at the class", "raise No(20, callee, name)", "raise No(20, max(record - 256, 0), name)"),
    ("21 stands at init", "raise No(21, callee, name)", "raise No(21, init, name)"),
    ("12 stands at the call", "raise No(12, callee, self.a(callee))", f"raise No(12, {above('callee')}, self.a(callee))"),
    ("13 stands at the call", "raise No(13, callee, name)", f"raise No(13, {above('callee')}, name)"),
    ("14 stands at the call", "raise No(14, callee, name)", f"raise No(14, {above('callee')}, name)"),
    ("17 stands at the call", "raise No(17, callee, name)", f"raise No(17, {above('callee')}, name)"),
    ("13 stands at the base", "raise No(13, callee, name)", "raise No(13, base, name)"),
    ("14 stands at the base", "raise No(14, callee, name)", "raise No(14, base, name)"),
    ("17 stands at the base", "raise No(17, callee, name)", "raise No(17, base, name)"),
    ("13 names the class", "raise No(13, callee, name)", "raise No(13, callee, self.a(base))"),
    ("14 names the class", "raise No(14, callee, name)", "raise No(14, callee, self.a(base))"),
    ("17 names the class", "raise No(17, callee, name)", "raise No(17, callee, self.a(base))"),
    ("a parent's method is seen", "        if name not in self.methods[record]:\n",
     "        while name not in self.methods[record] and self.parents.get(record) in self.methods:\n"
     "            record = self.parents[record]\n        if name not in self.methods[record]:\n"),
    ("a method is not seen before the class declaration", "if name not in self.methods[record]:",
     "if self.methods[record].get(name) not in self.functions:"),
    ("13 is 17 for the core records", "if record not in self.methods:", "if record < 256:"),
    ("a core method without the no of 17", "            raise No(17, callee, name)\n", "            return\n"),
    ("14 where there is neither parameter nor argument", COUNTED, COUNTED.replace(":", " or count == 0:")),
    ("14 is not asked without arguments", COUNTED, COUNTED.replace(":", " and count:")),
    ("14 is not asked without parameters", COUNTED, COUNTED.replace("!= count", "not in (0, count)")),
    ("14 counts one parameter less", COUNTED, COUNTED.replace("count", "count + 1")),
    ("14 takes too few arguments", COUNTED, COUNTED.replace("!=", "<")),
    ("14 takes too many arguments", COUNTED, COUNTED.replace("!=", ">")),
    ("a class's base keeps its row", "        del self.answers[base]\n", ""),
    ("a class loses its row under any member", "            for kid in kids:\n                self.expression(kid)\n",
     "            for kid in kids:\n                self.expression(kid)\n"
     "            if kind == 54 and self.answers.get(kids[0], (0,))[0] and self.answers[kids[0]][0].code == CLASS:\n"
     "                self.method = self.answers.pop(kids[0])\n",
     "        del self.answers[base]\n", ""),
    ("every base loses its row", "            base = self.kids[callee][0]\n",
     "            base = self.kids[callee][0]\n            if self.answers.get(base, (Decl(CLASS),))[0].code != CLASS:\n"
     "                del self.answers[base]\n"),
    ("a method's row stands at the base", "        self.answer(callee, Decl(FUNCTION, method))\n"
     "        del self.answers[base]\n",
     "        self.answer(base, Decl(FUNCTION, method))\n"),
    ("classes in the order of units", "        for row in self.classes:\n            self.inherit(",
     "        for row in [row for unit in self.kids[0] for row in self.of_kind(unit, 4)]:\n            self.inherit("),
    ("classes in the order of declarations", "        for row in self.classes:\n            self.inherit(",
     "        for row in sorted(self.classes, key=lambda row: [self.a(each) for each in range(len(self.rows))"
     " if self.kind(each) == 30].index(row)):\n            self.inherit("),
    ("classes backwards", "        for row in self.classes:\n            self.inherit(",
     "        for row in self.classes[::-1]:\n            self.inherit("),
    ("19 of all classes before any 18", "        done = set(CORE_FIELDS)\n",
     "        done = set(CORE_FIELDS)\n        for row in self.classes:\n"
     "            if self.parents.get(256 + row, 100) not in self.methods:\n"
     "                raise No(19, row, self.a(row))\n"),
    ("18 of all classes before any 19", "                raise No(19, row, self.a(row))\n",
     "                for each in self.classes:\n                    met, at = [], 256 + each\n"
     "                    while at in self.parents and at not in met:\n                        met.append(at)\n"
     "                        at = self.parents[at]\n                    if at in met:\n"
     "                        raise No(18, at - 256, self.a(at - 256))\n                raise No(19, row, self.a(row))\n"),
    ("18 at the class that the climb began with", "            raise No(18, row, self.a(row))\n",
     "            raise No(18, below[0] - 256, self.a(below[0] - 256))\n"),
    ("18 at the class met last", "            raise No(18, row, self.a(row))\n",
     "            raise No(18, below[-1] - 256, self.a(below[-1] - 256))\n"),
    ("18 only for a class that is its own parent or on the circle it began", "        if record in below:\n",
     "        if record in below[1:]:\n            return\n        if record in below:\n"),
    ("18 names the parent", "raise No(18, row, self.a(row))", "raise No(18, row, self.b(row))"),
    ("19 names the parent", "raise No(19, row, self.a(row))", "raise No(19, row, self.b(row))"),
    ("19 for the core records", "            if parent in self.methods:\n", "            if parent > 255:\n"),
    ("19 at the class that the climb began with", "raise No(19, row, self.a(row))",
     "raise No(19, (below + [record])[0] - 256, self.a((below + [record])[0] - 256))"),
    ("a parent's own methods and fields only, where it is not yet through",
     "                self.inherit(parent, done, below + [record])\n",
     "                saved = dict(self.methods), dict(self.fields)\n"
     "                self.inherit(parent, set(done), below + [record])\n"
     "                self.methods, self.fields = saved\n"),
    ("a grandparent's methods are lost", PARENT_METHODS,
     "{**(self.named(parent - 256, 6) if parent > 255 else {}), **self.methods[record]}"),
    ("a grandparent's fields are lost", "            above = self.fields[parent]\n",
     "            above = self.fields[parent]\n            if parent > 255 and parent in self.parents:\n"
     "                above = above[len(self.fields[self.parents[parent]]):]\n"),
    ("own methods first", PARENT_METHODS, "{**self.methods[record], **{name: method for name, method in "
     "self.methods[parent].items() if name not in self.methods[record]}}"),
    ("own methods replaced out of place", PARENT_METHODS, "{**{name: method for name, method in "
     "self.methods[parent].items() if name not in self.methods[record]}, **self.methods[record]}"),
    ("own methods do not replace", PARENT_METHODS, "{**self.methods[parent], **self.methods[record], "
     "**self.methods[parent]}"),
    ("methods are not inherited", PARENT_METHODS, "self.methods[record]"),
    ("own fields first", PARENT_FIELDS, "self.fields[record] + [field for field in above if field not in "
     "self.fields[record]]"),
    ("own fields replaced out of place", PARENT_FIELDS,
     "[field for field in above if field not in self.fields[record]] + self.fields[record]"),
    ("fields of a name twice", PARENT_FIELDS, "above + self.fields[record]"),
    ("own fields by name", PARENT_FIELDS, "above + sorted(field for field in self.fields[record] if field not in above)"),
    ("own fields backwards", PARENT_FIELDS, "above + [field for field in self.fields[record][::-1] if field not in above]"),
    ("a class with grandchildren alone has children", "int(256 + row in self.parents.values())",
     "int(256 + row in [self.parents.get(each) for each in self.parents.values()])"),
    ("a class has children if its own unit has some", "int(256 + row in self.parents.values())",
     f"int(256 + row in [self.parents.get(256 + each) for each in self.of_kind({above('row')}, 4)])"),
    ("a core parent is told as 0", "self.parents.get(256 + row, 0), int(", "self.parents.get(256 + row, 0) "
     "* (self.parents.get(256 + row, 0) > 255), int("),
    ("methods by name", "for name, function in methods.items()]", "for name, function in sorted(methods.items())]"),
    ("fields by name", "for slot, name in enumerate(fields)]", "for slot, name in enumerate(sorted(fields))]"),
    ("class 102 has its fields in 101's order", "102: (21, 19)", "102: (19, 21)"),
    ("class 101 has two fields", "101: (19, 20, 21)", "101: (19, 20)"),
    ("class 100 has eight fields", "100: range(10, 19)", "100: range(10, 18)"),
]

FIELD_FAULTS = [
    ("fields are registered after inheritance", "            fields.append(field)\n",
     "            self.late = getattr(self, 'late', []) + [(self.function.record, field)]\n",
     "        resolver.check_calls()\n", "        resolver.check_calls()\n"
     "        for record, field in getattr(resolver, 'late', []):\n"
     "            if field not in resolver.fields[record]:\n                resolver.fields[record].append(field)\n"),
    ("a literal without class has that of its function", "256 + self.a(row) if self.a(row) else 0",
     "256 + self.a(row) if self.a(row) else self.function.record"),
    ("a literal has the class of its function", "256 + self.a(row) if self.a(row) else 0",
     "self.function.record if self.a(row) else 0"),
    ("a literal has no class", "256 + self.a(row) if self.a(row) else 0", "0"),
    ("a literal's class only in its unit's function", "256 + self.a(row) if self.a(row) else 0",
     "256 + self.a(row) if self.a(row) and self.function.is_unit else 0"),
    ("a member that is read is registered", "            for kid in kids:\n                self.expression(kid)\n",
     "            for kid in kids:\n                self.expression(kid)\n            if kind == 54:\n"
     "                self.register(self.a(row))\n"),
    ("a member under an assigned index is registered", "        if self.kind(left) == 54:\n",
     "        if self.kind(left) == 53 and self.kind(self.kids[left][0]) == 54:\n"
     "            self.register(self.a(self.kids[left][0]))\n"
     "        if self.kind(left) == 54:\n"),
    ("only a member of an identifier is registered", "        if self.kind(left) == 54:\n",
     "        if self.kind(left) == 54 and self.kind(self.kids[left][0]) == 50:\n"),
    ("a field is registered in the outermost function's class", "self.fields.get(self.function.record)",
     "self.fields.get(next((each.record for each in self.open_functions if each.record), 0))"),
    ("fields are registered in the order of rows", "self.register(self.a(left))", "self.register(self.a(left), row)",
     "def register(self, field):", "def register(self, field, row):",
     "            fields.append(field)\n", "            self.late = getattr(self, 'late', []) + [(row, "
     "self.function.record, field)]\n",
     "        done = set(CORE_FIELDS)\n", "        done = set(CORE_FIELDS)\n"
     "        for row, record, field in sorted(getattr(self, 'late', [])):\n"
     "            if field not in self.fields[record]:\n                self.fields[record].append(field)\n"),
    ("new fields stand first", "fields.append(field)", "fields.insert(0, field)"),
    ("a registered field may stand twice", " and field not in fields:", ":"),
    ("the first method's fields only", "self.fields.get(self.function.record)",
     "self.fields.get(self.function.record) if self.function.row == min(self.methods.get(self.function.record, {})"
     ".values(), default=0) else None"),
]

NAME_FAULTS = [
    ("null is 9 though declared", "        if decl.code == NONE:\n", "        if decl.code == NONE or name == NULL:\n"),
    ("null is 8", "raise No(9 if name == NULL else 8, row, name)", "raise No(8, row, name)"),
    ("init undeclared is 9", "9 if name == NULL else 8", "9 if name in (NULL, INIT) else 8"),
    ("8 stands at the statement or expression above", "raise No(9 if name == NULL else 8, row, name)",
     f"raise No(9 if name == NULL else 8, row if name == NULL else {above('row')}, name)"),
    ("9 stands at the statement or expression above", "raise No(9 if name == NULL else 8, row, name)",
     f"raise No(9 if name == NULL else 8, row if name != NULL else {above('row')}, name)"),
    ("10 stands at the value", "raise No(10, row, self.a(row))", "raise No(10, self.kids[row][0], self.a(row))"),
    ("instanceof takes classes with a record only", "        if decl.code != CLASS:\n            raise No(10",
     "        if decl.code != CLASS or decl.index < 100:\n            raise No(10"),
    ("instanceof takes any declared name", "        if decl.code != CLASS:\n            raise No(10",
     "        if decl.code == NONE:\n            raise No(10"),
    ("instanceof sees a hidden class", "        decl = self.lookup(self.a(row))\n        if decl.code != CLASS:\n",
     "        decl = next((scope[self.a(row)] for scope in self.scopes[::-1] if scope.get(self.a(row), Decl(NONE)).code == "
     "CLASS), Decl(NONE))\n"
     "        if decl.code != CLASS:\n"),
    ("a parent sees a hidden class", "parent = self.lookup(self.b(record))",
     "parent = next((scope[self.b(record)] for scope in self.scopes[::-1] if scope.get(self.b(record), Decl(NONE)).code == "
     "CLASS), Decl(NONE))"),
    ("a parent is looked for where the unit begins", "parent = self.lookup(self.b(record))",
     "parent = self.scopes[1].get(self.b(record)) or self.scopes[0].get(self.b(record), Decl(NONE))"),
    ("a parent is looked for in the unit and core first", "parent = self.lookup(self.b(record))",
     "parent = self.scopes[0].get(self.b(record)) or self.lookup(self.b(record))"),
    ("11 stands at the class", "raise No(11, row, self.b(record))", "raise No(11, record, self.b(record))"),
    ("11 names the class", "raise No(11, row, self.b(record))", "raise No(11, row, self.a(record))"),
    ("a called name that hides a class", "            self.constructor_call(callee, self.lookup(self.a(callee)), "
     "len(args))\n",
     "            self.constructor_call(callee, next((scope[self.a(callee)] for scope in self.scopes if self.a(callee) in "
     "scope), "
     "Decl(NONE)), len(args))\n"),
    ("a method of a hidden class", "if self.kind(base) == 50 and self.lookup(self.a(base)).code == CLASS:\n"
     "                self.method_call(callee, base, self.lookup(self.a(base)).index, len(args))\n",
     "seen = next((scope[self.a(base)] for scope in self.scopes[:2] if self.a(base) in scope), Decl(NONE))\n"
     "            if self.kind(base) == 50 and seen.code == CLASS:\n"
     "                self.method_call(callee, base, seen.index, len(args))\n"),
    *[(f"an assigned {what} passes", IMMUTABLE, f"{IMMUTABLE} and self.lookup(self.a(left)).code != {code}")
      for what, code in (("function", "FUNCTION"), ("class", "CLASS"), ("constant", "GLOBAL"), ("parameter", "ARGUMENT"),
                         ("immutable local", "LOCAL"))],
    ("6 stands at the identifier", "raise No(6, row, self.a(left))", "raise No(6, left, self.a(left))"),
    ("6 for an assigned host constant", "        if self.kind(left) == 54:\n",
     "        if self.kind(left) == 51:\n            raise No(6, row, self.a(left))\n        if self.kind(left) == 54:\n"),
    ("6 for an assigned nil or call", "        if self.kind(left) == 54:\n",
     "        if self.kind(left) in (40, 59):\n            raise No(6, row, 0)\n        if self.kind(left) == 54:\n"),
    ("6 for a member of an immutable", "        if self.kind(left) == 54:\n",
     "        base = self.kids[left][:1] or [0]\n        if self.kind(left) in (53, 54) and self.kind(base[0]) == 50 and "
     "not self.lookup(self.a(base[0])).mutable:\n            raise No(6, row, self.a(base[0]))\n"
     "        if self.kind(left) == 54:\n"),
    ("7 stands at the value", "raise No(7, row, self.a(row))", "raise No(7, value, self.a(row))"),
    ("7 stands at the first let", "raise No(7, row, self.a(row))",
     "raise No(7, next((each for each in self.answers if self.kind(each) == 29 and self.a(each) == self.a(row)), row), "
     "self.a(row))"),
    ("16 for a parameter stands at the function", "self.declare(param, self.a(param), Decl(ARGUMENT, index, row))",
     "self.declare(row, self.a(param), Decl(ARGUMENT, index, row))"),
    ("16 for a parameter stands at the first", "self.declare(param, self.a(param), Decl(ARGUMENT, index, row))",
     "self.declare(next(each for each in params if self.a(each) == self.a(param)), self.a(param), Decl(ARGUMENT, index, "
     "row))"),
    ("16 is not asked of parameters", "self.declare(param, self.a(param), Decl(ARGUMENT, index, row))",
     "self.scopes[-1][self.a(param)] = Decl(ARGUMENT, index, row)"),
    ("16 for a class stands at its unit", "self.declare(row, self.a(row), Decl(CLASS, 256 + row))",
     "self.declare(unit, self.a(row), Decl(CLASS, 256 + row))"),
    ("16 for a hoisted let stands at the first", HOIST_CALL,
     "                if self.a(row) in self.scopes[-1]:\n                    raise No(16, next(each for each in kids"
     " if self.kind(each) == 29 and self.a(each) == self.a(row)), self.a(row))\n" + HOIST_CALL),
    ("16 is not asked of mutable hoisted lets", HOIST_CALL,
     "                if self.b(row) == 1:\n                    self.scopes[-1].pop(self.a(row), 0)\n" + HOIST_CALL),
    ("16 is not asked of hoisted functions of a unit", HOIST_CALL,
     "                if self.function.is_unit and self.b(row) == 0:\n                    "
     "self.scopes[-1].pop(self.a(row), 0)\n"
     + HOIST_CALL),
    ("16 for a class with a core name", "        for row in self.of_kind(unit, 4):\n",
     "        for row in self.of_kind(unit, 4):\n            if self.a(row) in CORE:\n"
     "                raise No(16, row, self.a(row))\n"),
    ("15 stands at the name", "raise No(15, row, self.a(kid))", "raise No(15, kid, self.a(kid))"),
    ("15 stands at the imported unit", "raise No(15, row, self.a(kid))", "raise No(15, self.a(row), self.a(kid))"),
    ("16 for a listed name stands at the name", "self.declare(row, self.a(kid), found[0])",
     "self.declare(kid, self.a(kid), found[0])"),
    ("16 for import-all stands at what is imported", "                self.declare(row, name, decl)\n",
     "                self.declare(self.a(row), name, decl)\n"),
    ("17 for a host constant without its name", "raise No(17, row, self.a(row))", "raise No(17, row, 0)"),
    ("17 for a host constant stands above it", "raise No(17, row, self.a(row))", f"raise No(17, {above('row')}, "
     "self.a(row))"),
    ("MAIN_UNIT is true inside the main function's literals", "self.function.row == self.b(0)",
     "self.open_functions[0].row == self.b(0) and not self.function.record"),
    ("MAIN_UNIT is true inside the main unit's methods", "self.function.row == self.b(0)",
     "self.open_functions[0].row == self.b(0) and (self.function.record or self.function.is_unit)"),
    ("MAIN_UNIT is true in every unit's function", "self.function.row == self.b(0)", "self.function.is_unit"),
    ("MAIN_UNIT is true in the first unit's function", "self.function.row == self.b(0)",
     "self.function.row == self.kids[self.kids[0][0]][-1]"),
    ("without a main function the first unit's is", "self.function.row == self.b(0)",
     "self.function.row == (self.b(0) or self.kids[self.kids[0][0]][-1])"),
    ("a let hides MAIN_UNIT as a host constant", "        if self.a(row) != MAIN_UNIT:\n",
     "        if self.a(row) != MAIN_UNIT or self.lookup(MAIN_UNIT).code:\n"),
    ("columns up to 16,384", "MAX_COLUMN = 16383", "MAX_COLUMN = 16384"),
    ("columns up to 16,382", "MAX_COLUMN = 16383", "MAX_COLUMN = 16382"),
    ("columns as they are", "min(column, MAX_COLUMN)", "column"),
    ("columns cut to 14 bits", "min(column, MAX_COLUMN)", "column % 16384"),
    ("lines cut to 32 bits less one", "[file, line, min(", "[file, min(line, 4294967294), min("),
    ("lines cut to 24 bits", "[file, line, min(", "[file, line % 16777216, min("),
    ("files cut to 16 bits", "[file, line, min(", "[file % 65536, line, min("),
]

IMPORT_FAULTS = [
    ("import-all after the listed names", IMPORTS, "".join(reversed(IMPORTS.splitlines(keepends=True)))),
    ("listed names are dropped where all is imported", LISTED_HEAD, LISTED_HEAD
     + "        if self.b(row) == 1:\n            return\n"),
    ("15 is not asked where all is imported", "                raise No(15, row, self.a(kid))\n",
     "                if self.b(row) == 1:\n                    continue\n                raise No(15, row, self.a(kid))\n"
     ""),
    ("16 is not asked of a listed name where all is imported", "            self.declare(row, self.a(kid), found[0])\n",
     "            if self.b(row) == 1:\n                self.scopes[-1].pop(self.a(kid), 0)\n"
     "            self.declare(row, self.a(kid), found[0])\n"),
    ("15 of all names before any 16", LISTED_HEAD, LISTED_HEAD
     + "        for kid in self.kids[row]:\n            if not any(self.a(kid) in table for table in tables):\n"
     "                raise No(15, row, self.a(kid))\n"),
    ("16 of all names before any 15", LISTED_HEAD, LISTED_HEAD
     + "        for kid in self.kids[row]:\n            if self.a(kid) in self.scopes[-1]:\n"
     "                raise No(16, row, self.a(kid))\n"),
    *[(f"import-all brings {what}", ALL_HEAD, ALL_HEAD + f"        tables = [tables[i] for i in {order}] if tables else "
     "[]\n")
      for what, order in ORDERS.items()],
    *[(f"a listed name is looked for among {what}", LISTED_HEAD,
       LISTED_HEAD + f"        tables = [tables[i] for i in {order}] if tables else []\n"
     "") for what, order in ORDERS.items()],
    ("import-all brings each table backwards", "            for name, decl in table.items():\n",
     "            for name, decl in list(table.items())[::-1]:\n"),
    ("import-all brings each table by name", "            for name, decl in table.items():\n",
     "            for name, decl in sorted(table.items()):\n"),
    ("import-all is silent of a name it has brought", "                self.declare(row, name, decl)\n",
     "                if all(self.scopes[-1].get(name) != each.get(name, 0) for each in tables):\n"
     "                    self.declare(row, name, decl)\n"),
    ("import-all is silent of any name that is there", "                self.declare(row, name, decl)\n",
     "                self.scopes[-1].setdefault(name, decl)\n"),
    ("listed names backwards", "        for kid in self.kids[row]:\n            found",
     "        for kid in self.kids[row][::-1]:\n            found"),
    ("a unit sees what it imports of itself", "self.offered(self.a(row)) if self.a(row) != unit else []",
     "self.offered(self.a(row))"),
    ("a unit sees listed names of itself", "        tables = self.offered(self.a(row)) if self.a(row) != unit else []\n"
     "        self.import_all(row, tables)\n",
     "        tables = self.offered(self.a(row))\n        self.import_all(row, tables if self.a(row) != unit else [])\n"),
    ("a unit imports only units before it", "if self.a(row) != unit else []", "if self.a(row) < unit else []"),
    ("imported constants are mutable", "Decl(GLOBAL, self.b(row)) for", "Decl(GLOBAL, self.b(row), 0, 1) for"),
    ("imports after classes", "        for row in self.of_kind(unit, 3):\n            self.walk_import(unit, row)\n",
     "", "            self.declare(row, self.a(row), Decl(CLASS, 256 + row))\n",
     "            self.declare(row, self.a(row), Decl(CLASS, 256 + row))\n"
     "        for row in self.of_kind(unit, 3):\n            self.walk_import(unit, row)\n"),
    ("imports have a scope of their own", "        for row in self.of_kind(unit, 4):\n            self.declare(",
     "        self.open_scope()\n        for row in self.of_kind(unit, 4):\n            self.declare(",
     "        self.walk_function(self.kids[unit][-1], 0)\n",
     "        self.walk_function(self.kids[unit][-1], 0)\n        self.close_scope()\n"),
    ("imports backwards", "        for row in self.of_kind(unit, 3):\n            self.walk_import",
     "        for row in self.of_kind(unit, 3)[::-1]:\n            self.walk_import"),
    ("classes of a unit backwards", "        for row in self.of_kind(unit, 4):\n            self.declare(",
     "        for row in self.of_kind(unit, 4)[::-1]:\n            self.declare("),
    ("a class is imported with its imports", "            {name: Decl(CLASS, 256 + row) for name, row in self.named(unit, "
     "4).items()},\n",
     "            {name: Decl(CLASS, 256 + row) for name, row in [*self.named(unit, 4).items(), *[(name, row) for each in "
     "self.of_kind(unit, 3) if self.b(each) for name, row in self.named(self.a(each), 4).items()]]},\n"),
]

ROOM_FAULTS = [
    ("22 at exactly the lent rows", "8 * len(out) > lent", "8 * len(out) >= lent"),
    ("22 a row late", "8 * len(out) > lent", "8 * len(out) > lent + 8"),
    ("22 counts the printed head too", "8 * len(out) > lent", "8 * len(out) + 8 > lent"),
    ("22 counts sheet rows", "8 * len(out) > lent", "8 * len(rows) > lent"),
    ("22 has the place of the last row", "[[22, 0, 0, 0, 0, 0, 0, 0]]", "[[22, *resolver.position(out[-1][0]), 0, 0, 0, "
     "0]]"),
    ("22 has the count of rows", "[[22, 0, 0, 0, 0, 0, 0, 0]]", "[[22, 0, 0, 0, 0, len(out), 0, 0]]"),
    ("22 has the globals", "[[22, 0, 0, 0, 0, 0, 0, 0]]", "[[22, 0, 0, 0, 0, 0, resolver.globals, 0]]"),
]

DISTANCE = "self.distances[row] = self.distance(decl)"
ANSWER = "        self.capture(self.function, decl, row)\n        self.answer(row, decl)\n"
PUT_DISTANCE = "rows.append([row, *self.seen(*self.answers[row]), self.distances.get(row, 0)])"
NO_FUNCTION = "        if decl.function == 0:\n            return 0\n"
SET_ANSWER = "self.answers[row] = (decl, self.function)"
SOURCES = "[[row, *self.seen(decl, outer)] for decl in self.captures(inner)]"
FAR_SOURCES = "[[row, *self.seen(decl, outer), far] for decl, far in zip(self.captures(inner), self.far[row])]"
SET_SOURCES = "self.literals[row] = (inner, self.function)"
CAPTURED_ROWS = "[[row, *decl] for decl in self.captures(function)]"
FAR_ROWS = "[[row, *decl, function.far[decl]] for decl in self.captures(function)]"
ESCAPE_ROWS = "[[row, *decl] for decl in escaping]"
COUNTS = "counts = [row, 20, function.locals, len(function.captured), len(escaping)]"
END_FUNCTION = "        self.open_functions.pop()\n"
EACH_KID = "            for kid in kids:\n                self.expression(kid)\n"
# expressions in `identifier`
HOW_DEEP = "len(self.open_functions) - 1"
SCOPES_INSIDE = "len(self.scopes) - 1 - max(i for i, scope in enumerate(self.scopes) if name in scope)"
WALKED_SINCE = "len(self.functions) - 1 - list(self.functions).index(decl.function)"
ROWS_SINCE = "sum(decl.function < each and self.kind(each) == 6 for each in range(row))"
FUNCTIONS_OUT = "enumerate(reversed(self.open_functions))"
FIRST_USE = "self.__dict__.setdefault('met', {}).setdefault"
OPEN_IN = "any(open.function == each.row for scope in self.scopes for open in scope.values())"
HOISTED_HERE = "self.__dict__.get('inner', {})"
IN_HOISTED = f"({HOISTED_HERE}.get(decl) in [each.row for each in self.open_functions])"
# changes that others need
FAR = END_FUNCTION, "        function.far = {decl: self.distance(decl) for decl in function.captured}\n" + END_FUNCTION
ABOVE = "    def distance(self, decl):\n", (
    "    def inside(self, row, decl):\n        found = []\n        while row != decl.function:\n            row = " + above("row")
    + "\n            found.append(row)\n        return found\n\n    def distance(self, decl):\n")
HOISTED = "            decl = self.declare_let(row)\n        self.answer(row, decl)\n", (
    "            decl = self.declare_let(row)\n        self.answer(row, decl)\n"
    f"        self.inner = {{**{HOISTED_HERE}, decl: self.kids[literal][0]}}\n")


def told(value):
    """A change: the distance of an identifier is another value, in which `far` is the right one."""
    return DISTANCE, f"far = self.distance(decl)\n        self.distances[row] = {value}"


def counting_kinds(kind, test="far"):
    """A change: rows of a kind count besides the functions, those inside the declaring one, if the test holds."""
    return *ABOVE, *told(f"sum(self.kind(each) in (6, {kind}) for each in self.inside(row, decl)[:-1]) if {test} else 0")


def counting(test):
    """A change: of the functions inside the declaring one, `each`, only some count."""
    return told(f"sum(bool({test}) for each in self.open_functions[len(self.open_functions) - far:])")


def shared(value):
    """A change: a captured identifier has another value, out of those of `of`, its function."""
    return PUT_DISTANCE, ("decl, of = self.answers[row]\n                far = self.distances.get(row, 0)\n"
                          f"                rows.append([row, *self.seen(decl, of), far and {value}])")


def placed(*values):
    """A change: the values of a captured identifier's row, out of `index`, `mutable` and `far`."""
    return PUT_DISTANCE, ("(code, index, function, mutable), far = self.seen(*self.answers[row]), self.distances.get(row, 0)\n"
                          "                here = code == CAPTURED and row in self.distances\n"
                          f"                values = [{', '.join(values)}] if here else [index, function, mutable]\n"
                          "                rows.append([row, code, *values])")


DISTANCE_FAULTS = [
    *[(f"{what} count as functions{where}", *counting_kinds(kind, test))
      for what, kind in (("blocks", 25), ("loops", 27), ("branches", 26), ("expression statements", 20), ("returns", 22))
      for where, test in (("", "far"), (", also in the function itself", "decl.function"))],
    ("a literal counts besides its function", *counting_kinds(52)),
    ("all rows above count", *ABOVE, *told("len(self.inside(row, decl)) if far else 0")),
    ("scopes count", *told(f"{SCOPES_INSIDE} if far else 0")),
    ("scopes count, also in the function itself", *told(f"{SCOPES_INSIDE} if decl.function else 0")),
    ("scopes count for every name", *told(SCOPES_INSIDE)),
    ("functions that have ended count", *told(f"{WALKED_SINCE} if far else 0")),
    ("functions that have ended count, also in the function itself", *told(f"{WALKED_SINCE} if decl.function else 0")),
    ("functions are counted by their rows", *told(f"{ROWS_SINCE} if far else 0")),
    ("functions are counted by their rows, also in the function itself", *told(f"{ROWS_SINCE} if decl.function else 0")),
    ("functions without parameters do not count", *counting("self.of_kind(each.row, 11)")),
    ("functions with parameters do not count", *counting("not self.of_kind(each.row, 11)")),
    ("functions without locals do not count", *counting("each.locals")),
    ("functions without open declarations do not count", *counting(OPEN_IN)),
    ("functions without open declarations do not count, but the innermost", *counting("each is self.function or " + OPEN_IN)),
    ("functions with a class do not count", *counting("not each.record")),
    ("functions with a name do not count", *counting("not self.a(each.row)")),
    ("functions whose body is no block do not count", *counting("self.kind(self.kids[each.row][-1]) == 25")),
    ("functions whose body is a block do not count", *counting("self.kind(self.kids[each.row][-1]) != 25")),
    ("functions that have captured nothing do not count", *counting("each.captured")),
    ("functions that have not yet captured it do not count", *counting("decl in each.captured")),
    ("counted up to the nearest function that has captured it", ANSWER, "        near = next("
     f"(i for i, each in {FUNCTIONS_OUT} if decl in each.captured or each.row == decl.function), 0)\n" + ANSWER, *told("near")),
    ("counted up to the nearest function around that has captured it",
     *told(f"next((i for i, each in {FUNCTIONS_OUT} if i and decl in each.captured or each.row == decl.function), 0)")),
    ("counted up to the outermost function", *told(f"{HOW_DEEP} if far else 0")),
    ("counted up to the outermost function but the unit's", *told(f"{HOW_DEEP} - 1 if far else 0")),
    ("counted from the unit's function to the declaration's", *told(f"{HOW_DEEP} - far if far else 0")),
    ("counted up to the outermost declaration of the name",
     *told("self.distance(next(scope[name] for scope in self.scopes if name in scope)) if far else 0")),
    ("in a method one more", *told("far + any(each.record for each in self.open_functions[1:2]) if far else 0")),
    ("in a literal with a class one more", *told("far + bool(self.function.record) if far else 0")),
    ("one less", *told("max(0, far - 1)")),
    ("one more", *told("far + (far > 0)")),
    ("one more for locals and arguments", *told("far + (decl.function > 0)")),
    ("one more for every name", *told("far + 1")),
    ("one more for arguments", *told("far + (decl.code == ARGUMENT)")),
    ("one more for captured arguments", *told("far + (far > 0 and decl.code == ARGUMENT)")),
    ("one more for captured locals", *told("far + (far > 0 and decl.code == LOCAL)")),
    ("none for captured arguments", *told("far * (decl.code == LOCAL)")),
    ("none for captured locals", *told("far * (decl.code == ARGUMENT)")),
    ("none for mutable ones", *told("far * (not decl.mutable)")),
    ("none for immutable ones", *told("far * decl.mutable")),
    ("none for fixed names", *told("far * (name > 24)")),
    ("none in a loop", *told("far * (self.loops == 0)")),
    ("none in a method", *told("far * (not any(each.record for each in self.open_functions[1:2]))")),
    ("none but for capture 0", *told("far * (far > 0 and list(self.function.captured)[0] == decl)")),
    *[(f"at most {most}", *told(f"min(far, {most})")) for most in (1, 2, 3, 7, 12, 15, 16, 17, 18)],
    ("cut to 3 bits", *told("far % 8")),
    ("cut to 4 bits", *told("far % 16")),
    ("at a function's first use alone", *told("far * (self.function.captured.get(decl) == row)")),
    ("at a declaration's first captured use alone", *told(f"far and far * ({FIRST_USE}(decl, row) == row)")),
    ("not at a function's first use", *told("far * (self.function.captured.get(decl) != row)")),
    ("the first captured use's for all", *told(f"far and {FIRST_USE}(decl, far)")),
    ("the first use's in a function, or in one further in, for the function's others",
     *told("far and self.distances.get(self.function.captured[decl], far)")),
    ("the first use's of a name for all", *told(f"far and {FIRST_USE}(name, far)")),
    ("the last captured use's for all",
     *told("far\n        if far:\n            self.__dict__.setdefault('met', {})[decl] = far"), *shared("self.met[decl]")),
    ("capture 0's for all captures of a function", *FAR, *shared("of.far[next(iter(of.captured))]")),
    ("the farthest of a function's captures for all", *FAR, *shared("max(of.far.values())")),
    ("stale where nothing is captured", *told("far or self.__dict__.get('last', 0)\n        self.last = self.distances[row]")),
    *[(f"also for {what}", NO_FUNCTION, NO_FUNCTION.replace("return 0", f"return ({HOW_DEEP}) * bool({test})"))
      for what, test in (
          ("globals", "decl.code == GLOBAL"), ("mutable globals", "decl.code == GLOBAL and decl.mutable"),
          ("functions", "decl.code == FUNCTION"), ("classes", "decl.code == CLASS"),
          ("classes of the core", "decl.code == CLASS and decl.index < 256"),
          ("a function in itself", "decl.code == FUNCTION and decl.index in [each.row for each in self.open_functions]"))],
    ("also for constants, from the function that they stand in", CONSTANT,
     CONSTANT + "            self.homes = {**self.__dict__.get('homes', {}), Decl(GLOBAL, self.b(row) - 2): self.function.row}\n",
     NO_FUNCTION, "        if decl.function == 0 and decl in self.__dict__.get('homes', {}):\n"
     "            return self.distance(decl._replace(function=self.homes[decl]))\n" + NO_FUNCTION),
    ("1 for what is declared outside of the unit's function",
     *told("far or int(all(name not in scope for scope in self.scopes[2:]))")),
    ("1 for names of the core", *told("far or int(all(name not in scope for scope in self.scopes[1:]))")),
    ("a hoisted literal in itself is one nearer", *HOISTED, *told(f"max(0, far - {IN_HOISTED})")),
    ("a hoisted literal in itself has none", *HOISTED, *told(f"far * (not {IN_HOISTED})")),
    ("a hoisted literal has none", *HOISTED, *told(f"far * (decl not in {HOISTED_HERE})")),
    ("none for an assigned name", SIDES, SIDES + "        self.distances[left] = 0\n"),
    ("none for a called name", "        self.expression(callee)\n        if self.kind(callee) == 50:\n",
     "        self.expression(callee)\n        self.distances[callee] = 0\n        if self.kind(callee) == 50:\n"),
    ("none for an argument of a call", ARGS, ARGS + "            self.distances[arg] = 0\n"),
    ("none for a let's value", "    def let(self, row, value):\n        self.expression(value)\n",
     "    def let(self, row, value):\n        self.expression(value)\n        self.distances[value] = 0\n"),
    ("none for what instanceof asks about", "            self.expression(kids[0])\n            self.instance_of(row)\n",
     "            self.expression(kids[0])\n            self.distances[kids[0]] = 0\n            self.instance_of(row)\n"),
    *[(f"none below {what}", EACH_KID,
       EACH_KID + f"                if kind == {kind}:\n                    self.distances[kid] = 0\n")
      for what, kind in (("an array", 47), ("a pair", 49), ("an index", 53), ("a member", 54), ("a unary", 56), ("a binary", 57),
                         ("a ternary", 58))],
    *[(f"also in source rows{where}", SET_SOURCES,
       f"self.far = {{**self.__dict__.get('far', {{}}), row: [{more} + self.distance(decl) for decl in inner.captured]}}\n"
       "        " + SET_SOURCES, SOURCES, FAR_SOURCES)
      for where, more in (("", 0), (", from the literal's function", 1))],
    ("1 in source rows that are captured", SOURCES,
     "[[row, *self.seen(decl, outer), int(self.is_outer(decl, outer))] for decl in self.captures(inner)]"),
    ("also in rows of captured declarations", *FAR, CAPTURED_ROWS, FAR_ROWS),
    ("only in rows of captured declarations", *FAR, CAPTURED_ROWS, FAR_ROWS, *told("0")),
    ("1 in rows of escapes", ESCAPE_ROWS, "[[row, *decl, 1] for decl in escaping]"),
    ("a function's depth in its row", END_FUNCTION, f"        function.deep = {HOW_DEEP}\n" + END_FUNCTION,
     COUNTS, COUNTS.replace("]", ", function.deep]")),
    *[(f"{what} depth in its row", SET_ANSWER,
       f"{SET_ANSWER}\n        if self.kind(row) == 29 and {test}:\n            self.distances[row] = {HOW_DEEP}")
      for what, test in (("a let's", "True"), ("a local let's", "decl.code == LOCAL"))],
    ("also for instanceof", "            raise No(10, row, self.a(row))\n",
     f"            raise No(10, row, self.a(row))\n        self.distances[row] = {HOW_DEEP}\n"),
    ("also for host constants", "            raise No(17, row, self.a(row))\n",
     f"            raise No(17, row, self.a(row))\n        self.distances[row] = {HOW_DEEP}\n"),
    ("also for a method called on a class", "        del self.answers[base]\n",
     f"        del self.answers[base]\n        self.distances[callee] = {HOW_DEEP}\n"),
    ("as value two", *placed("index", "far", "mutable")),
    ("as value three", *placed("index", "0", "far")),
    ("as value three, if that is not mutable", *placed("index", "0", "mutable or far")),
    ("as value five", *placed("index", "0", "mutable", "0", "far")),
    ("as value six", *placed("index", "0", "mutable", "0", "0", "far")),
    ("as values four and five", *placed("index", "0", "mutable", "far", "far")),
    ("for the index", *placed("far", "0", "mutable")),
    ("for the index, and that for it", *placed("far", "0", "mutable", "index")),
    ("the index in its place", *placed("index", "0", "mutable", "index")),
    ("mutable in its place", *placed("index", "0", "mutable", "mutable")),
    ("1 in its place", *placed("index", "0", "mutable", "1")),
    ("0 in its place", *placed("index", "0", "mutable", "0")),
    ("the number of captures in its place", *placed("index", "0", "mutable", "len(self.answers[row][1].captured)")),
    ("mutable is lost where it is above 1", *placed("index", "0", "mutable * (far < 2)", "far")),
]
DISTANCE_FAULTS = [(f"distance: {what}", *changes) for what, *changes in DISTANCE_FAULTS]

RESOLVER = [*CAPTURE_FAULTS, *SLOT_FAULTS, *SCOPE_FAULTS, *LOOP_FAULTS, *ORDER_FAULTS, *CLASS_FAULTS, *FIELD_FAULTS,
            *NAME_FAULTS, *IMPORT_FAULTS, *ROOM_FAULTS, *DISTANCE_FAULTS]

TEXT = [
    ("numbers of any size", " and int(field) <= MAX_WORD", ""),
    ("numbers below the largest word", "int(field) <= MAX_WORD", "int(field) < MAX_WORD"),
    ("numbers modulo 2^32", " and int(field) <= MAX_WORD", "", "[int(field) for field in fields]",
     "[int(field) % 2**32 for field in fields]"),
    ("spaces after a number", 'line[i:i + 10].lstrip(b" ")', 'line[i:i + 10].strip(b" ")'),
    ("spaces in a number", 'line[i:i + 10].lstrip(b" ")', 'line[i:i + 10].replace(b" ", b"")'),
    ("tabs for spaces", 'line[i:i + 10].lstrip(b" ")', 'line[i:i + 10].lstrip(b" \\t")'),
    ("a line's end for a space", 'line[i:i + 10].lstrip(b" ")', 'line[i:i + 10].lstrip(b" \\n")'),
    ("zero bytes for spaces", 'line[i:i + 10].lstrip(b" ")', 'line[i:i + 10].lstrip(b" \\0")'),
    ("a sign before a number", 'line[i:i + 10].lstrip(b" ")', 'line[i:i + 10].lstrip(b" ").removeprefix(b"+")'),
    ("a minus before a number", 'line[i:i + 10].lstrip(b" ")', 'line[i:i + 10].lstrip(b" ").removeprefix(b"-")'),
    ("an empty field is 0", 'line[i:i + 10].lstrip(b" ")', 'line[i:i + 10].lstrip(b" ") or b"0"'),
    ("the byte before 0 is a digit", "48 <= byte <= 57", "47 <= byte <= 57", "[int(field) for",
     "[int(field.replace(b'/', b'0')) for", "int(field) <= MAX_WORD", "True"),
    ("the byte after 9 is a digit", "48 <= byte <= 57", "48 <= byte <= 58", "[int(field) for",
     "[int(field.replace(b':', b'9')) for", "int(field) <= MAX_WORD", "True"),
    ("a number ends at another byte", "all(48 <= byte <= 57 for byte in field)", "48 <= field[0] <= 57", "int(field) <= "
     "MAX_WORD",
     "True", "[int(field) for", "[int(re.match(rb'[0-9]*', field)[0]) for", "FIXED = (", "import re\nFIXED = ("),
    ("leading zeros are accepted", '(field == b"0" or field[0] != 48)', "True"),
    ("zero is refused", '(field == b"0" or field[0] != 48)', "field[0] != 48"),
    ("two zeros are zero", 'field == b"0"', 'field in (b"0", b"00")'),
    ("any zeros are zero", 'field == b"0"', 'field.strip(b"0") == b""'),
    ("ten zeros are zero", 'field == b"0"', 'field in (b"0", 10 * b"0")'),
    ("one leading zero is accepted", "field[0] != 48", 'field[:2] != b"00"'),
    ("two leading zeros are accepted", "field[0] != 48", 'field[:2] == b"00" or field[0] != 48'),
    ("leading zeros are accepted in ten digits", "field[0] != 48", "len(field) == 10 or field[0] != 48"),
    ("leading zeros are accepted in fewer than ten digits", "field[0] != 48", "len(field) < 10 or field[0] != 48"),
    ("a zero at the end is refused", "field[0] != 48", "field[0] != 48 and field[-1] != 48"),
    ("a zero inside is refused", "field[0] != 48", "field[0] != 48 and 48 not in field[1:-1]"),
    ("nine digits are refused", 'digits = field != b""', 'digits = field != b"" and len(field) != 9'),
    ("ten digits are refused", 'digits = field != b""', 'digits = field != b"" and len(field) < 10'),
    *((f"leading zeros are accepted in column {c}", "all(is_number(field) for field in fields)",
       f"all(is_number((field.lstrip(b'0') or b'0') if c == {c} else field) for c, field in enumerate(fields))")
      for c in range(8)),
    ("a line may end with any byte", " or line[80] != 10", ""),
    ("a line may end with a return", "line[80] != 10", "line[80] not in (10, 13)"),
    ("the last line needs no end", "        line = text[start:start + 81]\n",
     "        line = text[start:start + 81]\n        line += b'\\n' * (len(line) == 80)\n"),
    ("what stands after the last whole line is dropped", "    for start in range(0, len(text), 81):\n",
     "    for start in range(0, len(text) // 81 * 81, 81):\n"),
    ("an empty line at the end is dropped", "    words = []\n", "    words = []\n    text = text.rstrip(b'\\n') + b'\\n'\n"
     ""),
    ("2,047 rows at most", "MAX_ROWS = 2048", "MAX_ROWS = 2047"),
    ("1,023 names at most", "len(all_names) > 1024", "len(all_names) > 1023"),
    ("1,025 names at most", "len(all_names) > 1024", "len(all_names) > 1025"),
    ("32,767 bytes of names at most", "len(names) > 32768", "len(names) > 32767"),
    ("32,769 bytes of names at most", "len(names) > 32768", "len(names) > 32769"),
    ("names of at most 254 bytes", "len(name) <= 255", "len(name) <= 254"),
    ("names of at most 256 bytes", "len(name) <= 255", "len(name) <= 256"),
    ("depths of at most 63", "MAX_DEPTH = 64", "MAX_DEPTH = 63"),
    ("depths of at most 65", "MAX_DEPTH = 64", "MAX_DEPTH = 65"),
    ("999,999 starting globals at most", "MAX_GLOBALS = 1_000_000", "MAX_GLOBALS = 999_999"),
    ("1,000,001 starting globals at most", "MAX_GLOBALS = 1_000_000", "MAX_GLOBALS = 1_000_001"),
    ("files below 262,143", "MAX_FILES = 262_144", "MAX_FILES = 262_143"),
    ("files below 262,145", "MAX_FILES = 262_144", "MAX_FILES = 262_145"),
]

RISE = '        need(all(row < link < len(self.rows) for row, link in links), "a link to no higher row")\n'
ONCE = "sorted(link for _, link in links) == list(range(1, len(self.rows)))"
ALL_APART = "len(set(FIXED + all_names)) == len(FIXED) + len(all_names)"
APART = "kinds = {2: (4, 7, 8), 4: (10, 6)}.get(self.kind(row), ())"
LET = 'return value < 2 or not literal and self.column_fits(row, value - 2, "global")'
IN_UNIT = "        need(function == self.kids_of_kind(unit, 6)[0], "
AFTER_METHODS = "        for method in self.kids_of_kind(class_row, 6):\n"
ANY_HOLDER = ("function == self.kids_of_kind(unit, 6)[0]", "function in self.kids_of_kind(unit, 6) or self.kind(unit) != 2")
RULE = 'rule = rules.get(kind, "zero")'
DEPTH = "depth[row] = depth[self.parent[row]] + 1"
ANY_DEPTH = "depth[row] = depth.get(self.parent.get(row), 0) + 1"
KIDS_END = ("            while kid != 0:", "            while kid != 0 and kid < len(self.rows):")
FIRST_NO = "    if not rows_fit(words):\n        return 1\n    if not names_fit(names):\n        return 2\n"
CHECKED = "    try:\n        sheet.check()\n    except Unfit:\n        return 3\n"

FORMAT = [
    ("2,047 rows at most", "MAX_ROWS = 2048", "MAX_ROWS = 2047"),
    ("2,049 rows at most", "MAX_ROWS = 2048", "MAX_ROWS = 2049"),
    ("no rows pass", "    if not rows_fit(words):\n", "    if not words:\n        return 0\n    if not rows_fit(words):\n"),
    ("rows need not be whole", "len(words) % 8 == 0 and ", ""),
    ("1,023 names at most", "len(all_names) > 1024", "len(all_names) > 1023"),
    ("1,025 names at most", "len(all_names) > 1024", "len(all_names) > 1025"),
    ("32,767 bytes of names at most", "len(names) > 32768", "len(names) > 32767"),
    ("32,769 bytes of names at most", "len(names) > 32768", "len(names) > 32769"),
    ("bytes of names are counted without ends", "len(names) > 32768", "len(names) - len(all_names) > 32768"),
    ("names of at most 254 bytes", "len(name) <= 255", "len(name) <= 254"),
    ("names of at most 256 bytes", "len(name) <= 255", "len(name) <= 256"),
    ("empty names", "not 1 <= len(name)", "not 0 <= len(name)"),
    ("an empty name first", "for name in all_names):", "for name in all_names[1:]):"),
    ("an empty name last", "for name in all_names):", "for name in all_names[:-1]):"),
    ("the last name needs no end", "names and names[-1] != 10", "False"),
    ("a listed name may be a fixed one", ALL_APART, "len(set(all_names)) == len(all_names)"),
    ("a listed name may be MAIN_UNIT", ALL_APART, ALL_APART.replace("FIXED", "FIXED[:-1]")),
    ("a listed name may be Int64", ALL_APART, ALL_APART.replace("FIXED", "FIXED[1:]")),
    ("a listed name may be null", ALL_APART, ALL_APART.replace("FIXED", "(FIXED[:21] + FIXED[22:])")),
    ("a listed name may stand twice", ALL_APART, "not set(FIXED) & set(all_names)"),
    ("only neighbours are compared", ALL_APART,
     "not set(FIXED) & set(all_names) and all(x != y for x, y in zip(all_names, all_names[1:]))"),
    ("only the first name is compared", ALL_APART, "not set(FIXED) & set(all_names) and all_names[:1] not in "
     "[[name] for name in all_names[1:]]"),
    ("names are compared without case", ALL_APART, ALL_APART.replace("(FIXED + all_names)",
                                                                     "(name.lower() for name in FIXED + all_names)")),
    ("names are compared by four bytes", ALL_APART, "len(set(name[:4] for name in all_names)) == len(all_names)"),
    ("names are compared by their length's first bytes", ALL_APART,
     "not any(x != y and x.startswith(y) for x in all_names for y in FIXED) and " + ALL_APART),
    ("names before rows", FIRST_NO, "    if not names_fit(names):\n        return 2\n    if not rows_fit(words):\n"
     "        return 1\n"),
    ("rows before names", FIRST_NO, "    if not rows_fit(words):\n        return 1\n", CHECKED, CHECKED
     + "    if not names_fit(names):\n        return 2\n"),
    ("depth before rows", CHECKED, "    try:\n        sheet.check_links()\n        sheet.find_tree()\n"
     "        if not sheet.depths_fit():\n"
     "            return 4\n        sheet.check()\n    except Unfit:\n        return 3\n"),
    ("depths of at most 63", "MAX_DEPTH = 64", "MAX_DEPTH = 63"),
    ("depths of at most 65", "MAX_DEPTH = 64", "MAX_DEPTH = 65"),
    ("the first unit's depth only", "return max(depth.values()) <= MAX_DEPTH",
     "return max(depth[row] for row in [0] + self.subtree(self.rows[0][2] or 0)) <= MAX_DEPTH"),
    ("a link to the row itself", "row < link < len(self.rows)", "row <= link < len(self.rows)", DEPTH, ANY_DEPTH),
    ("a next link to the row itself", "row < link < len(self.rows)",
     "(row < link or row == link == self.rows[row][1]) and link < len(self.rows)", DEPTH, ANY_DEPTH),
    ("a child link to the row itself", "row < link < len(self.rows)",
     "(row < link or row == link == self.rows[row][2]) and link < len(self.rows)", DEPTH, ANY_DEPTH),
    ("a falling link", "row < link < len(self.rows)", "row != link < len(self.rows)", DEPTH, ANY_DEPTH),
    ("a falling next link", "row < link < len(self.rows)",
     "(row < link or row > link == self.rows[row][1]) and link < len(self.rows)", DEPTH, ANY_DEPTH),
    ("a falling child link", "row < link < len(self.rows)",
     "(row < link or row > link == self.rows[row][2]) and link < len(self.rows)", DEPTH, ANY_DEPTH),
    ("a link past the last row", RISE, RISE.replace("< len", "<= len"), ONCE,
     "sorted(link for _, link in links if link < len(self.rows)) == list(range(1, len(self.rows)))", *KIDS_END),
    ("any link past the last row is none", RISE, RISE.replace(" < len(self.rows)", ""), ONCE,
     "sorted(link for _, link in links if link < len(self.rows)) == list(range(1, len(self.rows)))", *KIDS_END),
    ("a row linked twice", ONCE, "set(link for _, link in links) == set(range(1, len(self.rows)))"),
    ("a row linked never", ONCE, "len(set(link for _, link in links)) == len(links)", DEPTH, ANY_DEPTH),
    ("any header kind", "kind == 0 and following == 0", "following == 0"),
    ("a header with a next", "kind == 0 and following == 0", "kind == 0", DEPTH, ANY_DEPTH),
    ("999,999 starting globals at most", "MAX_GLOBALS = 1_000_000", "MAX_GLOBALS = 999_999"),
    ("1,000,001 starting globals at most", "MAX_GLOBALS = 1_000_000", "MAX_GLOBALS = 1_000_001"),
    ("a main function of any sort", " and self.b(main) == 1", ""),
    ("a main row of any sort", "self.is_row_of(main, 6) and self.b(main) == 1", "main < len(self.rows) and self.b(main) "
     "== 1"),
    ("the main function is the first unit's", "self.is_row_of(main, 6) and self.b(main) == 1",
     "main == self.kids[self.kids[0][0]][-1]"),
    ("there is a main function", "need(main == 0 or ", "need("),
    ("files below 262,143", "MAX_FILES = 262_144", "MAX_FILES = 262_143"),
    ("files below 262,145", "MAX_FILES = 262_144", "MAX_FILES = 262_145"),
    ("the header's file is free", "need(self.rows[row][3] < MAX_FILES", "need(row == 0 or self.rows[row][3] < MAX_FILES"),
    ("the last row's file is free", "need(self.rows[row][3] < MAX_FILES",
     "need(row == len(self.rows) - 1 or self.rows[row][3] < MAX_FILES"),
    ("lines below 2^31", "need(self.rows[row][3] < MAX_FILES", "need(self.rows[row][4] < 2**31 and self.rows[row][3] < "
     "MAX_FILES"),
    ("columns up to 16,383", "need(self.rows[row][3] < MAX_FILES", "need(self.rows[row][5] < 16384 and self.rows[row][3] "
     "< MAX_FILES"),
    ("names without the last", "1 <= value <= self.name_count", "1 <= value < self.name_count"),
    ("names with one more", "1 <= value <= self.name_count", "1 <= value <= self.name_count + 1"),
    ("listed names only", "1 <= value <= self.name_count", "25 <= value <= self.name_count"),
    ("constants at the starting count", '"global": value < self.a(0)', '"global": value <= self.a(0)'),
    ("constants below the starting count less one", '"global": value < self.a(0)', '"global": value < self.a(0) - 1'),
    ("flags up to 2", '"flag": value <= 1', '"flag": value <= 2'),
    ("constant lets of global 0 only", LET, LET.replace("value < 2 or not literal and self", "value < 3 and (value < 2 or "
     "not "
                                                        "literal) and value < 2 or value == 2 and not literal and self")),
    ("constant lets up to one more", LET, LET.replace("value - 2", "max(value - 3, 0)")),
    ("a literal as constant let", LET, LET.replace("not literal and ", "")),
    ("a mutable literal let is refused", LET, LET.replace("value < 2 or", "value < 2 - literal or")),
    ("two classes of a name", APART, APART.replace("(4, 7, 8)", "(7, 8)")),
    ("two function exports of a name", APART, APART.replace("(4, 7, 8)", "(4, 8)")),
    ("two constant exports of a name", APART, APART.replace("(4, 7, 8)", "(4, 7)")),
    ("two fields of a name", APART, APART.replace("(10, 6)", "(6,)")),
    ("two methods of a name", APART, APART.replace("(10, 6)", "(10,)")),
    ("two parameters of a name are refused", APART, APART.replace("(10, 6)", "(10, 6), 6: (11,)")),
    ("two listed names alike are refused", APART, APART.replace("(10, 6)", "(10, 6), 3: (9,)")),
    ("exports and classes of one name are refused", "            for kind in kinds:\n",
     "            together = [self.a(kid) for kid in self.kids[row] if self.kind(kid) in kinds] if len(kinds) == 3 else "
     "[]\n"
     "            need(len(set(together)) == len(together), 'a name twice')\n            for kind in kinds:\n"),
    ("a field and a method of one name are refused", "            for kind in kinds:\n",
     "            together = [self.a(kid) for kid in self.kids[row] if self.kind(kid) in kinds] if len(kinds) == 2 else "
     "[]\n"
     "            need(len(set(together)) == len(together), 'a name twice')\n            for kind in kinds:\n"),
    ("classes of one name in two units are refused", "    def check_distinct_names(self):\n",
     "    def check_distinct_names(self):\n        names = [self.a(row) for row in range(len(self.rows)) if "
     "self.kind(row) == 4]\n"
     "        need(len(set(names)) == len(names), 'a name twice')\n"),
    ("a class declared never", "sorted(declared) == classes", "sorted(declared) == sorted(set(declared) & set(classes))"),
    ("a class declared twice", "sorted(declared) == classes", "sorted(set(declared)) == classes"),
    ("a class declared in any function of its unit", IN_UNIT, "        need(self.above(row, 2) == unit, "),
    ("a class declared in a literal of its unit", IN_UNIT,
     "        need(self.above(row, 2) == unit and self.kind(self.parent[function]) != 4, "),
    ("a class declared in a method of its unit", IN_UNIT,
     "        need(self.above(row, 2) == unit and self.kind(self.parent[function]) != 52, "),
    ("a class declared in any unit's function", IN_UNIT, "        need(self.kind(self.parent[function]) == 2, "),
    ("a class declared in the unit's block only", IN_UNIT, "        need(self.kids[self.parent[row]] and "
     "self.parent[row] == self.kids[self.kids_of_kind(unit, 6)[0]][0], "),
    ("a class declared in a loop or branch is refused", IN_UNIT, "        need(self.kind(self.parent[row]) == 25, "),
    ("a class declaration after the methods' own rows", "max(self.subtree(method)) < row", "method < row"),
    ("a class declaration after the first method's rows", AFTER_METHODS,
     "        for method in self.kids_of_kind(class_row, 6)[:1]:\n"),
    ("a class declaration after the last method's rows", AFTER_METHODS,
     "        for method in self.kids_of_kind(class_row, 6)[-1:]:\n"),
    ("a class declaration after the field rows too", AFTER_METHODS, "        for method in self.kids[class_row]:\n"),
    ("a class declaration after the methods of the unit", AFTER_METHODS,
     "        for method in [kid for each in self.kids_of_kind(unit, 4) for kid in self.kids_of_kind(each, 6)]:\n"),
    ("classes are declared in their order", "need(sorted(declared) == classes", "need(declared == classes"),
    ("a method without name", "need(self.a(row) != 0, ", "need(True, "),
    ("a literal's function has no name", "            if holder == 4:\n", "            if holder == 52:\n"
     "                need(self.a(row) == 0, 'name')\n            if holder == 4:\n"),
    ("a unit function has no name", "            if holder == 4:\n", "            if holder == 2:\n"
     "                need(self.a(row) == 0, 'name')\n            if holder == 4:\n"),
    ("a unit function with parameters", "need([self.kind(kid) for kid in self.kids[row]] == [25]",
     "need([self.kind(kid) for kid in self.kids[row]][-1:] == [25]"),
    ("a unit function with any body", "need([self.kind(kid) for kid in self.kids[row]] == [25]",
     "need(len(self.kids[row]) == 1"),
    ("b 1 at a method", "need(self.b(row) == (holder == 2)", "need(self.b(row) == (holder == 2) or holder == 4"),
    ("b 1 at a literal's function", "need(self.b(row) == (holder == 2)", "need(self.b(row) == (holder == 2) or holder == "
     "52"),
    ("b 0 at a unit's function", "need(self.b(row) == (holder == 2)", "need(self.b(row) <= (holder == 2)"),
    ("a literal's class of any unit", "need(self.above(row, 2) == self.parent[self.a(row)]", "need(True"),
    ("a literal's class is that of the method it stands in", "need(self.above(row, 2) == self.parent[self.a(row)]",
     "need(self.parent[self.above(row, 6)] == self.a(row)"),
]

KIND_NAMES = {
    0: "header", 2: "unit", 3: "import", 4: "class", 6: "function", 7: "function export", 8: "constant export", 9:
     "listed name",
    10: "field", 11: "parameter", 20: "expression statement", 21: "assign", 22: "return", 23: "break", 24: "continue",
     25: "block",
    26: "if", 27: "for", 28: "assert", 29: "let", 30: "class declaration", 40: "nil", 41: "true", 42: "false", 43:
     "integer",
    44: "float", 45: "string", 46: "bytes", 47: "array", 48: "dict", 49: "pair", 50: "identifier", 51: "host constant",
    52: "literal", 53: "index", 54: "member", 55: "instanceof", 56: "unary", 57: "binary", 58: "ternary", 59: "call",
}
SORT_NAMES = {"E": "expression", "S": "statement", "U": "unit", "N": "listed name", "P": "pair", "F": "function", "I":
     "import",
              "X": "function export", "G": "constant export", "C": "class", "D": "field", "A": "parameter"}
# The rule of columns, told by both lists.
COLUMNS = [
    ("places by row", "out[c * rows + r] =", "out[ROW * r + c] ="),
    ("the row less the link", "(word - r) % WORDS", "(r - word) % WORDS"),
    ("links as they are", "(word - r) % WORDS", "word"),
    ("a link of 0 stays", "(word - r) % WORDS", "(word and (word - r) % WORDS)"),
    ("a row too much off", "(word - r) % WORDS", "(word - r - 1) % WORDS"),
    ("only next is a link", "LINKS = (1, 2)", "LINKS = (1,)"),
    ("only child is a link", "LINKS = (1, 2)", "LINKS = (2,)"),
    ("file is a link", "LINKS = (1, 2)", "LINKS = (1, 2, 3)"),
    ("the kind is a link", "LINKS = (1, 2)", "LINKS = (0, 1, 2)"),
    ("b is a link", "LINKS = (1, 2)", "LINKS = (1, 2, 7)"),
    ("modulo 2^31", "WORDS = 2**32", "WORDS = 2**31"),
    ("modulo 2^32 - 1", "WORDS = 2**32", "WORDS = 2**32 - 1"),
    ("the way back takes off", "(word + r) % WORDS", "(word - r) % WORDS"),
    ("the way back has links as they are", "(word + r) % WORDS", "word"),
    ("the way back keeps a link of 0", "(word + r) % WORDS", "(word and (word + r) % WORDS)"),
    ("the way back reads rows", "columns = [words[c * rows:(c + 1) * rows] for c in range(ROW)]", "columns = [words[c::ROW] for c in range(ROW)]"),
    ("no zeros after the source", "way(source) + [0] * (lent - len(source))", "way(source)"),
    ("22 before 1", "    if len(source) % ROW != 0", "    if lent < len(source) and len(source) % ROW == 0:\n        return 22, [0] * lent\n    if len(source) % ROW != 0"),
    ("no rows are a sheet", "not 1 <= len(source)", "not 0 <= len(source)"),
    ("2,047 rows at most", "MOST_ROWS = 2048", "MOST_ROWS = 2047"),
    ("2,049 rows at most", "MOST_ROWS = 2048", "MOST_ROWS = 2049"),
    ("an exact target is too short", "if lent < len(source):", "if lent <= len(source):"),
    ("a target a row short is enough", "if lent < len(source):", "if lent + ROW < len(source):"),
]

# The name index: of find_cases.py.
FINDING = [
    ("the product before the exclusive-or", "v = (v ^ byte) * 16777619 % 2**32", "v = v * 16777619 % 2**32 ^ byte"),
    ("the sum for the exclusive-or", "(v ^ byte)", "(v + byte)"),
    ("another start", "v = 2166136261", "v = 2166136262"),
    ("another prime", "16777619", "16777617"),
    ("bytes with a sign", "(v ^ byte)", "((v ^ (byte - 256 if byte > 127 else byte)) % 2**32)"),
    ("the end byte is hashed", "for byte in name:", "for byte in name + b'\\n':"),
    ("the first byte is left out", "for byte in name:", "for byte in name[1:]:"),
    ("2,047 places", "PLACES = 2048", "PLACES = 2047"),
    ("4,096 places", "PLACES = 2048", "PLACES = 4096"),
    ("the high bits choose the place", "place = value(name) % PLACES", "place = value(name) >> 21"),
    ("names of one value are one", "places[place][0] != name", "value(places[place][0]) != value(name)"),
    ("places read from 0", "    read = 1\n", "    read = 0\n"),
    ("the last place is not counted", "    return place, read\n", "    return place, max(1, read - 1)\n"),
    ("the walk goes down", "place = (place + 1) % PLACES", "place = (place - 1) % PLACES"),
    ("every third place", "place = (place + 1) % PLACES", "place = (place + 3) % PLACES"),
    ("the last place is passed over", "place = (place + 1) % PLACES", "place = (place + 1) % (PLACES - 1)"),
    ("fixed names are not entered", "enumerate(FIXED + listed(names), 1)", "enumerate(listed(names), 25)"),
    ("fixed names are entered last", "for number, name in enumerate(FIXED + listed(names), 1):",
     "for number, name in [*enumerate(listed(names), 25), *enumerate(FIXED, 1)]:"),
    ("names are entered backwards", "enumerate(FIXED + listed(names), 1):", "[*enumerate(FIXED + listed(names), 1)][::-1]:"),
    ("numbers from 0", "enumerate(FIXED + listed(names), 1)", "enumerate(FIXED + listed(names), 0)"),
    ("a refused list is searched", "    if not names_fit(names):\n        return 0, 0\n", ""),
    ("a refused list takes a place", "        return 0, 0\n", "        return 0, 1\n"),
    ("the place for the number", "(places[place][1] if places[place] else 0), read", "(place if places[place] else 0), read"),
    ("number and places exchanged", "[*find(names, name), 0,", "[*find(names, name)[::-1], 0,"),
]

# The order of units: of order_cases.py. That a list is cleared after a refusal does not show over the pipe.
STEP = "        started.append(min(u for u, vs in imports.items() if u not in done and vs <= done))\n"
CIRCLING = "circling = [u for u, vs in led_to(imports).items() if u in vs]"
ADD_IMPORT = "units[u].add(rows[kid][A])"
AT_CIRCLE = "[[CIRCLE, row[FILE], row[LINE], min(row[COLUMN], MAX_COLUMN), 0, 0, 0, 0]]"
TOO_SHORT = "    if lent < len(imports):\n        return [[ROOM, 0, 0, 0, 0, 0, 0, 0]]\n"
ORDERING = [
    ("layer by layer", STEP, "        started += [u for u, vs in imports.items() if u not in done and vs <= done]\n"),
    ("in the order of becoming ready", STEP,
     "        queue = [u for u in imports if not imports[u]]\n"
     "        while queue:\n"
     "            started.append(queue.pop(0))\n"
     "            queue += [u for u, vs in imports.items() if u not in started + queue and vs <= set(started)]\n"),
    ("the latest that became ready", STEP,
     "        stack = [u for u in imports if not imports[u]]\n"
     "        while stack:\n"
     "            started.append(stack.pop())\n"
     "            stack += [u for u, vs in imports.items() if u not in started + stack and vs <= set(started)]\n"),
    ("a search from the lowest unit", STEP,
     "        def start(u):\n"
     "            for v in sorted(imports[u] - set(started)):\n"
     "                start(v)\n"
     "            if u not in started:\n"
     "                started.append(u)\n"
     "        for u in imports:\n"
     "            start(u)\n"),
    ("the highest that is ready", "started.append(min(", "started.append(max("),
    ("on from the last that started, then around", "min(u for u, vs in imports.items() if u not in done and vs <= done))",
     "min((u for u, vs in imports.items() if u not in done and vs <= done), key=lambda u: (u < max(started[-1:], default=0), u)))"),
    ("before what it imports", "    return started\n", "    return started[::-1]\n"),
    ("row order", "    return started\n", "    return sorted(started)\n"),
    ("29 at a unit that only leads in", CIRCLING, "led = led_to(imports)\n    circling = [u for u, vs in led.items() if any(v in led[v] for v in vs)]"),
    ("29 at a unit that a circle imports", CIRCLING,
     "led = led_to(imports)\n    circling = [u for u in led if any(v in led[v] and u in led[v] for v in led)]"),
    ("29 at the lowest unit of all", "rows[min(circling)]", "rows[min(imports)]"),
    ("29 at the highest on a circle", "rows[min(circling)]", "rows[max(circling)]"),
    ("29 at the last on the circle found first", "rows[min(circling)]",
     "rows[max(u for u in circling if u in led_to(imports)[min(circling)] and min(circling) in led_to(imports)[u])]"),
    ("29 at the header", "row = rows[min(circling)]", "row = rows[0]"),
    ("29 at an import of the unit", "row = rows[min(circling)]", "row = rows[rows[min(circling)][CHILD]]"),
    ("29 with a unit's row for the name", AT_CIRCLE, AT_CIRCLE.replace("MAX_COLUMN), 0", "MAX_COLUMN), min(circling)")),
    ("29 with the units for rows", AT_CIRCLE, AT_CIRCLE.replace("MAX_COLUMN), 0, 0", "MAX_COLUMN), 0, len(imports)")),
    ("29 without its position", AT_CIRCLE, "[[CIRCLE, 0, 0, 0, 0, 0, 0, 0]]"),
    ("file and line exchanged", "row[FILE], row[LINE]", "row[LINE], row[FILE]"),
    ("the column is not cut", "min(row[COLUMN], MAX_COLUMN)", "row[COLUMN]"),
    ("the column is cut at 16,382", "MAX_COLUMN = 16383", "MAX_COLUMN = 16382"),
    ("the column is cut at 16,384", "MAX_COLUMN = 16383", "MAX_COLUMN = 16384"),
    ("28 for 29", "CIRCLE, ROOM = 29, 22", "CIRCLE, ROOM = 28, 22"),
    ("18 for 29", "CIRCLE, ROOM = 29, 22", "CIRCLE, ROOM = 18, 22"),
    ("24 for 22", "CIRCLE, ROOM = 29, 22", "CIRCLE, ROOM = 29, 24"),
    ("an import of itself is overlooked", ADD_IMPORT, "units[u] |= {rows[kid][A]} - {u}"),
    ("an import of itself is overlooked beside others", CIRCLING, "circling = [u for u, vs in led_to(imports).items() if u in vs and (u not in imports[u] or len(imports[u]) == 1)]"),
    ("only circles of one", CIRCLING, "circling = [u for u, vs in imports.items() if u in vs]"),
    ("only circles of one or two", CIRCLING, "circling = [u for u, vs in imports.items() if u in vs or any(u in imports[v] for v in vs)]"),
    ("chains of few imports alone", "    while grown:\n        grown = False\n", "    for _ in range(2):\n"),
    ("the first import alone", ADD_IMPORT, "units[u] = units[u] or {rows[kid][A]}"),
    ("the last import alone", ADD_IMPORT, "units[u] = {rows[kid][A]}"),
    ("imports that bring everything are passed over", ADD_IMPORT, "units[u] |= set() if rows[kid][7] else {rows[kid][A]}"),
    ("imports that bring what is listed are passed over", ADD_IMPORT, "units[u] |= {rows[kid][A]} if rows[kid][7] else set()"),
    ("imports that list nothing are passed over", ADD_IMPORT, "units[u] |= {rows[kid][A]} if rows[kid][CHILD] or rows[kid][7] else set()"),
    ("imports that list names are passed over", ADD_IMPORT, "units[u] |= set() if rows[kid][CHILD] else {rows[kid][A]}"),
    ("imports of earlier units are passed over", ADD_IMPORT, "units[u] |= {rows[kid][A]} if rows[kid][A] >= u else set()"),
    ("imports of later units are passed over", ADD_IMPORT, "units[u] |= {rows[kid][A]} if rows[kid][A] <= u else set()"),
    ("imports the other way round", "    imports = imports_of(rows)\n",
     "    given = imports_of(rows)\n    imports = {u: {v for v in given if u in given[v]} for u in given}\n"),
    ("classes are units", "if row[KIND] == UNIT:", "if row[KIND] in (UNIT, 4):"),
    ("a unit without an import is left out", "    return units\n", "    return {u: vs for u, vs in units.items() if vs or any(u in ws for ws in units.values())}\n"),
    ("22 before 29", "    if circling:\n", "    if lent < len(imports):\n        return [[ROOM, 0, 0, 0, 0, 0, 0, 0]]\n    if circling:\n"),
    ("22 before the first four", "    no = first_no(words, names)\n", "    no = first_no(words, names) or (22 if lent < words[::8].count(UNIT) else 0)\n"),
    ("room is asked even before 1", "    no = first_no(words, names)\n", "    no = 22 if lent == 0 else first_no(words, names)\n"),
    ("an exact list is too short", "    if lent < len(imports):", "    if lent <= len(imports):"),
    ("a list a word short is enough", "    if lent < len(imports):", "    if lent + 1 < len(imports):"),
    ("room in rows", "    if lent < len(imports):", "    if lent < 8 * len(imports):"),
    ("room for words a row", "    if lent < len(imports):", "    if 8 * lent < len(imports):"),
    ("as many as fit", TOO_SHORT, ""),
    ("no units and no room are refused", "    if lent < len(imports):", "    if lent < max(1, len(imports)):"),
    ("room is asked of all rows", "    if lent < len(imports):", "    if lent < len(rows):"),
    ("2,047 words at most", "    if lent < len(imports):", "    if min(lent, 681) < len(imports):"),
    ("the first four are not asked", "    no = first_no(words, names)\n", "    no = 0\n"),
    ("the names are not asked", "first_no(words, names)\n", "first_no(words, b'ab\\ncd\\n')\n"),
    ("question 4 is not asked", "    if no:\n", "    if no and no != 4:\n"),
    ("29 before 4", "    if no:\n", "    if no and (no != 4 or not any(u in vs for u, vs in imports_of([words[i:i + 8] for i in range(0, len(words), 8)]).items())):\n"),
    ("a unit by its place", "([u, 0, 0, 0, 0, 0, 0, 0] for u in order(imports))", "([sorted(imports).index(u) + 1, 0, 0, 0, 0, 0, 0, 0] for u in order(imports))"),
    ("a unit in the second column", "([u, 0, 0, 0, 0, 0, 0, 0] for", "([0, u, 0, 0, 0, 0, 0, 0] for"),
    ("eight units to a row", "*([u, 0, 0, 0, 0, 0, 0, 0] for u in order(imports))]",
     "*((order(imports) + [0] * 8)[i:i + 8] for i in range(0, len(imports), 8))]"),
    ("a unit's function for the unit", "([u, 0, 0, 0, 0, 0, 0, 0] for", "([u + 1, 0, 0, 0, 0, 0, 0, 0] for"),
    ("the number of imports in the row", "([u, 0, 0, 0, 0, 0, 0, 0] for", "([u, len(imports[u]), 0, 0, 0, 0, 0, 0] for"),
    ("no rows are told", "[[0, 0, 0, 0, 0, len(imports), 0, 0],", "[[0, 0, 0, 0, 0, 0, 0, 0],"),
    ("the lent words are told", "[[0, 0, 0, 0, 0, len(imports), 0, 0],", "[[0, 0, 0, 0, 0, lent, 0, 0],"),
    ("the sheet's globals are told", "[[0, 0, 0, 0, 0, len(imports), 0, 0],", "[[0, 0, 0, 0, 0, len(imports), rows[0][A], 0],"),
]

# The first line and the rows of a reply.
COLUMN_REPLIES = [
    ("the source's rows are told", "rows = 0 if answer else rows_lent", "rows = 0 if answer else len(source) // ROW"),
    ("rows after a refusal", "rows = 0 if answer else rows_lent", "rows = rows_lent"),
    ("a row too many is told", "[answer, 0, 0, 0, 0, rows, 0, 0,", "[answer, 0, 0, 0, 0, rows + 1, 0, 0,"),
    ("rows in the place of globals", "[answer, 0, 0, 0, 0, rows, 0, 0,", "[answer, 0, 0, 0, 0, 0, rows, 0,"),
]

# Sizes that no text has.
COLUMN_SIZES = [
    ("words past the last row are dropped", "len(source) % ROW != 0 or ", ""),
    ("a target a word short is enough", "if lent < len(source):", "if lent + 1 < len(source):"),
]

NO_KINDS = [1, 5, 12, 13, 18, 19, 31, 32, 38, 39, 60, 61]


def format_faults(source):
    return FORMAT + dropped(source) + column_faults() + kind_faults() + child_faults()


def dropped(source):
    """Each demand of question 3 left out, but that on kinds: child lists and the header's demand have it too."""
    lines = [line for line in source.splitlines() if re.match(" +need\\(", line) and "in CHILDREN" not in line]
    return [(f"dropped: {line.strip()}", line, line.replace("need(", "need(True or ", 1)) for line in lines]


def column_rule(rule, kind, column):
    return f'rule = "{rule}" if kind == {kind} and rules is COLUMN_{column.upper()} else rules.get(kind, "zero")'


def column_faults():
    """A column of a kind that is not asked, or asked to be zero where it is unread."""
    found = []
    for kind, name in KIND_NAMES.items():
        if kind in (0, 43, 44, 45, 46, 49, 56, 57):
            continue
        # the others are asked by the demands on functions and class declarations
        for column in "a" if kind == 6 else "b" if kind == 30 else "ab":
            found.append((f"{name}: column {column} is not asked", RULE, column_rule("any", kind, column)))
    for kind in (45, 46, 49, 56, 57):
        found.append((f"{KIND_NAMES[kind]}: columns are zero", "if kind in UNREAD:", f"if kind in UNREAD - {{{kind}}}:"))
    for kind in (43, 44):
        for column in "ab":
            found.append((f"{KIND_NAMES[kind]}: column {column} is zero", RULE, column_rule("zero", kind, column)))
    return found


def kind_faults():
    """Kinds that pass for a statement or an expression; as kinds of their own they have no children."""
    found = []
    for sort, kinds in (("STATEMENTS", "range(20, 31)"), ("EXPRESSIONS", "range(50, 60)")):
        old = f"set({kinds})"
        for kind in NO_KINDS:
            found.append((f"kind {kind} among the {sort.lower()}", old, f"{old} | {{{kind}}}",
                          'CHILDREN = {\n    0: "U*",', f'CHILDREN = {{\n    {kind}: "", 0: "U*",'))
        for kind in (2, 3, 4, 6, 7, 8, 9, 10, 11):
            found.append((f"kind {kind}, {KIND_NAMES[kind]}, among the {sort.lower()}", old, f"{old} | {{{kind}}}", *ANY_HOLDER))
        found.append((f"a pair among the {sort.lower()}", old, f"{old} | {{49}}"))
        found.append((f"a pair without value among the {sort.lower()}", old, f"{old} | {{49}}", '49: "E"', '49: "E?"'))
    found += [(f"no {KIND_NAMES[kind]} among the statements", "set(range(20, 31))", f"set(range(20, 31)) - {{{kind}}}")
              for kind in range(20, 31)]
    found += [(f"no {KIND_NAMES[kind]} among the expressions", "set(range(50, 60))", f"set(range(50, 60)) - {{{kind}}}")
              for kind in range(50, 60)]
    found += [(f"no {KIND_NAMES[kind]} among the expressions", "set(range(40, 49))", f"set(range(40, 49)) - {{{kind}}}")
              for kind in range(40, 49)]
    return found


def child_faults():
    """Child lists that are too wide or too narrow."""
    found = []

    def add(kind, what, pattern):
        old = f'{kind}: "{CHILDREN[kind]}"'
        found.append((f"{KIND_NAMES[kind]}: {what}", f" {old}", f' {kind}: "{pattern}"'))

    for kind, pattern in CHILDREN.items():
        letters = re.findall("[A-Z][*?]?", pattern)
        for i, letter in enumerate(letters):
            rest = lambda new: "".join(letters[:i] + [new] + letters[i + 1:])
            name = f"{SORT_NAMES[letter[0]]} {i + 1}"
            if len(letter) == 1 and not (letters[i + 1:i + 2] or "x")[0].startswith(letter):
                add(kind, f"{name} may be missing", rest(letter + "?"))
            if letter.endswith("*"):
                add(kind, f"{name} once at most", rest(letter[0] + "?"))
                if letter != letters[i - 1][:1] + "*":
                    add(kind, f"{name} at least once", rest(letter[0] + letter))
            if letter.endswith("?"):
                add(kind, f"{name} is due", rest(letter[0]))
            if letter[0] in "ES":
                add(kind, f"{name} may be of the other sort", rest("B" + letter[1:]))
        if not any(letter.endswith("*") for letter in letters):
            for letter in "ES":
                add(kind, f"a further {SORT_NAMES[letter]}", pattern + letter + "?")
        if not pattern:
            for letter in "NDAF":
                add(kind, f"a {SORT_NAMES[letter]} in it", letter + "?")
    either = '         "E": EXPRESSIONS, "S": STATEMENTS}'
    value = "literal = self.kind(self.kids[row][0]) == 52"
    more = [either, either.replace("}", ', "B": EXPRESSIONS | STATEMENTS}'),
            value, "literal = [self.kind(kid) for kid in self.kids[row]] == [52]"]
    return [(*each, *more) for each in found]
