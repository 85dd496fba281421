"""Faults to plant in session.py, in the form of faults.py, for the recorded requests of verbs 2 to 5.

Left out are faults in question 23 of a session, which no request reaches, in the limits on declarations, classes and entries,
which the recorded run does not reach, and in the kept parents of classes, which no reply tells.
"""

REFUSED = "session._replace(globals=resolver.globals)"
REFUSED_NAME = "numbers.index(no.name)"
NO_ROOM = "        return refused(22), session\n"
NO_LIMIT = "        return refused(24), session\n"
NO_ENTRY = "    if not is_entry(rows, session):\n        return refused(23), session\n"
NO_FORMAT = "    if question:\n        return refused(question), session\n"
LAID = "for scope in (of_classes, body) for name, decl in scope.items())"
LAST_SCOPES = "body, _, of_classes = self.closed[-3:]"
SEEN = "self.scopes[0][each.name] = Decl(each.code, number, 0, each.mutable)"
EARLIER_METHODS = "{method.name: method.function + EARLIER for method in each.methods}"
HEAD = "    # numbers as they are told\n"
TOLD_CODES = "        elif code in (4, 5):\n"
FUNCTION_NUMBER = "return number - EARLIER if number >= EARLIER else number + self.raised"
OWN_CLASS = "return number + self.raised if number >= 256 else number"
TOLD_ROWS = "out = resolver.told_rows()"
NEW_NAMES = "new = [name for name in listed(names) if name not in known]"
NUMBERED = "numbers, new = session_numbers(session, names)"
ONE_UNIT = "len(sheet.kids[0]) == 1 and not sheet.of_kind(sheet.kids[0][0], 3)"
STARTS = "sheet.a(0) >= session.globals"
ENTRY_NAME = "        return listed(names)[at] if names_fit(names) and at < len(listed(names)) else b\"\"\n"
SESSION_NAME = "return known[number] if 0 < number < len(known) else b\"\""
ENTRYS = "if whose == 1 and number > len(FIXED):"
TEXT_ROW = "text_of([[0] * 7 + [len(text)]]).encode() + text, session"
SESSION_ROW = "return [session.globals, len(session.entries), len(visible(session)), *sizes(session)]"
SIZES = "return [len(names), sum(len(name) + 1 for name in names), len(declarations(session)), len(members), sum(members)]"
REPLY = "text_of([*out, session_row(after)]).encode(), after"
REPORT = "[[0, 0, 0, 0, 0, len(out), after.globals, 0], *out], after"
RECORD_FIELDS = "tuple(self.fields[number]), methods)"
RECORD_METHODS = "for name, function in self.methods[number].items())"
OWN_NEW = "session_numbers(session, names)[1]"
NAMED_QUESTIONS = (6, 7, 8, 10, 11, 13, 14, 16, 17, 18, 19, 20, 21)


def kept(new):
    """The session with names or declarations more in its last entry."""
    return f"session._replace(entries=(*session.entries[:-1], session.entries[-1]._replace({new})) if session.entries else ())"


def kept_names(new="new"):
    return kept(f"names=(*session.entries[-1].names, *{new})")


def no_format(question, after):
    """The session after a question from 1 to 4."""
    return NO_FORMAT.replace("(question), session", f"(question), {after} if question == {question} else session")


def laying(*more):
    """The scope of the body is widened, or what is laid over is chosen."""
    return LAST_SCOPES, LAST_SCOPES + "".join(f"\n        {line}" for line in more)


def overriding(*lines):
    return HEAD, "".join(f"    {line}\n" for line in lines) + "\n" + HEAD


def only(test):
    return LAID, f"for scope in (of_classes, body) for name, decl in scope.items() if {test})"


IN_BRANCH = overriding(
    "def in_branch(self, name, deep):",
    "    rows = [row for row in range(len(self.rows)) if self.kind(row) == 26]",
    "    rows = rows if deep == 1 else [kid for row in rows for kid in self.of_kind(row, 26)]",
    "    return any(self.a(kid) == name for row in rows for kid in self.of_kind(row, 29))")

USED = "def renamed(rows, numbers):\n", """def used_in(rows):
    out = []
    for kind, *_, a, b in rows:
        out += [a] if COLUMN_A.get(kind, "").startswith("name") else []
        out += [b] if COLUMN_B.get(kind, "").startswith("name") else []
    return out


def with_new(session, names, new):
    numbers = {name: number for number, name in enumerate([*all_names(session), *new])}
    return [numbers.get(name, 0) for name in [None, *FIXED, *listed(names)]], new


def renamed(rows, numbers):
"""

INNER_LETS = ("inner = [(name, decl) for scope in self.closed for name, decl in scope.items() if decl.code == GLOBAL]\n"
              "        body = {name: decl for name, decl in inner if name in lets} | body")
NUMBER = "self.number(decl.code, decl.index), "

LAID_FAULTS = [
    ("the classes are laid over the body", "(of_classes, body)", "(body, of_classes)"),
    ("classes are not laid over", "(of_classes, body)", "(body,)"),
    ("the body is not laid over", "(of_classes, body)", "(of_classes,)"),
    ("a name of both is laid over once", LAID, "for name, decl in {**of_classes, **body}.items())"),
    ("functions are not laid over", *only("decl.code != FUNCTION")),
    ("only functions and classes are laid over", *only("decl.code != GLOBAL")),
    ("immutable lets are not laid over", *only("decl.code != GLOBAL or decl.mutable")),
    ("mutable lets are not laid over", *only("not decl.mutable")),
    ("fixed names are not laid over", *only("name > len(FIXED)")),
    ("core names are not laid over", *only("name not in CORE")),
    ("null is not laid over", *only("name != 22")),
    ("init and MAIN_UNIT are not laid over", *only("name not in (23, 24)")),
    ("names that are visible already are not laid over", *only("name not in self.scopes[0]")),
    ("lets in branches are not laid over", *only("not self.in_branch(name, 1)"), *IN_BRANCH),
    ("lets in branches of branches are not laid over", *only("not self.in_branch(name, 2)"), *IN_BRANCH),
    ("inner lets are laid over", *laying(
        "body = {name: decl for scope in self.closed for name, decl in scope.items() if decl.code == GLOBAL} | body")),
    ("inner functions are laid over", *laying(
        "body = {name: decl for scope in self.closed for name, decl in scope.items() if decl.code == FUNCTION} | body")),
    ("lets of inner blocks are laid over", *laying(
        "lets = {self.a(kid) for row in range(len(self.rows)) if self.kind(row) == 25 for kid in self.of_kind(row, 29)}",
        INNER_LETS)),
    ("a for's let is laid over", *laying(
        "lets = {self.a(kid) for row in range(len(self.rows)) if self.kind(row) == 27 for kid in self.of_kind(row, 29)}",
        INNER_LETS)),
    ("a literal let of a branch is laid over", *laying(
        "lets = [kid for row in range(len(self.rows)) if self.kind(row) == 26 for kid in self.of_kind(row, 29)]",
        "lets = [kid for kid in lets if self.kind(self.kids[kid][0]) == 52]",
        "body = {self.a(kid): Decl(FUNCTION, self.kids[self.kids[kid][0]][0]) for kid in lets} | body")),
    ("exported functions are laid over", *laying(
        "body = {self.a(kid): Decl(FUNCTION, self.b(kid)) for kid in self.of_kind(self.kids[0][0], 7)} | body")),
    ("exported constants are laid over", *laying(
        "body = {self.a(kid): Decl(GLOBAL, self.b(kid)) for kid in self.of_kind(self.kids[0][0], 8)} | body")),
    ("only classes declared in the body are laid over", *laying(
        "at = self.kids[self.of_kind(self.kids[0][0], 6)[0]][0]",
        "declared = [256 + self.a(row) for row in self.of_kind(at, 30)]",
        "of_classes = {name: decl for name, decl in of_classes.items() if decl.index in declared}")),
    ("what is laid over is not mutable", NUMBER + "decl.mutable)", NUMBER + "0)"),
    ("what is laid over is mutable", NUMBER + "decl.mutable)", NUMBER + "1)"),
    ("globals are laid over as mutable", NUMBER + "decl.mutable)", NUMBER + "int(decl.code == GLOBAL))"),
    ("a merged class has its own methods", RECORD_METHODS, "for name, function in self.named(number - 256, 6).items())"),
    ("a merged class has its own fields", RECORD_FIELDS,
     "tuple(field for field in self.fields[number] if field not in self.fields.get(parent, ())), methods)"),
    ("fields that are registered are not kept", RECORD_FIELDS,
     "tuple(field for field in self.fields[number] if field in {**self.named(number - 256, 10), "
     "**dict.fromkeys(self.fields.get(parent, ()))}), methods)"),
    ("fields are kept by number", RECORD_FIELDS, "tuple(sorted(self.fields[number])), methods)"),
    ("methods are kept by number", RECORD_METHODS, "for name, function in sorted(self.methods[number].items()))"),
    ("methods are kept backwards", RECORD_METHODS, "for name, function in list(self.methods[number].items())[::-1])"),
    ("a method is kept with a parameter more", "len(self.of_kind(function, 11)))\n", "len(self.of_kind(function, 11)) + 1)\n"),
    ("inherited methods are kept without parameters", "len(self.of_kind(function, 11)))\n",
     "len(self.of_kind(function, 11)) * (function < EARLIER))\n"),
    ("init is not kept", RECORD_METHODS, "for name, function in self.methods[number].items() if name != 23)"),
]

SEEN_FAULTS = [
    ("the first declaration of a name stays", SEEN, SEEN.replace("[each.name] =", ".setdefault(each.name,") + ")"),
    ("core names stay", SEEN, "if each.name not in CORE:\n                " + SEEN),
    ("null stays undeclared", SEEN, "if each.name != 22:\n                " + SEEN),
    ("a global stays over a class", SEEN,
     "if each.code != CLASS or self.scopes[0].get(each.name, Decl(0)).code != GLOBAL:\n                " + SEEN),
    ("a class stays over a global", SEEN,
     "if each.code == CLASS or self.scopes[0].get(each.name, Decl(0)).code != CLASS:\n                " + SEEN),
    ("a function stays over a global", SEEN,
     "if each.code == FUNCTION or self.scopes[0].get(each.name, Decl(0)).code != FUNCTION:\n                " + SEEN),
    ("only the last entry is seen", "for each in declarations(session):\n            number",
     "for each in [each for entry in session.entries[-1:] for each in entry.declarations]:\n            number"),
    ("earlier names are not mutable", SEEN, SEEN.replace("each.mutable", "0")),
    ("earlier globals are mutable", SEEN, SEEN.replace("each.mutable", "int(each.code == GLOBAL)")),
    ("earlier functions are mutable", SEEN, SEEN.replace("each.mutable", "each.mutable or int(each.code == FUNCTION)")),
    ("7 against an earlier name", "        before = self.globals\n",
     "        before = self.globals\n        if self.a(row) in self.scopes[0] and self.a(row) > len(FIXED):\n"
     "            raise No(7, row, self.a(row))\n"),
    ("7 against a core name", "        before = self.globals\n",
     "        before = self.globals\n        if self.a(row) in self.scopes[0] and self.a(row) in CORE:\n"
     "            raise No(7, row, self.a(row))\n"),
    ("16 of a class against an earlier name", *overriding(
        "def walk_unit(self, unit):",
        "    for row in self.classes:",
        "        if self.a(row) in self.scopes[0] and self.a(row) > len(FIXED):",
        "            raise No(16, row, self.a(row))",
        "    super().walk_unit(unit)")),
    ("16 of a function against an earlier name", *overriding(
        "def hoist(self, row, literal):",
        "    if self.a(row) in self.scopes[0]:",
        "        raise No(16, row, self.a(row))",
        "    super().hoist(row, literal)")),
    ("earlier classes have no methods", EARLIER_METHODS, "{}"),
    ("earlier classes have no init", EARLIER_METHODS, EARLIER_METHODS[:-1] + " if method.name != 23}"),
    ("earlier classes have no fields", "= list(each.fields)", "= []"),
    ("earlier classes have no record", "        for each in classes(session):\n            self.fields[",
     "        for each in ():\n            self.fields["),
    ("a parameter more in earlier methods", "range(self.params[row])", "range(self.params[row] + 1)"),
    ("own classes have the methods of an earlier parent", *overriding(
        "def class_declaration(self, row):",
        "    super().class_declaration(row)",
        "    number = 256 + self.a(row)",
        "    if self.parents.get(number, 0) >= EARLIER:",
        "        self.methods[number] = {**self.methods[self.parents[number]], **self.methods[number]}")),
    ("a parent is the earlier class of its name", *overriding(
        "def class_declaration(self, row):",
        "    super().class_declaration(row)",
        "    earlier = self.scopes[0].get(self.b(self.a(row)))",
        "    if earlier and earlier.code == CLASS:",
        "        self.parents[256 + self.a(row)] = earlier.index")),
    ("19 for an earlier parent", *overriding(
        "def inherit_all(self):",
        "    for row in self.classes:",
        "        if self.parents.get(256 + row, 0) >= EARLIER:",
        "            raise No(19, row, self.a(row))",
        "    super().inherit_all()")),
    ("an earlier parent is not merged", *overriding(
        "def inherit_all(self):",
        "    own = self.parents",
        "    self.parents = {number: parent for number, parent in own.items() if parent < EARLIER}",
        "    super().inherit_all()",
        "    self.parents = own")),
    ("own methods stand before those of an earlier parent", *overriding(
        "def inherit_all(self):",
        "    own = {number: methods for number, methods in self.methods.items() if self.parents.get(number, 0) >= EARLIER}",
        "    super().inherit_all()",
        "    for number, methods in own.items():",
        "        inherited = {name: at for name, at in self.methods[number].items() if name not in methods}",
        "        self.methods[number] = {**methods, **inherited}")),
    ("MAIN_UNIT is false after the first entry", *overriding(
        "def host_constant(self, row):",
        "    super().host_constant(row)",
        "    if self.raised:",
        "        self.answer(row, Decl(8))")),
    ("MAIN_UNIT is true without a main function", *overriding(
        "def host_constant(self, row):",
        "    super().host_constant(row)",
        "    if self.function.is_unit:",
        "        self.answer(row, Decl(7))")),
    ("MAIN_UNIT as it is declared", *overriding(
        "def host_constant(self, row):",
        "    super().host_constant(row)",
        "    if 24 in self.scopes[0]:",
        "        self.answer(row, self.scopes[0][24])")),
    *((f"earlier {what} at depth have a distance", *overriding(
        "def identifier(self, row):",
        "    super().identifier(row)",
        f"    if self.scopes[0].get(self.a(row)) is self.lookup(self.a(row)) and self.lookup(self.a(row)).code == {code}:",
        "        self.distances[row] = len(self.open_functions) - 1"))
      for what, code in (("globals", "GLOBAL"), ("functions", "FUNCTION"), ("classes", "CLASS"))),
]

NUMBER_FAULTS = [
    ("2,047 for each entry", "STEP = 2048", "STEP = 2047"),
    ("2,049 for each entry", "STEP = 2048", "STEP = 2049"),
    ("entries from 1", "self.raised = STEP * len(session.entries)", "self.raised = STEP * (len(session.entries) + 1)"),
    ("nothing is raised", "self.raised = STEP * len(session.entries)", "self.raised = 0"),
    ("the first column is raised", "return [row, code, v, w, *rest]", "return [row + self.raised, code, v, w, *rest]"),
    *((f"the first column of rows {code} is raised", "return [row, code, v, w, *rest]",
       f"return [row + self.raised * (code == {code}), code, v, w, *rest]") for code in (20, 22, 23, 24)),
    ("functions are not raised", "        if code in (FUNCTION, CLASS):\n", "        if code == CLASS:\n"),
    ("classes are not raised", "        if code in (FUNCTION, CLASS):\n", "        if code == FUNCTION:\n"),
    ("core classes are raised", OWN_CLASS, "return number + self.raised"),
    ("classes 100 to 102 are raised", OWN_CLASS, "return number + self.raised if number >= 100 else number"),
    ("earlier functions are raised", FUNCTION_NUMBER, "return number - EARLIER * (number >= EARLIER) + self.raised"),
    ("earlier classes are raised", "        if number >= EARLIER:\n            return number - EARLIER\n",
     "        if number >= EARLIER:\n            return number - EARLIER + self.raised\n"),
    ("functions of arguments are not raised", TOLD_CODES, "        elif code == 5:\n"),
    ("functions of locals are not raised", TOLD_CODES, "        elif code == 4:\n"),
    *((f"functions are not raised in {what}", TOLD_CODES, f"        elif code in (4, 5) and self.kind(row) != {kind}:\n")
      for what, kind in (("rows of functions", 6), ("sources", 52), ("lets", 29), ("identifiers", 50))),
    *((f"functions of code {code} are not raised in rows of functions", TOLD_CODES,
       f"        elif code in (4, 5) and (self.kind(row) != 6 or code != {code}):\n") for code in (4, 5)),
    ("functions of escaping locals are not raised", *overriding(
        "def function_rows(self, row):",
        "    rows = super().function_rows(row)",
        "    count = len(self.functions[row].escaping)",
        "    escaping = [[row, code, v, w - self.raised, *rest] for row, code, v, w, *rest in rows[len(rows) - count:]]",
        "    return rows[:len(rows) - count] + escaping")),
    ("captured ones are raised", TOLD_CODES, "        elif code in (4, 5, 6):\n"),
    ("parents are not raised", "        elif code == 22:\n            v = self.class_number(v)\n", ""),
    ("methods are not raised", "        elif code == 24:\n            w = self.function_number(w)\n", ""),
    ("globals are raised", "return {FUNCTION: self.function_number, CLASS: self.class_number}.get(code, int)(number)",
     "return {FUNCTION: self.function_number, CLASS: self.class_number}.get(code, lambda each: each + self.raised)(number)"),
    ("fields by the entry's numbers", TOLD_ROWS,
     "out = [[row, code, v, numbers.index(w) if code == 23 and w in numbers else w, *rest] "
     "for row, code, v, w, *rest in resolver.told_rows()]"),
    ("methods by the entry's numbers", TOLD_ROWS,
     "out = [[row, code, numbers.index(v) if code == 24 and v in numbers else v, *rest] "
     "for row, code, v, *rest in resolver.told_rows()]"),
    ("a refusal has the session's number", REFUSED_NAME, "no.name"),
    *((f"the session's number in {question}", REFUSED_NAME, f"no.name if no.question == {question} else {REFUSED_NAME}")
      for question in NAMED_QUESTIONS),
    ("a refusal of an earlier class has no name", REFUSED_NAME, f"0 if no.question in (20, 21) else {REFUSED_NAME}"),
    ("new names backwards", NEW_NAMES, NEW_NAMES.replace("listed(names)", "listed(names)[::-1]")),
    ("new names in order", NEW_NAMES, NEW_NAMES.replace("listed(names)", "sorted(listed(names))")),
    ("new names only if they are used", NUMBERED, "used = set(used_in(rows))\n    new = [name for number, name in "
     "enumerate(listed(names), 25) if number in used and name not in all_names(session)]\n"
     "    numbers, new = with_new(session, names, new)", *USED),
    ("new names by their first use", NUMBERED, "used = [*used_in(rows), *range(25, 25 + len(listed(names)))]\n"
     "    new = [([None, *FIXED, *listed(names)])[number] for number in dict.fromkeys(used)]\n"
     "    numbers, new = with_new(session, names, [name for name in new if name not in all_names(session)])", *USED),
    ("a name of the session is added again", NEW_NAMES, "new = listed(names)"),
]

COUNT_FAULTS = [
    ("the count stays after a refusal", REFUSED, "session"),
    *((f"the count stays after {question}", REFUSED, f"session if no.question == {question} else {REFUSED}")
      for question in [*range(5, 15), *range(16, 22)]),
    ("the count after 5 to 17 is the start", REFUSED,
     "session._replace(globals=resolver.globals if no.question > 17 else resolver.a(0))"),
    ("the count after 18 to 21 is the start", REFUSED,
     "session._replace(globals=resolver.globals if no.question < 18 else resolver.a(0))"),
    ("a let that 7 refuses takes a global", REFUSED, "session._replace(globals=resolver.globals + (no.question == 7))"),
    ("a hoisted let that 16 refuses takes a global", "            self.globals = before\n", ""),
    ("the count moves after 22", NO_ROOM, NO_ROOM.replace("session", REFUSED)),
    ("the count moves after 24", NO_LIMIT, NO_LIMIT.replace("session", REFUSED)),
    ("the count moves to the start after 22", NO_ROOM, NO_ROOM.replace("session", "session._replace(globals=resolver.a(0))")),
    ("the count moves to the start after 24", NO_LIMIT, NO_LIMIT.replace("session", "session._replace(globals=resolver.a(0))")),
    ("the count moves to the start after 23", NO_ENTRY,
     NO_ENTRY.replace("(23), session", "(23), session._replace(globals=max(session.globals, rows[0][6]))")),
    *((f"the count moves to the start after {question}", NO_FORMAT, no_format(
        question, "session._replace(globals=max(session.globals, words[6]))")) for question in (2, 3, 4)),
    ("the count is one more after an entry", "after = Session(resolver.globals, (", "after = Session(resolver.globals + 1, ("),
    ("only globals that are taken are counted", "after = Session(resolver.globals, (",
     "after = Session(session.globals + resolver.globals - resolver.a(0), ("),
    ("a refusal tells the count", f"return refused(no.question, resolver.position(no.row), {REFUSED_NAME}), ",
     f"return [[no.question, *resolver.position(no.row), {REFUSED_NAME}, 0, resolver.globals, 0]], "),
    ("a refused entry keeps its names", REFUSED, f"{kept_names()}._replace(globals=resolver.globals)"),
    *((f"names are kept after {question}", REFUSED,
       f"({kept_names()} if no.question == {question} else session)._replace(globals=resolver.globals)")
      for question in (5, 8, 20)),
    ("names are kept after 22", NO_ROOM, NO_ROOM.replace("session", kept_names())),
    ("names are kept after 23", NO_ENTRY, NO_ENTRY.replace("(23), session", f"(23), {kept_names(OWN_NEW)}")),
    ("names are kept after 3", NO_FORMAT, no_format(3, kept_names(OWN_NEW))),
    ("names are kept after 4", NO_FORMAT, no_format(4, kept_names(OWN_NEW))),
    ("names are kept after 1", NO_FORMAT, no_format(1, f"({kept_names(OWN_NEW)} if names_fit(names) else session)")),
    ("declarations are kept after 20", REFUSED,
     f"({kept('declarations=(*session.entries[-1].declarations, *resolver.laid_over())')} if no.question == 20 else session)"
     "._replace(globals=resolver.globals)"),
    ("a refused entry has a number", REFUSED,
     "Session(resolver.globals, (*session.entries, Entry((), (), ())))"),
]

QUESTION_FAULTS = [
    *((f"23 before {question}", NO_FORMAT,
       f"    if question == {question} and words_of_text(text[:81])[6:7] < [session.globals]:\n"
       "        return refused(23), session\n" + NO_FORMAT) for question in (1, 2, 3, 4)),
    ("23 after 5 to 21", NO_ENTRY, "", f"    {TOLD_ROWS}\n", NO_ENTRY + f"    {TOLD_ROWS}\n"),
    ("23 of the start after 5 to 21", "if not is_entry(rows, session):", "if not is_entry(rows, session._replace(globals=0)):",
     f"    {TOLD_ROWS}\n", NO_ENTRY + f"    {TOLD_ROWS}\n"),
    ("24 before 22", "    if len(out) > lent:\n" + NO_ROOM, "", NO_LIMIT, NO_LIMIT + "    if len(out) > lent:\n" + NO_ROOM),
    ("24 before 5 to 21", "    try:\n        resolver.walk()\n", "    if len(listed_names(session)) + len(new) > LIMITS[0]:\n"
     "        return refused(24), session\n    try:\n        resolver.walk()\n"),
    ("22 before 5 to 21", "    except No as no:\n",
     "    except No as no:\n        if lent == 0:\n            return refused(22), session\n"),
    ("24 is not asked", "    if not in_limits(after):\n" + NO_LIMIT, ""),
    ("a name that both have is 2", NO_FORMAT,
     NO_FORMAT + "    if set(listed(names)) & set(listed_names(session)):\n        return refused(2), session\n"),
    ("function exports are refused", ONE_UNIT, ONE_UNIT + " and not sheet.of_kind(sheet.kids[0][0], 7)"),
    ("constant exports are refused", ONE_UNIT, ONE_UNIT + " and not sheet.of_kind(sheet.kids[0][0], 8)"),
    ("two units are an entry", ONE_UNIT, ONE_UNIT.replace("== 1", "> 0")),
    ("imports are accepted", ONE_UNIT, "len(sheet.kids[0]) == 1"),
    ("no unit is an entry", NO_ENTRY, "    if len(rows) == 1 and rows[0][6] >= session.globals:\n"
     "        return [[0, 0, 0, 0, 0, 0, rows[0][6], 0]], session._replace(globals=rows[0][6])\n" + NO_ENTRY),
    ("an entry starts at the count", STARTS, STARTS.replace(">=", "==")),
    ("an entry may start one below", STARTS, STARTS + " - 1"),
    ("an entry may start anywhere", " and " + STARTS, ""),
    ("an entry starts above the count", STARTS, STARTS.replace(">=", ">")),
    ("all rows lent are too few", "if len(out) > lent:", "if len(out) >= lent:"),
    ("one row less is enough", "if len(out) > lent:", "if len(out) > lent + 1:"),
    ("22 is not asked", "    if len(out) > lent:\n" + NO_ROOM, ""),
    ("23 has a position", NO_ENTRY, NO_ENTRY.replace("refused(23)", "refused(23, rows[0][3:6])")),
    ("24 has a position", NO_LIMIT, NO_LIMIT.replace("refused(24)", "refused(24, resolver.position(0))")),
    ("22 has a position", NO_ROOM, NO_ROOM.replace("refused(22)", "refused(22, resolver.position(0))")),
    *((f"{limit + less:,} {what} at most", "LIMITS = [1024, 32768, 4096, 1024, 8192]",
       f"LIMITS = {[each + less * (i == at) for i, each in enumerate([1024, 32768, 4096, 1024, 8192])]}")
      for at, limit, what in ((0, 1024, "names"), (1, 32768, "bytes of names"), (4, 8192, "fields and methods"))
      for less in (-1, 1)),
    ("1,000 names with the fixed ones at most", "LIMITS = [1024,", "LIMITS = [1000,"),
    ("24 asks for the session before", "if not in_limits(after):", "if not in_limits(session):"),
]

REPLY_FAULTS = [
    ("the session before is told", REPLY, "text_of([*out, session_row(session)]).encode(), after"),
    ("no row of counts after a refusal", REPLY,
     "text_of([*out, session_row(after)] if out[0][0] == 0 else out).encode(), after"),
    ("the row of counts is counted", REPORT, REPORT.replace("len(out)", "len(out) + 1")),
    ("globals are not told", REPORT, REPORT.replace("after.globals", "0")),
    *((what, SESSION_ROW, SESSION_ROW.replace("len(visible(session))", number)) for what, number in (
        ("names on show are not told", "0"),
        ("a redeclared name is on show again", "len({each.name for each in CORE_DECLARATIONS} "
                                               "| {each.name for each in declarations(session)}) + len(declarations(session)) "
                                               "- len({each.name for each in declarations(session)})"),
        ("a name redeclared in its entry is on show again", "len(visible(session)) + sum(len(entry.declarations) - len({each.name for each "
                                                            "in entry.declarations}) for entry in session.entries)"),
        ("a name redeclared by a later entry is on show again", "len(CORE_DECLARATIONS) + sum(len({each.name for each in entry.declarations} "
                                                                "- {each.name for each in CORE_DECLARATIONS}) "
                                                                "for entry in session.entries)"),
        ("a core name laid over is on show again", "len(CORE_DECLARATIONS) + len({each.name for each in declarations(session)})"),
        ("a core name laid over is not on show", "len(visible(session)) - len({each.name for each in CORE_DECLARATIONS} "
                                                 "& {each.name for each in declarations(session)})"),
        ("core names are not on show", "len(visible(session)) - len(CORE_DECLARATIONS)"),
        ("core names are on show before the first entry alone", "len(visible(session)) if not session.entries else "
                                                                "len({each.name for each in declarations(session)})"),
        ("classes are not on show", "len(visible(session)) - len({each.name for each in visible(session).values() "
                                    "if each.code == CLASS and each not in CORE_DECLARATIONS})"),
        ("functions are not on show", "len([each for each in visible(session).values() if each.code != FUNCTION])"),
        ("all names listed are on show", "len(CORE_DECLARATIONS) + len(listed_names(session))"),
        ("all declarations are on show", "len(CORE_DECLARATIONS) + len(declarations(session))"))),
    ("names on show are those before", REPLY,
     "text_of([*out, [*session_row(after)[:2], len(visible(session)), *session_row(after)[3:]]]).encode(), after"),
    ("names on show of a withdrawal are those before", REPLY,
     "text_of([*out, [*session_row(after)[:2], len(visible(session if request.verb == WITHDRAW else after)), "
     "*session_row(after)[3:]]]).encode(), after"),
    ("names on show of a preview are those of the entry", REPLY,
     "text_of([*out, [*session_row(after)[:2], len(visible(outcome(session, request._replace(verb=ENTER))[1] "
     "if request.verb == PREVIEW else after)), *session_row(after)[3:]]]).encode(), after"),
    ("a refused entry's names are on show", REPLY,
     "text_of([*out, [*session_row(after)[:2], len(visible(after)) + (request.verb == ENTER and 5 <= out[0][0] <= 21), "
     "*session_row(after)[3:]]]).encode(), after"),
    ("fixed names are counted", SIZES, SIZES.replace("[len(names),", "[len(names) + len(FIXED),")),
    ("bytes without ends", SIZES, SIZES.replace("len(name) + 1", "len(name)")),
    ("a name declared again counts once", SIZES, SIZES.replace("len(declarations(session))",
                                                                  "len({each.name for each in declarations(session)})")),
    ("core names are declarations", SIZES, SIZES.replace("len(declarations(session))", "9 + len(declarations(session))")),
    ("fields alone are members", "[len(each.fields) + len(each.methods) for", "[len(each.fields) for"),
    ("methods alone are members", "[len(each.fields) + len(each.methods) for", "[len(each.methods) for"),
    ("names and bytes exchanged", SIZES, SIZES.replace("[len(names), sum(len(name) + 1 for name in names),",
                                                         "[sum(len(name) + 1 for name in names), len(names),")),
    ("members before classes", SIZES, SIZES.replace("len(members), sum(members)", "sum(members), len(members)")),
    ("globals after entries", SESSION_ROW, SESSION_ROW.replace("[session.globals, len(session.entries),",
                                                                  "[len(session.entries), session.globals,")),
]

TEXT_FAULTS = [
    ("whose is exchanged", ENTRYS, ENTRYS.replace("whose == 1", "whose == 0")),
    ("always the session's", ENTRYS, "if False:"),
    ("the entry's fixed names are empty", ENTRYS, "if whose == 1 and number <= len(FIXED):\n        return b\"\"\n    " + ENTRYS),
    ("the entry's fixed names are empty if its list is refused", ENTRYS,
     "if whose == 1 and not names_fit(names):\n        return b\"\"\n    " + ENTRYS),
    ("the session's are empty if the entry's list is refused", ENTRYS,
     "if not names_fit(names):\n        return b\"\"\n    " + ENTRYS),
    ("a refused list has names", ENTRY_NAME, ENTRY_NAME.replace("names_fit(names) and ", "")),
    ("the entry's numbers from 24", "        at = number - len(FIXED) - 1\n", "        at = number - len(FIXED)\n"),
    ("the entry's numbers from 1", "        at = number - len(FIXED) - 1\n", "        at = number - 1\n"),
    ("past the entry's last the session's", ENTRYS, ENTRYS.replace(
        "number > len(FIXED):", "len(FIXED) < number < 25 + len(listed(names)):")),
    ("past the entry's last its last", ENTRY_NAME, "        at = min(at, len(listed(names)) - 1)\n" + ENTRY_NAME),
    ("past the session's last its last", SESSION_NAME, "number = min(number, len(known) - 1)\n    " + SESSION_NAME),
    ("the session's last is not found", SESSION_NAME, SESSION_NAME.replace("< len(known)", "< len(known) - 1")),
    ("the session's listed names are not found", SESSION_NAME, SESSION_NAME.replace("< len(known)", "< 25")),
    ("number 0 is the first", SESSION_NAME, "number = number or 1\n    " + SESSION_NAME),
    ("the name after it", SESSION_NAME, "number += 0 < number < len(known) - 1\n    " + SESSION_NAME),
    ("a text has its end", TEXT_ROW, TEXT_ROW.replace("len(text)", "len(text) + 1").replace("+ text,", "+ text + b'\\n',")),
    ("the length in another column", TEXT_ROW, TEXT_ROW.replace("[0] * 7 + [len(text)]", "[0] * 5 + [len(text), 0, 0]")),
    ("the length is not told", TEXT_ROW, TEXT_ROW.replace("len(text)", "0")),
    ("the number is told", TEXT_ROW, TEXT_ROW.replace("[0] * 7", "[0] * 4 + [request.y, 0, 0]")),
]

PREVIEW = "return out, after if request.verb == ENTER else session"
REFUSED_ENTRY = "out[0][0]"

PREVIEW_FAULTS = [
    ("a preview is entered", PREVIEW, "return out, after"),
    ("a preview keeps the globals of a refusal", PREVIEW, f"return out, after if request.verb == ENTER or {REFUSED_ENTRY} else session"),
    ("a preview keeps the global count", PREVIEW,
     "return out, after if request.verb == ENTER else session._replace(globals=after.globals)"),
    ("an accepted preview keeps the global count", PREVIEW,
     "return out, after if request.verb == ENTER else session if out[0][0] else session._replace(globals=after.globals)"),
    ("a preview keeps new names", PREVIEW,
     "return out, after if request.verb == ENTER or out[0][0] else "
     + kept_names("after.entries[-1].names")),
    ("a preview keeps declarations", PREVIEW,
     "return out, after if request.verb == ENTER or out[0][0] else " + kept("declarations=(*session.entries[-1].declarations, *after.entries[-1].declarations)")),
    ("a preview uses a number", PREVIEW,
     "return out, after if request.verb == ENTER or out[0][0] else session._replace(entries=(*session.entries, Entry((), (), ())))"),
    ("an entry is previewed", PREVIEW, "return out, session"),
    ("a preview has no rows", PREVIEW,
     "return out if request.verb == ENTER else [[*out[0][:5], 0, *out[0][6:]]], after if request.verb == ENTER else session"),
    ("a preview tells no globals", PREVIEW,
     "return out if request.verb == ENTER else [[*out[0][:6], 0, 0], *out[1:]], after if request.verb == ENTER else session"),
    ("a preview has no position", PREVIEW,
     "return out if request.verb == ENTER else [[out[0][0], 0, 0, 0, *out[0][4:]], *out[1:]], after if request.verb == ENTER else session"),
    ("a preview has no name", PREVIEW,
     "return out if request.verb == ENTER else [[*out[0][:4], 0, *out[0][5:]], *out[1:]], after if request.verb == ENTER else session"),
    ("the session after it is told of a preview", REPLY,
     "text_of([*out, session_row(outcome(session, request._replace(verb=ENTER))[1])]).encode(), after"),
    *((f"a preview is not asked {question}", PREVIEW,
       f"return (out, after) if request.verb == ENTER else (refused(0) if out[0][0] == {question} else out, session)")
      for question in (*range(1, 15), *range(16, 25))),
]

WITHDRAWN = "return refused(0), session._replace(entries=session.entries[:-1])"
NONE_LEFT = "    if not session.entries:\n        return refused(25), session\n"


def left_by(change):
    """The entry before the withdrawn one keeps something of it."""
    return WITHDRAWN, (f"before, last = session.entries[:-1], session.entries[-1]\n"
                       f"    return refused(0), session._replace(entries=(*before[:-1], before[-1]._replace({change})) if before else ())")


WITHDRAW_FAULTS = [
    ("a withdrawal gives a global back", WITHDRAWN, WITHDRAWN.replace("entries=", "globals=max(0, session.globals - 1), entries=")),
    ("a withdrawal gives the globals laid over back", WITHDRAWN, WITHDRAWN.replace(
        "entries=", "globals=session.globals - sum(each.code == GLOBAL for each in session.entries[-1].declarations), entries=")),
    ("a withdrawal from the last entry gives all globals back", WITHDRAWN, WITHDRAWN.replace(
        "entries=", "globals=session.globals if session.entries[1:] else 0, entries=")),
    ("a withdrawal withdraws nothing", WITHDRAWN, "return refused(0), session"),
    ("a withdrawal takes the first entry", WITHDRAWN, WITHDRAWN.replace("[:-1]", "[1:]")),
    ("a withdrawal takes two entries", WITHDRAWN, WITHDRAWN.replace("[:-1]", "[:-2]")),
    ("a withdrawal takes all entries", WITHDRAWN, WITHDRAWN.replace("session.entries[:-1]", "()")),
    ("a withdrawal leaves the names", *left_by("names=(*before[-1].names, *last.names)")),
    ("a withdrawal leaves the declarations", *left_by("declarations=(*before[-1].declarations, *last.declarations)")),
    ("a withdrawal leaves the classes", *left_by("classes=(*before[-1].classes, *last.classes)")),
    ("a withdrawal tells the globals", WITHDRAWN, WITHDRAWN.replace("refused(0)", "[[0, 0, 0, 0, 0, 0, session.globals, 0]]")),
    ("25 is not asked", NONE_LEFT, ""),
    ("25 at the last entry", NONE_LEFT, NONE_LEFT.replace("not session.entries", "len(session.entries) < 2")),
    ("25 gives the globals back", NONE_LEFT, NONE_LEFT.replace("refused(25), session", "refused(25), FRESH")),
    ("23 for 25", NONE_LEFT, NONE_LEFT.replace("25", "23")),
]

SESSION = [(f"session: {what}", *changes) for what, *changes in [
    *LAID_FAULTS, *SEEN_FAULTS, *NUMBER_FAULTS, *COUNT_FAULTS, *QUESTION_FAULTS, *REPLY_FAULTS, *TEXT_FAULTS,
    *PREVIEW_FAULTS, *WITHDRAW_FAULTS]]

