"""Runs of requests at the prompt for single points of F-1, F-5, F-7 and F-8, and runs at the limits of question 24.

`directed_runs()` and `limit_runs()` give what each shows, and its requests, of the verbs that are given. Trees are made as in
directed.py.
"""
import random

from directed import (
    A, B, C, DICT, NAMES, STRING, UI_EVENT, a, array, b, block, bring, c, call, declare, do, f, g, give, host, is_a, let, lit,
    loop, m, member, method, n, nil, nil_body, p, put, q, record, static, stop, unit, use, var, when)
from format_check import COLUMN_A, COLUMN_B, FIXED, MAX_GLOBALS, MAX_ROWS
from session import ENTER, FRESH, NAME_TEXT, PREVIEW, VERBS, WITHDRAW, Request, outcome
from sheets import INIT, MAIN_UNIT, NULL, Sheet
from tree import Node, text_of


ORDERS = "preorder", "random", "runs"


class Plan:
    """A request to be. An entry without a start begins at the session's global count, and `gap` above. Its list has the names
    that its tree uses, in some order, and `more`, unless `names` says it, each with an ending; trees have the name numbers of
    directed.py."""

    def __init__(self, verb, root=None, start=None, gap=0, lent=MAX_ROWS, more=(), names=None):
        self.verb, self.root, self.start, self.gap, self.lent, self.more, self.names = verb, root, start, gap, lent, more, names

    def request(self, session, rng, order, ending=b""):
        if self.root is None:
            return Request(self.verb)
        self.root.a = session.globals + self.gap if self.start is None else self.start
        names = [name + ending for name in relisted(self.root, rng, self.more, self.names)]
        sheet = Sheet(self.root, names, rng, order)
        return Request(self.verb, text_of(sheet.rows).encode(), sheet.names, self.lent)


class Asked:
    """A request that is the same in every session."""

    def __init__(self, request):
        self.verb, self.made = request.verb, request

    def request(self, session, rng, order, ending=b""):
        return self.made


def relisted(root, rng, more=(), names=None):
    """The names of an entry's list; the tree's numbers become those of that list."""
    named = [(node, column) for node in root.all() for column, rules in (("a", COLUMN_A), ("b", COLUMN_B))
             if rules.get(node.kind, "").startswith("name") and getattr(node, column) > len(FIXED)]
    known = NAMES + [name for name in names or () if name not in NAMES]
    if names is None:
        names = sorted({known[getattr(node, column) - 25] for node, column in named} | set(more))
        rng.shuffle(names)
    for node, column in named:
        setattr(node, column, 25 + names.index(known[getattr(node, column) - 25]))
    return names


def tree(*stmts, main=True, **more):
    each = unit(*stmts, **more)
    return Node(0, 0, each.kids[-1] if main else 0, [each])


def entry(*stmts, start=None, gap=0, lent=MAX_ROWS, more=(), **rest):
    return Plan(ENTER, tree(*stmts, **rest), start, gap, lent, more)


def preview(*stmts, **rest):
    plan = entry(*stmts, **rest)
    plan.verb = PREVIEW
    return plan


def units(*each, gap=0):
    return Plan(ENTER, Node(0, 0, 0, each), gap=gap)


def withdraw():
    return Plan(WITHDRAW)


def name_text(whose, number, names=b""):
    return Asked(Request(NAME_TEXT, b"", names, whose, number))


def literal(value=None):
    return lit([], give(value or nil()))


def one_method(name=A, parent=0):
    return record(name, parent, [p], [method(m, params=[a])])


def with_init(name=A, parent=0, params=(a, b)):
    return record(name, parent, (), [method(INIT, params=params)])


def what_is_seen():
    yield "globals, functions, classes", [
        entry(let(a), var(b), let(f, literal()), classes=[one_method()]),
        entry(do(array(use(a), use(b), use(f), use(A))), put(use(b), use(a)))]
    inner, looped = record(A), record(B)
    yield "a class in an inner block, one in a loop", [
        entry(block(declare(inner)), loop(do(nil()), nil(), do(nil()), declare(looped)), classes=[inner, looped], declared=False),
        entry(do(is_a(nil(), A)), do(is_a(nil(), B)))]
    yield "a class and a let of one name", [entry(let(A), classes=[record(A)]), entry(do(use(A))), entry(do(is_a(nil(), A)))]
    yield "a class and a hoisted let of one name", [entry(let(A, literal()), classes=[record(A)]), entry(do(call(use(A), nil())))]
    yield "bare lets in branches", [
        entry(when(nil(), let(a), var(b)), when(nil(), when(nil(), let(c, nil()), when(nil(), let(p))))),
        entry(do(array(use(a), use(b), use(c), use(p))))]
    inner_lets = {
        "a block": block(let(a)), "a for": loop(let(a), nil(), do(nil()), block()),
        "a for's body": loop(do(nil()), nil(), do(nil()), let(a)), "a literal": do(lit([a], block(let(a)))),
        "a literal let of a branch": when(nil(), let(a, literal())), "a block's hoisted let": block(var(a, literal()))}
    for what, stmt in inner_lets.items():
        yield f"not left by {what}", [entry(stmt, var(b)), entry(do(use(a)))]
    exporting = unit(consts=[Node(8, b, 0)])
    exporting.kids.insert(0, Node(7, a, exporting.kids[-1]))
    yield "exports declare nothing", [units(exporting, gap=1), entry(do(use(a))), entry(do(use(b)))]
    yield "assigned by name", [entry(let(a), var(b), let(f, literal()), var(g, literal()), let(c, nil(), 2), gap=1)] + [
        entry(put(use(name), nil())) for name in (a, b, f, g, c)]
    yield "nothing earlier is captured", [
        entry(var(a), let(f, literal()), classes=[record(A)]),
        entry(give(lit([p], give(lit([], give(array(use(p), use(a), use(f), use(A))))))))]


def declared_again():
    yield "let over let", [entry(let(a)), entry(var(a)), entry(put(use(a), use(a)))]
    yield "a let reads the earlier one", [entry(let(a)), entry(let(a, use(a))), entry(do(use(a)))]
    yield "a hoisted let hides from the start", [entry(var(a)), entry(do(use(a)), let(a, literal(use(a)))), entry(do(use(a)))]
    yield "an own class hides from the start", [entry(var(A)), entry(do(use(A)), classes=[record(A)]), entry(put(use(A), nil()))]
    yield "twice in one entry", [entry(let(a)), entry(let(a), let(a)), entry(do(use(a)))]
    yield "class over class", [
        entry(classes=[one_method()]), entry(do(static(A, m, nil())), classes=[record(A)]), entry(do(static(A, m, nil())))]
    for name in (STRING, UI_EVENT, NULL, INIT, MAIN_UNIT):
        yield f"name {name}", [
            entry(var(name)), entry(put(use(name), use(name)), do(host(MAIN_UNIT))), withdraw(), withdraw(), entry(do(use(name)))]
    yield "a hidden core class", [
        entry(let(STRING)), entry(do(is_a(nil(), STRING))), entry(classes=[record(A, STRING)]), entry(do(static(STRING, m)))]
    yield "an own core class", [
        entry(classes=[with_init(STRING)]), entry(do(call(use(STRING), nil())), do(is_a(nil(), STRING))),
        entry(do(call(use(STRING)))), entry(do(static(STRING, m))), entry(classes=[record(A, STRING)])]
    yield "null undeclared, declared, withdrawn", [
        entry(do(use(NULL))), entry(let(NULL)), entry(do(use(NULL))), withdraw(), entry(do(use(NULL))), withdraw(), withdraw(),
        entry(do(use(NULL)))]


def numbers():
    yield "MAIN_UNIT", [
        entry(do(host(MAIN_UNIT)), let(f, literal(host(MAIN_UNIT)))), entry(do(host(MAIN_UNIT)), main=False),
        entry(do(host(MAIN_UNIT)))]
    yield "refused entries have no number", [
        entry(stop()), entry(let(f, literal())), entry(stop(), more=[b"x1"]), entry(let(g, literal()), more=[b"x2"])]
    yield "a number is used again", [
        entry(let(a)), entry(let(f, literal()), classes=[record(A)]), withdraw(), entry(let(f, literal()), classes=[record(A)])]
    yield "captures in a later entry", [
        entry(), entry(let(f, lit([p], block(var(a), give(lit([], give(lit([], put(use(a), use(p))))))))))]
    yield "classes and methods in a later entry", [
        entry(let(a)), entry(do(static(A, m, nil())), do(is_a(nil(), A)), classes=[one_method(), record(B, A)])]
    yield "inherited names that the list lacks", [
        entry(classes=[one_method()]), entry(classes=[record(B, A, [q], [method(n)])]), entry(classes=[record(C, B)])]
    yield "new names in their order, used or not", [
        Plan(ENTER, tree(let(a)), names=[b"z1", b"a", b"z2"]),
        Plan(ENTER, tree(let(p), classes=[record(A, 0, [a, b])]), names=[b"z3", b"p", b"z1", b"a", b"A", b"b"]),
        entry(stop(), more=[b"z9"]), entry(let(q), more=[b"z8"]), withdraw(), entry(let(q), more=[b"z7"])]
    yield "a refusal has the entry's numbers", [entry(let(a), classes=[record(A), with_init(B)])] + [
        entry(stmt, more=[b"z1", b"z2", b"z3"])
        for stmt in (do(use(c)), put(use(a), nil()), do(call(use(A))), do(call(use(B))), do(static(A, m)))]


def classes_of_earlier_entries():
    yield "inherited methods are found", [
        entry(do(static(B, m, nil())), classes=[one_method(), record(B, A)]), entry(classes=[one_method(), record(B, A)]),
        entry(do(static(B, m, nil()))), entry(do(static(B, m))), entry(do(static(B, n)))]
    yield "inherited init", [
        entry(classes=[with_init(), record(B, A)]), entry(do(call(use(B), nil()))), entry(do(call(use(B)))),
        entry(do(call(use(C))))]
    yield "no init", [entry(classes=[record(A)]), entry(do(call(use(A)))), entry(do(call(use(UI_EVENT))))]
    child = record(B, A)
    yield "an own class has its own methods only", [
        entry(classes=[one_method()]), entry(declare(child), do(static(B, m, nil())), classes=[child], declared=False),
        entry(classes=[record(B, A)]), entry(do(static(B, m, nil())))]
    yield "a class over its own name", [entry(classes=[record(A)]), entry(classes=[record(A, A)]), entry(classes=[record(B, A)])]
    yield "a climb that stops at an earlier class", [
        entry(classes=[record(A, UI_EVENT)]), entry(classes=[record(C, B), record(B, A)])]
    yield "a circle over an earlier class", [
        entry(classes=[record(A)]), entry(classes=[record(B, C), record(C, B)]), entry(classes=[record(B, A)])]
    yield "parents that are no classes", [
        entry(let(a), let(f, literal())), entry(classes=[record(A, a)]), entry(classes=[record(A, f)])]
    yield "a parent without a record", [
        entry(var(a), classes=[record(A, STRING)]), entry(classes=[record(A)]), entry(classes=[record(B, A), record(C, DICT)])]
    yield "an earlier class hides a core one", [
        entry(classes=[record(STRING)]), entry(classes=[record(A, STRING), record(B, DICT)])]
    child = record(B, A)
    yield "an own let hides the parent", [
        entry(classes=[record(A)]), entry(let(A), declare(child), classes=[child], declared=False)]
    yield "fields and methods over a parent", [
        entry(classes=[record(A, 0, [p, q], [method(m), method(INIT), method(n)])]),
        entry(classes=[record(B, A, [q, c, a], [method(n), method(g), method(m)])]),
        entry(classes=[record(C, B, [b, p], [method(f)])])]
    grown = record(B, A, (), [method(m, put(member(nil(), c), nil()), put(member(nil(), p), nil()))])
    yield "fields are registered in own classes", [
        entry(classes=[record(A, 0, [p])]), entry(classes=[grown]), entry(classes=[record(C, A)])]
    yield "a child of an earlier class", [
        entry(classes=[record(A)]), entry(classes=[record(B, A)]), entry(classes=[record(C, A)]), withdraw()]
    yield "the child mark of a refused entry", [
        entry(classes=[record(A)]), entry(do(call(use(B))), classes=[record(B, A)]), entry()]
    yield "the child mark of a refused entry on a core record", [entry(do(call(use(A))), classes=[record(A, UI_EVENT)]), entry()]
    yield "a core record with a child", [
        entry(classes=[record(A, UI_EVENT)]), entry(do(call(use(A)))), withdraw(), entry(classes=[record(A)])]


def counts():
    refusals = {
        5: [stop()], 6: [do(lit([p], put(use(p), nil())))], 7: [let(c), let(c)], 8: [do(use(q))], 9: [do(use(NULL))],
        10: [do(is_a(nil(), b))], 12: [do(call(use(DICT)))], 16: [do(lit([p, p], nil_body()))], 17: [do(host(a))],
        20: [do(call(use(UI_EVENT)))]}
    for question, stmts in refusals.items():
        yield f"after {question}", [entry(let(a)), entry(var(b), *stmts, let(g), gap=3), entry(let(n))]
    refused = {11: [record(A, q)], 13: [record(A)], 14: [one_method()], 18: [record(A, A)], 19: [record(A, STRING)],
               21: [with_init()]}
    stmts = {13: do(static(A, m)), 14: do(static(A, m)), 21: do(call(use(A)))}
    for question, records in refused.items():
        yield f"after {question}", [
            entry(let(a)), entry(var(b), stmts.get(question, do(nil())), let(g), classes=records), entry(let(n))]
    yield "after a refusal that starts higher", [entry(let(a)), entry(stop(), gap=7), entry(let(b))]
    yield "a hoisted let that clashes", [
        entry(let(a)), entry(let(p), var(b, literal()), let(b, literal())), entry(let(n)),
        entry(var(g, literal()), var(b, literal()), var(b, literal())), preview(let(n)), entry(let(n)),
        entry(do(lit([], block(var(b, literal()), var(b, literal())))), var(c, literal())), entry(let(n))]
    yield "a hoisted let that clashes, then a withdrawal", [
        entry(let(a)), entry(var(b, literal()), var(b, literal())), withdraw(), entry(let(b))]
    yield "hoisted lets take theirs first", [entry(let(a), var(b, literal()), stop(), var(c, literal())), entry(let(n))]
    yield "no count after 22", [entry(let(a), gap=2, lent=1), entry(let(a), gap=2, lent=2), entry(let(b), lent=0)]
    yield "constants of an earlier entry", [
        entry(let(a), var(b)), entry(let(c, nil(), 3), gap=1), entry(put(use(c), nil())), entry(do(array(use(c), use(b))))]
    yield "the largest start", [
        entry(let(a), start=MAX_GLOBALS - 1), entry(start=MAX_GLOBALS), entry(let(b), start=MAX_GLOBALS),
        entry(start=MAX_GLOBALS), withdraw(), entry(start=MAX_GLOBALS), entry(start=MAX_GLOBALS + 1)]


def no_entries():
    other = unit()
    yield "no unit", [entry(let(a)), units(), entry(let(b))]
    yield "two units", [entry(let(a)), units(unit(let(b)), unit(stop())), entry(do(use(b)))]
    yield "an import", [entry(let(a)), units(unit(imports=[bring(other, a)]), other), entry(let(b))]
    itself = unit()
    itself.kids.insert(0, bring(itself))
    yield "an import of itself", [units(itself)]
    yield "a start below", [
        entry(let(a), var(b)), entry(stop(), gap=-1), entry(let(c)), entry(let(g), gap=1), entry(gap=-1)]
    deep = nil()
    for _ in range(61):
        deep = array(deep)
    yield "3 and 4 before 23", [entry(let(a)), entry(let(a, nil(), 2), start=0), entry(do(deep), start=0), entry(start=0)]
    yield "23 before 5 to 22", [entry(let(a)), entry(stop(), start=0, lent=0), entry(stop(), lent=0), entry(let(b), lent=0)]


def previews_and_withdrawals():
    yield "a preview changes nothing", [
        entry(let(a)), preview(let(b), let(f, literal()), more=[b"z1"]), preview(let(b), stop()), entry(let(c)),
        entry(do(use(b)))]
    yield "a preview of a refused entry", [
        preview(let(a), stop(), gap=4), preview(stop(), lent=0), preview(let(a), lent=0), preview(let(a))]
    yield "withdrawals until none is left", [
        entry(let(a)), entry(stop()), entry(var(a)), withdraw(), entry(do(use(a))), withdraw(), withdraw(), entry(do(use(a)))]
    yield "none to withdraw", [withdraw(), entry(stop()), withdraw(), preview(let(a)), withdraw()]
    yield "names on show", [
        entry(let(a), let(b)), entry(let(a)), entry(let(STRING), let(c)), withdraw(), withdraw(), entry(let(c))]
    yield "child marks after a withdrawal", [
        entry(classes=[record(A)]), entry(classes=[record(B, A)]), withdraw(), entry(classes=[record(C, A)]), withdraw()]


def texts_of_names():
    asked = [name_text(whose, number, names) for names in (b"a\nz1\n", b"a\na\n", b"")
             for whose in (0, 1) for number in (0, 1, 24, 25, 26, 27, 2**32 - 1)]
    yield "in sessions", [*asked, entry(let(b), more=[b"z2", b"z3"]), *asked, withdraw(), *asked]


def made(plans, rng, order, verbs):
    """The requests of the plans that have one of these verbs, each over the session after the one before."""
    session, run = FRESH, []
    for plan in (plan for plan in plans if plan.verb in verbs):
        run.append(plan.request(session, rng, order))
        if run[-1].verb != NAME_TEXT:
            session = outcome(session, run[-1])[1]
    return run


def directed_plans():
    groups = [what_is_seen, declared_again, numbers, classes_of_earlier_entries, counts, no_entries, previews_and_withdrawals,
              texts_of_names]
    for group in groups:
        for what, plans in group():
            yield f"{group.__name__}: {what}", plans


def directed_runs(verbs=VERBS):
    for i, (what, plans) in enumerate(directed_plans(), 1):
        yield what, made(plans, random.Random(i), ORDERS[i % 3], verbs)


# Runs at the limits of question 24

def listing(names, root=None, lent=MAX_ROWS):
    return Plan(ENTER, root or tree(), names=names, lent=lent)


def wide(make, numbers, start=None):
    """An entry with one let, class or field for each of the names with these numbers; all thousand are in its list."""
    names = [b"n%d" % i for i in range(1000)]
    return Plan(ENTER, make(25 + len(NAMES) + i for i in numbers), start, names=NAMES + names)


def many_lets(numbers):
    return tree(*(let(number) for number in numbers))


def many_classes(numbers):
    return tree(classes=[record(number) for number in numbers])


def fields_of(name, parent=0):
    return lambda numbers: tree(classes=[record(name, parent, list(numbers))])


def limits_of_session():
    names = [b"n%d" % i for i in range(1000)]
    yield "names", [
        listing(names), listing([b"m%d" % i for i in range(24)]), listing([b"x1"]), listing([b"x1"], lent=0),
        listing(names + [b"m3"]), withdraw(), listing([b"x1"]), withdraw(), listing([b"x1"])]
    long_names = [b"%0255d" % i for i in range(128)]
    yield "bytes of names", [
        listing(long_names[:127]), listing(long_names[127:]), listing([b"z"]), listing(long_names), withdraw(), withdraw(),
        listing([b"%0253d" % 5]), listing([b"z1"]), listing([b"z"]), listing([b"w"])]
    yield "declarations", [
        *(wide(many_lets, range(1000)) for _ in range(4)), wide(many_lets, range(96)), wide(many_lets, range(1)), entry(),
        withdraw(), withdraw(), wide(many_lets, range(97)), wide(many_lets, range(96))]
    yield "a class and a let count twice", [
        *(wide(many_lets, range(1000)) for _ in range(4)), wide(many_lets, range(95)), entry(let(A), classes=[record(A)]),
        entry(classes=[record(A)]), entry(let(A))]
    yield "classes", [
        *(wide(many_classes, range(500)) for _ in range(2)), wide(many_classes, range(24)), wide(many_classes, range(1)),
        entry(let(a)), withdraw(), withdraw(), wide(many_classes, range(25)), wide(many_classes, range(24))]
    yield "fields and methods", [
        wide(fields_of(A), range(1000)), *(wide(fields_of(B, A), ()) for _ in range(7)), wide(fields_of(B), range(191)),
        entry(classes=[record(C, 0, (), [method(m), method(n)])]), entry(classes=[record(C, 0, (), [method(m)])]),
        entry(classes=[record(C, 0, [m])]), entry(classes=[record(C)])]
    yield "entries", [
        *(entry(let(a)) for _ in range(999)), entry(let(f, literal()), classes=[one_method()]), entry(let(b)), entry(stop()),
        entry(let(b), lent=0), preview(let(b)), withdraw(), entry(do(use(a)), let(f, literal()), classes=[one_method()])]
    yield "globals", [
        wide(many_lets, range(1000)), wide(many_lets, range(1000), MAX_GLOBALS), entry(start=MAX_GLOBALS), withdraw(),
        entry(start=MAX_GLOBALS)]


def limit_runs(verbs=VERBS):
    for i, (what, plans) in enumerate(limits_of_session()):
        yield f"limits: {what}", made(plans, random.Random(i), "preorder", verbs)
