"""The recorded requests of verbs 2 to 5 for the program crates/plush_serve, as one run over its one session.

`recorded()` makes the requests, with the replies that session.py gives; serve_cases.py holds them to the Rust. First come the
runs of session_directed.py, each with names of its own so that it finds none of them declared: those that lay over core names or
`null` after the others. Then three limits of question 24: names, their bytes, and fields and methods; those on declarations,
classes and entries would take some 1 MB of requests, and compare_session.py has them. At each limit entries are withdrawn until
one is accepted that 24 refused. Then all entries are withdrawn, and one more than there are, and some of the first runs come once
more. Last come the largest starts, after which no entry is accepted. Between these stand requests for the texts of names, bodies
that are longer than any accepted, entries with just as many answer rows lent as there are, and entries that use every visible
name. 15 needs an import, so no entry meets it.
Before some entries of each question, and of those that are accepted, stands a preview of the same request.
"""
import random
from collections import Counter

from directed import (
    A, B, DICT, STRING, UI_EVENT, a, array, b, block, bring, c, call, do, f, g, give, host, is_a, let, lit, m, method, nil, p,
    put, q, record, static, stop, unit, use, var)
from format_check import FIXED, MAX_GLOBALS, MAX_ROWS, listed
from session import (
    ENTER, FRESH, LIMITS, NAME_TEXT, PREVIEW, WITHDRAW, Request, all_names, declarations, listed_names, outcome, replied,
    request_bytes, sizes, visible)
from session_directed import ORDERS, directed_plans, directed_runs, entry, literal, name_text, tree, units, withdraw
from session_program import HAS
from sheets import MAIN_UNIT, NULL, Sheet
from tree import text_of

MAX_NAME = 255
# so many entries of each question are previewed first, and of the accepted ones those after them whose number this divides
PREVIEWED = 4
# bytes of a sheet that is previewed besides
SHORT = 4000
# fields of a class with many children, and how many of these an entry can have: each is told with all its fields
WIDE, CHILDREN = 250, 8
# how many of the first runs come once more
AGAIN = 6


class Case:
    """A request and the reply that the program must give."""
    kinds = ()

    def __init__(self, what, request, out):
        self.what, self.request, self.out = what, request, out

    @property
    def question(self):
        return int(self.out[:10])

    def input(self):
        return request_bytes(self.request)


class Over:
    """A request that a function makes of the session before it."""

    def __init__(self, make, verb=ENTER):
        self.make, self.verb = make, verb

    def request(self, session, rng, order, ending):
        return self.make(session, rng)


def sheet_over(session, rng, root, names, lent=MAX_ROWS, gap=0):
    """An entry at the session's count, or `gap` above; its tree has the numbers of its own list."""
    root.a = session.globals + gap
    sheet = Sheet(root, names, rng, "preorder")
    return Request(ENTER, text_of(sheet.rows).encode(), sheet.names, lent)


# The runs of session_directed.py

def directed():
    """(what, plans) of those that lay over no fixed name, of those that do, and of those that start at the end. Of the second
    sort the one with an undeclared null comes first."""
    plain, fixed, last = [], [], []
    for (what, requests), (_, plans) in zip(directed_runs(HAS), directed_plans()):
        session, questions = FRESH, []
        for request in requests:
            if request.verb != NAME_TEXT:
                out, session = outcome(session, request)
                questions.append(out[0][0])
        at_end = session.globals >= MAX_GLOBALS
        over_fixed = any(each.name <= len(FIXED) for each in declarations(session))
        group = last if at_end else fixed if over_fixed else plain
        group.insert(0 if over_fixed and 9 in questions else len(group), (what, plans))
    return plain, fixed, last


# Single points

def texts_of_session():
    """Of numbers at both ends of the session's names and of an entry's; a list that is refused."""
    numbers = [lambda count, at=at: at for at in (0, 1, 24, 25)] + [lambda count, past=past: count + past for past in (-1, 0, 1)]
    for names in (b"a\nz1\n", b"a\na\n"):
        for number in numbers:
            yield Over(lambda session, _, names=names, number=number: Request(
                NAME_TEXT, b"", names, 0, number(len(all_names(session)))), NAME_TEXT)
            yield Over(lambda session, _, names=names, number=number: Request(
                NAME_TEXT, b"", names, 1, number(25 + len(listed(names)))), NAME_TEXT)


def broken(change, gap=0):
    """An entry with new names, its text and names changed."""
    def make(session, rng):
        request = sheet_over(session, rng, tree(let(25), let(26)), [b"y1", b"y2"], gap=gap)
        text, names = change(request.text, request.names)
        return request._replace(text=text, names=names)
    return Over(make)


def no_sheets():
    """Questions 1 to 3 of entries that start above the count, and below it; 4; bodies that are too long, of which all but the
    last byte or two would be accepted; and a list that is a byte too long."""
    changes = [
        lambda text, names: (b"", names), lambda text, names: (text[:-1], names), lambda text, names: (text + b"\n", names),
        lambda text, names: (text[:8] + b"00" + text[10:], names), lambda text, names: (text[:-1], b"y1\ny1\n"),
        lambda text, names: (text, b"y1\ny1\n"), lambda text, names: (text, b"y1\nnull\n"), lambda text, names: (text, b"y1\ny2"),
        lambda text, names: (text, b"\n\n"), lambda text, names: (text, b"y1\n"),
        lambda text, names: (text[:70] + b"%10d" % 99 + text[80:], names),
    ]
    yield from (broken(change, gap) for change in changes for gap in (2, -1))
    yield entry(do(deeper(61)), let(26), gap=2)
    long_names = [b"%0255d\n" % i for i in range(128)]
    yield broken(lambda text, names: (text, b"".join([*long_names, b"y\n"])))
    rows = tree(*(do(array()) for _ in range(1022)))
    yield Over(lambda session, rng: one_byte_more(sheet_over(session, rng, rows, [b"y1"])))
    yield name_text(1, 25, b"".join([*long_names[:127], b"x" * 127, b"\n", b"y" * 128, b"\n"]))
    yield entry(let(25))


def deeper(depth):
    return array(deeper(depth - 1)) if depth else array()


def one_byte_more(request):
    return request._replace(text=request.text + b" ")


def more_points():
    """What planted.py asks for beside the runs of session_directed.py."""
    yield "an inner block's function", [entry(block(let(a, literal())), var(b)), entry(do(use(a)))]
    yield "a global over a function, and back", [
        entry(let(a, literal())), entry(var(a)), entry(put(use(a), nil())), entry(let(a, literal())), entry(put(use(a), nil()))]
    yield "core names in later entries", [
        entry(let(a), let(c, literal())), entry(var(b), do(static(DICT, m, nil()))), entry(do(call(use(STRING), nil()))),
        entry(var(b), do(lit([], give(use(NULL))))), entry(do(is_a(nil(), a))), entry(do(is_a(nil(), c))),
        entry(do(lit([], give(array(use(DICT), use(UI_EVENT))))), do(is_a(nil(), STRING)), classes=[record(A, UI_EVENT)]),
        entry(do(is_a(use(A), A)), classes=[record(B, A, [p])])]
    innermost = lit([q], give(array(use(p), use(q), use(a), use(b), use(g))))
    inner = lit([], block(put(use(a), use(b)), give(innermost)))
    of_method = record(A, 0, [p], [method(m, var(a), let(b, lit([], put(use(a), use(p)))), params=[p, q])])
    yield "captures, escapes and an earlier name", [
        entry(var(g)), entry(let(f, lit([p], block(var(a), let(b), give(inner)))), var(c, lit([a], give(lit([], give(use(a))))))),
        entry(do(array(use(f), use(c), use(g))), classes=[of_method]), entry(do(static(A, m, nil(), nil())))]
    yield "a main function or none", [
        entry(do(host(MAIN_UNIT)), do(lit([], give(host(MAIN_UNIT)))), main=main) for main in (True, False)]
    other = unit()
    yield "no entries that start higher", [
        units(gap=3), units(unit(), unit(), gap=3), units(unit(imports=[bring(other)]), other, gap=3), entry(let(a))]


def withdrawals():
    """What is there again after a withdrawal, and what is gone: a name laid over another, numbers of functions, classes and
    names, classes and their members. The globals stay used."""
    yield "withdrawals: a name laid over another", [
        entry(let(a)), entry(var(a), let(b)), entry(do(use(a)), put(use(a), use(b))), withdraw(), withdraw(), entry(do(use(a))),
        entry(put(use(a), nil())), entry(do(use(b))), entry(let(b), let(a, literal())), entry(do(array(use(a), use(b)))),
        withdraw(), withdraw(), entry(do(use(a)))]

    def child():
        return entry(let(f, literal()), let(g), more=[b"z5"], classes=[record(B, A, [a])])
    yield "withdrawals: numbers used again", [
        entry(classes=[record(A, 0, [q, p, c, b, g], [method(m, params=[a, b])])]), child(),
        entry(do(static(B, m, nil(), nil()))), withdraw(), withdraw(), entry(do(use(B))), entry(do(use(f))), child(),
        entry(do(array(use(f), use(B), use(g)))), withdraw(), withdraw(), entry(do(use(A)), more=[b"z6", b"z5"])]
    yield "withdrawals: a refused entry between", [
        entry(let(a)), entry(var(b), stop()), withdraw(), entry(do(use(a))), entry(let(a)), entry(var(b)), withdraw(),
        entry(do(use(a)))]


def few_lent():
    """The same entry with no rows lent, one less than there are, and as many."""
    inner = lit([25], give(array(use(25), use(26))))
    root = tree(let(27, lit([26], give(inner))), let(28), classes=[record(29, 0, [25, 26], [method(27), method(28)])])
    names = [b"y3", b"y4", b"y5", b"y6", b"y7"]

    def lent(session, rng, less):
        request = sheet_over(session, rng, root, names)
        count = len(outcome(session, request)[0]) - 1
        return request._replace(x=0 if less is None else count - less)
    return [Over(lambda session, rng, less=less: lent(session, rng, less)) for less in (None, 1, 0)]


def every_name(session, rng):
    """Uses every visible name, half of them two functions deep; some names of the list are new, and its order is another than the
    session's."""
    known = all_names(session)
    used = [known[name] for name in visible(session)]
    names = [name for name in used if name not in FIXED] + [b"v%d_%d" % (len(known), i) for i in range(5)]
    rng.shuffle(names)
    numbers = {name: number for number, name in enumerate([*FIXED, *names], 1)}
    uses = [use(numbers[name]) for name in used]
    deep = lit([], give(lit([], give(array(*uses[::2])))))
    return sheet_over(session, rng, tree(do(array(*uses[1::2])), do(deep)), names)


# Limits of question 24

def left(session):
    return [limit - size for limit, size in zip(LIMITS, sizes(session))]


def fill_names(session, rng):
    """All names but two are there then, and all bytes but those of a name of MAX_NAME bytes and one that is a byte shorter."""
    names_left, bytes_left = left(session)[:2]
    names = [b"n%04d" % i for i in range(names_left - 2)]
    spare = bytes_left - (2 * MAX_NAME + 1) - sum(len(name) + 1 for name in names)
    for i, name in enumerate(names):
        more = min(spare, MAX_NAME - len(name))
        names[i], spare = name + b"." * more, spare - more
    return sheet_over(session, rng, tree(let(25)), names[::-1])


def listing(*names, stmts=(), lent=MAX_ROWS, gap=0):
    """An entry that declares its first name, unless its statements are given."""
    return Over(lambda session, rng: sheet_over(session, rng, tree(*(stmts or [let(25)])), list(names), lent, gap))


def names_and_bytes():
    exact = b"p" * MAX_NAME, b"q" * (MAX_NAME - 1)
    yield Over(fill_names)
    yield listing(b"o1", b"o2", b"o3")
    yield listing(b"p" * MAX_NAME, b"q" * MAX_NAME)
    yield listing(*exact, lent=1)
    yield listing(*exact)
    yield listing(b"o")
    yield listing(b"o", gap=3)
    yield listing(b"o", lent=0)
    yield listing(b"o", stmts=[let(25), stop()])
    yield listing(b"o", b"n0001")
    yield listing(*exact)
    yield withdraw()
    yield listing(b"o")
    yield withdraw()
    yield listing(b"o")
    yield withdraw()
    yield listing(*exact)
    yield from texts_of_session()


def short_names(session):
    """Names of the session that are short."""
    return [name for name in listed_names(session) if len(name) < 10]


def with_classes(session, rng, records):
    """An entry with such classes, (name, parent or None, fields, methods), by names of the session."""
    named = [name for name, parent, fields, methods in records for name in (name, parent, *fields, *methods)]
    names = list(dict.fromkeys(name for name in named if name))
    rng.shuffle(names)
    number = {name: number for number, name in enumerate(names, 25)}
    number[None] = 0
    made = [record(number[name], number[parent], [number[each] for each in fields], [method(number[each]) for each in methods])
            for name, parent, fields, methods in records]
    return sheet_over(session, rng, tree(classes=made), names)


def a_class(session, rng, fields, methods=0):
    """One class with so many fields and methods."""
    first, *names = short_names(session)
    return with_classes(session, rng, [(first, None, names[:fields], names[:methods])])


def children(session, rng, count):
    """Children of the class that a_class makes, or fewer if there is not room for as many."""
    parent, *names = short_names(session)
    count = min(count, left(session)[4] // WIDE)
    return with_classes(session, rng, [(name, parent, (), ()) for name in names[:count]])


def members():
    yield Over(lambda session, rng: a_class(session, rng, WIDE))
    for _ in range((LIMITS[4] - WIDE) // WIDE // CHILDREN + 1):
        yield Over(lambda session, rng: children(session, rng, CHILDREN))
    yield Over(lambda session, rng: a_class(session, rng, left(session)[4] + 1))
    yield Over(lambda session, rng: a_class(session, rng, left(session)[4] - 2, 3))
    yield Over(lambda session, rng: a_class(session, rng, left(session)[4] - 2, 2))
    yield Over(lambda session, rng: a_class(session, rng, 1))
    yield Over(lambda session, rng: a_class(session, rng, 0, 1))
    yield Over(lambda session, rng: a_class(session, rng, 0))
    yield withdraw()
    yield Over(lambda session, rng: a_class(session, rng, 1))
    yield withdraw()
    yield Over(lambda session, rng: a_class(session, rng, 1))


# All of them

# stands for as many withdrawals as there are entries, and one more
ALL = withdraw()


def all_runs():
    """(what, plans, what ends the names of these)."""
    plain, fixed, last = directed()
    first, *rest = plain
    again = directed()[0]
    runs = [("texts in a fresh session", [*texts_of_session(), ALL]), first, ("no sheets", no_sheets()),
            ("few rows lent", few_lent()), *rest, *more_points(), *withdrawals(), ("texts", texts_of_session()),
            ("every name", [Over(every_name)]), *fixed, ("every name again", [Over(every_name)]),
            ("names and bytes", names_and_bytes()), ("fields and methods", members()),
            ("all withdrawn", [ALL, *texts_of_session(), Over(every_name)])]
    numbered = [(what, plans, b"_%d" % i) for i, (what, plans) in enumerate(runs)]
    numbered += [(what, plans, ending) for (what, plans), (_, _, ending) in zip(again[:AGAIN], numbered[1:])]
    return numbered + [(what, plans, numbered[1][2]) for what, plans in last] + [("texts at the end", texts_of_session(), b"")]


def requests_of(plan, session, rng, order, ending):
    if plan is ALL:
        return [Request(WITHDRAW)] * (len(session.entries) + 1)
    return [plan.request(session, rng, order, ending)]


def with_previews(session, request, seen):
    """The request and, if it is an entry that is to be previewed first, the preview before it. `seen` counts entries by question."""
    if request.verb != ENTER:
        return [request]
    question = outcome(session, request)[0][0][0]
    seen[question] += 1
    first = seen[question] <= PREVIEWED or question == 0 and seen[question] % PREVIEWED == 0 and len(request.text) < SHORT
    return [request._replace(verb=PREVIEW), request] if first else [request]


def recorded():
    session, cases, seen = FRESH, [], Counter()
    for i, (what, plans, ending) in enumerate(all_runs()):
        rng = random.Random(i)
        for plan in plans:
            if plan.verb in HAS:
                for made in requests_of(plan, session, rng, ORDERS[i % 3], ending):
                    for request in with_previews(session, made, seen):
                        reply, session = replied(session, request)
                        cases.append(Case(what, request, reply))
    return cases
