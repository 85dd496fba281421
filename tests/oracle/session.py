"""Sessions at the prompt, written from documents 01 and 02 (F-1, F-5, F-7, F-8), over the resolver of second.py. What these leave
open is as in the Rust.

A session is a value: the global count and the accepted entries that are left, each with its new names, the declarations that
it laid over, and its classes, merged. All else is found from these: entry numbers, name numbers, what names mean, child marks,
names on show. `entered`, `withdrawn` and `text_of_name` are the requests; `replied` gives a reply as the program writes it.
"""
from collections import namedtuple

from format_check import COLUMN_A, COLUMN_B, FIXED, MAX_GLOBALS, MAX_ROWS, first_no, listed, names_fit, words_of_text
from second import CLASS, CORE, CORE_FIELDS, FUNCTION, GLOBAL, Decl, No, Resolver
from tree import text_of

VERBS = ENTER, PREVIEW, WITHDRAW, NAME_TEXT = 2, 3, 4, 5
# names, bytes of names, declarations, classes, fields and methods
LIMITS = [1024, 32768, 4096, 1024, 8192]
MAX_ENTRIES = 1000
MAX_SESSION_GLOBALS = MAX_GLOBALS + MAX_ROWS
MAX_PARAMS = MAX_ROWS - 1
STEP = 2048
# numbers from earlier entries gain this while an entry is resolved, so that they differ from the entry's own, which are rows
EARLIER = 2**32

Session = namedtuple("Session", "globals entries")
# classes first, then the body's, in the order of declaration
Entry = namedtuple("Entry", "names declarations classes")
# code 1, 2 or 3
Declaration = namedtuple("Declaration", "name code number mutable")
# `fields` are names by slot
Record = namedtuple("Record", "number parent fields methods")
Method = namedtuple("Method", "name function params")
# `x` is the answer rows lent, or whose name it is
Request = namedtuple("Request", "verb text names x y", defaults=(b"", b"", 0, 0))

FRESH = Session(0, ())
CORE_DECLARATIONS = [Declaration(name, CLASS, number, 0) for name, number in CORE.items()]


# What a session holds

def listed_names(session):
    return [name for entry in session.entries for name in entry.names]


def all_names(session):
    """By number; number 0 is none."""
    return [None, *FIXED, *listed_names(session)]


def declarations(session):
    return [each for entry in session.entries for each in entry.declarations]


def classes(session):
    return [each for entry in session.entries for each in entry.classes]


def visible(session):
    """What each name means: the last declaration of it."""
    return {each.name: each for each in [*CORE_DECLARATIONS, *declarations(session)]}


def child_marks(session):
    """The numbers of the classes that have children."""
    return {each.parent for each in classes(session)} - {0}


def sizes(session):
    """What LIMITS limits."""
    names = listed_names(session)
    members = [len(each.fields) + len(each.methods) for each in classes(session)]
    return [len(names), sum(len(name) + 1 for name in names), len(declarations(session)), len(members), sum(members)]


def session_row(session):
    """The row that tells a session."""
    return [session.globals, len(session.entries), len(visible(session)), *sizes(session)]


# Question 23 of a session

def is_sound(session):
    """No count is over its limit, the names are past question 2, and every number names something that was there when its entry
    was accepted."""
    in_range = in_limits(session) and session.globals <= MAX_SESSION_GLOBALS
    return in_range and names_are_sound(session) and entries_are_sound(session)


def names_are_sound(session):
    return names_fit(b"".join(name + b"\n" for name in listed_names(session)))


def in_limits(session):
    return len(session.entries) <= MAX_ENTRIES and all(size <= limit for size, limit in zip(sizes(session), LIMITS))


def entries_are_sound(session):
    names, records = len(FIXED), set(CORE_FIELDS)
    for number, entry in enumerate(session.entries):
        names += len(entry.names)
        records |= {each.number for each in entry.classes}
        if not entry_is_sound(entry, number, names, records, session.globals):
            return False
    return True


def entry_is_sound(entry, number, names, records, count):
    """Of the entry with that number, when there are so many names, these classes and so many globals."""
    own = range(STEP * number + 1, STEP * (number + 1))
    numbers = {FUNCTION: own, CLASS: records, GLOBAL: range(count)}
    fits = [1 <= each.name <= names and each.number in numbers[each.code] for each in entry.declarations]
    fits += [each.number - 256 in own and (each.parent in records or not each.parent) for each in entry.classes]
    fits += [1 <= name <= names for each in entry.classes for name in each.fields]
    methods = [method for each in entry.classes for method in each.methods]
    fits += [1 <= name <= names and 0 < function < own.stop and params <= MAX_PARAMS for name, function, params in methods]
    return all(fits)


# An entry

def session_numbers(session, names):
    """(the session's number of each name of the entry, by the entry's number; the new names)."""
    known = {name: number for number, name in enumerate(all_names(session))}
    new = [name for name in listed(names) if name not in known]
    known.update({name: number for number, name in enumerate(new, len(known))})
    return [0, *(known[name] for name in [*FIXED, *listed(names)])], new


def renamed(rows, numbers):
    """Rows with other numbers of names."""
    out = []
    for kind, *middle, a, b in rows:
        a = numbers[a] if COLUMN_A.get(kind, "").startswith("name") else a
        b = numbers[b] if COLUMN_B.get(kind, "").startswith("name") else b
        out.append([kind, *middle, a, b])
    return out


class EntryResolver(Resolver):
    """Resolves an entry whose names have session numbers, over a session."""

    def __init__(self, rows, session):
        super().__init__(rows)
        self.raised = STEP * len(session.entries)
        self.closed = []
        self.params = {}
        for each in declarations(session):
            number = each.number if each.code == GLOBAL else each.number + EARLIER
            self.scopes[0][each.name] = Decl(each.code, number, 0, each.mutable)
        for each in classes(session):
            self.fields[each.number + EARLIER] = list(each.fields)
            self.methods[each.number + EARLIER] = {method.name: method.function + EARLIER for method in each.methods}
            self.params.update((method.function + EARLIER, method.params) for method in each.methods)

    def of_kind(self, row, kind):
        """Of an earlier function only the parameters are asked for, and of these only their number."""
        return range(self.params[row]) if row >= EARLIER else super().of_kind(row, kind)

    def declare_let(self, row):
        """16 is asked before a global is taken."""
        before = self.globals
        try:
            return super().declare_let(row)
        except No:
            self.globals = before
            raise

    def close_scope(self):
        self.closed.append(self.scopes[-1])
        super().close_scope()

    def inherit(self, record, done, below):
        """Classes of earlier entries are merged."""
        if record < EARLIER:
            super().inherit(record, done, below)

    # numbers as they are told

    def function_number(self, number):
        return number - EARLIER if number >= EARLIER else number + self.raised

    def class_number(self, number):
        if number >= EARLIER:
            return number - EARLIER
        return number + self.raised if number >= 256 else number

    def number(self, code, number):
        return {FUNCTION: self.function_number, CLASS: self.class_number}.get(code, int)(number)

    def told_rows(self):
        return [self.told(*row) for row in self.answer_rows()]

    def told(self, row, code, v, w, *rest):
        if code in (FUNCTION, CLASS):
            v = self.number(code, v)
        elif code in (4, 5):
            w = self.function_number(w)
        elif code == 22:
            v = self.class_number(v)
        elif code == 24:
            w = self.function_number(w)
        return [row, code, v, w, *rest]

    # what an accepted entry leaves

    def laid_over(self):
        """The last scopes to be closed are the body's, its function's, which is empty, and that of the classes."""
        body, _, of_classes = self.closed[-3:]
        return tuple(Declaration(name, decl.code, self.number(decl.code, decl.index), decl.mutable)
                     for scope in (of_classes, body) for name, decl in scope.items())

    def records(self):
        return tuple(self.record(256 + row) for row in self.classes)

    def record(self, number):
        methods = tuple(Method(name, self.function_number(function), len(self.of_kind(function, 11)))
                        for name, function in self.methods[number].items())
        parent = self.parents.get(number, 0)
        return Record(self.class_number(number), self.class_number(parent), tuple(self.fields[number]), methods)


def refused(question, position=(0, 0, 0), name=0):
    return [[question, *position, name, 0, 0, 0]]


def is_entry(rows, session):
    """Is a sheet one unit without imports that starts no lower than the session's global count?"""
    sheet = Resolver(rows)
    return len(sheet.kids[0]) == 1 and not sheet.of_kind(sheet.kids[0][0], 3) and sheet.a(0) >= session.globals


def entered(session, text, names, lent=MAX_ROWS):
    """(the report and the answer rows, the session after) of an entry, with `lent` rows lent."""
    if not is_sound(session):
        return refused(23), session
    words = words_of_text(text)
    question = first_no(words, names)
    if question:
        return refused(question), session
    rows = [words[i:i + 8] for i in range(0, len(words), 8)]
    if not is_entry(rows, session):
        return refused(23), session
    numbers, new = session_numbers(session, names)
    resolver = EntryResolver(renamed(rows, numbers), session)
    try:
        resolver.walk()
        resolver.inherit_all()
        resolver.check_calls()
    except No as no:
        return refused(no.question, resolver.position(no.row), numbers.index(no.name)), session._replace(globals=resolver.globals)
    out = resolver.told_rows()
    if len(out) > lent:
        return refused(22), session
    entry = Entry(tuple(new), resolver.laid_over(), resolver.records())
    after = Session(resolver.globals, (*session.entries, entry))
    if not in_limits(after):
        return refused(24), session
    return [[0, 0, 0, 0, 0, len(out), after.globals, 0], *out], after


# The other requests

def withdrawn(session):
    if not is_sound(session):
        return refused(23), session
    if not session.entries:
        return refused(25), session
    return refused(0), session._replace(entries=session.entries[:-1])


def text_of_name(session, names, whose, number):
    """The session's (0) or the entry's (1); a fixed name is the session's."""
    if whose == 1 and number > len(FIXED):
        at = number - len(FIXED) - 1
        return listed(names)[at] if names_fit(names) and at < len(listed(names)) else b""
    known = all_names(session) if names_are_sound(session) else []
    return known[number] if 0 < number < len(known) else b""


def request_bytes(request):
    head = [request.verb, len(request.text), len(request.names), 0, request.x, request.y, 0, 0]
    return text_of([head]).encode() + request.text + request.names


def replied(session, request):
    """(the reply, the session after) of a request."""
    if request.verb == NAME_TEXT:
        text = text_of_name(session, request.names, request.x, request.y)
        return text_of([[0] * 7 + [len(text)]]).encode() + text, session
    out, after = outcome(session, request)
    return text_of([*out, session_row(after)]).encode(), after


def outcome(session, request):
    """(the report and the answer rows, the session after) of an entry, a preview or a withdrawal."""
    if request.verb == WITHDRAW:
        return withdrawn(session)
    out, after = entered(session, request.text, request.names, request.x)
    return out, after if request.verb == ENTER else session


def dialogue(requests):
    """The replies to requests, from a fresh session on."""
    session, replies = FRESH, []
    for request in requests:
        reply, session = replied(session, request)
        replies.append(reply)
    return replies
