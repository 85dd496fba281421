"""What the program must print of a sheet, out of the oracle's answer.

The oracle's errors name the question by their text. Two questions are panics in the Rust, which give no position: 16,
whose place is then found by going through the scopes in the order of the walk, and 19, found by climbing the parents.

The fourth value of an identifier's row, how far out its declaration lies, is not the Rust's, which has 0 there: distance.py
says it. All other words of answer rows are the Rust's; `completed` makes sure that they stay so.
"""
import re
import subprocess
import tempfile

from distance import distances, source_steps, with_distances, without_distances
from format_check import FIXED, first_no, listed
from tree import A, B, KIND, kids_of, text_of, words_of

MAX_COLUMN = 16383
LENT = 16384

# the text of an error, with the name in the first pair of brackets, and its question
MESSAGES = [
    (r"`(?:break|continue)` outside of a loop", 5),
    (r"assignment to immutable variable `(.*)`, use `let var` to declare mutable variables", 6),
    (r"local variable with name `(.*)` already exists", 7),
    (r"reference to unknown identifier `(.*)`", 8),
    (r"there is no `(null)` value in plush, use `nil` instead", 9),
    (r"could not match class name `(.*)` for instanceof", 10),
    (r"could not resolve parent class name `(.*)`", 11),
    (r"cannot instantiate core class `(.*)` via constructor call", 12),
    (r"method `(.*)` not found on class `(.*)`", 13),
    (r"argument mismatch in call to class method `(.*)`", 14),
    (r"symbol `(.*)` not defined by imported unit", 15),
    (r"unknown host constant `(.*)`", 17),
    (r"class symbol `(.*)` is part of a circular inheritance loop", 18),
    (r"class `(.*)` has no init method and cannot be instantiated", 20),
    (r"argument mismatch in call to constructor of class `(.*)`", 21),
]
CLASH = re.compile(r'two declarations with name "(.*)"', re.S)
UNNAMED_CLASH = "assertion failed: top_scope.decls.get(name).is_none()"
NO_RECORD = "called `Option::unwrap()` on a `None` value"


def run_oracle(oracle, cases):
    """The oracle's answers to (rows, names) pairs, as text."""
    with tempfile.NamedTemporaryFile() as file:
        for i, (rows, names) in enumerate(cases):
            sheet = text_of(rows).encode()
            file.write(b"%d %d %d\n" % (i, len(sheet), len(names)) + sheet + names)
        file.flush()
        done = subprocess.run([oracle, "--batch", file.name], stdout=subprocess.PIPE, check=True)
    text = done.stdout.decode()
    answers = [part.split("\n", 1)[1] for part in re.split(r"^CASE ", text, flags=re.M)[1:]]
    assert len(answers) == len(cases)
    return answers


class Reader:
    """The rows of a sheet that passes questions 1 to 4. `bare` are the outermost names that mean classes 3 to 9."""

    def __init__(self, rows, names, bare=range(1, 7)):
        self.rows = rows
        self.names = [None] + FIXED + listed(names)
        self.bare = bare

    def kids(self, row):
        return kids_of(self.rows, row)

    def kind(self, row):
        return self.rows[row][KIND]

    def a(self, row):
        return self.rows[row][A]

    def b(self, row):
        return self.rows[row][B]

    def named_kids(self, row, kind):
        return {self.a(kid): kid for kid in self.kids(row) if self.kind(kid) == kind}

    def position(self, row):
        file, line, column = self.rows[row][3:6]
        return [file, line, min(column, MAX_COLUMN)]

    def row_at(self, position):
        return next(row for row in range(1, len(self.rows)) if self.position(row) == position)

    def number(self, text):
        """The number of a name that the oracle prints with a character for each byte."""
        return self.names.index(text.encode("latin-1"))


# Question 16

def clashes(sheet):
    """(declaring row, name) of every second declaration in a scope, in the order of the walk. Scopes behind the first
    one are as if it had been free of clashes."""
    for unit in sheet.kids(0):
        yield from repeated(unit_declarers(sheet, unit))
        yield from clashes_in(sheet, sheet.kids(unit)[-1])


def repeated(declarers):
    met = set()
    for row, name in declarers:
        if name in met:
            yield row, name
        met.add(name)


def unit_declarers(sheet, unit):
    for row in sheet.kids(unit):
        if sheet.kind(row) == 3:
            if sheet.b(row):
                yield from ((row, name) for name in exported(sheet, sheet.a(row), unit))
            yield from ((row, sheet.a(kid)) for kid in sheet.kids(row))
        if sheet.kind(row) == 4:
            yield row, sheet.a(row)


def exported(sheet, unit, importer):
    """The names that import-all brings, in order; a unit that imports itself sees nothing."""
    if unit == importer:
        return []
    return [name for kind in (7, 4, 8) for name in sheet.named_kids(unit, kind)]


def clashes_in(sheet, row):
    kids = sheet.kids(row)
    if sheet.kind(row) == 6:
        yield from repeated((kid, sheet.a(kid)) for kid in kids if sheet.kind(kid) == 11)
    if sheet.kind(row) == 25:
        lets = [kid for kid in kids if sheet.kind(kid) == 29 and sheet.kind(sheet.kids(kid)[0]) == 52]
        yield from repeated((kid, sheet.a(kid)) for kid in lets)
    if sheet.kind(row) == 30:
        kids = [kid for kid in sheet.kids(sheet.a(row)) if sheet.kind(kid) == 6]
    for kid in kids:
        yield from clashes_in(sheet, kid)


# Question 19

def class_without_parent_record(sheet):
    """The class whose parent is one of 3 to 9: classes in row order, the ancestors of each first."""
    for row in range(len(sheet.rows)):
        while sheet.kind(row) == 4 and sheet.b(row):
            parent = parent_of(sheet, row)
            if parent is None:
                return row
            row = parent


def parent_of(sheet, row):
    """The row of a parent of the sheet; None for 3 to 9; 0 for other classes. The walk is through, so the name means a
    class: of the unit, imported, or outermost."""
    name = sheet.b(row)
    unit = next(unit for unit in sheet.kids(0) if row in sheet.kids(unit))
    if name in sheet.named_kids(unit, 4):
        return sheet.named_kids(unit, 4)[name]
    for each in sheet.kids(unit):
        brought = sheet.kind(each) == 3 and sheet.a(each) != unit
        if brought and name in sheet.named_kids(sheet.a(each), 4):
            if sheet.b(each) or name in [sheet.a(kid) for kid in sheet.kids(each)]:
                return sheet.named_kids(sheet.a(each), 4)[name]
    return None if name in sheet.bare else 0


# The printed rows

def refused(question, position=(0, 0, 0), name=0):
    return [[question, *position, name, 0, 0, 0]]


def refused_at(sheet, question, row, name):
    return refused(question, sheet.position(row), name)


def of_error(sheet, word, position, message):
    for pattern, question in MESSAGES:
        found = re.fullmatch(pattern, message, re.S)
        if found:
            break
    else:
        raise ValueError(f"unknown error: {message}")
    if question == 5:
        return refused(5, position)
    if question == 20 and found[1] == "":
        # classes 100 to 102 have no name in the Rust
        return refused(20, position, sheet.a(sheet.row_at(position)))
    assert word == "ERR" or question == 13
    return refused(17 if word == "HOST" else question, position, sheet.number(found[1]))


def of_panic(sheet, message):
    if message == NO_RECORD:
        row = class_without_parent_record(sheet)
        return refused_at(sheet, 19, row, sheet.a(row))
    named = CLASH.fullmatch(message)
    if not named and message != UNNAMED_CLASH:
        raise ValueError(f"unknown panic: {message}")
    row, name = next(clashes(sheet))
    assert not named or sheet.number(named[1]) == name
    return refused_at(sheet, 16, row, name)


def of_answer(sheet, answer):
    word, _, rest = answer.rstrip("\n").partition(" ")
    if word in ("ERR", "HOST"):
        *position, message = rest.split(" ", 3)
        return of_error(sheet, word, [int(x) for x in position], message)
    if word == "PANIC":
        return of_panic(sheet, rest)
    return [[int(x) for x in line.split()] for line in answer.splitlines()]


def of_rust(rows, names, answer, lent=LENT):
    """What the Rust says of a sheet that passes questions 1 to 4, as the program prints it, with `lent` words lent."""
    out = of_answer(Reader(rows, names), answer)
    return out if 8 * (len(out) - 1) <= lent else refused(22)


def completed(rows, rust):
    """The rows that the program prints: the Rust's, and in those of identifiers the distance."""
    if len(rust) == 1:
        return rust
    out = with_distances(rows, rust)
    assert without_distances(rows, out) == rust
    assert distances(rows, out) == source_steps(rows, out)
    return out


def printed(rows, names, answer, lent=LENT):
    """The same out of the oracle's answer."""
    return completed(rows, of_rust(rows, names, answer, lent))


def split(words):
    return [words[i:i + 8] for i in range(0, len(words), 8)]


def all_of_rust(oracle, cases):
    """What the Rust says of (words, names, lent) cases, and format_check.py of those that questions 1 to 4 refuse."""
    questions = [first_no(words, names) for words, names, _ in cases]
    good = [i for i, question in enumerate(questions) if question == 0]
    answers = dict(zip(good, run_oracle(oracle, [(split(cases[i][0]), cases[i][1]) for i in good])))
    out = []
    for i, (words, names, lent) in enumerate(cases):
        out.append(of_rust(split(words), names, answers[i], lent) if i in answers else refused(questions[i]))
    return out


def all_printed(oracle, cases):
    """The printed rows of the same cases."""
    return [completed(split(words), rust) for (words, _, _), rust in zip(cases, all_of_rust(oracle, cases))]


def buffer(lent, out):
    """What the lent buffer holds: the answer rows, then zeros."""
    words = words_of(out[1:])
    return words + [0] * (lent - len(words))
