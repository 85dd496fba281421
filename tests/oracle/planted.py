"""planted.py [WORD]

Plants the faults of faults.py in copies of second.py, format_check.py, columns_cases.py, find_cases.py and order_cases.py, and those
of session_faults.py in copies of session.py, one at a time, and counts the recorded cases that notice each: those of
crates/plush_serve whose reply changes, and those of crates/question_tests and crates/columns_tests whose answer changes. A copy
of session.py goes through all requests of verbs 2, 4 and 5 over one session, which may differ from the first difference on.
Prints a line for each fault, first those that no case notices; exit status 1 if there is one, or if a copy without a fault
answers a case otherwise. With WORD only faults that have it in their line are planted. A fault that stops the copy with an
error counts as noticed there.
"""
import sys
import types
from pathlib import Path

import faults
import session_faults
from question_cases import cases_of
from session_program import HAS
from tree import text_of

HERE = Path(__file__).resolve().parent
CRATES = HERE.parents[1] / "crates"
RESOLVE = 1
FIND = 6
ORDER = 7
# verbs whose reply has a row that tells the session
TELLING = 2, 3, 4
TO_COLUMNS, FROM_COLUMNS = 9, 10


def altered(file, changes):
    """A module out of a file's text with changes: a text that occurs once, what stands in its place, and so on."""
    source = (HERE / file).read_text()
    for old, new in zip(changes[::2], changes[1::2]):
        if source.count(old) != 1:
            raise ValueError(f"{source.count(old)} times in {file}: {old}")
        source = source.replace(old, new)
    module = types.ModuleType(file)
    exec(compile(source, file, "exec"), module.__dict__)
    return module


# The recorded cases

def serve_cases():
    """(verb, text of a sheet, names, x, y, second names, reply) of each case of crates/plush_serve."""
    data, out = ((CRATES / "plush_serve" / name).read_bytes() for name in ("stdin", "stdout"))
    cases, at, replied = [], 0, 0
    while at < len(data):
        verb, sheet_bytes, name_bytes, _, x, y, _, second_bytes = (int(data[at + i:at + i + 10]) for i in range(0, 80, 10))
        start = at + 81
        middle, second = start + sheet_bytes, start + sheet_bytes + name_bytes
        at = second + second_bytes
        rows, text_bytes = (int(out[i:i + 10]) for i in (replied + 50, replied + 70))
        end = replied + 81 * (1 + rows + (verb in TELLING)) + text_bytes
        cases.append((verb, data[start:middle], data[middle:second], x, y, data[second:at], out[replied:end]))
        replied = end
    assert replied == len(out)
    return cases


def column_tests():
    """(numbers of a case, line) of each case of crates/columns_tests."""
    cases, lines = ((CRATES / "columns_tests" / name).read_text().splitlines() for name in ("stdin", "stdout"))
    assert len(cases) == len(lines)
    return [(tuple(int(case[i:i + 10]) for i in range(0, 80, 10)), line) for case, line in zip(cases, lines)]


def question_cases():
    """(words, names, question) of each case of crates/question_tests."""
    script, out = ((CRATES / "question_tests" / name).read_text() for name in ("stdin", "stdout"))
    answers = [int(line.rpartition(": ")[2]) for line in out.splitlines()]
    cases = [(words, names) for _, words, names in cases_of(script)]
    assert len(cases) == len(answers)
    return [(*case, answer) for case, answer in zip(cases, answers)]


class Recorded:
    def __init__(self):
        self.format = altered("format_check.py", ())
        cases = serve_cases()
        self.serve = [(text, names, lent, out) for verb, text, names, lent, _, _, out in cases if verb == RESOLVE]
        self.columns = [(verb, self.format.words_of_text(text), lent, out) for verb, text, _, lent, _, _, out in cases
                        if verb in (TO_COLUMNS, FROM_COLUMNS)]
        self.found = [(names, name, out) for verb, _, names, _, _, name, out in cases if verb == FIND]
        self.ordered = [(self.format.words_of_text(text), names, lent, out) for verb, text, names, lent, _, _, out in cases if verb == ORDER]
        self.session = [(case[:5], out) for *case, _, out in cases if case[0] in HAS]
        self.column_tests = column_tests()
        self.questions = question_cases()
        self.sheets = []
        for text, _, lent, out in self.serve:
            words = self.format.words_of_text(text)
            if int(out[:10]) not in (1, 2, 3, 4):
                self.sheets.append(([words[i:i + 8] for i in range(0, len(words), 8)], 8 * lent, out))

    def resolver_notices(self, module):
        """How many cases of crates/plush_serve the module's resolver answers otherwise."""
        return sum(outcome(lambda: text_of(module.printed_rows(rows, lent)).encode()) != out
                   for rows, lent, out in self.sheets)

    def text_notices(self, module):
        """How many cases of crates/plush_serve the module refuses otherwise."""
        return sum(outcome(lambda: module.first_no(module.words_of_text(text), names)) != refusal(out)
                   for text, names, _, out in self.serve)

    def format_notices(self, module):
        """How many cases of crates/question_tests the module answers otherwise."""
        return sum(outcome(lambda: module.first_no(words, names)) != answer for words, names, answer in self.questions)

    def columns_notice(self, module):
        """How many cases of crates/plush_serve that are stored by column or taken back the module answers otherwise."""
        def reply(verb, words, lent):
            told = module.replied(module.to_columns if verb == TO_COLUMNS else module.from_columns, words, lent)
            return text_of([told[i:i + 8] for i in range(0, len(told), 8)]).encode()
        return sum(outcome(lambda: reply(verb, words, lent)) != out for verb, words, lent, out in self.columns)

    def finding_notices(self, module):
        """How many cases of crates/plush_serve in which a name is looked for the module answers otherwise."""
        return sum(outcome(lambda: module.reply(names, name)) != out for names, name, out in self.found)

    def ordering_notices(self, module):
        """How many cases of crates/plush_serve in which the order of units is asked the module answers otherwise."""
        return sum(outcome(lambda: text_of(module.reply(words, names, lent)).encode()) != out for words, names, lent, out in self.ordered)

    def session_notices(self, module):
        """How many requests of verbs 2, 4 and 5 the module answers otherwise."""
        session, count = module.FRESH, 0
        for request, out in self.session:
            reply = outcome(lambda: module.replied(session, module.Request(*request)))
            count += isinstance(reply, Exception) or reply[0] != out
            session = session if isinstance(reply, Exception) else reply[1]
        return count

    def column_tests_notice(self, module):
        """How many cases of crates/columns_tests the module answers otherwise."""
        return sum(outcome(lambda: module.expected(case)) != line for case, line in self.column_tests)


def refusal(out):
    """The question from 1 to 4 that printed text is refused by, or 0."""
    question = int(out[:10])
    return question if question <= 4 else 0


def outcome(compute):
    try:
        return compute()
    except Exception as error:
        return error


def planted(recorded, word):
    """(noticing cases, line) of each fault."""
    source = (HERE / "format_check.py").read_text()
    groups = [
        ("plush_serve", "second.py", faults.RESOLVER, recorded.resolver_notices),
        ("plush_serve", "format_check.py", faults.TEXT, recorded.text_notices),
        ("question_tests", "format_check.py", faults.format_faults(source), recorded.format_notices),
        ("plush_serve", "columns_cases.py", [*faults.COLUMNS, *faults.COLUMN_REPLIES], recorded.columns_notice),
        ("plush_serve", "find_cases.py", faults.FINDING, recorded.finding_notices),
        ("plush_serve", "order_cases.py", faults.ORDERING, recorded.ordering_notices),
        ("plush_serve", "session.py", session_faults.SESSION, recorded.session_notices),
        ("columns_tests", "columns_cases.py", [*faults.COLUMNS, *faults.COLUMN_SIZES], recorded.column_tests_notice),
    ]
    for program, file, group, notices in groups:
        for what, *changes in group:
            line = f"{program}: {what}"
            if word in line:
                yield notices(altered(file, changes)), line


def main():
    recorded = Recorded()
    wrong = [recorded.resolver_notices(altered("second.py", ())), recorded.text_notices(recorded.format),
             recorded.format_notices(recorded.format)]
    wrong += [notices(altered("columns_cases.py", ())) for notices in (recorded.columns_notice, recorded.column_tests_notice)]
    wrong.append(recorded.finding_notices(altered("find_cases.py", ())))
    wrong.append(recorded.ordering_notices(altered("order_cases.py", ())))
    wrong.append(recorded.session_notices(altered("session.py", ())))
    if any(wrong):
        sys.exit(f"without a fault, cases answered otherwise: {wrong}")
    found = list(planted(recorded, sys.argv[1] if len(sys.argv) > 1 else ""))
    for count, line in sorted(found, key=lambda each: each[0] > 0):
        print(f"{count:5} {line}")
    missed = sum(count == 0 for count, _ in found)
    serve = sum(map(len, (recorded.serve, recorded.columns, recorded.found, recorded.ordered, recorded.session)))
    print(f"{serve} cases of plush_serve, {len(recorded.questions)} of question_tests, {len(recorded.column_tests)} of "
          "columns_tests")
    print(f"{len(found)} faults planted, {missed} not noticed")
    sys.exit(1 if missed else 0)


if __name__ == "__main__":
    main()
