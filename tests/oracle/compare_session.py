"""compare_session.py ORACLE COUNT [SEED [PROGRAM]]

Compares session.py with the unchanged resolve_repl_unit, behind the oracle: the runs of session_directed.py, and random runs
until they hold COUNT entries and previews. Compared are, for each entry and preview: question, position, name, every word of the
answer rows, and the session after it, a preview's as if it had been entered: the row that tells it, what each visible name means,
parent, fields and methods of each class. After a withdrawal the session is compared. The fourth value of an identifier's row,
which the Rust does not say, is held to distance.py.

The Rust is not asked about entries that 1 to 4 and 23 refuse; 23 is held to the rows and to the Rust's count. What 22 and 24
refuse it must accept, with more answer rows than are lent, or with a count over its limit. It has no withdrawal: the oracle runs
the entries that are left once more.

What the Rust does not say or says otherwise: 16 and 19 are panics, so their place is found as for sheets (expected.py), and the
global count after them is the walk's next one that the panic left, less the one that the Rust took for a hoisted let of the unit
before it found the name taken. Child marks of refused entries stay in the Rust; they must be on classes named there as parents.

With PROGRAM, a built crates/plush_serve, the runs are made of the verbs that it has (session_program.py). Each is sent to a fresh
process of it in one go, and every reply must be what session.py says, byte by byte; as the Rust says the same of the same
requests, the program's questions, positions, names, answer rows and counts are the Rust's. After each entry, accepted or
refused, the program's session is asked for what it shows, in a process of its own: each known name that the Rust does not show
must be refused by 8, or 9 for null; an entry that uses every name that the Rust shows must be told for each what it means in the
Rust; the texts of all names by verb 5 must be those of the lists, and that of one number past the last empty. Of runs with more
than LONG entries only the last LAST sessions are asked.

Prints the counts by question and, of every run that differs, the first request that does. Exit status 1 if one differs.
"""
import os
import re
import subprocess
import sys
import tempfile
from collections import Counter

from distance import distances, source_steps, with_distances, without_distances
from expected import UNNAMED_CLASH, Reader, clashes, of_answer
from format_check import FIXED, listed, words_of_text
from session import (
    ENTER, FRESH, NAME_TEXT, PREVIEW, STEP, VERBS, WITHDRAW, all_names, child_marks, classes, entered, outcome, session_row,
    visible)
from session_directed import directed_runs, limit_runs
from session_program import HAS, Driven
from session_runs import random_run
from tree import B, KIND

BATCH = 200
LONG, LAST = 50, 8
NOT_ASKED = (1, 2, 3, 4, 23)
NOT_RUST = (22, 24)
# entries, names, bytes of names, declarations, classes, fields and methods
MOST = [1000, 1024, 32768, 4096, 1024, 8192]


class Told:
    """A session as the oracle tells it."""

    def __init__(self, lines):
        words = [(line.split()[0], tuple(map(int, line.split()[1:]))) for line in lines]
        [self.row] = [list(rest) for word, rest in words if word == "SESSION"]
        self.visible = [rest for word, rest in words if word == "NAME"]
        records = [rest for word, rest in words if word == "CLASS"]
        self.marks = {rest[0] for rest in records if rest[2]}
        self.classes = [rest[:2] + rest[3:] for rest in records if rest[0] > 255]

    def is_over(self):
        """Is a count over its limit?"""
        return any(size > limit for size, limit in zip([self.row[1], *self.row[3:]], MOST))

    def bare_names(self):
        """The names that mean classes 3 to 9."""
        return [name for name, code, number, _ in self.visible if code == 2 and number < 10]


def told_classes(session):
    out = []
    for each in classes(session):
        members = [word for method in each.methods for word in method]
        out.append((each.number, each.parent, len(each.fields), *each.fields, *members))
    return out


def run_oracle(oracle, requests):
    """(answer, session) for each (word, text, names)."""
    with tempfile.NamedTemporaryFile() as file:
        for i, (word, text, names) in enumerate(requests):
            file.write(b"%d %s %d %d\n" % (i, word.encode(), len(text), len(names)) + text + names)
        file.flush()
        done = subprocess.run([oracle, "--sessions", file.name], stdout=subprocess.PIPE, check=True)
    answers = [part.split("\n", 1)[1] for part in re.split(r"^CASE ", done.stdout.decode(), flags=re.M)[1:]]
    assert len(answers) == len(requests)
    out = []
    for answer in answers:
        before, mark, after = answer.partition("SESSION ")
        out.append((before, Told((mark + after).splitlines())))
    return out


class Step:
    """A request of a run, what the model says of it, and what the oracle is asked. `upto` is how many requests there are up to it;
    `told` is the Rust's session after it, as the row of counts and what the visible names mean."""

    def __init__(self, session, request, upto):
        self.request, self.before, self.upto, self.told = request, session, upto, None
        self.out, self.after = outcome(session, request)
        self.question = self.out[0][0]
        self.as_entered = entered(session, request.text, request.names, request.x)[1] if self.is_entry else self.after
        self.word = self.word_of()

    @property
    def is_entry(self):
        return self.request.verb in (ENTER, PREVIEW)

    def word_of(self):
        if self.request.verb == WITHDRAW:
            return "withdraw" if self.question == 0 else None
        if self.question in NOT_ASKED:
            return None
        return "try" if self.request.verb == PREVIEW or self.question in NOT_RUST else "enter"

    @property
    def rows(self):
        words = words_of_text(self.request.text)
        return [words[i:i + 8] for i in range(0, len(words), 8)]

    def named_parents(self):
        """The earlier classes that classes of the entry name as parents."""
        own, known = [None, *FIXED, *listed(self.request.names)], all_names(self.before)
        parents = {own[row[B]] for row in self.rows if row[KIND] == 4}
        return {each.number for each in visible(self.before).values() if each.code == 2 and known[each.name] in parents}


class Run:
    def __init__(self, what, requests):
        self.what, self.requests, self.steps, session = what, requests, [], FRESH
        for upto, request in enumerate(requests, 1):
            if request.verb != NAME_TEXT:
                self.steps.append(Step(session, request, upto))
                session = self.steps[-1].after
        self.refused_parents, self.kept_marks, self.panics = set(), 0, 0

    def asked(self):
        return [("fresh", b"", b"")] + [(step.word, step.request.text, step.request.names) for step in self.steps if step.word]

    def difference(self, replies):
        """(number of the request, what differs) of the first that differs, or None. `told` is the Rust's session, `taken` how
        many globals it took that are not to be counted."""
        (_, told), taken = replies[0], 0
        replies = iter(replies[1:])
        for number, step in enumerate(self.steps):
            found = None
            if step.is_entry and step.question not in (1, 2, 3, 4):
                reader = Reader(step.rows, step.request.names, told.bare_names())
                if may_be_entered(reader, told.row[0] - taken) != (step.question != 23):
                    return number, "23"
            if step.word:
                answer, after = next(replies)
                then_taken = taken
                if step.is_entry:
                    then_taken = taken_by_clash(reader, answer)
                    found = self.differing_entry(step, reader, answer, after, then_taken)
                if step.word != "try":
                    told, taken = after, then_taken
            found = found or self.differing_session(step.after, told, taken)
            if found:
                return number, found
            self.kept_marks += told.marks != child_marks(step.after)
            step.told = [told.row[0] - taken, *told.row[1:]], told.visible
        return None

    def program_difference(self, driven):
        """The same of the program, once the Rust has been asked."""
        number = driven.differing_replies()
        if number is not None:
            return sum(step.upto <= number for step in self.steps), f"the program's reply {number}"
        steps = list(enumerate(self.steps))
        for number, step in steps if len(steps) <= LONG else steps[-LAST:]:
            found = driven.differing_session(step.upto, step.after, *step.told)
            if found:
                return number, f"the program after it: {found}"
        return None

    def differing_entry(self, step, reader, answer, told, taken):
        self.panics += answer.startswith("PANIC")
        if step.question:
            self.refused_parents |= step.named_parents()
        if step.question == 24 and not told.is_over():
            return f"no count is over its limit: {told.row}"
        found = differing_answer(step, reader, answer)
        return found or step.question not in NOT_RUST and self.differing_session(step.as_entered, told, taken)

    def differing_session(self, session, told, taken):
        """A global that the Rust took before it panicked is taken off its count."""
        row = [told.row[0] - taken, *told.row[1:]]
        if row != session_row(session) or told.is_over():
            return f"session {row}, expected {session_row(session)}"
        expected = sorted(tuple(each) for each in visible(session).values())
        if told.visible != expected:
            return f"visible {told.visible}, expected {expected}"
        if told.classes != told_classes(session):
            return f"classes {told.classes}, expected {told_classes(session)}"
        marks, expected = told.marks, child_marks(session)
        if expected - marks or marks - expected - self.refused_parents:
            return f"child marks {sorted(marks)}, expected {sorted(expected)}"
        return None


def may_be_entered(reader, count):
    """Is it one unit without imports that starts no lower than the count?"""
    kinds = [reader.kind(kid) for unit in reader.kids(0) for kid in reader.kids(unit)]
    return len(reader.kids(0)) == 1 and 3 not in kinds and reader.a(0) >= count


def taken_by_clash(reader, answer):
    """1 if the Rust took a global for a hoisted let of the unit before it panicked."""
    if answer.rstrip("\n") != f"PANIC {UNNAMED_CLASH}":
        return 0
    row, _ = next(clashes(reader))
    while reader.kind(row) != 6:
        row = next(each for each in range(len(reader.rows)) if row in reader.kids(each))
    return reader.b(row)


def lowered(out, raised):
    """Rows with the functions of codes 4 and 5 told by their rows."""
    return [[row, code, v, w - raised if code in (4, 5) else w, *rest] for row, code, v, w, *rest in out]


def differing_answer(step, reader, answer):
    rust = of_answer(reader, answer)
    if step.question in NOT_RUST:
        too_many = len(rust) - 1 > step.request.x
        return None if rust[0][0] == 0 and too_many == (step.question == 22) else f"the Rust says {rust[0]}"
    if without_distances(step.rows, step.out) != rust:
        different = [f"{got}, expected {want}" for got, want in zip(rust, without_distances(step.rows, step.out)) if got != want]
        return f"answer {different[:1] or 'longer or shorter'}"
    if step.question == 0:
        raised = STEP * len(step.before.entries)
        own = lowered(rust[1:], raised)
        counted = with_distances(step.rows, [rust[0], *own])
        if not distances(step.rows, counted) == distances(step.rows, step.out) == source_steps(step.rows, counted):
            return "distances"
    return None


def compared(oracle, runs, program=None, numbers=None):
    """(run, number of the request, what differs) of each run that differs; `numbers` counts what the program is asked."""
    asked = [run.asked() for run in runs]
    replies = run_oracle(oracle, [request for each in asked for request in each])
    for run, each in zip(runs, asked):
        found = run.difference(replies[:len(each)])
        replies = replies[len(each):]
        if program and not found:
            driven = Driven(program, run.requests)
            found = run.program_difference(driven)
            numbers.update(replies=len(run.requests), sessions=driven.sessions, probes=driven.entries, texts=driven.texts)
        if found:
            yield run, *found


def show(run, number, what):
    print(f"\nDIFFERENCE: {run.what}, request {number}: {what}")
    for each in run.steps[:number + 1]:
        print(f"verb {each.request.verb}, names {each.request.names!r}, reply {each.out[0]}")
        print(each.request.text.decode("latin-1"), end="")


def batches(count, seed, verbs):
    yield [Run(what, requests) for what, requests in directed_runs(verbs)]
    yield [Run(what, requests) for what, requests in limit_runs(verbs)]
    made = 0
    while made < count:
        runs, seed = [Run(f"run {each}", random_run(each, verbs)) for each in range(seed, seed + BATCH)], seed + BATCH
        made += sum(step.is_entry for run in runs for step in run.steps)
        yield runs


def main():
    oracle, count = sys.argv[1], int(sys.argv[2])
    seed = (int(sys.argv[3]) if len(sys.argv) > 3 else 1) * 1_000_000
    program = os.path.abspath(sys.argv[4]) if len(sys.argv) > 4 else None
    verbs, questions, found, numbers = Counter(), Counter(), [], Counter()
    for runs in batches(count, seed, HAS if program else VERBS):
        found += compared(oracle, runs, program, numbers)
        for run in runs:
            steps = run.steps
            verbs.update(step.request.verb for step in steps)
            questions.update((step.question, step.word is not None) for step in steps if step.is_entry)
            numbers.update(runs=1, rust=sum(step.word is not None for step in steps), marks=run.kept_marks, panics=run.panics)
    for each in sorted(found, key=lambda each: sum(len(step.request.text) for step in each[0].steps[:each[1] + 1]))[:5]:
        show(*each)
    for question, asked in sorted(questions):
        print(f"question {question:2}: {questions[question, asked]}" + ("" if asked else ", the Rust not asked"))
    print(f"{numbers['runs']} runs: {verbs[ENTER]} entries, {verbs[PREVIEW]} previews, {verbs[WITHDRAW]} withdrawals; "
          f"the Rust asked {numbers['rust']} times, {numbers['panics']} panics; {len(found)} runs differ; "
          f"child marks of refused entries in {numbers['marks']} sessions of the Rust")
    if program:
        print(f"the program: {numbers['replies']} replies to these; {numbers['sessions']} sessions asked with "
              f"{numbers['probes']} entries and {numbers['texts']} texts of names")
    sys.exit(1 if found else 0)


if __name__ == "__main__":
    main()
