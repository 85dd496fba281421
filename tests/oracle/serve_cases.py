"""serve_cases.py ORACLE COUNT SEED OUTDIR

Makes COUNT cases, at least some 160, and the later ones for the program crates/plush_serve and writes OUTDIR/stdin, the
requests, and OUTDIR/stdout, the replies that the program must write, out of the oracle's answers and, for the fourth value of
an identifier's row, distance.py.

The cases are the samples of document 01, the small programs of directed.py, some sheets at the limits, and random sheets of
at most MOST_ROWS rows; of each question from 5 to 21 at least LEAST. The later ones follow these in order: small programs
that planted.py asks for, sheets and texts at the limits, bodies that are too long, sheets with few answer rows lent, and small
programs for distances. Of those that questions 1 to 4 refuse, format_check.py says so; the oracle is not asked. Then come
sheets to store by column and to take back, with the replies of columns_cases.py, names to find, with those of find_cases.py, and
sheets whose units are put in order, with those of order_cases.py.
Last comes a run of entries and texts of names over the program's one session, by session_cases.py, which is compared with the
Rust as compare_session.py does; in its middle stand requests of other verbs once more. Prints the counts by question and by
kind of row.
"""
import random
import sys
from collections import Counter
from pathlib import Path

import columns_cases
import directed
import find_cases
import order_cases
import session_cases
from compare_session import Run, compared
from distance import distances
from expected import all_of_rust, completed, split
from format_check import first_no, words_of_text
from limits import limits, long_texts, more_limits, texts
from question_cases import cases_of
from sheets import Sheet, generate
from tree import text_of

SAMPLES = Path(__file__).resolve().parents[2] / "crates/question_tests/stdin"
LIMITS = ["header alone", "depth 64", "255-byte name", "32,768 bytes of names", "1,024 names", "2,080 answer rows"]
MOST_ROWS = 60
LEAST = 5
BATCH = 200
RESOLVE = 1
TO_COLUMNS, FROM_COLUMNS = 9, 10
LENT_ROWS = 2048
FEW_LENT = 8


def header(verb, sheet, names, flags=0, x=0, y=0, second_sheet=0, second_names=0):
    return b"%10d" * 8 % (verb, sheet, names, flags, x, y, second_sheet, second_names) + b"\n"


class Case:
    """A sheet's text, its names and the answer rows lent; `out` is what the program must reply, `rust` the same without the
    distances of identifiers, as the Rust says it."""

    def __init__(self, what, text, names, lent=LENT_ROWS):
        self.what = what
        self.text = text
        self.names = bytes(names)
        self.lent = lent
        self.words = words_of_text(text)
        self.out = self.rust = self.distances = None

    @property
    def question(self):
        return int(self.out[:10])

    @property
    def answer_rows(self):
        return len(self.out) // 81 - 1

    @property
    def kinds(self):
        return self.words[::8]

    def with_lent(self, lent):
        return Case(f"{self.what}, {lent} rows lent", self.text, self.names, lent)

    def input(self):
        return header(RESOLVE, len(self.text), len(self.names), x=self.lent) + self.text + self.names


class Columns:
    """A text to store by column, or to take back, and the rows lent for the target; `out` is what the program must reply."""
    kinds = ()

    def __init__(self, verb, text, lent):
        self.verb, self.text, self.lent = verb, text, lent
        way = columns_cases.to_columns if verb == TO_COLUMNS else columns_cases.from_columns
        words = columns_cases.replied(way, words_of_text(text), lent)
        self.question = words[0]
        self.out = text_of([words[i:i + 8] for i in range(0, len(words), 8)]).encode()

    def input(self):
        return header(self.verb, len(self.text), 0, x=self.lent) + self.text


def case_of(what, words, names):
    return Case(what, text_of([words[i:i + 8] for i in range(0, len(words), 8)]).encode(), names)


def expect(oracle, cases):
    outs = all_of_rust(oracle, [(case.words, case.names, 8 * case.lent) for case in cases])
    for case, rust in zip(cases, outs):
        out = completed(split(case.words), rust)
        case.out, case.rust = text_of(out).encode(), text_of(rust).encode()
        case.distances = distances(split(case.words), out)
    return cases


def samples():
    """The samples that pass questions 1 to 4."""
    for what, words, names in cases_of(SAMPLES.read_text()):
        if what[:1] == "S" and what[1:].isdigit() and first_no(words, names) == 0:
            yield case_of(f"sample {what}", words, names)


def directed_cases():
    """Each program with its rows in one order."""
    for i, (what, root) in enumerate(directed.programs()):
        sheet = Sheet(root, directed.NAMES, random.Random(i), ("preorder", "random", "runs")[i % 3])
        yield case_of(what, sheet.words, sheet.names)


def limit_cases():
    sheets = limits()
    return [case_of(what, *sheets[what]) for what in LIMITS]


def later_cases():
    for what, sheet in directed.later_sheets():
        yield case_of(what, sheet.words, sheet.names)
    for what, (words, names) in more_limits().items():
        yield case_of(what, words, names)
    for what, (text, names) in [*texts().items(), *long_texts().items()]:
        yield Case(what, text, names)


def distance_cases():
    for what, sheet in directed.distance_sheets():
        yield case_of(what, sheet.words, sheet.names)


def lent_cases(cases):
    """Cases that are resolved, the first of them with fewest answer rows, with as many rows lent, one less and none; some
    that are refused, with none."""
    resolved = sorted((case for case in cases if case.question == 0), key=lambda case: case.answer_rows)
    chosen = resolved[:1] + [case for case in resolved if case.answer_rows][::len(resolved) // FEW_LENT][:FEW_LENT]
    for case in chosen:
        for lent in sorted({case.answer_rows, max(0, case.answer_rows - 1), 0}):
            yield case.with_lent(lent)
    for question in (1, 2, 3, 4, 5, 18, 21):
        yield min((case for case in cases if case.question == question), key=lambda case: len(case.text)).with_lent(0)


def column_cases():
    """Texts of a few rows with words at both ends, well formed or not, with all numbers of rows lent around theirs; texts that
    are none; 2,048 rows and one more."""
    def text(rows):
        return text_of(rows).encode()

    largest = 2**32 - 1
    small = [text([[largest] * 8]), text([[0] * 8] * 2),
             text([[0, 0, 1, 4, 5, 6, 7, 8], [9, 1, 0, largest, 2, 3, 4, 5], [largest, 2, largest, 0, 1, 0, 1, 0]])]
    for verb in (TO_COLUMNS, FROM_COLUMNS):
        for sheet in small:
            rows = len(sheet) // 81
            for lent in sorted({0, rows - 1, rows, rows + 1}):
                yield Columns(verb, sheet, lent)
        yield Columns(verb, small[2], 16)
        for sheet in (b"", small[1][:-1], small[1] + b" ", small[1].replace(b" 0\n", b"00\n")):
            yield Columns(verb, sheet, 0)
            yield Columns(verb, sheet, 2)
    rows = [[(8 * r + c) * 2_654_435_761 % 2**32 for c in range(8)] for r in range(2049)]
    yield Columns(TO_COLUMNS, text(rows[:2048]), 2048)
    yield Columns(FROM_COLUMNS, text(rows), 2048)


def session_run(oracle, others):
    """The run over the session, with other requests in its middle."""
    cases = session_cases.recorded()
    for _, number, what in compared(oracle, [Run("recorded", [case.request for case in cases])]):
        sys.exit(f"the Rust differs in entry {number} of the run over the session: {what}")
    middle = len(cases) // 2
    return [*cases[:middle], *others, *cases[middle:]]


def random_cases(rng, seeds, sizes, most_rows):
    for seed in seeds:
        sheet = generate(seed, rng.choice(sizes), 0.85)
        if len(sheet.rows) <= most_rows:
            yield case_of(f"sheet {seed}", sheet.words, sheet.names)


def wanted_counts(cases, count):
    """How many random cases of each question are to be added; those that the questions leave resolve."""
    have = Counter(case.question for case in cases)
    left = count - len(cases)
    wanted = {question: max(LEAST - have[question], left // 40, 0) for question in range(5, 22)}
    wanted[0] = max(0, left - sum(wanted.values()))
    return wanted


def make_cases(oracle, count, seed):
    rng = random.Random(seed)
    cases = expect(oracle, [*samples(), *directed_cases(), *limit_cases()])
    wanted = wanted_counts(cases, count)
    first = seed * 1_000_000
    while any(wanted.values()):
        for case in expect(oracle, list(random_cases(rng, range(first, first + BATCH), [8, 15, 25, 40], MOST_ROWS))):
            if wanted.get(case.question):
                wanted[case.question] -= 1
                cases.append(case)
        first += BATCH
    rng.shuffle(cases)
    cases += expect(oracle, list(later_cases()))
    cases += expect(oracle, [*lent_cases(cases), *distance_cases()])
    columns, found, ordered = list(column_cases()), find_cases.directed(), order_cases.recorded()
    accepted = [case for case in cases if case.question == 0 and case.answer_rows]
    middle = [min(accepted, key=lambda case: len(case.text)), columns[0], found[0]]
    return [*cases, *columns, *found, *ordered, *session_run(oracle, middle)]


def summary(cases):
    questions = Counter(case.question for case in cases)
    kinds = Counter(kind for case in cases for kind in case.kinds)
    for name, counts in (("question", questions), ("kind", kinds)):
        print(*(f"{name} {number}: {counts[number]}" for number in sorted(counts)), sep="\n")
    print(f"{len(cases)} cases")


def main():
    oracle, count, seed, folder = sys.argv[1], int(sys.argv[2]), int(sys.argv[3]), Path(sys.argv[4])
    cases = make_cases(oracle, count, seed)
    (folder / "stdin").write_bytes(b"".join(case.input() for case in cases))
    (folder / "stdout").write_bytes(b"".join(case.out for case in cases))
    summary(cases)


if __name__ == "__main__":
    main()
