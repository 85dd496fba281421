"""compare_program.py PROGRAM ORACLE COUNT [SEED]

Compares the program crates/plush_serve, built as PROGRAM, with the oracle, byte by byte: COUNT random cases, in batches. Most
are sheets of up to some hundred rows, some of more than the 320 up to which the resolver makes less scratch space; to one in
five few answer rows are lent; one in ten is damaged, so that most often questions 1 to 4 refuse it, and there format_check.py
says what the program must reply.

The fourth value of an identifier's row, which the Rust does not say, is left out of the comparison with the Rust: it is set to 0
in the program's reply, which must then be the Rust's unchanged answer. By itself the reply must be the same with the values of
distance.py. The differences are counted apart.

Prints the counts by question and, of every case that differs, the sheet, its names and both outputs, those of fewest rows
first. Exit status 1 if one differs.
"""
import random
import subprocess
import sys
from collections import Counter

from damage import WAYS, damaged, damaged_text
from distance import DISTANCE, IDENTIFIER
from serve_cases import Case, case_of, expect, random_cases
from sheets import generate
from tree import text_of

BATCH = 2000
SIZES = [5, 10, 15, 25, 25, 40, 60, 100, 200, 500]
MOST_ROWS = 2048
FEW_ROWS = 80


def run(program, cases):
    data = b"".join(case.input() for case in cases)
    return subprocess.run([program], input=data, stdout=subprocess.PIPE, check=True).stdout


def damaged_cases(rng, count):
    """Sheets, names or texts that are damaged in one way."""
    for _ in range(count):
        seed, question = rng.randrange(10 ** 9), rng.choice([1, 2, 3, 3, 3, 3, 3, 3, 4, 5])
        if question == 5:
            sheet = generate(seed, 10, 0.3)
            text, what = damaged_text(rng, text_of(sheet.rows).encode())
            yield Case(f"sheet {seed}, {what}", text, sheet.names)
            continue
        way = rng.choice(WAYS[question])
        words, names = damaged(seed, way)
        text = case_of(way, words, names).text
        yield Case(f"damage {seed}: {way}", text, names)


def batch_of(rng, first, count):
    good = count - count // 10
    cases = list(random_cases(rng, range(first, first + good), SIZES, MOST_ROWS))
    for case in cases:
        if rng.random() < 0.2:
            case.lent = rng.randrange(FEW_ROWS)
    return cases + list(damaged_cases(rng, count - good))


def differing(program, cases):
    """The cases of a batch whose output differs. The program is asked about each alone only if the whole differs."""
    if run(program, cases) == b"".join(case.out for case in cases):
        for case in cases:
            case.got = case.out
        return [case for case in cases if differs_from_rust(case)]
    for case in cases:
        case.got = run(program, [case])
    found = [case for case in cases if case.got != case.out or differs_from_rust(case)]
    if not found:
        print(f"DIFFERENCE in a batch only: {cases[0].what} to {cases[-1].what}")
    return found or cases[:1]


def differs_from_rust(case):
    """Whether the reply, with 0 as word 5 of the rows of identifiers, differs from the Rust's answer."""
    identifiers = {b"%10d" % row for row, kind in enumerate(case.kinds) if kind == IDENTIFIER}
    lines, start = case.got.splitlines(keepends=True), 10 * DISTANCE
    for i, line in enumerate(lines[1:], 1):
        if line[:10] in identifiers:
            lines[i] = line[:start] + b"%10d" % 0 + line[start + 10:]
    return b"".join(lines) != case.rust


def show(case):
    print(f"\nDIFFERENCE: {case.what}, {case.lent} rows lent\nnames {case.names!r}")
    for label, text in (("sheet", case.text), ("expected", case.out), ("got", case.got)):
        print(label, text.decode("latin-1"), sep="\n")


def main():
    program, oracle, count = sys.argv[1], sys.argv[2], int(sys.argv[3])
    seed = int(sys.argv[4]) if len(sys.argv) > 4 else 1
    rng = random.Random(seed)
    questions, rows, far, found = Counter(), 0, Counter(), []
    for start in range(0, count, BATCH):
        cases = expect(oracle, batch_of(rng, seed * 1_000_000_000 + start, min(BATCH, count - start)))
        found += differing(program, cases)
        questions.update(case.question for case in cases)
        rows += sum(len(case.kinds) for case in cases)
        far.update(each for case in cases for each in case.distances)
    for case in sorted(found, key=lambda case: len(case.text)):
        show(case)
    for question in sorted(questions):
        print(f"question {question:2}: {questions[question]}")
    total, from_rust = sum(questions.values()), sum(map(differs_from_rust, found))
    print(f"{total} cases, {rows / max(1, total):.0f} rows on average, {len(found)} differences: {from_rust} from the Rust, with "
          f"the fourth value of identifiers left out; {len(found) - from_rust} from distance.py, in that value alone")
    print(f"{sum(far.values())} such values, {sum(far.values()) - far[0]} of them above 0, the largest {max(far, default=0)}")
    sys.exit(1 if found else 0)


if __name__ == "__main__":
    main()
