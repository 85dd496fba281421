"""columns_cases.py OUTDIR

Writes OUTDIR/stdin, cases for the program crates/columns_tests, and OUTDIR/stdout, what it must print, from a model of columns
that is written from document 02 (F-12) alone. Prints the counts by answer.
"""
import sys
from collections import Counter
from pathlib import Path

WORDS = 2**32
ROW = 8
LINKS = (1, 2)  # next and child
MOST_ROWS = 2048
MOST_CASES = 809
TO, FROM, BOTH = 1, 2, 3
SHOWN = 40
NO_PLACE = 99_999  # past every source


def to_columns(sheet):
    rows = len(sheet) // ROW
    out = [None] * len(sheet)
    for at, word in enumerate(sheet):
        r, c = divmod(at, ROW)
        out[c * rows + r] = (word - r) % WORDS if c in LINKS else word
    return out


def from_columns(words):
    rows = len(words) // ROW
    columns = [words[c * rows:(c + 1) * rows] for c in range(ROW)]
    for c in LINKS:
        columns[c] = [(word + r) % WORDS for r, word in enumerate(columns[c])]
    return [word for row in zip(*columns) for word in row]


def rearranged(way, source, lent):
    """The answer, and the target after it."""
    if len(source) % ROW != 0 or not 1 <= len(source) // ROW <= MOST_ROWS:
        return 1, [0] * lent
    if lent < len(source):
        return 22, [0] * lent
    return 0, way(source) + [0] * (lent - len(source))


def replied(way, source, rows_lent):
    """The words of the reply over the pipe: the first line, and all lent rows, or none after a refusal."""
    answer, target = rearranged(way, source, ROW * rows_lent)
    rows = 0 if answer else rows_lent
    return [answer, 0, 0, 0, 0, rows, 0, 0, *target[:ROW * rows]]


def source_of(case):
    _, size, _, _, first, step, place, changed = case
    source = [(first + step * i) % WORDS for i in range(size)]
    if place < size:
        source[place] = changed
    return source


def expected(case):
    """The line that the program must print: the answer, the target's first words, and a checksum of all."""
    way, _, lent = case[:3]
    source = source_of(case)
    answer, target = rearranged(from_columns if way == FROM else to_columns, source, lent)
    if way == BOTH:
        answer, target = rearranged(from_columns, target[:len(source)], len(source))
        assert answer != 0 or target == source
    checksum = 0
    for word in target:
        checksum = (checksum * 31 + word) % 4294967291
    return " ".join(map(str, [answer, *target[:SHOWN], "sum", checksum]))


def size_cases():
    """Every size of source around the limits, with targets around the source's size and stale words in them."""
    for size in (0, 1, 7, 8, 9, 15, 16, 17, 24, 80, 16376, 16383, 16384, 16385, 16392):
        for lent in sorted({0, max(size - 8, 0), max(size - 1, 0), size, size + 1, size + 8, size + 300}):
            for way in (TO, FROM):
                yield (way, size, lent, WORDS - 1, 1, 1, NO_PLACE, 0)


def word_cases():
    """Words of all values, and single words of the first and the last row: links and others of 0, 1 and the largest."""
    for rows in (1, 2, 3, 5, 2047, 2048):
        size = ROW * rows
        for first, step in ((0, 0), (WORDS - 1, 0), (0, WORDS - 1), (123456789, 2654435761)):
            for way in (TO, FROM, BOTH):
                yield (way, size, size + 2, 7, first, step, NO_PLACE, 0)
        for r in sorted({0, rows - 1}):
            for c in (0, 1, 2, 7):
                for word in (0, 1, WORDS - 1):
                    for way, place in ((TO, ROW * r + c), (FROM, c * rows + r)):
                        yield (way, size, size, 7, 1000, 1, place, word)


def back_cases():
    """There and back, also where the way there is refused."""
    for size in (0, 7, 8, 16, 40, 16384, 16392):
        for lent in (size, size + 1, max(size - 1, 0)):
            yield (BOTH, size, lent, 5, 4294960000, 3, 2, 0)


def other_cases():
    """Any number but 0, 2 and 3 stores by column."""
    for way in (4, WORDS - 1):
        yield (way, 16, 18, 7, 1000, 1, NO_PLACE, 0)


def main():
    folder = Path(sys.argv[1])
    cases = [*size_cases(), *word_cases(), *back_cases(), *other_cases()]
    assert len(cases) <= MOST_CASES
    lines = [expected(case) for case in cases]
    (folder / "stdin").write_text("".join("%10d" * 8 % case + "\n" for case in cases))
    (folder / "stdout").write_text("".join(line + "\n" for line in lines))
    answers = Counter(line.split()[0] for line in lines)
    print(*(f"answer {answer}: {answers[answer]}" for answer in sorted(answers, key=int)), f"{len(cases)} cases", sep="\n")


if __name__ == "__main__":
    main()
