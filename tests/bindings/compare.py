"""compare.py SERVE BATCH_C BATCH_RUST COUNT [ORACLE]

Resolves COUNT random sheets through the C routine, through the Rust binding and over the pipe (plush_serve), and compares the three
reports word by word. One sheet in ten is damaged, so that most often questions 1 to 4 refuse it; the first is the one that takes
the most stack of those known. Each program has 2 MiB of it, which plush.h says is enough. With ORACLE, the Rust of Plush
behind the sheet format (tests/oracle/build.sh), also with its answers; the fourth value of an identifier's row, which the Rust
does not say, is then compared with tests/oracle/distance.py. Exit status 1 if a case differs.
"""
import random
import subprocess
import sys
from array import array
from collections import Counter
from pathlib import Path

sys.path.insert(0, str(Path(__file__).resolve().parents[1] / "oracle"))
from damage import WAYS, damaged
from expected import LENT, all_printed
from sheets import class_chain, generate
from tree import text_of

BATCH = 1000
SIZES = [5, 10, 15, 25, 25, 40, 60, 100, 400]
DAMAGED = 0.1
LINE = 81
STACK = 3072  # KiB, as docs/FORMAT.md 8 says for plush_serve
RESOLVE = 1  # the verb


def random_case(rng):
    """The words of a sheet, and its names."""
    seed = rng.randrange(10 ** 9)
    if rng.random() < DAMAGED:
        words, names = damaged(seed, rng.choice(WAYS[rng.choice([1, 2, 3, 3, 3, 4])]))
        return list(words), bytes(names)
    sheet = generate(seed, rng.choice(SIZES), 0.6)
    return list(sheet.words), bytes(sheet.names)


def deepest_case():
    """Classes in a line, each before its parent."""
    sheet = class_chain(1000, 0, upwards=True)
    return list(sheet.words), bytes(sheet.names)


def for_serve(words, names):
    """A case as a request: the header's row, the sheet's text, the names."""
    text = text_of([words[i:i + 8] for i in range(0, len(words), 8)]).encode()
    return text_of([[RESOLVE, len(text), len(names), 0, LENT // 8, 0, 0, 0]]).encode() + text + names


def for_batch(words, names):
    numbers = array("I", [len(words), len(names), *words])
    if sys.byteorder == "big":
        numbers.byteswap()
    return numbers.tobytes() + names


def reports(program, data):
    """What a program prints, report by report: the sixth number of the first line says how many lines follow."""
    command = ["sh", "-c", f'ulimit -s {STACK}; exec "$0"', program]
    out = subprocess.run(command, input=data, stdout=subprocess.PIPE, check=True).stdout
    found, at = [], 0
    while at < len(out):
        end = at + LINE * (1 + int(out[at + 50:at + 60]))
        found.append(out[at:end])
        at = end
    return found


def main():
    serve, batch_c, batch_rust, count = sys.argv[1], sys.argv[2], sys.argv[3], int(sys.argv[4])
    oracle = sys.argv[5] if len(sys.argv) > 5 else None
    rng = random.Random(1)
    questions, words_compared, differing = Counter(), 0, 0
    for start in range(0, count, BATCH):
        cases = [random_case(rng) if start + i else deepest_case() for i in range(min(BATCH, count - start))]
        expected = reports(serve, b"".join(for_serve(*case) for case in cases))
        told = {"C": reports(batch_c, b"".join(for_batch(*case) for case in cases)),
                "Rust": reports(batch_rust, b"".join(for_batch(*case) for case in cases))}
        if oracle:
            told["oracle"] = [text_of(rows).encode() for rows in all_printed(oracle, [(*case, LENT) for case in cases])]
        for who, got in told.items():
            wrong = [i for i in range(len(cases)) if got[i:i + 1] != expected[i:i + 1]]
            differing += len(wrong) + (len(got) != len(cases)) + (len(expected) != len(cases))
            for i in wrong[:3]:
                print(f"DIFFERENCE, {who}: sheet {cases[i][0]} names {cases[i][1]!r}\n{expected[i:i + 1]}\n{got[i:i + 1]}")
        questions.update(int(report[:10]) for report in expected)
        words_compared += sum(8 * len(report) // LINE for report in expected)
    print("by question:", ", ".join(f"{number}: {questions[number]}" for number in sorted(questions)))
    print(f"{sum(questions.values())} sheets, {words_compared} words, {differing} differences")
    if oracle:
        print("compared with the Rust, but for the fourth value of identifiers, which distance.py says")
    sys.exit(1 if differing else 0)


if __name__ == "__main__":
    main()
