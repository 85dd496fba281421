"""order_cases.py COUNT SEED OUTDIR

Makes requests of verb 7, the order of units: those of recorded(), which serve_cases.py takes too, and COUNT random ones. Writes
OUTDIR/stdin, the requests, and OUTDIR/stdout, the replies that plush_serve must write, out of `reply`, which is written from
document 02 (F-10) by sets of units that chains of imports lead to, and shares nothing with the program. Prints the counts by
question.
"""
import random
import sys
from collections import Counter
from pathlib import Path

from directed import bring, record, unit
from format_check import first_no, words_of_text
from limits import at_depth, limits
from sheets import Sheet
from tree import A, CHILD, COLUMN, FILE, KIND, LINE, NEXT, Node, text_of

ORDER = 7
UNIT, IMPORT = 2, 3
MOST_LENT = 2048
MAX_COLUMN = 16383
CIRCLE, ROOM = 29, 22
ORDERS = "preorder", "random", "runs", "breadth"


def imports_of(rows):
    """The units in rising row, each with the units that its import rows name."""
    units = {}
    for u, row in enumerate(rows):
        if row[KIND] == UNIT:
            units[u], kid = set(), row[CHILD]
            while kid:
                if rows[kid][KIND] == IMPORT:
                    units[u].add(rows[kid][A])
                kid = rows[kid][NEXT]
    return units


def led_to(imports):
    """For each unit all that chains of imports lead to."""
    led = {u: set(vs) for u, vs in imports.items()}
    grown = True
    while grown:
        grown = False
        for vs in led.values():
            more = set().union(vs, *(led[v] for v in vs))
            if len(more) > len(vs):
                vs |= more
                grown = True
    return led


def order(imports):
    """Each time the lowest unit of all that are ready."""
    started = []
    while len(started) < len(imports):
        done = set(started)
        started.append(min(u for u, vs in imports.items() if u not in done and vs <= done))
    return started


def reply(words, names, lent):
    no = first_no(words, names)
    if no:
        return [[no, 0, 0, 0, 0, 0, 0, 0]]
    rows = [words[i:i + 8] for i in range(0, len(words), 8)]
    imports = imports_of(rows)
    circling = [u for u, vs in led_to(imports).items() if u in vs]
    if circling:
        row = rows[min(circling)]
        return [[CIRCLE, row[FILE], row[LINE], min(row[COLUMN], MAX_COLUMN), 0, 0, 0, 0]]
    if lent < len(imports):
        return [[ROOM, 0, 0, 0, 0, 0, 0, 0]]
    return [[0, 0, 0, 0, 0, len(imports), 0, 0], *([u, 0, 0, 0, 0, 0, 0, 0] for u in order(imports))]


class Case:
    """A sheet's text, its names and how many words are lent for the list."""
    kinds = ()

    def __init__(self, what, text, names, lent=MOST_LENT):
        self.what, self.text, self.names, self.lent = what, text, bytes(names), lent
        self.rows = reply(words_of_text(text), self.names, lent)

    @property
    def question(self):
        return self.rows[0][0]

    @property
    def out(self):
        return text_of(self.rows).encode()

    def input(self):
        numbers = (ORDER, len(self.text), len(self.names), 0, self.lent, 0, 0, 0)
        return b"%10d" * 8 % numbers + b"\n" + self.text + self.names


def sheet_of(lists, rng, rows="preorder", forms=False):
    """A sheet of units with what each imports, by their places; with `forms` the imports are of several forms: one lists a
    name that is not there, one brings everything, and there are exports and classes after them."""
    units = [unit() for _ in lists]
    for each, others in zip(units, lists):
        kids = [bring(units[v], *([25] if forms and rng.random() < 0.3 else []), everything=int(forms and rng.random() < 0.3)) for v in others]
        if forms and rng.random() < 0.3:
            kids.append(Node(7, 26, each.kids[-1]))
        each.kids = kids + each.kids
    return Sheet(Node(0, 0, 0, units), [b"ab", b"cd"], rng, rows)


def case_of(what, sheet, lent=MOST_LENT):
    return Case(what, text_of(sheet.rows).encode(), sheet.names, lent)


SHAPES = {
    "no units": [],
    "one unit": [[]],
    "lowest of all ready": [[2], [], [], []],
    "line up": [[1], [2], [3], [4], []],
    "line down": [[], [0], [1], [2], [3]],
    "diamond": [[1, 2], [4], [4], [], []],
    "two diamonds": [[1, 2], [3], [3], [4, 5], [6], [6], []],
    "several orders": [[], [4], [], [4, 0], [], [2]],
    "ready below, late": [[5], [6], [], [], [3], [2], [5, 4]],
    "an import twice": [[1, 1], [2, 2, 2], []],
    "all import the first": [[], [0], [0], [0], [0]],
    "all import the last": [[4], [4], [4], [4], []],
    "the first imports all": [[4, 1, 3, 2], [], [], [], []],
    "web": [[1, 2, 3, 4], [2, 3, 4], [3, 4], [4], []],
    "imports itself": [[0]],
    "imports itself and more": [[], [1, 0], [0]],
    "imports one that imports itself": [[1], [1], []],
    "circle of two": [[1], [0]],
    "circle of all": [[1], [2], [3], [4], [0]],
    "leads into a circle": [[1], [2], [1], []],
    "imported by a circle": [[], [2, 0], [1]],
    "two circles": [[3, 2], [3], [5, 6], [1, 4], [2], [2], []],
    "between two circles": [[1], [0, 2], [3], [4], [3]],
    "circles that share a unit": [[2], [3], [1, 4], [2], [2]],
    "a high circle first": [[5], [4], [], [], [5], [4], [3, 6]],
    "circle behind a diamond": [[1, 2], [3], [3], [4], [5], [4]],
}


def directed():
    cases = []
    for i, (what, lists) in enumerate(SHAPES.items()):
        for j, rows in enumerate(ORDERS):
            cases.append(case_of(f"{what}, {rows}", sheet_of(lists, random.Random(4 * i + j), rows, j > 0)))
    for what in ("no units", "one unit", "lowest of all ready", "web", "circle of two"):
        for lent in sorted({0, max(0, len(SHAPES[what]) - 1), len(SHAPES[what]), len(SHAPES[what]) + 1}):
            cases.append(case_of(f"{what}, {lent} words lent", sheet_of(SHAPES[what], random.Random(lent)), lent))
    long = {
        "511 units in a line": [[i + 1] if i < 510 else [] for i in range(511)],
        "101 units, all import the last": [[100] if i < 100 else [] for i in range(101)],
        "a web of 31 units": [list(range(i + 1, 31)) for i in range(31)],
        "a line of 30 into a circle": [[i + 1] if i < 49 else [30] for i in range(50)],
    }
    for i, (what, lists) in enumerate(long.items()):
        cases.append(case_of(what, sheet_of(lists, random.Random(i))))
    first, second = unit(classes=[record(25)]), unit(classes=[record(26, 25), record(25)])
    first.kids.insert(0, bring(second, 25, 26))
    cases.append(case_of("units with classes, after 5 globals", Sheet(Node(0, 5, first.kids[-1], [first, second]), [b"ab", b"cd"], random.Random(0), "preorder")))
    small = text_of(sheet_of(SHAPES["imports itself"], random.Random(0)).rows).encode()
    cases.append(Case("no rows", b"", b""))
    cases.append(Case("no text of a sheet", small[:-1], b""))
    cases.append(Case("names that are refused", small, b"ab\nab\n"))
    wrong = [words_of_text(small)[i:i + 8] for i in range(0, len(words_of_text(small)), 8)]
    for row in wrong:
        if row[KIND] == IMPORT:
            row[A] = 0
    cases.append(Case("an import of the header", text_of(wrong).encode(), b"ab\n"))
    return cases + at_limits()


def at_limits():
    """2,048 rows and one more; bodies that are longer than any accepted one, though a beginning of them would be accepted; depths
    of 63 to 65, also with a circle; positions of a unit on a circle at their limits."""
    full = [[] for _ in range(682)]
    full[0] = [681]
    cases = [case_of("682 units and an import, 2,048 rows", sheet_of(full, random.Random(1)))]
    full[1] = [681]
    cases.append(case_of("2,049 rows", sheet_of(full, random.Random(1))))
    one = text_of(sheet_of([[]], random.Random(0)).rows).encode()
    cases.append(Case("bytes after the rows", one + b" " * 165_888, b""))
    cases.append(Case("names of 32,768 bytes", one, limits()["32,768 bytes of names"][1]))
    cases.append(Case("names of 32,768 bytes, and more", one, limits()["32,768 bytes of names"][1] + b"a\n"))
    for depth in 63, 64, 65:
        cases.append(case_of(f"depth {depth}", at_depth(depth)))
    for depth in 64, 65:
        root = at_depth(depth).root
        root.kids[0].kids.insert(0, bring(root.kids[0]))
        cases.append(case_of(f"a circle and depth {depth}", Sheet(root, [], random.Random(0), "preorder")))
    for what, column, values in (("file", FILE, (0, 262143)), ("line", LINE, (0, 2**32 - 1)), ("column", COLUMN, (0, 16382, 16383, 16384, 2**32 - 1))):
        for value in values:
            circle = sheet_of([[1], [2], [1]], random.Random(0))
            units = [row for row in circle.rows if row[KIND] == UNIT]
            units[1][column] = value
            cases.append(case_of(f"29 with {what} {value}", circle))
    return cases


def random_cases(count, seed):
    for i in range(count):
        rng = random.Random(seed * 1_000_000 + i)
        n = rng.randrange(1, rng.choice([5, 10, 40]))
        most = rng.choice([1, 2, 4])
        places = rng.sample(range(n), n)
        acyclic = rng.random() < 0.6
        lists = [[] for _ in range(n)]
        for u in range(n):
            for _ in range(rng.randrange(most + 1)):
                v = rng.randrange(n)
                if not acyclic or places[v] < places[u]:
                    lists[u].append(v)
        lent = rng.choice([MOST_LENT, n, max(0, n - 1)])
        yield case_of(f"random {i}", sheet_of(lists, rng, rng.choice(ORDERS), True), lent)


def recorded():
    return directed() + list(random_cases(24, 1))


def main():
    count, seed, folder = int(sys.argv[1]), int(sys.argv[2]), Path(sys.argv[3])
    cases = recorded() + list(random_cases(count, seed))
    (folder / "stdin").write_bytes(b"".join(case.input() for case in cases))
    (folder / "stdout").write_bytes(b"".join(case.out for case in cases))
    counts = Counter(case.question for case in cases)
    print(*(f"question {number}: {counts[number]}" for number in sorted(counts)), f"{len(cases)} cases", sep="\n")


if __name__ == "__main__":
    main()
