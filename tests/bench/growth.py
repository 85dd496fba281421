"""growth.py OUT [COUNT [ROUNDS]]

Times `resolve` and the Rust, from words to words, on each shape of make_cases.py in sheets of about 250, 500, 1,000 and 2,000 rows, with what
run.sh has built in OUT. COUNT runs of each in a round (50), ROUNDS rounds in turn (3); where these take more than SECONDS there are fewer,
but LEAST. Prints the sheets, then a table: the median over the rounds of each round's median, in ns for each row of the
sheet; the factor from the smallest sheet to the largest; and the same factor of the least times, which other work on the machine
changes less.
"""
import subprocess
import sys
from collections import defaultdict
from pathlib import Path
from statistics import median

from make_cases import (DEEPEST_LOOP, LENT, captures, class_chain, constructor_array, imports_all, loops, many_names, nested, open_locals,
                        open_parameters, upwards, write_case)

SIZES = [250, 500, 1000, 2000]
MOST_NAMES = 1024
SECONDS = 3
LEAST = 5


def names_in(rows):
    """Each field has a name of its own, so the limit of names is met before that of rows."""
    fields = rows // 10 - 5
    return many_names(10, fields) if 10 + 10 * fields <= MOST_NAMES else None


def loops_in(rows):
    """A tower takes seven rows for each loop and five more."""
    return loops(rows * DEEPEST_LOOP // (7 * DEEPEST_LOOP + 5))


def units_in(rows):
    """How many units with a class each can import all of each other: n units take n * (n + 4) rows and the header."""
    return round((rows + 4) ** 0.5) - 2


def constants_in(rows):
    """Seven tenths of these units, and constants in the rows that are left: as bad as the limit of names allows at 2,000 rows."""
    units = units_in(rows) * 7 // 10
    return imports_all(units, rows // units - units - 2)


# Of each shape the sheet that has about so many rows, or None where a limit forbids it, and the answer rows lent, None for as many as there are.
SHAPES = {
    "parameters": (lambda rows: open_parameters(rows // 2 - 4, rows // 4 - 2), LENT),
    "locals": (lambda rows: open_locals(rows // 2 - 4), LENT),
    "names": (names_in, LENT),
    "classes in a line": (lambda rows: class_chain(rows // 2 - 2, 0), LENT),
    "classes upwards": (lambda rows: class_chain(rows // 2 - 2, 0, upwards=True), LENT),
    "nested": (lambda rows: nested(20, 4, rows // 2 - 69), None),
    "captures": (lambda rows: captures(rows // 2 - 33), None),
    "captures, refused": (lambda rows: captures(rows // 2 - 33), LENT),
    "upwards with members": (lambda rows: upwards(rows // 5 - 1), None),
    "calls, 19 classes": (lambda rows: constructor_array(19, rows // 2 - 24), LENT),
    "calls, as many classes": (lambda rows: constructor_array(rows // 4 - 2, rows // 4 - 3), LENT),
    "loops": (loops_in, LENT),
    "imports": (lambda rows: imports_all(units_in(rows), 0), LENT),
    "imports of constants": (constants_in, LENT),
}


def make(oracle, folder):
    """Writes the sheets; for each shape its cases: their names, their rows, the numbers of answer rows lent and of the answer."""
    made = defaultdict(list)
    for shape, (sheet_in, lent) in SHAPES.items():
        for size in SIZES:
            sheet = sheet_in(size)
            if sheet is None:
                continue
            name = f"{shape.replace(',', '').replace(' ', '_')}_{size}"
            answers, *told = write_case(oracle, sheet, folder, name, lent)
            made[shape].append((name, len(sheet.rows), told))
            print(f"{name}: {len(sheet.rows)} rows, {sheet.names.count(10)} names, {answers} answer rows, {told[0]} lent: answer {told[1]}", flush=True)
    return made


def run(*command):
    return subprocess.run(list(map(str, command)), stdout=subprocess.PIPE, check=True, text=True).stdout


def ours(out, count, sheet, names, told):
    """The median and the least time of so many runs."""
    _, middle, least = run(out / "driver", "--resolve", count, sheet, names, *told).split()
    return int(middle), int(least)


def rust(out, count, sheet, names, _):
    """The same of the Rust, which lists all answer rows, whatever is lent."""
    *_, middle, _, _, least, _ = run(out / "oracle" / "oracle_hash", "--time-words", count, sheet, names).split()
    return int(middle), int(least)


def fitting(way, out, count, case):
    """How many runs to make: `count`, or fewer if one takes long."""
    return max(LEAST, min(count, SECONDS * 10**9 // way(out, 1, *case)[0]))


def time_all(out, folder, made, count, rounds):
    times, counts = defaultdict(list), {}
    for _ in range(rounds):
        for name, _, told in (case for cases in made.values() for case in cases):
            case = folder / f"{name}.sheet", folder / f"{name}.names", told
            for way in (ours, rust):
                if (name, way) not in counts:
                    counts[name, way] = fitting(way, out, count, case)
                times[name, way].append(way(out, counts[name, way], *case))
    return times


def number(cost):
    return f"{cost:,.0f}" if cost >= 100 else f"{cost:.1f}"


def line_of(shape, cases, times):
    """A size that a limit forbids stays empty; the factor is that of the sizes that are there."""
    line = [shape]
    for way in (ours, rust):
        costs = [median(middle for middle, _ in times[name, way]) / rows for name, rows, _ in cases]
        leasts = [min(least for _, least in times[name, way]) / rows for name, rows, _ in cases]
        line += [number(cost) for cost in costs] + [""] * (len(SIZES) - len(costs))
        line += [f"{each[-1] / each[0]:.1f}" for each in (costs, leasts)]
    return f"| {' | '.join(line)} |"


def main():
    out = Path(sys.argv[1])
    count = int(sys.argv[2]) if len(sys.argv) > 2 else 50
    rounds = int(sys.argv[3]) if len(sys.argv) > 3 else 3
    folder = out / "growth"
    folder.mkdir(parents=True, exist_ok=True)
    made = make(out / "oracle" / "oracle", folder)
    times = time_all(out, folder, made, count, rounds)
    sizes = [f"{size:,}" for size in SIZES]
    print(f"| shape | {' | '.join([*sizes, 'factor', 'least', *('Rust, ' + size for size in sizes), 'factor', 'least'])} |")
    print("|---" * (5 + 2 * len(SIZES)) + "|")
    for shape, cases in made.items():
        print(line_of(shape, cases, times))


if __name__ == "__main__":
    main()
