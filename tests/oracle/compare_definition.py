"""compare_definition.py ORACLE DEFINITION COUNT [SEED]
compare_definition.py ORACLE DEFINITION damage [SEED]
compare_definition.py ORACLE DEFINITION directed
compare_definition.py ORACLE DEFINITION later
compare_definition.py ORACLE DEFINITION distances
compare_definition.py ORACLE DEFINITION limits

Compares the definition, a crate whose folder is DEFINITION, with the oracle, and questions 1 to 4 of it with
format_check.py. Each case becomes a claim that is checked by refl, `report (outcome sheet names lent) ≡ expected`; short
buffers also one of `buffer`; small sheets also one of `printed`, with their text as it is or changed. The claims go, some
at a time, into a Rattle repository in a temporary folder. Of very many answer rows only the first line is claimed. Prints
the counts of the cases by question, and every claim that does not hold, with its case.

The fourth value of an identifier's row is not compared with the Rust, which does not say it, but with distance.py; all other
words are the Rust's (expected.py).

With the word `damage` the cases are each way to break questions 1 to 4, twice; with `directed` the small programs of
directed.py, with `later` those that were added to it, with `distances` those for that fourth value; with `limits` those at the
limits of document 01, which take long. The command `rt` must be on the path.
"""
import random
import re
import shutil
import subprocess
import sys
import tempfile
from collections import Counter
from pathlib import Path

import directed
from damage import WAYS, damaged, damaged_text
from distance import distances
from expected import LENT, all_printed, buffer, split
from format_check import words_of_text
from limits import limits
from sheets import Sheet, generate
from tree import text_of

PER_MODULE = 40
MOST_ROWS = 110
MOST_TEXT_ROWS = 25
MOST_ANSWER_ROWS = 500
HEAD = """use Rattle.std.specs.Prelude.{◌≡◌, refl, ℕ, List, [], ◌∷◌, ◌++◌, get_or, replicate}
use Rattle.definition.specs.Outcome.{outcome, report, buffer, printed}
"""


class Case:
    def __init__(self, what, words, names, preorder):
        self.what = what
        self.words = words
        self.names = names
        self.preorder = preorder
        self.lent = LENT
        self.expected = None
        self.text = None

    @property
    def question(self):
        return self.expected[0][0]


# the cases

def quotas(count):
    """How many cases of each question: resolved two fifths, 1 to 4 a sixth, the others the rest."""
    wanted = {question: max(1, count // 45) for question in range(5, 22)}
    wanted.update({1: count // 60 + 1, 2: count // 40 + 1, 3: count // 6, 4: count // 100 + 1, 22: count // 20 + 1})
    wanted[0] = count - sum(wanted.values())
    return wanted


def good_cases(oracle, seeds, rng):
    sheets = []
    for seed in seeds:
        sheet = generate(seed, rng.choice([10, 25, 40, 55]), 0.85)
        if len(sheet.rows) <= MOST_ROWS:
            sheets.append(Case(f"sheet {seed}", sheet.words, sheet.names, sheet.preorder))
    expect(oracle, sheets)
    return sheets


def expect(oracle, cases):
    for case, out in zip(cases, all_printed(oracle, [(each.words, each.names, each.lent) for each in cases])):
        case.expected = out


def choose_buffer(rng, case):
    """Lends a resolved sheet a buffer of another length."""
    need = 8 * (len(case.expected) - 1)
    longer = [need, need, need + 1, need + 7, need + 8, need + 61, LENT]
    shorter = [need - 1, need - 1, need - 8, need // 2, 1, 0] if need > 8 else [0]
    case.lent = rng.choice(longer + shorter)


def make_cases(oracle, count, seed):
    rng = random.Random(seed)
    wanted = quotas(count)
    cases = []
    for question in WAYS:
        cases += damaged_cases(oracle, rng, question, wanted.pop(question))
    first = seed * 1_000_000
    while any(wanted.values()):
        found = good_cases(oracle, range(first, first + 200), rng)
        first += 200
        for case in found:
            if case.question == 0:
                choose_buffer(rng, case)
            elif rng.random() < 0.3:
                case.lent = rng.choice([0, 5, 8, 40])
        expect(oracle, found)
        for case in found:
            if wanted[case.question]:
                wanted[case.question] -= 1
                cases.append(case)
    return cases


def damaged_cases(oracle, rng, question, count):
    """Each way in turn, in an order by chance."""
    cases = []
    ways = rng.sample(WAYS[question], len(WAYS[question]))
    for i in range(count):
        seed, way = rng.randrange(10 ** 9), ways[i % len(ways)]
        case = Case(f"damage {seed}: {way}", *damaged(seed, way), False)
        case.lent = rng.choice([LENT, LENT, 0, 9])
        cases.append(case)
    expect(oracle, cases)
    assert all(case.question == question for case in cases)
    return cases


def all_damages(oracle, seed):
    rng = random.Random(seed)
    return [case for question in WAYS for case in damaged_cases(oracle, rng, question, 2 * len(WAYS[question]))]


def text_cases(oracle, rng, count):
    """Texts of small sheets, most of them changed."""
    cases, seed = [], rng.randrange(10 ** 9)
    while len(cases) < count:
        sheet = generate(seed, 5, 0.3)
        seed += 1
        if len(sheet.rows) <= MOST_TEXT_ROWS:
            text, what = damaged_text(rng, text_of(sheet.rows).encode())
            case = Case(f"sheet {seed - 1}, {what}", words_of_text(text), sheet.names, sheet.preorder)
            case.text = text
            cases.append(case)
    expect(oracle, cases)
    return cases


def limit_cases(oracle):
    cases = [Case(what, words, names, True) for what, (words, names) in limits().items()]
    expect(oracle, cases)
    return cases


def recorded_cases(oracle, sheets):
    """Each program with its rows in the recorded order."""
    cases = [Case(what, sheet.words, sheet.names, sheet.preorder) for what, sheet in sheets]
    expect(oracle, cases)
    return cases


def directed_cases(oracle):
    """Each program with its rows in three orders."""
    cases = []
    for i, (what, root) in enumerate(directed.programs()):
        for order in ("preorder", "random", "runs"):
            sheet = Sheet(root, directed.NAMES, random.Random(i), order)
            cases.append(Case(f"{what}, {order}", sheet.words, sheet.names, sheet.preorder))
    expect(oracle, cases)
    return cases


# antt

def numbers(values):
    """A list of numbers; long runs of one number by `replicate`."""
    runs, i = [], 0
    while i < len(values):
        end = i
        while end < len(values) and values[end] == values[i]:
            end += 1
        runs.append((values[i], end - i))
        i = end
    parts, short = [], []
    for value, many in runs:
        if many < 64:
            short += [value] * many
            continue
        parts += [plain(short)] if short else []
        parts.append(f"replicate {many} {value}")
        short = []
    parts += [plain(short)] if short or not parts else []
    return " ++ ".join(f"({part})" for part in parts)


def plain(values):
    return " ∷ ".join([str(value) for value in values] + ["[]"])


def inputs(i, case, sheet=None):
    sheet = case.words if sheet is None else sheet
    return f"""
-- {case.what}
abbrev s{i} : List ℕ
s{i} = {numbers(sheet)}

abbrev n{i} : List ℕ
n{i} = {numbers(case.names)}
"""


def claim(name, left, right):
    return f"\n{name} : {left} ≡ {right}\n{name} = refl\n"


def claims(i, case):
    if case.text is not None:
        case_text = inputs(i, case, case.text)
        return case_text + claim(f"c{i}", f"printed s{i} n{i}", numbers(text_of(case.expected).encode()))
    outcome = f"(outcome s{i} n{i} {case.lent})"
    if len(case.expected) > MOST_ANSWER_ROWS:
        return inputs(i, case) + claim(f"c{i}", f"get_or (report {outcome}) 0 []", plain(case.expected[0]))
    rows = " ∷ ".join([f"({plain(row)})" for row in case.expected] + ["[]"])
    text = inputs(i, case) + claim(f"c{i}", f"report {outcome}", rows)
    if case.lent < 600 and i % 3 == 0:
        text += claim(f"b{i}", f"buffer {case.lent} {outcome}", numbers(buffer(case.lent, case.expected)))
    return text


def part_claims(case):
    """Of a case that differs: every number and answer row by itself, and which question is answered."""
    report = f"(report (outcome s0 n0 {case.lent}))"
    parts = {f"number {i} of line 0": (f"get_or (get_or {report} 0 []) {i} 0", x) for i, x in enumerate(case.expected[0])}
    for i, row in enumerate(case.expected[1:], 1):
        parts[f"line {i}"] = (f"get_or {report} {i} []", plain(row))
    for question in range(23):
        parts[f"question is {question}"] = (f"get_or (get_or {report} 0 []) 0 0", question)
    text = HEAD + inputs(0, case)
    for i, (left, right) in enumerate(parts.values()):
        text += claim(f"c{i}", left, right)
    return text, list(parts)


def make_repository(folder, *crates):
    """The specs alone of crates, each over those before it, and a crate for the claims."""
    names, lines = [crate.resolve().name for crate in crates] + ["samples"], []
    for i, name in enumerate(names):
        (folder / f"crates/{name}/src").mkdir(parents=True)
        (folder / f"crates/{name}/src/lib.rt").write_text("// Definitions and theorems alone: no routine.\n#![tactic(auto)]\n")
        lines.append(f"{name}: {' '.join(names[:i])}".rstrip() + "\n")
    for crate in crates:
        shutil.copytree(crate / "specs", folder / f"crates/{crate.resolve().name}/specs")
    (folder / "crates/samples/specs").mkdir()
    (folder / "crates/samples/specs/Lib.antt").write_text("pub mod Cases\n")
    (folder / "crates.txt").write_text("".join(lines))


def failed_claims(folder, text):
    """The names of the claims that do not hold. A check that stops at a limit of the prover is an error."""
    (folder / "crates/samples/specs/Cases.antt").write_text(text)
    done = subprocess.run(["rt", "check"], cwd=folder / "crates/samples", stdout=subprocess.PIPE, stderr=subprocess.STDOUT, text=True)
    found = re.findall(r"^\S*Cases\.antt:\S+ error: `([abc]\d+)`", done.stdout, flags=re.M)
    if (done.returncode == 0) != (not found) or "stopped at the step limit" in done.stdout:
        raise RuntimeError(done.stdout[-3000:])
    return found


def show(folder, case, name):
    print(f"\nDIFFERENCE in {name}: {case.what}, {case.lent} words lent")
    print("names", list(case.names))
    if case.text is not None:
        print("text", case.text)
    for i in range(0, len(case.words), 8):
        print(i // 8, *case.words[i:i + 8])
    print("expected", *case.expected, sep="\n")
    if case.text is not None:
        return
    text, parts = part_claims(case)
    failed = failed_claims(folder, text)
    for i, part in enumerate(parts):
        if part.startswith("question") != (f"c{i}" in failed):
            print("definition:", part if part.startswith("question") else part + " differs")


def compare(folder, cases, per_module=PER_MODULE):
    differences = 0
    for first in range(0, len(cases), per_module):
        part = cases[first:first + per_module]
        text = HEAD + "".join(claims(first + i, case) for i, case in enumerate(part))
        for name in failed_claims(folder, text):
            differences += 1
            show(folder, cases[int(name[1:])], name)
    return differences


def cases_of(oracle, what, seed):
    if what == "damage":
        return all_damages(oracle, seed)
    if what == "directed":
        return directed_cases(oracle)
    if what == "later":
        return recorded_cases(oracle, directed.later_sheets())
    if what == "distances":
        return recorded_cases(oracle, directed.distance_sheets())
    if what == "limits":
        return limit_cases(oracle)
    return make_cases(oracle, int(what), seed) + text_cases(oracle, random.Random(seed), int(what) // 12)


def summary(cases):
    counts = Counter(case.question for case in cases)
    for question in sorted(counts):
        print(f"question {question:2}: {counts[question]}")
    good = [case for case in cases if case.question == 0 or case.question > 4]
    rows = sum(len(case.words) for case in good) // 8
    print(f"{sum(case.text is not None for case in cases)} given as text;",
          f"{len(good)} pass questions 1 to 4, with {rows // max(1, len(good))} rows on average,",
          f"{sum(not case.preorder for case in good)} of them not in pre-order")
    far = [each for case in cases if case.question == 0 for each in distances(split(case.words), case.expected)]
    print(f"the fourth value of {len(far)} identifiers is held to distance.py, not to the Rust:",
          f"{sum(each > 0 for each in far)} are above 0, the largest {max(far, default=0)}")


def main():
    oracle, definition, what = sys.argv[1], Path(sys.argv[2]), sys.argv[3]
    seed = int(sys.argv[4]) if len(sys.argv) > 4 else 1
    cases = cases_of(oracle, what, seed)
    with tempfile.TemporaryDirectory() as folder:
        make_repository(Path(folder), definition)
        differences = compare(Path(folder), cases, 1 if what == "limits" else PER_MODULE)
    summary(cases)
    print(f"{len(cases)} cases, {differences} differences")
    sys.exit(1 if differences else 0)


if __name__ == "__main__":
    main()
