"""question_cases.py SCRIPT EXPECTED
question_cases.py SCRIPT EXPECTED DEFINITION

Reads the script of crates/question_tests and compares what EXPECTED, the program's recorded output, says of each case with
format_check.py; with DEFINITION, the folder of the definition's crate, also with what the definition computes, which takes
minutes. Of sheets and name lists that are too large to compute so, only format_check.py is asked; they are listed.
Prints every case that differs; exit status 1 if one does.
"""
import sys
import tempfile
from pathlib import Path

from compare_definition import claim, failed_claims, make_repository, numbers
from format_check import first_no

PER_MODULE = 40
MOST_WORDS = 1200
MOST_BYTES = 300
HEAD = """use Rattle.std.specs.Prelude.{◌≡◌, refl, not, ℕ, List, [], ◌∷◌, ◌++◌, replicate}
use Rattle.definition.specs.Basics.{when◌then◌else◌}
use Rattle.definition.specs.Names.{names_fit, name_count}
use Rattle.definition.specs.Format.{sheet_fits, depths_fit}
use Rattle.definition.specs.Outcome.{rows_fit}

abbrev first : List ℕ → List ℕ → ℕ
first s ns =
    when not (rows_fit s) then 1
    else when not (names_fit ns) then 2
    else when not (sheet_fits (name_count ns) s) then 3
    else when not (depths_fit s) then 4
    else 0
"""


def chain(start, kind, column, count):
    """Rows of a kind, each but the last with the row after it in a column."""
    words = []
    for row in range(start, start + count):
        words += [kind, 0, 0, 0, 0, 0, 0, 0]
        words[-8 + column] = row + 1 if row + 1 < start + count else 0
    return words


def cases_of(script):
    """The cases of a script: name, words, names. The program's source says what each line does."""
    words, names, changes = [], b"", []
    for line in script.splitlines():
        text, args = line[2:], line.split()[1:]
        if line[:1].isdigit():
            words += map(int, line.split())
        elif line[:1] == "s":
            words, names = [], b""
        elif line[:1] == "r":
            words += chain(len(words) // 8, *map(int, args))
        elif line[:1] == "w":
            words += [0]
        elif line[:1] == "n":
            names += text.encode() + b"\n"
        elif line[:1] == "g":
            names += b"".join(b"%04d" % i + b"x" * (int(args[1]) - 4) + b"\n" for i in range(int(args[0])))
        elif line[:1] == "u":
            names = names[:-1]
        elif line[:1] == "c":
            changes.append(list(map(int, args)))
        elif line[:1] == "?":
            changed = list(words)
            for row, column, value in changes:
                changed[8 * row + column] = value
            changes = []
            yield text, changed, names


def compare_definition(definition, cases):
    """The names of the cases of which the definition says something else."""
    differ = []
    with tempfile.TemporaryDirectory() as folder:
        make_repository(Path(folder), definition)
        for start in range(0, len(cases), PER_MODULE):
            part = cases[start:start + PER_MODULE]
            text = HEAD
            for i, (_, words, names, no) in enumerate(part):
                text += claim(f"c{i}", f"first ({numbers(words)}) ({numbers(names)})", no)
            differ += [part[int(name[1:])][0] for name in failed_claims(Path(folder), text)]
    return differ


def main():
    script, expected = (Path(path).read_text() for path in sys.argv[1:3])
    cases = list(cases_of(script))
    lines = [line.rpartition(": ") for line in expected.splitlines()]
    if [name for name, _, _ in cases] != [name for name, _, _ in lines]:
        sys.exit("the cases of the two files are not the same")
    cases = [(*case, int(no)) for case, (_, _, no) in zip(cases, lines)]
    differ = [name for name, words, names, no in cases if first_no(words, names) != no]
    print(f"{len(cases)} cases compared with format_check.py")
    if len(sys.argv) > 3:
        small = [case for case in cases if len(case[1]) <= MOST_WORDS and len(case[2]) <= MOST_BYTES]
        differ += compare_definition(Path(sys.argv[3]), small)
        print(f"{len(small)} cases compared with the definition; not:",
              "; ".join(case[0] for case in cases if case not in small))
    print(f"{len(differ)} differences", *differ, sep="\n")
    sys.exit(1 if differ else 0)


if __name__ == "__main__":
    main()
