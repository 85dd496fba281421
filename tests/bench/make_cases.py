"""make_cases.py ORACLE FOLDER

Writes the sheets that are timed, as FOLDER/CASE.sheet and FOLDER/CASE.names, and as FOLDER/CASE.lent how many answer rows are lent
and the number of the answer: 0, or 22 where the Rust gives more rows than that. The program lends 2,048, and so do most cases.
Prints the size of each.
"""
import random
import subprocess
import sys
import tempfile
from pathlib import Path

sys.path.insert(0, str(Path(__file__).resolve().parent.parent / "oracle"))
from directed import array, block, bring, call, do, fun, give, let, lit, loop, member, method, record, sheet, stop, unit, use
from sheets import INIT, Sheet, class_chain, generate
from tree import Node, text_of

FIRST_LISTED = 25
LENT = 2048  # by the program
DEEPEST_LOOP = 28  # loops in each other in a literal, with what stands in the last one, until the depth is 64


def numbers(count):
    return range(FIRST_LISTED, FIRST_LISTED + count)


def sheet_of(root, count):
    """The tree as a sheet with `count` listed names that have a long beginning in common."""
    return Sheet(root, [b"name number %d" % i for i in range(count)], random.Random(1), "preorder")


def random_sheet(oracle, rows):
    """A random sheet of `rows` rows, or up to a fiftieth fewer, that the Rust resolves."""
    seed = 0
    while True:
        seed += 1
        made = generate(seed, rows, 0)
        if rows * 49 // 50 <= len(made.rows) <= rows and answer_rows(oracle, made) in range(1, 2049):
            return made


def open_parameters(count, uses):
    """A function with many parameters; the uses are of all of them, spread evenly."""
    f, *params = numbers(count + 1)
    body = block(*[do(use(params[i * count // uses])) for i in range(uses)])
    return sheet_of(sheet(unit(let(f, lit(params, body)))), count + 1)


def open_locals(count):
    """A function with many locals, each with the one before it as its value."""
    f, first, *names = numbers(count + 1)
    lets = [let(name, use(before)) for before, name in zip([first, *names], names)]
    return sheet_of(sheet(unit(let(f, lit([], block(let(first), *lets))))), count + 1)


def many_names(classes, fields):
    """Classes with many fields, each field with a name of its own."""
    names = numbers(classes + classes * fields)
    made = [record(names[i], 0, names[classes + i * fields:classes + (i + 1) * fields]) for i in range(classes)]
    reads = [do(member(use(names[i]), names[classes + i])) for i in range(classes)]
    return sheet_of(sheet(unit(*reads, classes=made)), len(names))


def inheriting(names):
    """Chained classes, the first with a constructor that the others inherit."""
    init = method(INIT, params=names[:1])
    return [record(name, names[i - 1] if i else 0, (), [] if i else [init]) for i, name in enumerate(names)]


def constructors(count, calls):
    """Classes that inherit a constructor, and calls of the last one."""
    names = numbers(count)
    return sheet_of(sheet(unit(*[do(call(use(names[-1]))) for _ in range(calls)], classes=inheriting(names))), count)


def nested(depth, params, uses):
    """Functions in each other, the unit function counted; the innermost uses all parameters in turn."""
    f, *names = numbers(1 + (depth - 1) * params)
    lists = [names[i * params:(i + 1) * params] for i in range(depth - 1)]
    inner = lit(lists[-1], block(*[do(use(names[i % len(names)])) for i in range(uses)]))
    for each in reversed(lists[:-1]):
        inner = lit(each, give(inner))
    return sheet_of(sheet(unit(let(f, inner))), 1 + len(names))


def captures(params, depth=19):
    """A method with many parameters, and functions in each other in it; the innermost uses all parameters, so each of them is
    captured by each function. A method lies less deep than a literal: 19 functions is the most that a depth of 64 leaves."""
    of, name, *names = numbers(params + 2)
    body = give(array(*map(use, names)))
    for _ in range(depth):
        body = give(lit([], body))
    return sheet_of(sheet(unit(classes=[record(of, methods=[fun(name, names, body)])])), params + 2)


def upwards(count):
    """Chained classes, each before its parent, each with a field and a method of its own. The two share a name, so that the names
    are enough for as many classes as fit."""
    names, own = numbers(count), numbers(2 * count)[count:]
    made = [record(names[i], names[i - 1] if i else 0, [own[i]], [method(own[i])]) for i in range(count)]
    return sheet_of(sheet(unit(classes=made[::-1])), 2 * count)


def constructor_array(count, calls):
    """As `constructors`, with the calls in one array: a call takes two rows, not three."""
    names = numbers(count)
    return sheet_of(sheet(unit(do(array(*[call(use(names[-1])) for _ in range(calls)])), classes=inheriting(names))), count)


def loop_tower(names):
    """Loops in each other, each in the block that is the body of the one around it. Each declares a local, tests it and steps with
    the outermost one."""
    body = block(stop())
    for name in reversed(names):
        body = block(loop(let(name), use(name), do(use(names[0])), body))
    return body


def loops(count):
    """So many loops, in towers up to the limit of depth, each tower in a function of its own."""
    names = numbers(DEEPEST_LOOP)
    towers = [loop_tower(names[:min(DEEPEST_LOOP, count - i)]) for i in range(0, count, DEEPEST_LOOP)]
    functions = numbers(DEEPEST_LOOP + len(towers))[DEEPEST_LOOP:]
    return sheet_of(sheet(unit(*[let(name, lit([], tower)) for name, tower in zip(functions, towers)])), functions[-1] - FIRST_LISTED + 1)


def imports_all(count, constants):
    """Units that import all of each other: `constants` constants of each, or a class if 0."""
    each = constants or 1
    names = numbers(count * each)
    made = []
    for i in range(count):
        own = names[i * each:(i + 1) * each]
        if constants:
            made.append(unit(consts=[Node(8, name) for name in own]))
        else:
            made.append(unit(classes=[record(own[0])]))
    for one in made:
        one.kids[:0] = [bring(other, everything=1) for other in made if other is not one]
    return sheet_of(sheet(*made), count * each)


def write(made, folder, name):
    files = folder / f"{name}.sheet", folder / f"{name}.names"
    files[0].write_text(text_of(made.rows))
    files[1].write_bytes(made.names)
    return files


def answer_rows(oracle, made):
    """How many answer rows the Rust gives; 0 if it refuses."""
    with tempfile.TemporaryDirectory() as folder:
        files = write(made, Path(folder), "case")
        answer = subprocess.run([oracle, *files], stdout=subprocess.PIPE, text=True).stdout
    return len(answer.splitlines()) - 1 if answer.split()[0] == "0" else 0


def cases(oracle):
    yield "random_300", random_sheet(oracle, 300)
    yield "random_2000", random_sheet(oracle, 2000)
    yield "parameters_1000", open_parameters(1000, 500)
    yield "locals_1000", open_locals(1000)
    yield "names_1000", many_names(10, 99)
    yield "chain_62", class_chain(62)
    yield "chain_1000", class_chain(1000, 0)
    yield "chain_1000_upwards", class_chain(1000, 0, upwards=True)
    yield "constructors_500", constructors(500, 300)
    yield "nested_20", nested(20, 4, 600)


def bad_shapes():
    """What is slow by its shape, and how many answer rows are lent: None for as many as there are."""
    yield "captures_960", captures(960), None
    yield "captures_960_refused", captures(960), LENT
    yield "upwards_43", upwards(43), LENT
    yield "upwards_400", upwards(400), None
    yield "constructors_1000_calls", constructor_array(19, 1000), LENT
    yield "constructors_510_classes", constructor_array(510, 509), LENT
    yield "loops_280", loops(280), LENT
    yield "imports_43", imports_all(43, 0), LENT
    yield "imports_30_constants", imports_all(30, 34), LENT


def write_case(oracle, made, folder, name, lent):
    """Writes the three files; the number of answer rows, how many are lent, and the answer's number."""
    rows = answer_rows(oracle, made)
    assert 0 < rows and len(made.rows) <= 2048, (name, rows, len(made.rows))
    lent = lent or rows
    number = 22 if lent < rows else 0
    write(made, folder, name)
    (folder / f"{name}.lent").write_text(f"{lent} {number}\n")
    return rows, lent, number


def main():
    oracle, folder = sys.argv[1], Path(sys.argv[2])
    folder.mkdir(parents=True, exist_ok=True)
    for name, made, lent in [*((name, made, LENT) for name, made in cases(oracle)), *bad_shapes()]:
        rows, lent, number = write_case(oracle, made, folder, name, lent)
        told = "" if number == 0 and lent == LENT else f", {lent} lent: answer {number}"
        print(f"{name}: {len(made.rows)} rows, {made.names.count(10)} names, {rows} answer rows{told}", flush=True)


if __name__ == "__main__":
    main()
