"""How many functions lie between an identifier and the declaration that it means (F-6 of document 02), counted on the tree.

The Rust does not say it. `with_distances(rows, out)` takes a sheet's rows and the printed rows of the Rust, and puts the number
in word 5 of each identifier's row. It reads the tree and the answer rows alone, no names and no scopes: if an identifier is
captured, the answer rows of its function say which function the declaration belongs to, and the functions around the identifier
are counted up to that one. `source_steps` counts otherwise, by the steps of document 01's closure rule; both must agree.
"""
from tree import KIND, kids_of

FUNCTION, IDENTIFIER, LITERAL = 6, 50, 52
CAPTURED, COUNTS = 6, 20
DISTANCE = 5


def functions_around(rows):
    """Of each row the functions that it lies in, innermost first. A method is the last of its list: what lies outside of it
    cannot be captured in it."""
    around = {0: []}
    for row in range(len(rows)):
        inner = [row] * (rows[row][KIND] == FUNCTION) + around[row]
        around.update((kid, inner) for kid in kids_of(rows, row))
    return around


def captured_by(answers):
    """The captured declarations of each function, in order: they follow its counts."""
    captured = {}
    for at, (row, code, _, count, *_) in enumerate(answers):
        if code == COUNTS:
            captured[row] = answers[at + 1:at + 1 + count]
    return captured


def is_identifier(rows, answer):
    return rows[answer[0]][KIND] == IDENTIFIER


def with_distances(rows, out):
    first, *answers = [list(row) for row in out]
    around, captured = functions_around(rows), captured_by(answers)
    for answer in answers:
        if is_identifier(rows, answer) and answer[1] == CAPTURED:
            functions = around[answer[0]]
            declaration = captured[functions[0]][answer[2]]
            answer[DISTANCE] = functions.index(declaration[3])
    return [first, *answers]


def without_distances(rows, out):
    """Printed rows with 0 in the place of the distances, as in the Rust's."""
    first, *answers = [list(row) for row in out]
    for answer in answers:
        if is_identifier(rows, answer):
            answer[DISTANCE] = 0
    return [first, *answers]


def distances(rows, out):
    """Word 5 of each identifier's row, in order."""
    return [answer[DISTANCE] for answer in out[1:] if is_identifier(rows, answer)]


def source_steps(rows, out):
    """How many steps lead from each identifier's row to one whose code is not captured: each goes to the source, with the row's
    index, of the literal of the row's function."""
    around = functions_around(rows)
    literal_of = {kid: row for row in range(len(rows)) if rows[row][KIND] == LITERAL for kid in kids_of(rows, row)}
    sources = {}
    for answer in out[1:]:
        sources.setdefault(answer[0], []).append(answer)

    def steps(answer):
        if answer[1] != CAPTURED:
            return 0
        return 1 + steps(sources[literal_of[around[answer[0]][0]]][answer[2]])

    return [steps(answer) for answer in out[1:] if is_identifier(rows, answer)]
