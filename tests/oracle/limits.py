"""Sheets, name lists and texts at the limits of documents 01 and 02."""
import random

from sheets import MAIN_UNIT, Sheet, add_tower, class_chain, generate
from tree import A, COLUMN, FILE, LINE, MAX_WORD, Node, text_of, words_of


def statements(count):
    """A unit with a block of statements: 4 + 2 * count rows."""
    block = Node(25, kids=[Node(20, kids=[Node(40)]) for _ in range(count)])
    return Node(0, 0, 0, [Node(2, kids=[Node(6, 0, 1, [block])])])


def sheet_of(root, names=()):
    return Sheet(root, names, random.Random(1), "preorder")


def at_depth(depth):
    root = statements(1)
    assert add_tower(root, random.Random(1), depth)
    return sheet_of(root)


def limits():
    """What it is, and the words and names. 2,048 rows take too long to compute, so there a no of question 2 shows that
    question 1 has a yes."""
    sheets = {
        "header alone": sheet_of(Node(0, 1_000_000)),
        "depth 64": at_depth(64),
        "255-byte name": sheet_of(statements(1), [b"x" * 255]),
        "32,768 bytes of names": sheet_of(statements(1), [b"%03d" % i + b"x" * 252 for i in range(128)]),
        "1,024 names": sheet_of(statements(1), [b"%d" % i for i in range(1024)]),
        "2,016 answer rows": class_chain(62),
        "2,080 answer rows": class_chain(63),
        "a larger sheet": generate(7, 450, 0),
    }
    cases = {what: (sheet.words, sheet.names) for what, sheet in sheets.items()}
    cases["2,048 rows and an empty name"] = (sheet_of(statements(1022)).words, b"\n")
    return cases


def with_lets(start, names=()):
    """A unit of one let and a constant let of the last starting global."""
    lets = [Node(29, 25, 1, [Node(43, MAX_WORD, MAX_WORD)]), Node(29, 24 + len(names), 1 + start, [Node(40)])]
    return sheet_of(Node(0, start, 0, [Node(2, kids=[Node(6, 0, 1, [Node(25, kids=lets)])])]), names)


def answered(count, *more):
    """A sheet with 2,016 answer rows or more: chained classes, then host constants; then further statements."""
    sheet = class_chain(62)
    body = sheet.root.kids[0].kids[-1].kids[0]
    body.kids += [Node(20, kids=[Node(51, MAIN_UNIT)]) for _ in range(count - 2016)] + list(more)
    return Sheet(sheet.root, sheet.names.split(b"\n")[:-1], random.Random(count), "preorder")


def stray_break(column, value):
    """A unit with a break in no loop, whose row has a value in a column."""
    sheet = sheet_of(Node(0, kids=[Node(2, kids=[Node(6, 0, 1, [Node(25, kids=[Node(23)])])])]))
    sheet.rows[4][column] = value
    return sheet


def more_limits():
    """What it is, and the words and names, for the program: one less, the limit, one more, also those that questions 1 to 4
    refuse."""
    sheets = {}
    for depth in (63, 65):
        sheets[f"depth {depth}"] = at_depth(depth)
    for size in (254, 256):
        sheets[f"a name of {size} bytes"] = sheet_of(statements(1), [b"x" * size])
    for size in (32767, 32769):
        sheets[f"{size:,} bytes of names"] = sheet_of(
            statements(1), [b"%03d" % i + b"x" * 252 for i in range(127)] + [b"y" * 127, b"y" * (size - 32641)])
    for count in (1023, 1024, 1025):
        sheets[f"{count:,} names, the last one used"] = with_lets(1, [b"%d" % i for i in range(count)])
    for start in (999_999, 1_000_000, 1_000_001):
        sheets[f"{start:,} starting globals"] = with_lets(start, [b"a", b"b"])
    for count in (2047, 2048):
        body = Node(25, kids=[Node(25) for _ in range(count - 4)])
        sheets[f"{count:,} rows"] = sheet_of(Node(0, kids=[Node(2, kids=[Node(6, 0, 1, [body])])]))
    for count in (2047, 2048, 2049):
        sheets[f"{count:,} answer rows"] = answered(count)
    call = Node(59, kids=[Node(50, 25)])
    sheets["2,081 answer rows and a class without init"] = answered(2080, Node(20, kids=[call]))
    sheets["2,049 answer rows and a global"] = answered(2048, Node(29, 25, 0, [Node(40)]))
    for value in (16382, 16383, 16384, 16385, 32768, MAX_WORD):
        sheets[f"column {value:,}"] = stray_break(COLUMN, value)
    for value in (262_142, 262_143, 262_144):
        sheets[f"file {value:,}"] = stray_break(FILE, value)
    sheets["the largest line"] = stray_break(LINE, MAX_WORD)
    return {what: (words_of(sheet.rows), sheet.names) for what, sheet in sheets.items()}


def texts():
    """What it is, and the text of a small sheet, changed."""
    sheet = with_lets(5, [b"a", b"b"])
    text = text_of(sheet.rows).encode()
    integer = next(row for row, words in enumerate(sheet.rows) if words[0] == 43)
    field = 81 * integer + 10 * A

    def with_field(number):
        return text[:field] + number.rjust(10) + text[field + 10:]

    changed = {
        "text": text, "no text": b"", "a line's end alone": b"\n", "no end of the last line": text[:-1],
        "a byte more": text + b" ", "an end of a line more": text + b"\n", "half a line more": text + text[:40],
        "a return for an end": text[:-1] + b"\r",
        "a space for an end": text[:80] + b" " + text[81:], "an empty field": with_field(b""),
        "zero": with_field(b"0"), "two zeros": with_field(b"00"), "ten zeros": with_field(b"0000000000"),
        "a leading zero": with_field(b"07"), "nine leading zeros": with_field(b"0000000005"),
        "zeros inside a number": with_field(b"1002003"), "zeros at its end": with_field(b"7000000"),
        "999,999,999": with_field(b"999999999"), "a zero and 999,999,999": with_field(b"0999999999"),
        "1,000,000,000": with_field(b"1000000000"),
        "4,294,967,294": with_field(b"4294967294"), "4,294,967,295": with_field(b"4294967295"),
        "4,294,967,296": with_field(b"4294967296"), "9,999,999,999": with_field(b"9999999999"),
    }
    fields = {"a space after a number": b"7 ", "a space in a number": b"1 7", "a tab": b"\t7", "a zero byte": b"\x007",
              "an end of a line": b"\n7", "a plus": b"+7", "a minus": b"-7", "the byte before 0": b"/7",
              "the byte after 9": b":7", "a letter after a number": b"7a", "a point": b"7.0",
              "spaces behind": b"7".ljust(10)}
    changed.update({f"{what} in a field": with_field(number) for what, number in fields.items()})
    for c in range(8):
        start = 81 * c + 10 * c
        zeros = (b"0" + text[start:start + 10].strip()).rjust(10)
        changed[f"a leading zero in column {c}"] = text[:start] + zeros + text[start + 10:]
    long = text_of(sheet_of(statements(1022)).rows).encode()
    changed["2,048 rows and a byte more"] = long + b" "
    cases = {what: (text, sheet.names) for what, text in changed.items()}
    return cases | {"a leading zero and an empty name": (changed["a leading zero"], b"\n")}


def long_texts():
    """What it is, and a text and names of which one is longer than the program keeps. What is kept would be accepted but for
    a byte, the rest is read in parts."""
    sheet = with_lets(5, [b"a", b"b"])
    text = text_of(sheet.rows).encode()
    most = text_of(sheet_of(statements(1022)).rows).encode()
    names = b"".join(b"%03d" % i + b"x" * 252 + b"\n" for i in range(128))
    return {
        "no names": (text, b""), "nothing at all": (b"", b""), "names alone": (b"", sheet.names),
        "2,176 rows, the first 2,048 a sheet": (most + text * 16, sheet.names),
        "names and 2 bytes more": (text, names + b"y\n"),
        "names and 9,999 bytes more": (text, names + b"y" * 9999),
    }
