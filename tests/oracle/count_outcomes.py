"""count_outcomes.py ORACLE COUNT [SEED [SIZE [ERRORS]]]

Runs generated sheets through the oracle, and counts the answers by question and what the sheets and answers hold.
"""
import sys
from collections import Counter

from expected import Reader, printed, run_oracle
from format_check import first_no
from sheets import generate

BATCH = 500


def features(reader, out):
    """What a resolved sheet shows."""
    found = sheet_features(reader)
    slots = Counter()
    for row, code, v, w, x, y, _, _ in out[1:]:
        kind = reader.kind(row)
        if code == 6:
            found |= capture_features(kind, x, y)
        if code == 20:
            found |= function_features(v, w, x)
        if code == 22:
            found |= class_features(reader, row, v, w, x, y)
        if kind == 29:
            found.add({0: "literal let never declared", 1: "hoisted function", 3: "global", 5: "local"}[code])
            slots[(v, w)] += code == 5
        if kind in (51, 54, 55):
            found.add({1: "class method call", 2: "instanceof", 7: "MAIN_UNIT true", 8: "MAIN_UNIT false"}[code])
    if any(count > 1 for count in slots.values()):
        found.add("a slot shared by siblings")
    return found


def capture_features(kind, mutable, distance):
    """A literal whose source is captured in turn reaches two functions out, or more. An identifier's distance is by distance.py."""
    found = {"captured identifier": kind == 50, "capture two or more functions deep": kind == 52,
             "mutable capture two or more functions deep": kind == 52 and mutable,
             "identifier three or more functions out": distance >= 3, "identifier six or more functions out": distance >= 6}
    return {name for name, fact in found.items() if fact}


def function_features(slots, captures, escapes):
    found = {"locals": slots, "captures": captures, "three or more captures": captures >= 3, "escapes": escapes,
             "two or more escapes": escapes >= 2}
    return {name for name, count in found.items() if count}


def class_features(reader, row, parent, children, fields, methods):
    own = Counter(reader.kind(kid) for kid in reader.kids(row))
    found = {"class with a parent": parent, "parent 100 to 102": 100 <= parent <= 102, "class with children": children,
             "merged methods": parent and methods > own[6], "fields registered or merged": fields > own[10],
             "forward parent": parent > 256 + row}
    return {name for name, fact in found.items() if fact}


def sheet_features(reader):
    found = set()
    for row in range(len(reader.rows)):
        kind = reader.kind(row)
        if kind == 3:
            found.add("import-all" if reader.b(row) else "listed import")
        if kind in (23, 24):
            found.add("break or continue")
        if kind == 29 and reader.b(row) >= 2:
            found.add("constant let")
        if kind == 52 and reader.a(row):
            found.add("literal with a class")
        if kind == 21 and reader.kind(reader.kids(row)[0]) == 54:
            found.add("member assignment")
        if kind == 30 and reader.kind(reader.kids(reader.a(row))[-1] if reader.kids(reader.a(row)) else 0) == 6:
            found.add("class with methods")
    return found


def count(oracle, total, seed, size, errors):
    questions, found, orders = Counter(), Counter(), Counter()
    rows = 0
    for first in range(seed, seed + total, BATCH):
        sheets = [generate(each, size, errors) for each in range(first, min(first + BATCH, seed + total))]
        for sheet in sheets:
            assert first_no(sheet.words, sheet.names) == 0
        for sheet, answer in zip(sheets, run_oracle(oracle, [(each.rows, each.names) for each in sheets])):
            out = printed(sheet.rows, sheet.names, answer)
            questions[out[0][0]] += 1
            orders["pre-order" if sheet.preorder else "not pre-order"] += 1
            rows += len(sheet.rows)
            if out[0][0] == 0:
                found.update(features(Reader(sheet.rows, sheet.names), out))
    return questions, found, orders, rows


def main():
    oracle, total = sys.argv[1], int(sys.argv[2])
    seed, size, errors = (list(map(float, sys.argv[3:])) + [1, 30, 0.6][len(sys.argv) - 3:])[:3]
    questions, found, orders, rows = count(oracle, total, int(seed), int(size), errors)
    print(f"{total} sheets, {rows / total:.0f} rows on average;", dict(orders))
    for question in sorted(questions):
        print(f"question {question:2}: {questions[question]}")
    for name, many in found.most_common():
        print(f"{many:6} resolved sheets: {name}")


if __name__ == "__main__":
    main()
