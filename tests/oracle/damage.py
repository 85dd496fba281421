"""Sheets and name lists that break questions 1 to 4, each in one way.

`damaged(seed, way)` gives (words, names); WAYS has the ways by question. A damage to the tree is made before its rows are
numbered; a damage to links, files or the names, after.
"""
import random

from format_check import FIXED, EXPRESSIONS, STATEMENTS
from sheets import Generator, ORDERS, add_tower
from tree import A, B, CHILD, FILE, MAX_WORD, NEXT, Node, kids_of, ordered, positions, rows_of, words_of

NAME_IN_A = (4, 7, 8, 9, 10, 11, 29, 50, 51, 54, 55)
ZERO_A = (2, 20, 21, 22, 23, 24, 25, 26, 27, 28, 40, 41, 42, 47, 48, 53, 58, 59)
ZERO_B = ZERO_A + (9, 10, 11, 30, 50, 51, 52, 54, 55)
ONE_MORE = {20: 40, 21: 40, 22: 40, 26: 25, 27: 25, 28: 40, 29: 40, 49: 40, 53: 40, 54: 40, 55: 40, 56: 40, 57: 40, 58: 40}
LEAVES = {7: 9, 8: 9, 9: 9, 10: 10, 11: 11, 23: 20, 24: 20, 30: 25, 40: 40, 41: 40, 42: 40, 43: 40, 44: 40, 45: 40,
          46: 40, 50: 40, 51: 40}


def minimal(kind):
    """A small tree of a kind, sound in itself."""
    if kind in (20, 22, 28):
        return Node(kind, kids=[Node(40)])
    return Node(kind, a=25 if kind in NAME_IN_A else 0)


class Tree:
    """A sound tree to be damaged."""

    def __init__(self, rng, generator, root):
        self.rng = rng
        self.generator = generator
        self.root = root
        self.nodes = root.all()
        self.late = ()

    def some(self, *kinds, test=lambda node: True):
        found = [node for node in self.nodes if node.kind in kinds and test(node)]
        return self.rng.choice(found) if found else None

    def above(self, node):
        return next(each for each in self.nodes if node in each.kids)

    def unit_of(self, node):
        return next(unit for unit in self.root.kids if node in unit.all())

    def absent_name(self):
        return self.rng.choice([0, 25 + len(self.generator.names), MAX_WORD])

    def can_lose_last(self, node):
        """Nothing that is named elsewhere stands below its children."""
        below = set(node.all())
        named = {each for node in self.nodes for each in (node.a, node.b) if isinstance(each, Node)}
        return not below & named and not any(each.kind == 30 for each in below)

    def free_name(self, nodes):
        taken = {node.a for node in nodes}
        return next(name for name in range(10, 1000) if name not in taken)

    def function_of(self, node):
        while node.kind != 6:
            node = self.above(node)
        return node

    def in_literal(self, block):
        return self.above(self.function_of(block)).kind == 52

    def move_declaration(self, block_test):
        """To the end of a block, but of none in its own class, so that the order of rows can be kept."""
        node = self.some(30)
        holder = node and self.above(node)
        block = node and self.some(25, test=lambda block: block not in node.a.all() and block_test(node, block))
        if not block or holder.kind != 25:
            return False
        holder.kids.remove(node)
        block.kids.append(node)

    def share_name(self, node, kind, extra):
        same = [kid for kid in node.kids if kid.kind == kind]
        if not same:
            return False
        place = node.kids.index(same[-1]) + 1
        node.kids.insert(place, extra(self.rng.choice(same).a))


class TreeDamage(Tree):
    """A method for each damage, some for each kind of KINDS; it returns False where the tree has no place for it."""

    # the header

    def header_kind(self):
        self.root.kind = self.rng.choice([1, 2, 25, MAX_WORD])

    def header_child_no_unit(self):
        self.root.kids.append(self.rng.choice([Node(25), Node(40), Node(9, 25)]))

    def header_globals(self):
        self.root.a = self.rng.choice([1_000_001, MAX_WORD])

    def header_main(self):
        other = self.some(6, test=lambda node: node.b == 0)
        self.root.b = self.rng.choice([other or len(self.nodes), self.root.kids[0], len(self.nodes), MAX_WORD])

    # kinds and children

    def unknown_kind(self):
        node = self.some(40, 41, 42)
        if not node:
            return False
        node.kind = self.rng.choice([0, 1, 5, 12, 19, 31, 39, 60, MAX_WORD])

    def child_too_many(self, kind):
        node = self.some(kind, test=lambda node: kind != 26 or len(node.kids) == 3)
        if not node:
            return False
        node.kids.append(minimal(ONE_MORE[kind]))

    def child_of_a_leaf(self, kind):
        node = self.some(kind)
        if not node:
            return False
        node.kids.append(minimal(LEAVES[kind]))

    def child_missing(self, kind):
        node = self.some(kind, test=self.can_lose_last)
        if not node:
            return False
        del node.kids[1 if kind in (26, 59) else -1:]
        if kind == 59:
            node.kids.clear()

    def statement_for_expression(self):
        node = self.some(*EXPRESSIONS, test=self.can_lose_last)
        holder = node and self.above(node)
        if not node or holder.kind == 25:
            return False
        holder.kids[holder.kids.index(node)] = minimal(self.rng.choice([20, 23, 25]))

    def expression_for_statement(self):
        node = self.some(*STATEMENTS, test=self.can_lose_last)
        holder = node and self.above(node)
        if not node or holder.kind == 6 and holder.b == 1:
            return False
        holder.kids[holder.kids.index(node)] = Node(self.rng.choice([40, 41]))

    def children_swapped(self):
        node = self.some(26, 27)
        if not node:
            return False
        node.kids[0], node.kids[1] = node.kids[1], node.kids[0]

    def dict_child_no_pair(self):
        node = self.some(48)
        if not node:
            return False
        node.kids.append(Node(40))

    def pair_out_of_dict(self):
        node = self.some(47, 59)
        if not node:
            return False
        node.kids.append(Node(49, kids=[Node(40)]))

    def import_child_no_name(self):
        node = self.some(3)
        if not node:
            return False
        node.kids.append(self.rng.choice([Node(10, 25), Node(11, 25), Node(50, 25)]))

    def literal_child_no_function(self):
        node = self.some(52, test=self.can_lose_last)
        if not node:
            return False
        node.kids = [Node(self.rng.choice([25, 40]))]

    def literal_with_two_functions(self):
        node = self.some(52)
        if not node:
            return False
        node.kids.append(Node(6, kids=[Node(25)]))

    def field_after_method(self):
        node = self.some(4, test=lambda node: any(kid.kind == 6 for kid in node.kids))
        if not node:
            return False
        node.kids.append(Node(10, self.free_name(node.kids)))

    def class_child_wrong(self):
        node = self.some(4)
        if not node:
            return False
        node.kids.insert(0, self.rng.choice([Node(11, 24), Node(9, 24), Node(25)]))

    def parameter_after_body(self):
        node = self.some(6, test=lambda node: node.b == 0)
        if not node:
            return False
        node.kids.append(Node(11, 24))

    def function_without_body(self):
        node = self.some(6, test=lambda node: self.can_lose_last(node.kids[-1]))
        if not node:
            return False
        node.kids.pop()

    def function_with_two_bodies(self):
        node = self.some(6, test=lambda node: node.b == 0)
        if not node:
            return False
        node.kids.append(Node(25))

    def unit_order(self):
        """Two neighbours of a unit in the wrong order."""
        unit = self.some(2, test=lambda unit: len({kid.kind for kid in unit.kids}) > 1)
        if not unit:
            return False
        places = [i for i in range(len(unit.kids) - 1) if unit.kids[i].kind != unit.kids[i + 1].kind]
        i = self.rng.choice(places)
        unit.kids[i], unit.kids[i + 1] = unit.kids[i + 1], unit.kids[i]

    def unit_without_function(self):
        self.root.kids.append(Node(2))

    def unit_with_two_functions(self):
        self.some(2).kids.append(Node(6, 0, 1, [Node(25)]))

    def unit_with_statement(self):
        self.some(2).kids.append(Node(25))

    def unit_in_unit(self):
        self.some(2).kids.insert(0, Node(2, kids=[Node(6, 0, 1, [Node(25)])]))

    def unit_function_parameter(self):
        self.some(6, test=lambda node: node.b == 1).kids.insert(0, Node(11, 24))

    def unit_function_body(self):
        node = self.some(6, test=lambda node: node.b == 1)
        node.kids = [Node(26, kids=[Node(41), node.kids[0]])]

    # columns

    def name_absent(self, kind):
        node = self.some(kind)
        if not node:
            return False
        node.a = self.absent_name()

    def parent_name(self):
        node = self.some(4)
        if not node:
            return False
        node.b = self.absent_name() or MAX_WORD

    def function_name(self):
        self.some(6).a = self.absent_name() or MAX_WORD

    def method_without_name(self):
        node = self.some(4, test=lambda node: any(kid.kind == 6 for kid in node.kids))
        if not node:
            return False
        self.rng.choice([kid for kid in node.kids if kid.kind == 6]).a = 0

    def function_flag(self):
        node = self.some(6)
        node.b = 2 if self.rng.random() < 0.4 else 1 - node.b
        self.root.b = 0

    def import_of_no_unit(self):
        node = self.some(3)
        if not node:
            return False
        node.a = self.rng.choice([0, self.some(6), self.some(25), len(self.nodes), MAX_WORD])

    def import_flag(self):
        node = self.some(3)
        if not node:
            return False
        node.b = self.rng.choice([2, MAX_WORD])

    def exported_function(self):
        node = self.some(7)
        if not node:
            return False
        node.b = self.rng.choice([0, self.some(2), self.some(25), len(self.nodes), MAX_WORD])

    def exported_global(self):
        node = self.some(8)
        if not node:
            return False
        node.b = self.rng.choice([self.root.a, MAX_WORD])

    def constant_let_global(self):
        node = self.some(29, test=lambda node: node.kids[0].kind != 52)
        if not node:
            return False
        node.b = self.rng.choice([2 + self.root.a, MAX_WORD])

    def constant_let_literal(self):
        node = self.some(29, test=lambda node: node.kids[0].kind == 52)
        if not node or not self.root.a:
            return False
        node.b = 2

    def literal_class(self):
        node = self.some(52)
        if not node:
            return False
        node.a = self.rng.choice([self.some(6), self.some(2), len(self.nodes), MAX_WORD])

    def literal_class_of_another_unit(self):
        node = self.some(52)
        other = node and self.some(4, test=lambda each: self.unit_of(each) is not self.unit_of(node))
        if not other:
            return False
        node.a = other

    def column_a_not_zero(self, kind):
        node = self.some(kind)
        if not node:
            return False
        node.a = self.rng.choice([1, 25, MAX_WORD])

    def column_b_not_zero(self, kind):
        node = self.some(kind)
        if not node:
            return False
        node.b = self.rng.choice([1, 25, MAX_WORD])

    # class declarations

    def declared_class(self):
        """A class declaration of something that is no class; the classes have theirs."""
        block = self.some(25)
        block.kids.append(Node(30, self.rng.choice([0, self.some(6), len(self.nodes), MAX_WORD])))

    def declared_twice(self):
        node = self.some(4)
        if not node:
            return False
        self.unit_of(node).kids[-1].kids[0].kids.append(Node(30, node))

    def declared_never(self):
        node = self.some(30)
        holder = node and self.above(node)
        if not node or holder.kind != 25:
            return False
        holder.kids.remove(node)

    def declared_in_another_unit(self):
        return self.move_declaration(
            lambda node, block: self.unit_of(block) is not self.unit_of(node) and self.function_of(block).b == 1)

    def declared_in_a_literal(self):
        return self.move_declaration(
            lambda node, block: self.unit_of(block) is self.unit_of(node) and self.in_literal(block))

    def declared_in_a_method(self):
        return self.move_declaration(
            lambda node, block: self.unit_of(block) is self.unit_of(node) and not self.in_literal(block)
            and self.function_of(block).b == 0)

    def declared_before_a_method_row(self):
        node = self.some(30, test=lambda node: node.a.kids and node.a.kids[-1].kind == 6)
        if not node:
            return False
        last = node.a.all()[-1]
        if last.kind == 6:
            return False
        self.late = ((node, last),)

    # names that are shared

    def two_function_exports(self):
        return self.share_name(self.some(2), 7, lambda name: Node(7, name, self.some(6)))

    def two_constant_exports(self):
        return self.share_name(self.some(2), 8, lambda name: Node(8, name, 0))

    def two_fields(self):
        node = self.some(4)
        return self.share_name(node, 10, lambda name: Node(10, name)) if node else False

    def two_methods(self):
        node = self.some(4)
        if not node:
            return False
        declaration = self.some(30, test=lambda each: each.a is node)
        made = self.share_name(node, 6, lambda name: Node(6, name, 0, [Node(25)]))
        return made if declaration else False

    def two_classes(self):
        unit = self.some(2)
        extra = Node(4)

        def second(name):
            extra.a = name
            return extra
        if self.share_name(unit, 4, second) is False:
            return False
        unit.kids[-1].kids[0].kids.append(Node(30, extra))


class Rows:
    """Numbered rows to be damaged."""

    def __init__(self, rng, rows):
        self.rng = rng
        self.rows = rows
        self.count = len(rows)

    def kids(self, row):
        return kids_of(self.rows, row)

    def some(self, test):
        found = [row for row in range(1, self.count) if test(row)]
        return self.rng.choice(found) if found else None

    def renumber(self, row, change):
        columns = [NEXT, CHILD] + {3: [A], 7: [B], 30: [A], 52: [A], 0: [B]}.get(row[0], [])
        for column in columns:
            row[column] = change.get(row[column], row[column])

    def in_block(self, row):
        return any(self.rows[each][0] == 25 and row in self.kids(each) for each in range(self.count))


class RowDamage(Rows):
    """A method for each damage; it returns False where the rows have no place for it."""

    def file_too_large(self):
        self.rows[self.rng.choice([0, self.rng.randrange(self.count)])][FILE] = self.rng.choice([262_144, MAX_WORD])

    def header_next(self):
        self.rows[0][NEXT], self.rows[0][CHILD] = self.rows[0][CHILD], 0

    def link_beyond(self):
        row = self.rng.randrange(1, self.count)
        column = self.rng.choice([NEXT, CHILD])
        if self.rows[row][column]:
            return False
        self.rows[row][column] = self.rng.choice([self.count, MAX_WORD])

    def link_to_itself(self):
        row = self.rng.randrange(self.count)
        self.rows[row][self.rng.choice([NEXT, CHILD])] = row
        return row != 0

    def link_down(self):
        """Two rows that are linked change their numbers."""
        row = self.some(lambda row: row + 1 in self.rows[row][NEXT:FILE])
        if row is None:
            return False
        change = {row: row + 1, row + 1: row}
        self.rows[row], self.rows[row + 1] = self.rows[row + 1], self.rows[row]
        for each in self.rows:
            self.renumber(each, change)

    def linked_twice(self):
        """Two blocks share their last statements."""
        first = self.some(lambda row: self.rows[row][0] == 25)
        if first is None:
            return False
        end = self.kids(first)[-1:] or [first]
        column = NEXT if end != [first] else CHILD
        other = self.some(lambda row: self.rows[row][0] == 25 and row != first and max(self.kids(row) or [0]) > end[0])
        if other is None:
            return False
        self.rows[end[0]][column] = max(self.kids(other))

    def linked_by_next_and_child(self):
        row = self.some(lambda row: self.rows[row][0] == 25 and self.rows[row][CHILD] == 0 and self.in_block(row)
                        and self.rows[row][NEXT] != 0)
        if row is None:
            return False
        self.rows[row][CHILD] = self.rows[row][NEXT]

    def not_linked(self):
        self.rows.append([40, 0, 0, 0, 9, 9, 0, 0])

    def cut_off(self):
        row = self.some(lambda row: self.rows[row][0] == 25 and len(self.kids(row)) > 1)
        if row is None:
            return False
        self.rows[self.kids(row)[-2]][NEXT] = 0


# questions 1 and 2

def wrong_row_count(rng, way, words):
    if way == "no rows":
        return []
    if way == "2,049 rows":
        return words + [0] * (8 * 2049 - len(words))
    if way == "words missing":
        return words[:-rng.randrange(1, 8)]
    return words + [rng.choice([0, 7])] * rng.randrange(1, 8)


def wrong_names(rng, way, names):
    lines = names.split(b"\n")[:-1]
    if way == "1,025 names":
        lines += [b"%d" % i for i in range(1025 - len(lines))]
    elif way == "too many bytes":
        lines += [b"%d" % i + b"x" * 248 for i in range(100, 231)]
    elif way != "last name not ended":
        extra = {"empty name": b"", "256-byte name": b"x" * 256, "a name twice": rng.choice(lines),
                 "a fixed name": rng.choice(FIXED)}[way]
        lines.insert(rng.randrange(len(lines) + 1), extra)
    text = b"".join(line + b"\n" for line in lines)
    return text[:-1] if way == "last name not ended" else text


# texts


TEXT_DAMAGES = ["no newline", "newline more", "byte", "blank", "number", "left", "line end", "shorter", "longer", "empty",
                "zeros", "zeros", "none", "none", "none"]


def damaged_text(rng, text):
    """A sheet's text, changed in one way; "none" leaves it as it is."""
    way = rng.choice(TEXT_DAMAGES)
    line = 81 * rng.randrange(len(text) // 81)
    field = line + 10 * rng.randrange(8)
    number = text[field:field + 10]
    end = line + 80
    change = {
        "no newline": lambda: text[:-1],
        "newline more": lambda: text + b"\n",
        "byte": lambda: put(text, field + rng.randrange(10), bytes([rng.choice([0, 9, 43, 45, 46, 47, 58, 65, 255])])),
        "blank": lambda: put(text, field, b" " * 10),
        "number": lambda: put(text, field, rng.choice([b"4294967296", b"9999999999"])),
        "left": lambda: put(text, field, number.strip() + b" " * (10 - len(number.strip()))),
        "line end": lambda: put(text, end, bytes([rng.choice([13, 32, 48, 0])])),
        "shorter": lambda: text[:field] + text[field + 1:],
        "longer": lambda: text[:field] + b" " + text[field:],
        "empty": lambda: b"",
        "zeros": lambda: put(text, field, number.strip().rjust(10, b"0")),
        "none": lambda: text,
    }
    return change[way](), "text: " + way


def put(text, place, part):
    return text[:place] + part + text[place + len(part):]


KINDS = {"child_too_many": ONE_MORE, "child_of_a_leaf": LEAVES, "child_missing": [*ONE_MORE, 52, 59],
         "name_absent": NAME_IN_A, "column_a_not_zero": ZERO_A, "column_b_not_zero": ZERO_B}


def damages_of(kind):
    """The damages of a class of them: a name, or a name and a kind."""
    names = [name for name in vars(kind) if not name.startswith("_")]
    return [way for name in names for way in [f"{name} {each}" for each in KINDS.get(name, ())] or [name]]


TREE_DAMAGES = damages_of(TreeDamage)
ROW_DAMAGES = damages_of(RowDamage)
WAYS = {
    1: ["no rows", "words missing", "words too many", "2,049 rows"],
    2: ["1,025 names", "too many bytes", "empty name", "256-byte name", "last name not ended", "a name twice",
        "a fixed name"],
    3: TREE_DAMAGES + ROW_DAMAGES,
    4: ["depth 65"],
}


def sound(rng, size):
    """A sound program with at least a unit."""
    while True:
        generator = Generator(rng, size)
        root = generator.program()
        if root.kids:
            return generator, root


def damaged(seed, way, size=25):
    """The words and the names of a sheet that is damaged in one way."""
    rng = random.Random(seed)
    while True:
        generator, root = sound(rng, size)
        rows = damaged_rows(rng, way, generator, root)
        if rows:
            break
    words = words_of(rows)
    names = b"".join(name + b"\n" for name in generator.names)
    if way in WAYS[1]:
        words = wrong_row_count(rng, way, words)
    if way in WAYS[2]:
        names = wrong_names(rng, way, names)
    return words, names


def damaged_rows(rng, way, generator, root):
    """The rows, damaged if the way is one of question 3 or 4; None where the sheet has no place for it."""
    damage = TreeDamage(rng, generator, root)
    if way == "depth 65" and not add_tower(root, rng, 65):
        return None
    if way in TREE_DAMAGES:
        name, *kind = way.split()
        if getattr(damage, name)(*map(int, kind)) is False:
            return None
    nodes = ordered(root, rng, rng.choice(ORDERS), damage.late)
    rows = rows_of(nodes, positions(rng, len(nodes)))
    if way in ROW_DAMAGES and getattr(RowDamage(rng, rows), way)() is False:
        return None
    return rows
