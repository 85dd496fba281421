"""Questions 1 to 4 of documents 01 and 02: of a sheet as a list of numbers, and a byte list of names.

`first_no(words, names)` is the number of the first question with a no, or 0. `words_of_text(text)` reads a sheet's text.
"""

FIXED = (
    b"Int64 Float64 String Array ByteArray Dict UIEvent AudioNeeded AudioData kind window_id key button x y dx dy text "
    b"num_samples num_channels device_id null init MAIN_UNIT"
).split()

MAX_ROWS = 2048
MAX_DEPTH = 64
MAX_GLOBALS = 1_000_000
MAX_FILES = 262_144
MAX_WORD = 4_294_967_295

EXPRESSIONS = set(range(40, 49)) | set(range(50, 60))
STATEMENTS = set(range(20, 31))
UNREAD = {45, 46, 49, 56, 57}

# The children of each kind but 2, 4, 6, as a pattern: E an expression, S a statement, another letter a kind of its own;
# "?" after it: perhaps; "*": any number.
CHILDREN = {
    0: "U*", 3: "N*", 7: "", 8: "", 9: "", 10: "", 11: "",
    20: "E", 21: "EE", 22: "E", 23: "", 24: "", 25: "S*", 26: "ESS?", 27: "SESS", 28: "E", 29: "E", 30: "",
    40: "", 41: "", 42: "", 43: "", 44: "", 45: "", 46: "", 47: "E*", 48: "P*", 49: "E", 50: "", 51: "", 52: "F",
    53: "EE", 54: "E", 55: "E", 56: "E", 57: "EE", 58: "EEE", 59: "EE*",
    2: "I*X*G*C*F", 4: "D*F*", 6: "A*S",
}
SORTS = {"U": {2}, "N": {9}, "P": {49}, "F": {6}, "I": {3}, "X": {7}, "G": {8}, "C": {4}, "D": {10}, "A": {11},
         "E": EXPRESSIONS, "S": STATEMENTS}

# What the columns a and b hold, where it is always the same thing; "zero" is the rule for all others.
COLUMN_A = {3: "unit", 4: "name", 6: "name or 0", 7: "name", 8: "name", 9: "name", 10: "name", 11: "name", 29: "name",
            30: "class", 43: "any", 44: "any", 50: "name", 51: "name", 52: "class or 0", 54: "name", 55: "name"}
COLUMN_B = {3: "flag", 4: "name or 0", 6: "flag", 7: "function", 8: "global", 29: "let", 43: "any", 44: "any"}


class Unfit(Exception):
    """A row does not fit."""


def need(fact, why):
    if not fact:
        raise Unfit(why)


# Question 1

def words_of_text(text):
    """The numbers of a sheet's text; none of other text, so that it is refused as 1."""
    words = []
    for start in range(0, len(text), 81):
        line = text[start:start + 81]
        fields = [line[i:i + 10].lstrip(b" ") for i in range(0, 80, 10)]
        if len(line) != 81 or line[80] != 10 or not all(is_number(field) for field in fields):
            return []
        words += [int(field) for field in fields]
    return words


def is_number(field):
    digits = field != b"" and all(48 <= byte <= 57 for byte in field)
    return digits and (field == b"0" or field[0] != 48) and int(field) <= MAX_WORD


def rows_fit(words):
    return len(words) % 8 == 0 and 1 <= len(words) // 8 <= MAX_ROWS


# Question 2

def listed(names):
    """The listed names; what stands after the last end is one too."""
    parts = bytes(names).split(b"\n")
    return parts if parts[-1] else parts[:-1]


def names_fit(names):
    all_names = listed(names)
    if len(all_names) > 1024 or len(names) > 32768:
        return False
    if any(not 1 <= len(name) <= 255 for name in all_names):
        return False
    if names and names[-1] != 10:
        return False
    return len(set(FIXED + all_names)) == len(FIXED) + len(all_names)


# Question 3

class Format:
    """The rows of a sheet, with its tree once the links are known to be sound."""

    def __init__(self, words, names):
        self.rows = [words[i:i + 8] for i in range(0, len(words), 8)]
        self.name_count = len(FIXED) + len(listed(names))
        self.parent = {}
        self.kids = []

    def kind(self, row):
        return self.rows[row][0]

    def a(self, row):
        return self.rows[row][6]

    def b(self, row):
        return self.rows[row][7]

    def kids_of_kind(self, row, kind):
        return [kid for kid in self.kids[row] if self.kind(kid) == kind]

    def is_row_of(self, number, kind):
        return number < len(self.rows) and self.kind(number) == kind

    def check(self):
        self.check_links()
        self.find_tree()
        for row in range(len(self.rows)):
            self.check_children(row)
        self.check_header()
        for row in range(1, len(self.rows)):
            self.check_columns(row)
        for row in range(len(self.rows)):
            need(self.rows[row][3] < MAX_FILES, f"file of row {row}")
        self.check_functions()
        self.check_distinct_names()
        self.check_class_declarations()
        self.check_literals()

    def check_links(self):
        """Links go to higher rows; every row but 0 is linked exactly once."""
        links = [(row, link) for row, words in enumerate(self.rows) for link in words[1:3] if link != 0]
        need(all(row < link < len(self.rows) for row, link in links), "a link to no higher row")
        need(sorted(link for _, link in links) == list(range(1, len(self.rows))), "a row not linked exactly once")

    def find_tree(self):
        self.kids = [[] for _ in self.rows]
        for row in range(len(self.rows)):
            kid = self.rows[row][2]
            while kid != 0:
                self.kids[row].append(kid)
                self.parent[kid] = row
                kid = self.rows[kid][1]

    def check_children(self, row):
        kind = self.kind(row)
        need(kind in CHILDREN, f"kind of row {row}")
        kinds = [self.kind(kid) for kid in self.kids[row]]
        need(follows(kinds, CHILDREN[kind]), f"children of row {row}")

    def check_header(self):
        kind, following, _, _, _, _, start, main = self.rows[0]
        need(kind == 0 and following == 0, "header")
        need(start <= MAX_GLOBALS, "starting globals")
        need(main == 0 or self.is_row_of(main, 6) and self.b(main) == 1, "main unit function")

    def check_columns(self, row):
        kind = self.kind(row)
        if kind in UNREAD:
            return
        for value, rules in ((self.a(row), COLUMN_A), (self.b(row), COLUMN_B)):
            rule = rules.get(kind, "zero")
            need(self.column_fits(row, value, rule), f"row {row}: {value} is no {rule}")

    def column_fits(self, row, value, rule):
        if rule.endswith(" or 0"):
            return value == 0 or self.column_fits(row, value, rule[:-len(" or 0")])
        if rule == "let":
            literal = self.kind(self.kids[row][0]) == 52
            return value < 2 or not literal and self.column_fits(row, value - 2, "global")
        return {
            "any": True,
            "zero": value == 0,
            "flag": value <= 1,
            "name": 1 <= value <= self.name_count,
            "unit": self.is_row_of(value, 2),
            "class": self.is_row_of(value, 4),
            "function": self.is_row_of(value, 6),
            "global": value < self.a(0),
        }[rule]

    def check_functions(self):
        """b 1 at units' functions only, which have no parameters and a block body; a method has a name."""
        for row in range(1, len(self.rows)):
            if self.kind(row) != 6:
                continue
            holder = self.kind(self.parent[row])
            need(self.b(row) == (holder == 2), f"b of function {row}")
            if holder == 2:
                need([self.kind(kid) for kid in self.kids[row]] == [25], f"unit function {row}")
            if holder == 4:
                need(self.a(row) != 0, f"method {row} has no name")

    def check_distinct_names(self):
        for row in range(len(self.rows)):
            kinds = {2: (4, 7, 8), 4: (10, 6)}.get(self.kind(row), ())
            for kind in kinds:
                names = [self.a(kid) for kid in self.kids_of_kind(row, kind)]
                need(len(set(names)) == len(names), f"a name twice in row {row}")

    def check_class_declarations(self):
        declared = [self.a(row) for row in range(len(self.rows)) if self.kind(row) == 30]
        classes = [row for row in range(len(self.rows)) if self.kind(row) == 4]
        need(sorted(declared) == classes, "one class declaration for each class")
        for row in range(len(self.rows)):
            if self.kind(row) == 30:
                self.check_class_declaration(row, self.a(row))

    def check_class_declaration(self, row, class_row):
        function = self.above(row, 6)
        unit = self.parent[class_row]
        need(function == self.kids_of_kind(unit, 6)[0], f"class declaration {row} stands in another function")
        for method in self.kids_of_kind(class_row, 6):
            need(max(self.subtree(method)) < row, f"class declaration {row} stands before a row of its methods")

    def check_literals(self):
        for row in range(len(self.rows)):
            if self.kind(row) == 52 and self.a(row) != 0:
                need(self.above(row, 2) == self.parent[self.a(row)], f"literal {row} has a class of another unit")

    def above(self, row, kind):
        """The innermost row of a kind that a row lies in, by the tree of the sheet."""
        row = self.parent[row]
        while self.kind(row) != kind:
            row = self.parent[row]
        return row

    def subtree(self, row):
        rows = [row]
        for each in rows:
            rows += self.kids[each]
        return rows

    def depths_fit(self):
        depth = {0: 0}
        for row in range(1, len(self.rows)):
            depth[row] = depth[self.parent[row]] + 1
        return max(depth.values()) <= MAX_DEPTH


def follows(kinds, pattern):
    """Do the kinds follow the pattern? No letter of a pattern is of a sort with the next one but in "ESS?" and "EE*"."""
    at = 0
    for i, letter in enumerate(pattern):
        if letter in "*?":
            continue
        mark = pattern[i + 1:i + 2]
        most = len(kinds) if mark == "*" else 1
        count = 0
        while count < most and at < len(kinds) and kinds[at] in SORTS[letter]:
            at += 1
            count += 1
        if count == 0 and mark not in ("*", "?"):
            return False
    return at == len(kinds)


def first_no(words, names):
    if not rows_fit(words):
        return 1
    if not names_fit(names):
        return 2
    sheet = Format(words, names)
    try:
        sheet.check()
    except Unfit:
        return 3
    return 0 if sheet.depths_fit() else 4


def reason(words, names):
    """Why question 3 has a no, for a reader."""
    try:
        Format(words, names).check()
    except Unfit as unfit:
        return str(unfit)
    return ""
