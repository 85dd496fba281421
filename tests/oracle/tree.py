"""A sheet as a tree of nodes, and the ways to number its rows."""

KIND, NEXT, CHILD, FILE, LINE, COLUMN, A, B = range(8)
MAX_WORD = 4_294_967_295


class Node:
    """A row to be. Columns a and b hold a number, or a node for its row."""

    def __init__(self, kind, a=0, b=0, kids=()):
        self.kind = kind
        self.a = a
        self.b = b
        self.kids = list(kids)

    def all(self):
        """This node and all below it, in pre-order."""
        nodes, waiting = [], [self]
        while waiting:
            node = waiting.pop()
            nodes.append(node)
            waiting += reversed(node.kids)
        return nodes


def kids_of(rows, row):
    """The child list of a row."""
    kids, kid = [], rows[row][CHILD]
    while kid:
        kids.append(kid)
        kid = rows[kid][NEXT]
    return kids


def successors(root, late=()):
    """What must come after each node: its first child, its next sibling, and a class declaration after its methods'
    rows. Of each pair in `late` the first must come first, also where that is a declaration and a row of its methods."""
    after = {node: [] for node in root.all()}
    for node in list(after):
        if node.kids:
            after[node].append(node.kids[0])
        for left, right in zip(node.kids, node.kids[1:]):
            after[left].append(right)
        if node.kind == 30 and isinstance(node.a, Node):
            for method in node.a.kids:
                for row in method.all() if method.kind == 6 else ():
                    if (node, row) not in late:
                        after[row].append(node)
    for declaration, row in late:
        after[declaration].append(row)
    return after


def ordered(root, rng, order, late=()):
    """The nodes in an order that document 01 allows: `preorder`, or `breadth`, or `random`, or `runs` (random, with
    runs of rows that follow each other)."""
    if order == "preorder" and not late:
        return root.all()
    after = successors(root, late)
    before = {node: 0 for node in after}
    for nodes in after.values():
        for node in nodes:
            before[node] += 1
    ready, done = [root], []
    while ready:
        node = ready.pop(choice_of(rng, order, len(ready)))
        done.append(node)
        for each in after[node]:
            before[each] -= 1
            if before[each] == 0:
                ready.append(each)
    assert len(done) == len(after)
    return done


def choice_of(rng, order, count):
    if order == "breadth":
        return 0
    if order == "runs" and rng.random() < 0.7:
        return count - 1
    return rng.randrange(count)


def positions(rng, count):
    """A file, line and column for each row, no two alike after the clamp of columns."""
    style = rng.choice(["lines", "lines", "columns", "files", "far"])
    numbers = rng.sample(range(1, 4 * count + 1), count)
    far = [16383, 16384, 70000, MAX_WORD]
    if style == "columns":
        return [(3, 7, n) for n in numbers]
    if style == "files":
        return [(n, rng.randrange(9), rng.choice([5, 16384])) for n in numbers]
    if style == "far":
        return [(rng.choice([0, 262143]), MAX_WORD - n, rng.choice(far)) for n in numbers]
    return [(rng.randrange(3), n, rng.choice(far) if rng.random() < 0.1 else rng.randrange(120)) for n in numbers]


def rows_of(nodes, places):
    """The rows of nodes that are in the order of their numbers."""
    number = {node: i for i, node in enumerate(nodes)}
    value = lambda x: number[x] if isinstance(x, Node) else x
    rows = [[node.kind, 0, 0, *place, value(node.a), value(node.b)] for node, place in zip(nodes, places)]
    for node in nodes:
        if node.kids:
            rows[number[node]][CHILD] = number[node.kids[0]]
        for left, right in zip(node.kids, node.kids[1:]):
            rows[number[left]][NEXT] = number[right]
    return rows


def words_of(rows):
    return [word for row in rows for word in row]


def text_of(rows):
    return "".join("".join(f"{word:10}" for word in row) + "\n" for row in rows)
