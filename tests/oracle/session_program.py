"""The program crates/plush_serve, fed with runs of requests at the prompt, each in one go to a process of its own.

HAS lists the verbs that the program has.

`Driven(program, requests)` is a run. `differing_replies` holds its replies to session.py, byte by byte. `differing_session`
looks at what the program's session shows after some of the requests, by a process that is sent these requests and then asked:
for each name that is not visible an entry that uses it, which 8 must refuse, or 9 for null; the text of each name of the session,
and of one number past the last; last an entry that uses every visible name, whose rows must tell what each means. What is
visible and what it means, the caller says: it has this from the Rust. Replies to these too are compared byte by byte, so that the
row of counts after each must be right as well.
"""
import subprocess

from format_check import FIXED, MAX_GLOBALS, MAX_ROWS
from session import ENTER, MAX_ENTRIES, NAME_TEXT, PREVIEW, WITHDRAW, Request, all_names, dialogue, refused, request_bytes
from tree import text_of

HAS = ENTER, PREVIEW, WITHDRAW, NAME_TEXT
NULL = FIXED.index(b"null") + 1
# the rows of an entry above the names that it uses: header, unit, function, body, statement, array
ABOVE = [[0, 0, 1], [2, 0, 2], [6, 0, 3], [25, 0, 4], [20, 0, 5], [47, 0, 6]]
TIMEOUT = 600


def first_difference(got, expected):
    """The number of the first reply of `expected` that `got` does not have in its place, or None."""
    at = 0
    for number, reply in enumerate(expected):
        if got[at:at + len(reply)] != reply:
            return number
        at += len(reply)
    return None if at == len(got) else len(expected)


def using(names, start):
    """An entry that uses names, listed backwards, in their order; by the entry's numbers."""
    own = [name for name in reversed(names) if name not in FIXED]
    numbers = {name: number for number, name in enumerate([*FIXED, *own], 1)}
    last = len(ABOVE) + len(names) - 1
    rows = [[kind, following, child, 0, row, row, start if kind == 0 else 0, int(kind == 6)]
            for row, (kind, following, child) in enumerate(ABOVE)]
    rows += [[50, row + 1 if row < last else 0, 0, 0, row, row, numbers[name], 0] for row, name in enumerate(names, len(ABOVE))]
    return Request(ENTER, text_of(rows).encode(), b"".join(name + b"\n" for name in own), MAX_ROWS), numbers


def reply_of(out, row):
    return text_of([*out, row]).encode()


class Driven:
    def __init__(self, program, requests):
        self.program, self.requests, self.replies = program, requests, dialogue(requests)
        self.sessions = self.entries = self.texts = 0

    def output(self, requests):
        done = subprocess.run([self.program], input=b"".join(map(request_bytes, requests)), stdout=subprocess.PIPE,
                              stderr=subprocess.STDOUT, timeout=TIMEOUT)
        return done.stdout

    def differing_replies(self):
        """The number of the first reply that differs, or None."""
        return first_difference(self.output(self.requests), self.replies)

    def differing_session(self, count, session, row, visible):
        """What differs after `count` requests. `row` is the row of counts, `visible` has (name, code, number, mutable) in order;
        only the texts of names are from `session`."""
        known = all_names(session)
        asked = [self.unseen(known, number, row) for number in range(1, len(known)) if number not in {each[0] for each in visible}]
        asked += [self.text(number, (known + [b""])[number]) for number in range(1, len(known) + 1)]
        asked.append(self.seen(known, row, visible))
        self.sessions += 1
        self.entries += len(asked) - len(known)
        self.texts += len(known)
        before = self.replies[:count]
        got = self.output(self.requests[:count] + [request for _, request, _ in asked])
        different = first_difference(got, before + [reply for _, _, reply in asked])
        if different is None:
            return None
        return asked[different - len(before)][0] if 0 <= different - len(before) < len(asked) else "replies before"

    def unseen(self, known, number, row):
        """An entry that uses a name that is not visible; it changes nothing, as it starts at the count."""
        start = min(row[0], MAX_GLOBALS)
        request, numbers = using([known[number]], start)
        at = len(ABOVE)
        out = refused(9 if number == NULL else 8, (0, at, at), numbers[known[number]]) if start == row[0] else refused(23)
        return f"{known[number]} is seen", request, reply_of(out, row)

    def text(self, number, text):
        reply = text_of([[0] * 7 + [len(text)]]).encode() + text
        return f"text of name {number}", Request(NAME_TEXT, x=0, y=number), reply

    def seen(self, known, row, visible):
        start = min(row[0], MAX_GLOBALS)
        request, _ = using([known[name] for name, *_ in visible], start)
        told = [[2, 20, 0, 0, 0, 0, 0, 0]]
        told += [[at, code, number, 0, mutable, 0, 0, 0] for at, (_, code, number, mutable) in enumerate(visible, len(ABOVE))]
        if start < row[0] or row[1] == MAX_ENTRIES:
            return "use of all names", request, reply_of(refused(23 if start < row[0] else 24), row)
        after = [row[0], row[1] + 1, row[2], *row[3:]]
        return "use of all names", request, reply_of([[0, 0, 0, 0, 0, len(told), row[0], 0], *told], after)
