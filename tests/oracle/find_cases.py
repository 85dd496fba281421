"""find_cases.py COUNT SEED OUTDIR

Makes requests of verb 6, find a name: those of directed() and COUNT random ones. Writes OUTDIR/stdin, the requests, and
OUTDIR/stdout, the replies that plush_serve must write, out of `find`, which is written from document 02 and shares nothing
with the program.
"""
import random
import sys
from functools import lru_cache
from pathlib import Path

from format_check import FIXED, listed, names_fit
from tree import text_of

FIND = 6
PLACES = 2048
# Names of one 32-bit value.
SAME_VALUE = [(b"costarring", b"liquid"), (b"declinate", b"macallums"), (b"altarage", b"zinke")]
LETTERS = b"abcdefghijklmnopqrstuvwxyz"


def value(name):
    """The 32-bit FNV-1a value."""
    v = 2166136261
    for byte in name:
        v = (v ^ byte) * 16777619 % 2**32
    return v


def walk(places, name):
    """The place at which a walk for a name ends, and how many places it reads. A place holds a name and its number, or None."""
    place = value(name) % PLACES
    read = 1
    while places[place] is not None and places[place][0] != name:
        place = (place + 1) % PLACES
        read += 1
    return place, read


@lru_cache(maxsize=2)
def index(names):
    places = [None] * PLACES
    for number, name in enumerate(FIXED + listed(names), 1):
        places[walk(places, name)[0]] = (name, number)
    return places


def find(names, name):
    """The number of a name, 0 if it is absent, and how many places were read."""
    if not names_fit(names):
        return 0, 0
    places = index(names)
    place, read = walk(places, name)
    return (places[place][1] if places[place] else 0), read


def reply(names, name):
    return text_of([[0, 0, 0, 0, 0, 1, 0, 0], [*find(names, name), 0, 0, 0, 0, 0, 0]]).encode()


class Case:
    """A list of names and the bytes looked for. Nothing is refused, and there are no rows of a sheet."""
    question, kinds = 0, ()

    def __init__(self, what, names, name):
        self.what = what
        self.names = bytes(names)
        self.name = bytes(name)

    def input(self):
        numbers = (FIND, 0, len(self.names), 0, 0, 0, 0, len(self.name))
        return b"%10d" * 8 % numbers + b"\n" + self.names + self.name

    @property
    def out(self):
        return reply(self.names, self.name)


def list_of(names):
    return b"".join(name + b"\n" for name in names)


def names_at(rng, place, count, size=5, letters=LETTERS):
    """Names whose first place is this one."""
    found = set()
    while len(found) < count:
        name = bytes(rng.choice(letters) for _ in range(size))
        if value(name) % PLACES == place:
            found.add(name)
    return sorted(found)


def look(what, names, looked_for):
    return [Case(what, list_of(names), name) for name in looked_for]


def refused():
    """Lists that question 2 refuses."""
    return {
        "no end": b"ab\ncd",
        "an empty name": b"ab\n\ncd\n",
        "a name twice": b"ab\ncd\nab\n",
        "a fixed name": b"ab\nwindow_id\n",
        "256 bytes": b"ab\n" + 256 * b"q" + b"\n",
        "1,025 names": list_of([b"ab", *(b"n%d" % i for i in range(1024))]),
        "32,769 bytes": list_of([b"ab", *(b"%031d" % i for i in range(1022)), 61 * b"z"]),
    }


def directed():
    rng = random.Random(1)
    cases = []
    for a, b in SAME_VALUE:
        cases += look("one value", [a, b], [a, b]) + look("one value", [b, a], [a, b]) + look("one value, one listed", [a], [a, b])
    around = names_at(rng, 2046, 2) + names_at(rng, 2047, 3) + names_at(rng, 0, 2) + names_at(rng, 1, 1)
    for names in (around, around[::-1]):
        cases += look("around the end", names[:-1], names)
    high = names_at(rng, value(b"ab") % PLACES, 2, 3, bytes(range(128, 256)))
    cases += look("bytes above 127", [b"ab", *high], [b"ab", *high])
    cases += look("fixed names, none listed", [], FIXED)
    cases += look("fixed names", [b"ab", b"cd"], FIXED[:3])
    for name in (b"", b"\n", b"ab\n", b"a", b"abc", b"b", b"\x00", b"\xff\x80", b"\xc3\xa9", 255 * b"q", 256 * b"q"):
        cases += look("bytes of any kind", [b"ab", b"cd", b"\xc3\xa9", 255 * b"q"], [name]) + look("bytes of any kind", [], [name])
    cases += look("as many bytes as can be looked for", [b"ab"], [32768 * b"q"])
    # the longest run that there is: from the place of a fixed name over those of 15 others
    crowd = names_at(rng, 1222, 1025)
    cases += look("1,024 names of one place", crowd[:1024], [crowd[0], crowd[1], crowd[500], crowd[1023], crowd[1024], b"Array", b"Float64", b"ab"])
    full = [b"%031d" % i for i in range(1024)]
    cases += look("32,768 bytes of names", full, [full[0], full[1023], b"%031d" % 1024])
    for what, names in refused().items():
        cases += [Case(f"refused: {what}", names, b"ab"), Case(f"refused: {what}", names, b"key")]
    return cases


def random_cases(count, seed):
    rng = random.Random(seed)
    for i in range(count):
        near = rng.randrange(PLACES)
        pool = [bytes(rng.choice(b"abcd") for _ in range(rng.randrange(1, 5))) for _ in range(rng.randrange(1, 200))]
        pool += [name for name in pool if (value(name) - near) % PLACES < 64]
        names = list(dict.fromkeys(name for name in pool if name not in FIXED))
        rng.shuffle(names)
        looked_for = rng.choice([rng.choice(names), bytes(rng.choice(b"abcde") for _ in range(rng.randrange(6)))])
        yield Case(f"random {i}", list_of(names), looked_for)


def main():
    count, seed, folder = int(sys.argv[1]), int(sys.argv[2]), Path(sys.argv[3])
    cases = directed() + list(random_cases(count, seed))
    (folder / "stdin").write_bytes(b"".join(case.input() for case in cases))
    (folder / "stdout").write_bytes(b"".join(case.out for case in cases))
    print(f"{len(cases)} cases, {max(find(case.names, case.name)[1] for case in cases)} places read at most")


if __name__ == "__main__":
    main()
