#!/usr/bin/env python3
"""Brings the repository's own definitions and lemmas to today's spelling, after port.py: words in snake case, a prime as an apostrophe.

usage: python3 tools/respell.py        at the top of the repository, once, straight after port.py

Definitions, lemmas, constructors, fields and variables of .antt files: `isPending` becomes `is_pending`, `step-less` becomes `step_less`. Facts and
types keep their capital, also before a dash (`T-imp`), and constants that mirror those of src/ keep their capitals (`NO-RECORD` becomes `NO_RECORD`).
Names of the kit that a file imports stay. In a function's Proof.antt the names that a check makes stay: goals, and steps behind a dot. Clauses and
`ghost use` lines of .rt files, must-fail edits, and words in backquotes in comments and pages follow. Prints names that fall together.
"""
import collections
import os
import re

TOKEN = re.compile(r"[A-Za-zα-ωΑ-Ωℓ_][\w'′₀-₉]*(?:-[\w'′₀-₉]+)*")
IMPORT = re.compile(r"^[ ]*(?:pub )?use ([^\s;{]+?)\.?(?:\{([^}]*)\})?(?: as (\S+))?[ ]*$", re.M)
CRATES = sorted(c for c in os.listdir("crates") if os.path.isdir(os.path.join("crates", c, "src")))
# Words of the older kit inside names, which port.py respelled where they stand alone.
WORDS = {"getD": "get_or"}
KEPT = {"Kind-of": "KindOf"}
# Names with dashes, and names that port.py respelled, that would fall together with a definition: lemmas about it.
LEMMAS = {}


def new(name):
    """The new spelling of a name of the repository."""
    return LEMMAS.get(name) or spelled(name)


def spelled(name):
    if name in KEPT:
        return KEPT[name]
    for old, word in WORDS.items():
        name = re.sub(rf"(?<![A-Za-z]){old}(?![a-z])", word, name)
    name = name.replace("′", "'")
    if re.fullmatch(r"[A-Z0-9]+(-[A-Z0-9]+)+", name):
        return name.replace("-", "_")
    if name[0].isupper():
        return name
    out = re.sub(r"(?<=[a-z0-9])([A-Z])", lambda m: "_" + m.group(1).lower(), name.replace("-", "_"))
    return re.sub(r"_([A-Z])", lambda m: "_" + m.group(1).lower(), out)


def is_own(path):
    p = path.split(".")
    return p[0] == "Rattle" and len(p) > 1 and p[1] in CRATES


def names(text):
    for n in (text or "").replace("\n", " ").split(","):
        n = n.strip()
        if n:
            yield [w.strip() for w in n.split(" as ")]


def of_kit(text):
    """The names that a file imports from the kit."""
    kit = set()
    for m in IMPORT.finditer(text):
        if not is_own(m.group(1)):
            kit |= {n[0] for n in names(m.group(2))}
        if m.group(2) is None and not is_own(m.group(1)):
            kit.add(m.group(1).split(".")[-1])
            if m.group(3):
                kit.add(m.group(3))
    return kit


def files(ending):
    for folder, dirs, fs in os.walk("."):
        dirs[:] = sorted(d for d in dirs if d not in ("out", ".git", "target", "__pycache__"))
        for f in sorted(fs):
            if f.endswith(ending):
                yield os.path.join(folder, f)


def read(path):
    with open(path, encoding="utf-8") as f:
        return f.read()


def write(path, text, old):
    if text != old:
        with open(path, "w", encoding="utf-8") as f:
            f.write(text)


def outside_strings(text, turn):
    parts = re.split(r'("(?:[^"\\]|\\.)*")', text)
    return "".join(q if i % 2 else turn(q) for i, q in enumerate(parts))


def in_code(line, turn):
    """Turns the tokens of a line, but for strings and the path of an import."""
    m = re.match(r"(?:[ ]*(?:pub |ghost )?use [^{]*)?", line)
    return m.group(0) + outside_strings(line[m.end():], lambda q: TOKEN.sub(turn, q))


def in_words(text, known):
    """A comment or a page: names in backquotes, and camel-case names that are known."""
    def quoted(m):
        return TOKEN.sub(lambda t: new(t.group(0)) if t.group(0) in known else t.group(0), m.group(0))

    text = re.sub(r"`[^`\n]*`", quoted, text)
    return TOKEN.sub(lambda t: new(t.group(0)) if t.group(0) in known and re.search("[a-z][A-Z]", t.group(0)) and "-" not in t.group(0) else t.group(0), text)


def main():
    antt = [p for p in files(".antt")]
    texts = {p: read(p) for p in antt}
    known = set()  # names that .antt files declare or bind, and that change
    goals = {}  # of a function's Proof.antt: the names of goals
    for p, t in texts.items():
        code = re.sub(r"--.*", "", t)
        kit = of_kit(code)
        made = set(re.findall(r"^[ ]*(?:abbrev |unfoldable )?(?:pub )?([\w'′-]+)(?: \{[^}]*\})? : (?:\{[^}]*\} → )?(?:tie\.|statement)", code, re.M)) if p.endswith("/Proof.antt") else set()
        goals[p] = made
        for m in TOKEN.finditer(code):
            n = m.group(0)
            before = code[m.start() - 1] if m.start() else ""
            if n in kit or n in made or before == "." and p.endswith("/Proof.antt"):
                continue
            if new(n) != n:
                known.add(n)
    bare = collections.Counter()  # names that files declare without a dot, and that have the new spelling already
    for p, t in texts.items():
        code = re.sub(r"--.*", "", t)
        if not p.endswith("/Proof.antt"):
            kit = of_kit(code)
            for m in TOKEN.finditer(code):
                n = m.group(0)
                if n not in kit and "_" in n and "-" not in n and code[m.start() - 1:m.start()] != "." and spelled(n) == n:
                    bare[n] += 1
    camel = {spelled(n) for n in known if "-" not in n}
    for n in known:
        if "-" in n and n[0].islower() and (spelled(n) in camel or spelled(n) in bare):
            LEMMAS[n] = spelled(n) + "_lem"
    for n in bare:
        if n in camel:
            LEMMAS[n] = n + "_lem"
    print("lemmas that would have their definition's name: " + ", ".join(sorted(LEMMAS)))
    fields = set()
    for p, t in texts.items():
        if not p.endswith("/Proof.antt"):
            for m in re.finditer(r"(?<=\.)" + TOKEN.pattern, re.sub(r"--.*", "", t)):
                fields.add(m.group(0))
    together = collections.defaultdict(set)

    def seen(p, olds, others):
        by = collections.defaultdict(set)
        for n in olds:
            by[new(n)].add(n)
        for k, v in by.items():
            if len(v) > 1 or k in others:
                together[p].add((k, tuple(sorted(v)), k in others))

    for p, t in texts.items():
        kit = of_kit(re.sub(r"--.*", "", t))
        proof = p.endswith("/Proof.antt")
        olds, others = set(), set()
        out = []
        for line in t.split("\n"):
            code, dash, comment = line.partition("--")

            def turn(m):
                n = m.group(0)
                before = m.string[m.start() - 1] if m.start() else ""
                of = re.search(r"([\w'ᴰ]+)\.$", m.string[:m.start()])
                if of and of.group(1) in kit and of.group(1)[0].isupper():
                    return n
                if before == ".":
                    if proof and (n not in fields or m.string[:m.start()].endswith("tie.") or n in goals[p] or "-" in n):
                        return n
                elif n in kit or n in goals[p]:
                    return n
                elif proof and n.startswith("Need-"):
                    return n
                k = new(n)
                if before != ".":
                    (olds if k != n else others).add(n)
                return k

            out.append(in_code(code, turn) + dash + in_words(comment, known))
        seen(p, olds, others)
        write(p, "\n".join(out), t)
    for p in files(".rt"):
        t = read(p)
        aliases = set(re.findall(r" as (\w+)", "".join(re.findall(r"(?m)^[ ]*ghost use .*$", t))))
        olds, others = set(), set()
        out = []
        for line in t.split("\n"):
            at = line.find("//")
            code, comment = (line, "") if at < 0 else (line[:at], line[at:])

            def turn(m):
                n = m.group(0)
                if n in known | aliases and (re.search("[a-z][A-Z]", n) or "-" in n or "′" in n):
                    olds.add(n)
                    return new(n)
                others.add(n)
                return n

            out.append(in_code(code, turn) + in_words(comment, known))
        seen(p, olds, others)
        write(p, "\n".join(out), t)
    for p in files(".edit"):
        t = read(p)
        out = []
        for line in t.split("\n"):
            head, colon, rest = line.partition(": ")
            if head in ("old", "new"):
                line = head + colon + in_code(rest, lambda m: new(m.group(0)) if m.group(0) in known else m.group(0))
            out.append(line)
        write(p, "\n".join(out), t)
    for p in files(".md"):
        t = read(p)
        write(p, re.sub(r"`[^`\n]*`", lambda q: TOKEN.sub(lambda m: new(m.group(0)) if m.group(0) in known else m.group(0), q.group(0)), t), t)
    for p, v in sorted(together.items()):
        for k, olds, also in sorted(v):
            print(f"together: {p}: {k} from {', '.join(olds)}{' and a name that had it' if also else ''}")


if __name__ == "__main__":
    main()
