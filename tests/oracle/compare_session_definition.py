"""compare_session_definition.py CRATES COUNT [SEED]

Compares the definition of sessions (the folders definition and session in CRATES) with session.py, entry by entry of COUNT
random runs: the report with the answer rows, and the session after it as a value. Of a quarter as many short runs of entries and
withdrawals, over words and bytes with little room, it compares what each request did, the counts after all of them, and the
session that the words and bytes hold then. session.py in turn is compared with the Rust by compare_session.py. Each comparison is
a claim, proved by computing it. Prints how many entries each question refused, and how many requests of the short runs did what;
exit status 1 if a claim does not hold. The command `rt` must be on the path.
"""
import random
import sys
import tempfile
from collections import Counter
from pathlib import Path

from compare_definition import claim, failed_claims, make_repository, numbers, plain
from format_check import words_of_text
from session import ENTER, FRESH, PREVIEW, WITHDRAW, Request, outcome, session_row
from session_runs import random_request, random_run
from sheets import LISTED

MOST_WORDS = 8 * 70
PER_MODULE = 40
# of short runs: words of a sheet, requests, and the share of withdrawals
SHORT_WORDS, FEWEST, MOST = 8 * 30, 3, 8
SHARE = 0.35
# what a request does, as `kinds` of RunSamples tells it
ACCEPTED, WITHDREW, REFUSED = 1, 2, 3

HEAD = """use Rattle.std.specs.Prelude.{◌≡◌, refl, ℕ, List, [], ◌∷◌, ◌++◌, replicate, take}
use Rattle.definition.specs.Meaning.{named, function, class, global}
use Rattle.definition.specs.Outcome.{report}
use Rattle.session.specs.Session.{Session, Accepted, fresh}
use Rattle.session.specs.Enter.{entered, after_entry}
use Rattle.session.specs.Words.{Room, session_in}
use Rattle.session.specs.Runs.{Memory, Request, entry, withdrawal, after_run, effects, fresh_memory}
use Rattle.session.specs.RunSamples.{kinds}

abbrev room : Room
room = record { bytes = 300; entries = 8; laid = 50; classes = 20; members = 60 }
"""
ROOM = [8, 1024, 300, 50, 20, 60]


def joined(parts):
    return " ∷ ".join([*parts, "[]"])


def meaning(each):
    return {1: f"function {each.number}", 2: f"class {each.number}", 3: f"global {each.number} {each.mutable}"}[each.code]


def record_text(entry, each):
    """A class has the name under which its entry declares it."""
    name = next(laid.name for laid in entry.declarations if laid.code == 2 and laid.number == each.number)
    methods = joined(f"record {{ name = {m.name}; fun = {m.function}; params = {m.params} }}" for m in each.methods)
    return (f"record {{ number = {each.number}; name = {name}; parent = {each.parent}; "
            f"fields = {plain(each.fields)}; methods = {methods} }}")


def entry_text(entry):
    names = joined(f"({plain(name)})" for name in entry.names)
    laid = joined(f"named {each.name} ({meaning(each)})" for each in entry.declarations)
    records = joined(record_text(entry, each) for each in entry.classes)
    return f"record {{ names = {names}; laid = {laid}; classes = {records} }}"


def session_text(session):
    return f"record {{ globals = {session.globals}; entries = {joined(map(entry_text, session.entries))} }}"


def claims(i, session, request, out, after):
    return f"""
abbrev s{i} : List ℕ
s{i} = {numbers(words_of_text(request.text))}

abbrev n{i} : List ℕ
n{i} = {numbers(request.names)}

abbrev S{i} : Session
S{i} = {session_text(session)}
""" + claim(f"c{i}", f"report (entered S{i} s{i} n{i} {8 * request.x})", joined(f"({plain(row)})" for row in out)) + \
        claim(f"a{i}", f"after_entry S{i} s{i} n{i} {8 * request.x}", session_text(after))


def cases_of(count, seed):
    """(session, request, its report and rows, the session after) of the entries and previews that are small enough."""
    cases = []
    for run in range(count):
        session = FRESH
        for request in random_run(seed * 1_000_000 + run):
            out, after = outcome(session, request)
            if request.verb in (ENTER, PREVIEW) and len(words_of_text(request.text)) <= MOST_WORDS:
                entered_out, entered_after = outcome(session, request._replace(verb=ENTER))
                cases.append((session, request, entered_out, entered_after))
            session = after
    return cases


# Short runs over words and bytes

def short_run(seed):
    """Requests that words and bytes with little room have room for."""
    rng, session, run = random.Random(seed), FRESH, []
    words = rng.sample(LISTED, rng.randrange(4, 10))
    wanted = rng.randrange(FEWEST, MOST + 1)
    while len(run) < wanted:
        withdraws = rng.random() < (SHARE if session.entries else SHARE / 10)
        request = Request(WITHDRAW) if withdraws else random_request(rng, session, words, (ENTER,))
        out, after = outcome(session, request)
        told = session_row(after)
        fits = all(count <= most for count, most in zip([told[1], *told[3:]], ROOM))
        if fits and len(words_of_text(request.text)) <= SHORT_WORDS:
            run.append((request, out[0][0], after))
            session = after
    return run


def did(request, question):
    return REFUSED if question else WITHDREW if request.verb == WITHDRAW else ACCEPTED


def request_text(request):
    if request.verb == WITHDRAW:
        return "withdrawal"
    return f"entry ({numbers(words_of_text(request.text))}) ({numbers(request.names)}) {8 * request.x}"


def run_claims(i, run):
    after, effects = run[-1][2], plain([did(request, question) for request, question, _ in run])
    return f"""
abbrev q{i} : List Request
q{i} = {joined(request_text(request) for request, _, _ in run)}

abbrev M{i} : Memory
M{i} = after_run room (fresh_memory room) q{i}
""" + claim(f"k{i}", f"kinds (effects room (fresh_memory room) q{i})", effects) + \
        claim(f"r{i}", f"take 8 M{i}.words", plain(session_row(after))) + \
        claim(f"h{i}", f"session_in room M{i}.words M{i}.bytes", session_text(after))


def main():
    crates, count = Path(sys.argv[1]), int(sys.argv[2])
    seed = int(sys.argv[3]) if len(sys.argv) > 3 else 1
    cases = cases_of(count, seed)
    runs = [short_run(seed * 1_000_000 + i) for i in range(count // 4)]
    differing = 0
    with tempfile.TemporaryDirectory() as name:
        folder = Path(name)
        make_repository(folder, crates / "definition", crates / "session")
        for first in range(0, len(cases), PER_MODULE):
            part = list(enumerate(cases[first:first + PER_MODULE], first))
            for failed in failed_claims(folder, HEAD + "".join(claims(i, *case) for i, case in part)):
                session, request, out, after = cases[int(failed[1:])]
                differing += 1
                print(f"\nDIFFERENCE in {failed}\nsession {session}\nnames {request.names!r}\nlent {request.x}")
                print(request.text.decode(), "expected", *out, "after", after, sep="\n")
        for first in range(0, len(runs), PER_MODULE // 4):
            part = list(enumerate(runs[first:first + PER_MODULE // 4], first))
            for failed in failed_claims(folder, HEAD + "".join(run_claims(i, run) for i, run in part)):
                differing += 1
                print(f"\nDIFFERENCE in {failed}", *runs[int(failed[1:])], sep="\n")
    questions = Counter(case[2][0][0] for case in cases)
    done = Counter(did(request, question) for run in runs for request, question, _ in run)
    print("by question:", ", ".join(f"{number}: {questions[number]}" for number in sorted(questions)))
    print(f"{count} runs, {len(cases)} entries; {len(runs)} short runs, with {done[ACCEPTED]} accepted entries, {done[WITHDREW]} "
          f"withdrawals, {done[REFUSED]} refusals; {differing} differences")
    sys.exit(1 if differing else 0)


if __name__ == "__main__":
    main()
