"""broken.py PROGRAM

Requests that end the program crates/plush_serve, built as PROGRAM. Prints a line for each; exit status 1 if one differs.
"""
import os
import subprocess
import sys
from pathlib import Path

CRATE = Path(__file__).resolve().parents[2] / "crates/plush_resolve"
SHEET, NAMES = ((CRATE / "data" / name).read_bytes() for name in ("sheet.txt", "names.txt"))
REPLY = (CRATE / "stdout").read_bytes()
MOST = 4_294_967_295
SAYS = {
    "row": "its header is no row of eight numbers", "verb": "unknown verb", "flag": "unknown flag",
    "x": "x is above its limit", "y": "y is above its limit", "body": "the verb does not take such a body",
    "end": "the input ends inside it",
}


def header(*numbers):
    return b"%10d" * 8 % tuple(numbers) + b"\n"


def resolve(flags=0, x=2048, y=0, second_sheet=0, second_names=0, verb=1):
    return header(verb, len(SHEET), len(NAMES), flags, x, y, second_sheet, second_names) + SHEET + NAMES


WHOLE = resolve()


def columns(verb, flags=0, x=2048, y=0, names=b"", second_sheet=0, second_names=0):
    return header(verb, len(SHEET), len(names), flags, x, y, second_sheet, second_names) + SHEET + names


def broken():
    """What it is, what the program says of it, and the bytes."""
    head = WHOLE[:81]
    yield "a letter in the header", "row", b"x" + WHOLE[1:]
    yield "no number in a column", "row", head[:70] + b" " * 10 + WHOLE[80:]
    yield "a space after a number", "row", head[:70] + b"0".ljust(10) + WHOLE[80:]
    yield "a number of 4,294,967,296", "row", head[:70] + b"4294967296" + WHOLE[80:]
    yield "a leading zero", "row", b"01".rjust(10) + WHOLE[10:]
    yield "two zeros", "row", head[:70] + b"00".rjust(10) + WHOLE[80:]
    yield "no newline after the header", "row", head[:80] + b" " + WHOLE[81:]
    yield "81 zero bytes", "row", bytes(81)
    for verb in (0, 8, 11, 12, MOST):
        yield f"verb {verb}", "verb", resolve(verb=verb)
    for flags in (1, 2, 3, 4, MOST):
        yield f"flags {flags}", "flag", resolve(flags=flags)
    for x in (2049, MOST):
        yield f"x {x}", "x", resolve(x=x)
    for y in (1, MOST):
        yield f"y {y}", "y", resolve(y=y)
    yield "a second sheet", "body", resolve(second_sheet=81) + b" " * 81
    yield "second names", "body", resolve(second_names=2) + b"a\n"
    yield "all of these", "verb", resolve(verb=12, flags=1, x=2049, y=1, second_sheet=1, second_names=1)
    yield "flag, x, y and bodies", "flag", resolve(flags=1, x=2049, y=1, second_sheet=1, second_names=1)
    yield "x, y and bodies", "x", resolve(x=2049, y=1, second_sheet=1, second_names=1)
    yield "y and bodies", "y", resolve(y=1, second_sheet=1, second_names=1)
    for verb in (2, 3):
        for flags in (1, 2, 3, 4):
            yield f"verb {verb} with flags {flags}", "flag", resolve(verb=verb, flags=flags)
        yield f"verb {verb} with x 2049", "x", resolve(verb=verb, x=2049)
        yield f"verb {verb} with y 1", "y", resolve(verb=verb, y=1)
        yield f"verb {verb} with a second sheet", "body", resolve(verb=verb, second_sheet=81) + b" " * 81
        yield f"verb {verb} with second names", "body", resolve(verb=verb, second_names=2) + b"a\n"
        yield f"verb {verb}, and the input ends in the sheet", "end", resolve(verb=verb)[:-len(NAMES) - 1]
        yield f"verb {verb}, and the input ends in the names", "end", resolve(verb=verb)[:-1]
        yield f"verb {verb}, and the input ends in a long sheet", "end", header(verb, MOST, 0, 0, 0, 0, 0, 0) + b" " * 400_000
    yield "verb 4 with a flag", "flag", header(4, 0, 0, 1, 0, 0, 0, 0)
    yield "verb 4 with x 1", "x", header(4, 0, 0, 0, 1, 0, 0, 0)
    yield "verb 4 with y 1", "y", header(4, 0, 0, 0, 0, 1, 0, 0)
    yield "verb 4 with a sheet", "body", header(4, 81, 0, 0, 0, 0, 0, 0) + b" " * 81
    yield "verb 4 with names", "body", header(4, 0, len(NAMES), 0, 0, 0, 0, 0) + NAMES
    yield "verb 5 with a flag", "flag", header(5, 0, len(NAMES), 1, 0, 25, 0, 0) + NAMES
    yield "verb 5 with x 2", "x", header(5, 0, len(NAMES), 0, 2, 25, 0, 0) + NAMES
    yield "verb 5 with a sheet", "body", header(5, 81, len(NAMES), 0, 1, 25, 0, 0) + b" " * 81 + NAMES
    yield "verb 5 with second names", "body", header(5, 0, len(NAMES), 0, 1, 25, 0, 2) + NAMES + b"a\n"
    yield "verb 5, and the input ends in the names", "end", header(5, 0, len(NAMES), 0, 1, MOST, 0, 0) + NAMES[:-1]
    looked_for = header(6, 0, len(NAMES), 0, 0, 0, 0, 1) + NAMES + b"p"
    yield "verb 6 with a flag", "flag", header(6, 0, 0, 1, 0, 0, 0, 0)
    yield "verb 6 with x 1", "x", header(6, 0, 0, 0, 1, 0, 0, 0)
    yield "verb 6 with a sheet", "body", header(6, 81, 0, 0, 0, 0, 0, 0) + b" " * 81
    yield "verb 6 with 32,769 bytes to look for", "body", header(6, 0, 0, 0, 0, 0, 0, 32769) + b"q" * 32769
    yield "verb 6, and the input ends in the names", "end", looked_for[:82]
    yield "verb 6, and the input ends in what is looked for", "end", looked_for[:-1]
    for flags in (1, 2, 3, 4):
        yield f"verb 7 with flags {flags}", "flag", resolve(verb=7, flags=flags)
    yield "verb 7 with x 2049", "x", resolve(verb=7, x=2049)
    yield "verb 7 with y 1", "y", resolve(verb=7, y=1)
    yield "verb 7 with a second sheet", "body", resolve(verb=7, second_sheet=81) + b" " * 81
    yield "verb 7 with second names", "body", resolve(verb=7, second_names=2) + b"a\n"
    yield "verb 7, and the input ends in the sheet", "end", resolve(verb=7)[:-len(NAMES) - 1]
    yield "verb 7, and the input ends in the names", "end", resolve(verb=7)[:-1]
    for verb in (9, 10):
        yield f"verb {verb} with a flag", "flag", columns(verb, flags=1)
        yield f"verb {verb} with x 2049", "x", columns(verb, x=2049)
        yield f"verb {verb} with y 1", "y", columns(verb, y=1)
        yield f"verb {verb} with names", "body", columns(verb, names=b"a\n")
        yield f"verb {verb} with a second sheet", "body", columns(verb, second_sheet=81) + b" " * 81
        yield f"verb {verb}, and the input ends in the sheet", "end", columns(verb)[:-1]
    for length, where in ((1, "after a byte"), (80, "before the header's newline"), (81, "after the header"), (82, "in the sheet"),
                          (len(WHOLE) - len(NAMES), "after the sheet"), (len(WHOLE) - 1, "before the last byte")):
        yield f"the input ends {where}", "end", WHOLE[:length]
    yield "the input ends in a long sheet, of which the start is kept", "end", header(1, MOST, 0, 0, 0, 0, 0, 0) + b" " * 400_000
    yield "the input ends in long names", "end", header(1, len(SHEET), MOST, 0, 0, 0, 0, 0) + SHEET + b"a\n" * 20_000
    yield "the input ends after a long sheet", "end", header(1, 200_000, 1, 0, 0, 0, 0, 0) + b" " * 200_000


def run(program, data, **more):
    return subprocess.run([program], input=data, stderr=subprocess.PIPE, timeout=60, **({"stdout": subprocess.PIPE} | more))


def check(what, done, out, err):
    """Holds a run to its replies, its line on standard error and exit status 0, the only one a Rattle program can end with."""
    good = done.stdout == out and done.stderr == err and done.returncode == 0
    print("ok  " if good else "BAD ", what, "" if good else (done.returncode, done.stderr, (done.stdout or b"")[:200]))
    return good


def slowly(program):
    """A request byte by byte, then one more after the reply: each is answered before the next is sent."""
    with subprocess.Popen([program], stdin=subprocess.PIPE, stdout=subprocess.PIPE, stderr=subprocess.PIPE, bufsize=0) as process:
        got = b""
        for piece in [WHOLE[i:i + 1] for i in range(len(WHOLE))], [WHOLE]:
            for byte in piece:
                process.stdin.write(byte)
            part = b""
            while len(part) < len(REPLY):
                part += process.stdout.read(len(REPLY) - len(part))
            got += part
        process.stdin.close()
        process.wait(timeout=60)
        return subprocess.CompletedProcess([], process.returncode, got, process.stderr.read())


def main():
    program = os.path.abspath(sys.argv[1])
    good = [check("no request", run(program, b""), b"", b""), check("two requests", run(program, WHOLE * 2), REPLY * 2, b""),
            check("requests that wait for replies", slowly(program), REPLY * 2, b"")]
    for what, why, data in broken():
        line = f"plush_serve: broken request: {SAYS[why]}\n".encode()
        # what follows a broken request is not answered
        more = b"" if why == "end" else WHOLE
        good.append(check(what, run(program, WHOLE + data + more), REPLY, line))
    with open("/dev/full", "wb") as full:
        good.append(check("output that takes nothing", run(program, WHOLE * 2, stdout=full), None, b"write: No space left on device\n"))
    closed = subprocess.run(["/bin/sh", "-c", f"exec '{program}' <&-"], stdout=subprocess.PIPE, stderr=subprocess.PIPE)
    good.append(check("input that cannot be read", closed, b"", b"read: Bad file descriptor\n"))
    print(f"{sum(good)} of {len(good)} as said")
    sys.exit(0 if all(good) else 1)


if __name__ == "__main__":
    main()
