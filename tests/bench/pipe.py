"""pipe.py SERVE DRIVER ORACLE CASES [ROUNDS]

Times requests in one run of plush_serve, from a file to /dev/null and between two pipes, against as many calls of resolve_text in one
process (DRIVER) and against the Rust's pipeline from text to text in one process (ORACLE, the build with hash maps). The sheets are those of
CASES that make_cases.py wrote. Prints, of each, the median over the rounds in microseconds a sheet, and the ratios.

"files" is elapsed time, less that of a run without requests. "its own" is the processor time of plush_serve between the pipes, its calls of
the system included: what the program takes of an editor's machine for a request. "pipes" is elapsed time with a `cat` on either side.
"""
import os
import subprocess
import sys
import tempfile
import time
from pathlib import Path
from statistics import median

REQUESTS = 2000
ROWS_LENT = 2048
SHEETS = ["random_300", "random_2000", "chain_62"]


def request(sheet, names):
    header = [1, len(sheet), len(names), 0, ROWS_LENT, 0, 0, 0]
    return "".join(f"{number:10}" for number in header).encode() + b"\n" + sheet + names


def from_file(serve, path):
    start = time.perf_counter()
    with open(path, "rb") as requests:
        subprocess.run([serve], stdin=requests, stdout=subprocess.DEVNULL, check=True)
    return time.perf_counter() - start


def between_pipes(serve, path):
    """Elapsed time, and processor time of the program alone."""
    start = time.perf_counter()
    before = subprocess.Popen(["cat", path], stdout=subprocess.PIPE)
    program = subprocess.Popen([serve], stdin=before.stdout, stdout=subprocess.PIPE)
    after = subprocess.Popen(["cat"], stdin=program.stdout, stdout=subprocess.DEVNULL)
    before.stdout.close()
    program.stdout.close()
    _, status, used = os.wait4(program.pid, 0)
    assert status == 0
    before.wait()
    after.wait()
    return time.perf_counter() - start, used.ru_utime + used.ru_stime


def in_one_process(driver, sheet, names):
    out = subprocess.run([driver, str(REQUESTS), sheet, names], stdout=subprocess.PIPE, check=True, text=True).stdout
    return next(int(line.split()[1]) for line in out.splitlines() if line.startswith("resolve_text ")) / 1e3


def in_rust(oracle, sheet, names):
    out = subprocess.run([oracle, "--time-full", str(REQUESTS), sheet, names], stdout=subprocess.PIPE, check=True, text=True).stdout
    return int(out.split("median ")[1].split()[0]) / 1e3


def one_round(serve, driver, oracle, sheet, names, requests):
    each = 1e6 / REQUESTS
    elapsed, used = between_pipes(serve, requests)
    return (in_one_process(driver, sheet, names), (from_file(serve, requests) - from_file(serve, os.devnull)) * each, used * each, elapsed * each,
            in_rust(oracle, sheet, names))


def main():
    serve, driver, oracle, cases = sys.argv[1], sys.argv[2], sys.argv[3], Path(sys.argv[4])
    rounds = int(sys.argv[5]) if len(sys.argv) > 5 else 5
    print("| case | `resolve_text` | files | part | its own | part | pipes | part | Rust | pipes by Rust |")
    print("|" + "---|" * 10)
    for case in SHEETS:
        sheet, names = cases / f"{case}.sheet", cases / f"{case}.names"
        with tempfile.NamedTemporaryFile(delete=False) as requests:
            requests.write(request(sheet.read_bytes(), names.read_bytes()) * REQUESTS)
        times = [one_round(serve, driver, oracle, sheet, names, requests.name) for _ in range(rounds)]
        os.unlink(requests.name)
        text, files, own, pipes, rust = (median(column) for column in zip(*times))
        print(f"| `{case}` | {text:.1f} | {files:.1f} | {files / text:.2f} | {own:.1f} | {own / text:.2f} | {pipes:.1f} | {pipes / text:.2f} |"
              f" {rust:.1f} | {pipes / rust:.2f} |")


if __name__ == "__main__":
    main()
