"""stack.py DRIVER CASES
stack.py SESSION_DRIVER RUNS ENTRY

Prints for each case the least stack, in KiB, in which a thread can run `resolve`, or that in which it can enter an entry of
make_session_cases.py, found by halving. Below it the thread meets the end of its stack, which ends the process.
"""
import subprocess
import sys
from pathlib import Path

MOST = 64 << 10  # KiB


def runs(driver, kib, what):
    command = [driver, "--stack", str(kib << 10), *map(str, what)]
    return subprocess.run(command, stdout=subprocess.DEVNULL, stderr=subprocess.DEVNULL).returncode == 0


def least(driver, *what):
    low, high = 0, MOST
    assert runs(driver, high, what)
    while high - low > 4:
        middle = (low + high) // 2
        low, high = (low, middle) if runs(driver, middle, what) else (middle, high)
    return high


def main():
    driver, cases = sys.argv[1], Path(sys.argv[2])
    if len(sys.argv) > 3:
        print(f"{sys.argv[3]}: {least(driver, sys.argv[3], cases)} KiB of stack")
        return
    for sheet in sorted(cases.glob("*.sheet")):
        lent = sheet.with_suffix(".lent").read_text().split()
        print(f"{sheet.stem}: {least(driver, sheet, sheet.with_suffix('.names'), *lent)} KiB of stack")


if __name__ == "__main__":
    main()
