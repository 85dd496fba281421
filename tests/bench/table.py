"""table.py TIMES

Prints for each case the median over the rounds of each measurement in µs, and our time as a part of the Rust's.
TIMES has lines "CASE WHAT MEDIAN LEAST", in nanoseconds. `resolve_text`, which lends 2,048 answer rows, is not measured where another
number is lent.
"""
import sys
from collections import defaultdict
from statistics import median

COLUMNS = ["resolve", "rust--time-words", "rust--time", "first_four", "resolve_text", "rust--time-full"]


def main():
    times = defaultdict(lambda: defaultdict(list))
    for line in open(sys.argv[1]):
        case, what, middle, _ = line.split()
        times[case][what].append(int(middle))
    print("| case | `resolve` | Rust, words to words | part | Rust, `resolve_syms` alone | questions 1 to 4 | `resolve_text` |"
          " Rust, text to text | part |")
    print("|---|---|---|---|---|---|---|---|---|")
    for case, found in times.items():
        ours, words, alone, four, text, full = (median(found[what] or [0]) / 1000 for what in COLUMNS)
        in_text = f"{text:.1f} | {full:.1f} | {text / full:.2f}" if text else f"- | {full:.1f} | -"
        print(f"| {case} | {ours:.1f} | {words:.1f} | {ours / words:.2f} | {alone:.1f} | {four:.1f} | {in_text} |")


if __name__ == "__main__":
    main()
