"""session_table.py TIMES

Prints for each entry into a session the least of the rounds' medians of each measurement in µs, our time as a part of the
Rust's, and where ours goes; then what one thing more of each sort costs in a session, and question 23 with names of one place.
TIMES has lines "SESSION_ENTRIES_ROWS WHAT MEDIAN LEAST", in nanoseconds.
"""
import sys
from collections import defaultdict

# sessions of `parts`, the second with twice as many: how many more there are in it
PARTS = {"entries": 499, "names": 500, "long_names": 500, "declarations": 2000, "classes": 500, "fields": 3840, "methods": 3840}


def times_of(path):
    times = defaultdict(lambda: defaultdict(list))
    for line in open(path):
        entry, what, middle, _ = line.split()
        times[entry][what].append(int(middle))
    return {entry: {what: min(middles) for what, middles in found.items()} for entry, found in times.items()}


def ours(found):
    """(all, question 23, the writing of the outside, the rest)"""
    check, both = found["check"], found["outside"]
    return found["enter"], check, both - check, found["enter"] - both


def halves(times, part):
    """The times into the two sessions of `parts` that hold much of one thing."""
    return [next(found for entry, found in times.items() if entry.startswith(f"{part}{half}_")) for half in (1, 2)]


def main():
    times = times_of(sys.argv[1])
    print("| session | entries | rows | `enter` | Rust, words to words | part | `resolve_repl_unit` alone | question 23 |"
          " outside | rest | `preview` | part of `enter` |")
    print("|---|---|---|---|---|---|---|---|---|---|---|---|")
    for entry, found in times.items():
        if "rust_words" not in found:
            continue
        rust, alone = found["rust_words"], found["rust_resolve_repl_unit:"]
        whole, rust_whole, rust_alone, *parts = (f"{time / 1000:.1f}" for time in (found["enter"], rust, alone, *ours(found)[1:]))
        cells = [*entry.rsplit("_", 2), whole, rust_whole, f"{found['enter'] / rust:.2f}", rust_alone, *parts,
                 f"{found['preview'] / 1000:.1f}", f"{found['preview'] / found['enter']:.3f}"]
        print(f"| {' | '.join(cells)} |")
    print()
    print("| one more of these, in ns | `enter` | question 23 | outside | rest |")
    print("|---|---|---|---|---|")
    for part, count in PARTS.items():
        less, more = halves(times, part)
        print(f"| {part} | {' | '.join(f'{(high - low) / count:.1f}' for low, high in zip(ours(less), ours(more)))} |")
    print()
    less, more = (found["check"] / 1000 for found in halves(times, "one_place"))
    print(f"names of one place in the name index: question 23 takes {less:.1f} µs for 500, {more:.1f} for 1,000")


if __name__ == "__main__":
    main()
