#!/usr/bin/env python3
"""Runs the baseline and simplex over the same views of one member, compares what they answer and prints what they cost.

Started by voter.sh, which builds both. Each program takes its own time of chunks of 12 views or looks, without that of making
certificates, and tells the median chunk, which a load that now and then takes the processor away hardly moves. The two take turns;
the least of the runs counts, and the median of the runs' ratios stands beside it.
"""

import argparse
import os
import statistics
import subprocess
import sys

RUNS = 15
QUICK_RUNS = 5
MEMBERS = [4, 100, 1000]
BEHIND = [10**2, 10**3, 10**4, 10**5]
# How many views or looks a chunk has, and how many chunks are measured, by the size of the committee.
CHUNK = 12
CHUNKS = {4: 200, 100: 200, 1000: 50}
BY_SIZE = {
    "finalized": "each view from entry to finalization",
    "terms": "the same in terms of five views, of which two are optimistic",
    "mixed": "every third view nullified, the others finalized",
    "nullified": "each view nullified, none finalized",
}
# A row of nullified views is kept as a whole, so that the last three shapes go no further than 10^4.
BY_HISTORY = {
    "finalized": ("a view, behind so many that were finalized", 10**5),
    "mixed": ("a view, behind so many of which every third was nullified", 10**5),
    "nullified": ("a view that is nullified, behind so many that were", 10**4),
    "polls": ("a look with nothing due, behind so many that were nullified", 10**4),
    "hole": ("a look of a leader that finds no parent, behind so many that were nullified but the first", 10**4),
}


def arguments():
    parser = argparse.ArgumentParser(prog="voter.sh", description="Measures a voter.")
    parser.add_argument("--quick", action="store_true", help=f"{QUICK_RUNS} runs, and the greatest history left out")
    parser.add_argument("--runs", type=int)
    parser.add_argument("--baseline", help=argparse.SUPPRESS)
    parser.add_argument("--simplex", help=argparse.SUPPRESS)
    return parser.parse_args()


def run(program, shape, members, behind):
    """The answer, and the nanoseconds of one view or look. Nullified views pile up, so few are measured."""
    chunks = 5 if shape == "nullified" else CHUNKS[members]
    command = [program, shape, str(members), str(behind), str(chunks)]
    done = subprocess.run(command, check=True, capture_output=True, text=True).stdout
    answer, taken = map(int, done.split())
    return answer, taken / CHUNK


def measure(programs, shape, members, behind, runs):
    """The least of each program, and the median of the ratios."""
    print(f"measuring {shape}: {members} members, {behind} views behind", file=sys.stderr)
    least = [float("inf")] * len(programs)
    ratios = []
    for number in range(runs):
        answers, taken = [0, 0], [0.0, 0.0]
        for place in (0, 1) if number % 2 == 0 else (1, 0):
            answers[place], taken[place] = run(programs[place], shape, members, behind)
            least[place] = min(least[place], taken[place])
        if answers[0] != answers[1]:
            sys.exit(f"disagreement: {shape}, {members} members, {behind} behind: {answers}")
        ratios.append(taken[1] / taken[0])
    return least, statistics.median(ratios)


def by_size(programs, runs):
    print("| Views | Members | Plain Rust, ns | `simplex_state`, ns | Ratio | Median of the runs' ratios |")
    print("|---|---:|---:|---:|---:|---:|")
    for shape, meaning in BY_SIZE.items():
        for members in MEMBERS:
            (plain, ours), median = measure(programs, shape, members, BEHIND[0], runs)
            print(f"| {meaning} | {members:,} | {plain:,.0f} | {ours:,.0f} | {ours / plain:.2f} | {median:.2f} |")
    print()


def by_history(programs, runs, histories):
    columns = " | ".join(f"{behind:,}" for behind in histories)
    print(f"| With 4 members, ns | Program | {columns} |")
    print("|---|---|" + "---:|" * len(histories))
    for shape, (meaning, greatest) in BY_HISTORY.items():
        reached = [behind for behind in histories if behind <= greatest]
        rest = " | " * (len(histories) - len(reached))
        cells = [measure(programs, shape, 4, behind, runs) for behind in reached]
        for place, program in enumerate(("plain Rust", "`simplex_state`")):
            print(f"| {meaning} | {program} | " + " | ".join(f"{least[place]:,.0f}" for least, _ in cells) + rest + " |")
        print("| | ratio, by medians | " + " | ".join(f"{median:.2f}" for _, median in cells) + rest + " |")


def main():
    given = arguments()
    programs = [given.baseline, given.simplex]
    runs = given.runs or (QUICK_RUNS if given.quick else RUNS)
    load = os.getloadavg()[0]
    print(f"Least of {runs} runs by turns, load {load:.1f} on {os.cpu_count()} processors.\n")
    by_size(programs, runs)
    by_history(programs, runs, BEHIND[:-1] if given.quick else BEHIND)


if __name__ == "__main__":
    main()
