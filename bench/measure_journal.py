#!/usr/bin/env python3
"""Measures the journal in a file beside plain writes and syncs, and its growth in memory.

Started by journal.sh, which builds both programs. In a file the two take turns, and what counts is
the median of the ratios of the rounds: a busy disk is unkind to both of a round. In memory the least
time of some runs counts.
"""

import argparse
import statistics
import subprocess
import sys
import time
from pathlib import Path

APPENDS = 10**4
QUICK_APPENDS = 10**3
ROUNDS = 21
MEMORY_SIZES = [10**3, 10**4, 10**5]
MEMORY_RUNS = 15


def arguments():
    parser = argparse.ArgumentParser(prog="journal.sh", description="Measures the journal.")
    parser.add_argument("--quick", action="store_true", help="append a tenth to the file")
    parser.add_argument("--rounds", type=int, default=ROUNDS)
    parser.add_argument("--place", type=Path, help="the folder in which the files are made")
    parser.add_argument("--baseline", help=argparse.SUPPRESS)
    parser.add_argument("--simplex", help=argparse.SUPPRESS)
    return parser.parse_args()


def fill(program, path, appends):
    """The wall seconds that a program takes to append to a new file, and the bytes that it leaves."""
    path.unlink(missing_ok=True)
    start = time.perf_counter()
    subprocess.run([program, "file", path, str(appends)], check=True)
    elapsed = time.perf_counter() - start
    content = path.read_bytes()
    path.unlink()
    return elapsed, content


def measure_file(programs, path, appends, rounds):
    """The seconds of both programs in each round. The later of one round is the first of the next."""
    taken = []
    for number in range(rounds):
        print(f"measuring {appends} appends: round {number + 1}", file=sys.stderr)
        turns = programs if number % 2 == 0 else programs[::-1]
        done = {program: fill(program, path, appends) for program in turns}
        (baseline, wanted), (simplex, content) = (done[program] for program in programs)
        if content != wanted:
            sys.exit("disagreement: the files differ")
        taken.append((baseline, simplex))
    return taken


def print_file(taken, appends):
    print("| Round | Baseline s | `simplex` s | Ratio |")
    print("|---|---:|---:|---:|")
    for number, (baseline, simplex) in enumerate(taken):
        print(f"| {number + 1} | {baseline:.2f} | {simplex:.2f} | {simplex / baseline:.3f} |")
    medians = [statistics.median(column) for column in zip(*taken)]
    ratio = statistics.median(simplex / baseline for baseline, simplex in taken)
    print(f"| median | {medians[0]:.2f} | {medians[1]:.2f} | {ratio:.3f} |")
    print(f"\nAn append took {1e3 * medians[1] / appends:.2f} ms.")


def measure_memory(program, count, runs):
    """The least seconds of so many appends, and of the opening of what they leave."""
    least = [float("inf")] * 2
    for _ in range(runs):
        command = [program, "memory", str(count)]
        answer = subprocess.run(command, check=True, capture_output=True).stdout
        found, *times = map(int, answer.split())
        if found != count:
            sys.exit(f"disagreement: {found} of {count} found")
        least = [min(before, 1e-9 * now) for before, now in zip(least, times)]
    return least


def print_memory(costs):
    print("| Appends | All appends ms | One µs | Growth | Opening ms | One artifact µs | Growth |")
    print("|---|---:|---:|---:|---:|---:|---:|")
    before = None
    for count, taken in costs.items():
        cells = []
        for place, seconds in enumerate(taken):
            growth = f"{seconds / before[place]:.1f}" if before else ""
            cells += [f"{1e3 * seconds:.3f}", f"{1e6 * seconds / count:.3f}", growth]
        print(f"| {count:,} | " + " | ".join(cells) + " |")
        before = taken


def main():
    given = arguments()
    appends = QUICK_APPENDS if given.quick else APPENDS
    programs = [given.baseline, given.simplex]
    taken = measure_file(programs, given.place / "journal_bench_record", appends, given.rounds)
    print(f"{appends:,} appends to a new file, the programs by turns:\n")
    print_file(taken, appends)
    costs = {}
    for count in MEMORY_SIZES:
        print(f"measuring {count} appends in memory", file=sys.stderr)
        costs[count] = measure_memory(given.simplex, count, MEMORY_RUNS)
    print(f"\nIn memory, the least of {MEMORY_RUNS} runs:\n")
    print_memory(costs)


if __name__ == "__main__":
    main()
