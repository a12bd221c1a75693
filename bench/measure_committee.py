#!/usr/bin/env python3
"""Runs a committee of four from Rust and the same in Rattle, compares the records that they leave and prints how many views a second,
and what time of a processor a view takes, or how many instructions.

Started by committee.sh, which builds both. The two take turns; the median of each counts, and the median of the runs' ratios.
"""

import argparse
import os
import re
import resource
import statistics
import subprocess
import sys
import tempfile
from pathlib import Path

from measure import CALLGRIND

VIEWS = 1000
QUICK_VIEWS = 100
RUNS = 11
QUICK_RUNS = 5
MEMBERS = 4
# The instructions of the views between two such runs are told, so that what comes before the first view isn't among them.
FEW, COUNTED = 20, 60
NAMES = ("`bindings/rust`", "`node_steps`")


def arguments():
    parser = argparse.ArgumentParser(prog="committee.sh", description="Measures a committee of four.")
    parser.add_argument("--quick", action="store_true", help=f"{QUICK_RUNS} runs of {QUICK_VIEWS} views")
    parser.add_argument("--runs", type=int)
    parser.add_argument("--views", type=int)
    parser.add_argument("--instructions", action="store_true", help="count instructions, which no load moves, in place of times")
    parser.add_argument("--place", type=Path, metavar="FOLDER", default=Path("/dev/shm"), help="where the records are")
    parser.add_argument("--rust", help=argparse.SUPPRESS)
    parser.add_argument("--simplex", help=argparse.SUPPRESS)
    return parser.parse_args()


def records(folder):
    return [(folder / f"record{index}").read_bytes() for index in range(MEMBERS)]


def run_rust(program, place, views, wrapper=()):
    """How many views a second, the records, and what it said of itself; the program makes its folder itself."""
    folder = place / "rust"
    ran = subprocess.run([*wrapper, program, folder, str(views)], check=True, capture_output=True, text=True)
    return int(re.search(r"again: (\d+) a second", ran.stdout).group(1)), records(folder), ran.stderr


def run_simplex(program, place, views, wrapper=()):
    folder = place / "simplex"
    folder.mkdir()
    ran = subprocess.run([*wrapper, program, folder, str(views)], check=True, capture_output=True, text=True)
    rate, *lengths = map(int, ran.stdout.split())
    kept = records(folder)
    if lengths != [len(record) for record in kept]:
        sys.exit(f"the records' lengths: {lengths}")
    return rate, kept, ran.stderr


def compare(kept):
    if kept[0] != kept[1]:
        sys.exit("the two left different records")


def processor_time():
    """The seconds of a processor that all programs took so far which have ended."""
    used = resource.getrusage(resource.RUSAGE_CHILDREN)
    return used.ru_utime + used.ru_stime


def measure(players, place, views, runs):
    rates, times, ratios, costs = [[], []], [[], []], [], []
    for number in range(runs):
        kept = [None, None]
        with tempfile.TemporaryDirectory(dir=place) as folder:
            for which in (0, 1) if number % 2 == 0 else (1, 0):
                play, program = players[which]
                begun = processor_time()
                rate, kept[which], _ = play(program, Path(folder), views)
                rates[which].append(rate)
                times[which].append((processor_time() - begun) / views * 1e6)
        compare(kept)
        ratios.append(rates[1][-1] / rates[0][-1])
        costs.append(times[0][-1] / times[1][-1])
    print(f"Load {os.getloadavg()[0]:.1f} on {os.cpu_count()} processors.\n")
    print(f"| Committee of four, {views:,} views | Views a second | Least | Greatest | A view, µs of a processor | Least |")
    print("|---|---:|---:|---:|---:|---:|")
    for name, rate, time in zip(NAMES, rates, times):
        told = f"{statistics.median(rate):,.0f} | {min(rate):,} | {max(rate):,} | {statistics.median(time):,.0f} | {min(time):,.0f}"
        print(f"| {name} | {told} |")
    print(f"\nIn Rattle {statistics.median(ratios):.2f} times as many, by the median of {runs} runs' ratios;")
    print(f"in Rust {statistics.median(costs):.2f} times the time of a processor, {min(times[0]) / min(times[1]):.2f} by the least.")


def count(players, place, views):
    """Prints the instructions for a view of each."""
    each, kept = [], []
    for play, program in players:
        with tempfile.TemporaryDirectory(dir=place) as folder:
            counts = []
            for number in (FEW, FEW + views):
                part = Path(folder) / str(number)
                part.mkdir()
                _, left, said = play(program, part, number, CALLGRIND)
                counts.append(int(re.search(r"Collected : (\d+)", said).group(1)))
            each.append((counts[1] - counts[0]) / views)
            kept.append(left)
    compare(kept)
    print("| Committee of four | Instructions for one view |")
    print("|---|---:|")
    for name, it in zip(NAMES, each):
        print(f"| {name} | {it:,.0f} |")
    print(f"\nIn Rust {each[0] / each[1]:.2f} times as many.")


def main():
    given = arguments()
    players = [(run_rust, given.rust), (run_simplex, given.simplex)]
    if given.instructions:
        return count(players, given.place, given.views or COUNTED)
    views = given.views or (QUICK_VIEWS if given.quick else VIEWS)
    runs = given.runs or (QUICK_RUNS if given.quick else RUNS)
    measure(players, given.place, views, runs)


if __name__ == "__main__":
    main()
