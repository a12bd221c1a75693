#!/usr/bin/env python3
"""Runs the baseline and simplex on the votes of the same rounds, compares and prints what they cost.

Started by batcher.sh, which builds both. A time is the least processor time of some runs, the two
programs taking turns, less that of a run with no repetition, for each repetition and vote handed in.
"""

import argparse
import re
import resource
import statistics
import subprocess
import sys
import tempfile

SIZES = [4, 100, 1000]
RUNS = 7
QUICK_RUNS = 3
COUNTED = 40_000
CALLGRIND = ["valgrind", "--tool=callgrind", "--callgrind-out-file=/dev/null"]
HELD = [1000, 4000, 16000]
# How many votes each member hands in, and how many one run goes through.
PHASES = {
    "add": (4, 8_000_000),
    "construct": (1, 400_000),
    "fallback": (1, 200_000),
}


def arguments():
    parser = argparse.ArgumentParser(prog="batcher.sh", description="Measures a round of votes.")
    parser.add_argument("--quick", action="store_true", help=f"{QUICK_RUNS} runs")
    parser.add_argument("--runs", type=int, default=RUNS)
    parser.add_argument("--instructions", action="store_true", help="count instructions, which no load moves, in place of times")
    parser.add_argument("--memory", action="store_true", help="the greatest heap of a round that holds all three kinds, in place of times")
    parser.add_argument("--baseline", help=argparse.SUPPRESS)
    parser.add_argument("--simplex", help=argparse.SUPPRESS)
    return parser.parse_args()


def run(program, phase, members, repetitions):
    """The answer, and the seconds of a processor."""
    command = [program, phase, str(members), str(repetitions)]
    start = resource.getrusage(resource.RUSAGE_CHILDREN)
    done = subprocess.run(command, check=True, capture_output=True)
    end = resource.getrusage(resource.RUSAGE_CHILDREN)
    return done.stdout.decode(), end.ru_utime - start.ru_utime + end.ru_stime - start.ru_stime


def expected(phase, members, repetitions):
    """What these rounds have to answer, by the rules: votes accepted, members blocked, reports, and what the
    certificates list, what was judged and what failed."""
    if phase == "add":
        told = (2 * members, members, 3 * members, 0, 0, 0)
    else:
        failing = int(phase == "fallback")
        told = (members, 0, members, members - failing, members, failing)
    return " ".join(str(repetitions * number) for number in told) + "\n"


def measure(programs, phase, members, runs):
    """The seconds for a vote of each program, the least of the runs, and the ratio of each run."""
    votes, whole = PHASES[phase]
    repetitions = max(2, whole // (votes * members))
    least = [[float("inf")] * 2 for _ in programs]
    ratios = []
    for number in range(runs):
        full = []
        for program, taken in list(zip(programs, least))[:: 1 if number % 2 == 0 else -1]:
            for count, at in ((0, 0), (repetitions, 1)):
                answer, elapsed = run(program, phase, members, count)
                if answer != expected(phase, members, count):
                    sys.exit(f"disagreement: {program} answers {answer} of {phase}, {members}")
                taken[at] = min(taken[at], elapsed)
            full.append((program, elapsed))
        ratios.append(dict(full)[programs[1]] / dict(full)[programs[0]])
    each = [(full - start) / (repetitions * votes * members) for start, full in least]
    return each, statistics.median(ratios)


def instructions(program, phase, members, repetitions):
    """How many instructions such a run takes."""
    command = [*CALLGRIND, program, phase, str(members), str(repetitions)]
    done = subprocess.run(command, check=True, capture_output=True)
    if done.stdout.decode() != expected(phase, members, repetitions):
        sys.exit(f"disagreement: {program} answers {done.stdout} of {phase}, {members}")
    return int(re.search(r"Collected : (\d+)", done.stderr.decode()).group(1))


def count(programs):
    """Prints the instructions for a vote of each program, less those of a run of no round."""
    print("Instructions for one vote.\n")
    print("| Phase | Members | Baseline | `simplex` | Ratio |")
    print("|---|---:|---:|---:|---:|")
    for phase, (votes, _) in PHASES.items():
        for members in SIZES:
            rounds = max(2, COUNTED // (votes * members))
            each = [
                (instructions(program, phase, members, rounds) - instructions(program, phase, members, 0)) / (rounds * votes * members)
                for program in programs
            ]
            print(f"| {phase} | {members:,} | {each[0]:,.0f} | {each[1]:,.0f} | {each[1] / each[0]:.2f} |")


def heap(program, members, repetitions):
    """The most bytes that such a run has on its heap."""
    with tempfile.NamedTemporaryFile() as out:
        command = ["valgrind", "--tool=massif", f"--massif-out-file={out.name}", program, "hold", str(members), str(repetitions)]
        done = subprocess.run(command, check=True, capture_output=True)
        told = f"{2 * members * repetitions} 0 {2 * members * repetitions} 0 0 0\n"
        if done.stdout.decode() != told:
            sys.exit(f"disagreement: {program} answers {done.stdout} of hold, {members}")
        return max(int(it) for it in re.findall(r"mem_heap_B=(\d+)", out.read().decode()))


def weigh(programs):
    """Prints the heap that a round takes with two votes of each member, less that of a run of no round."""
    print("Heap of a round that holds two votes of each member, of all three kinds, in bytes for one vote.\n")
    print("| Members | Baseline | `simplex` | Ratio |")
    print("|---:|---:|---:|---:|")
    for members in HELD:
        each = [(heap(program, members, 1) - heap(program, members, 0)) / (2 * members) for program in programs]
        print(f"| {members:,} | {each[0]:,.0f} | {each[1]:,.0f} | {each[1] / each[0]:.2f} |")


def main():
    given = arguments()
    programs = [given.baseline, given.simplex]
    if given.instructions:
        return count(programs)
    if given.memory:
        return weigh(programs)
    runs = QUICK_RUNS if given.quick else given.runs
    costs = {}
    for phase in PHASES:
        for members in SIZES:
            print(f"measuring {phase}: {members} members", file=sys.stderr)
            costs[phase, members] = measure(programs, phase, members, runs)
    print(f"Least processor time of {runs} runs, for one vote.\n")
    print("| Phase | Members | Baseline ns | `simplex` ns | Ratio | Median of the runs' ratios |")
    print("|---|---:|---:|---:|---:|---:|")
    for (phase, members), ((baseline, simplex), median) in costs.items():
        times = f"{1e9 * baseline:,.0f} | {1e9 * simplex:,.0f}"
        print(f"| {phase} | {members:,} | {times} | {simplex / baseline:.2f} | {median:.2f} |")


if __name__ == "__main__":
    main()
