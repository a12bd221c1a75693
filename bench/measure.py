#!/usr/bin/env python3
"""Runs both baselines and simplex on the same inputs, compares their answers, prints their costs.

Started by run.sh, which builds the baselines. Times are the least wall and the least processor time of
some runs, the programs taking turns so that a busy machine is unkind to all. On a busy machine the
processor time is the one to read.
"""

import argparse
import os
import shutil
import subprocess
import sys
import time
from pathlib import Path
from typing import NamedTuple

from generate import MEASURED, members_of

SIZES = [10**4, 10**5, 10**6]
QUICK_SIZES = SIZES[:2]
MEBI = 2**20
RUNS = 5
# What a vote may take of memory beside the input.
VOTE_BYTES = 64
GENERATE = Path(__file__).with_name("generate.py")
GNU_TIME = "/usr/bin/time"
# callgrind counts `rep movsb` and `rep stosb` once for each byte, so copies and fills have to go without.
WHOLE_COPIES = ":".join(f"glibc.cpu.x86_rep_{word}_threshold=1000000000" for word in ("movsb", "stosb"))
CALLGRIND = ["env", f"GLIBC_TUNABLES={WHOLE_COPIES}", "valgrind", "--tool=callgrind", f"--callgrind-out-file={os.devnull}"]
COUNTED_VOTES = 2 * 10**4


def arguments():
    parser = argparse.ArgumentParser(prog="run.sh", description="Measures simplex's audit.")
    parser.add_argument("simplex", nargs="?", default=os.environ.get("SIMPLEX"))
    parser.add_argument("--quick", action="store_true", help="leave out the greatest size")
    parser.add_argument("--instructions", action="store_true", help="count instructions, which no load moves, in place of all else")
    parser.add_argument("--runs", type=int, default=RUNS)
    parser.add_argument("--baseline", required=True, help=argparse.SUPPRESS)
    parser.add_argument("--lazy", required=True, help=argparse.SUPPRESS)
    parser.add_argument("--folder", type=Path, required=True, help=argparse.SUPPRESS)
    given = parser.parse_args()
    given.simplex = shutil.which(given.simplex or "")
    if given.simplex is None:
        parser.error("name the simplex program as an argument or in SIMPLEX")
    return given


def generate(shape, votes, path):
    options = {"shape": shape, "votes": votes, "out": path}
    words = [f"--{name}={value}" for name, value in options.items()]
    subprocess.run([sys.executable, str(GENERATE), *words], check=True)


class Program:
    def __init__(self, path, folder):
        self.path = path
        self.output = folder / "output"
        self.report = folder / "report"

    def run(self, members, path, wrapper=()):
        """The answer (status and output), wall milliseconds and the usage of the child."""
        command = [*wrapper, self.path, "audit", str(members)]
        with open(path, "rb") as source, open(self.output, "wb") as sink:
            start = time.perf_counter()
            child = subprocess.Popen(command, stdin=source, stdout=sink)
            _, status, usage = os.wait4(child.pid, 0)
            elapsed = 1000 * (time.perf_counter() - start)
        child.returncode = os.waitstatus_to_exitcode(status)
        return (child.returncode, self.output.read_bytes()), elapsed, usage

    def peak(self, members, path):
        """The peak memory in MiB. The usage of a child of ours would count our own memory too,
        for it starts as a copy of this process; GNU time, where it is there, is smaller."""
        if not os.access(GNU_TIME, os.X_OK):
            return self.run(members, path)[2].ru_maxrss / 1024
        self.run(members, path, [GNU_TIME, "-v", "-o", str(self.report)])
        lines = self.report.read_text().splitlines()
        return next(int(line.split()[-1]) for line in lines if "Maximum resident" in line) / 1024

    def instructions(self, members, path):
        """The answer, and how many million instructions it took."""
        answer, _, _ = self.run(members, path, [*CALLGRIND, f"--log-file={self.report}"])
        line = next(line for line in self.report.read_text().splitlines() if "Collected" in line)
        return answer, int(line.split()[-1]) / 10**6


class Disagreement(Exception):
    pass


def compare(answers):
    statuses, outputs = zip(*answers)
    if len(set(statuses)) > 1:
        raise Disagreement(f"statuses {', '.join(map(str, statuses))}")
    if len(set(outputs)) > 1:
        raise Disagreement("the outputs are not the same bytes")


class Cost(NamedTuple):
    """Of the baseline, the lazy one and simplex, in this order, and the size of their input."""

    walls: list
    times: list
    peaks: list
    size: float


def measure(programs, members, path, runs):
    walls, times = [[] for _ in programs], [[] for _ in programs]
    for _ in range(runs):
        answers = []
        for program, wall, taken in zip(programs, walls, times):
            answer, elapsed, usage = program.run(members, path)
            answers.append(answer)
            wall.append(elapsed)
            taken.append(1000 * (usage.ru_utime + usage.ru_stime))
        compare(answers)
    peaks = [program.peak(members, path) for program in programs]
    size = path.stat().st_size / MEBI
    return Cost([min(wall) for wall in walls], [min(taken) for taken in times], peaks, size)


def print_times(costs, times_of):
    print("| Shape | Votes | Baseline ms | Lazy ms | `simplex` ms | To the baseline | To the lazy |")
    print("|---|---:|---:|---:|---:|---:|---:|")
    for (shape, votes), cost in costs.items():
        baseline, lazy, simplex = times_of(cost)
        cells = f"{baseline:.1f} | {lazy:.1f} | {simplex:.1f}"
        print(f"| {shape} | {votes:,} | {cells} | {simplex / baseline:.2f} | {simplex / lazy:.2f} |")


def print_peaks(costs):
    """The bound is the input and so many bytes for each vote. It leaves out what the program itself takes,
    some 2 MiB, so it says little of few votes."""
    print("| Shape | Votes | Input MiB | Baseline MiB | Lazy MiB | `simplex` MiB | Bound MiB | Within |")
    print("|---|---:|---:|---:|---:|---:|---:|---|")
    for (shape, votes), cost in costs.items():
        bound = cost.size + VOTE_BYTES * votes / MEBI
        cells = [f"{cell:.1f}" for cell in [cost.size, *cost.peaks, bound]]
        within = "yes" if cost.peaks[-1] <= bound else "no"
        print(f"| {shape} | {votes:,} | " + " | ".join(cells) + f" | {within} |")


def print_growths(costs, few, many):
    print(f"| Shape, {few:,} to {many:,} | Baseline growth | `simplex` growth | Quotient |")
    print("|---|---:|---:|---:|")
    for shape in MEASURED:
        less, more = costs[shape, few].times, costs[shape, many].times
        baseline, _, simplex = (after / before for before, after in zip(less, more))
        print(f"| {shape} | {baseline:.1f} | {simplex:.1f} | {simplex / baseline:.2f} |")


def print_instructions(programs, path):
    print("| Shape | Baseline | Lazy | `simplex` | To the baseline | To the lazy |")
    print("|---|---:|---:|---:|---:|---:|")
    for shape in MEASURED:
        generate(shape, COUNTED_VOTES, path)
        answers, counts = zip(*(program.instructions(members_of(shape, COUNTED_VOTES), path) for program in programs))
        compare(answers)
        baseline, lazy, simplex = counts
        cells = " | ".join(f"{count:.1f}" for count in counts)
        print(f"| {shape} | {cells} | {simplex / baseline:.2f} | {simplex / lazy:.2f} |")


def main():
    given = arguments()
    programs = [Program(path, given.folder) for path in [given.baseline, given.lazy, given.simplex]]
    if given.instructions:
        print(f"Million instructions for {COUNTED_VOTES:,} votes:\n")
        return print_instructions(programs, given.folder / "input")
    sizes = QUICK_SIZES if given.quick else SIZES
    path = given.folder / "input"
    costs = {}
    for shape in MEASURED:
        for votes in sizes:
            print(f"measuring {shape}, {votes} votes", file=sys.stderr)
            generate(shape, votes, path)
            try:
                costs[shape, votes] = measure(programs, members_of(shape, votes), path, given.runs)
            except Disagreement as error:
                sys.exit(f"disagreement on {shape}, {votes} votes: {error}")
    print(f"Least wall time of {given.runs} runs:\n")
    print_times(costs, lambda cost: cost.walls)
    print("\nLeast processor time of these runs:\n")
    print_times(costs, lambda cost: cost.times)
    print()
    print_growths(costs, *sizes[-2:])
    print(f"\nGreatest resident set; the bound is the input's size and {VOTE_BYTES} bytes a vote:\n")
    print_peaks(costs)


if __name__ == "__main__":
    main()
