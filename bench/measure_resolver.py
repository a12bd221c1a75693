#!/usr/bin/env python3
"""Measures what a call of the resolver costs against how much it holds, beside a plain Rust program of the same rules.

Started by resolver.sh, which builds both programs. They run by turns and have to give the same; the least time of some runs counts.
"""

import argparse
import subprocess
import sys

SIZES = [10**2, 10**3, 10**4, 10**5]
CALLS = 100
RUNS = 7
SHAPES = {
    "row": "nullifications one after the other",
    "gaps": "every other view nullified, so each call fetches one",
    "verdicts": "a notarization and its false verdict for each view",
    "raises": "true verdicts inside terms, with each later term covered",
    "produce": "what is served, for views here and there",
    "settled": "what is settled, for views here and there",
    "finalized": "one finalization of all that is held",
}


def arguments():
    parser = argparse.ArgumentParser(prog="resolver.sh", description="Measures the resolver.")
    parser.add_argument("--quick", action="store_true", help="leave out the greatest size")
    parser.add_argument("--runs", type=int, default=RUNS)
    parser.add_argument("--baseline", help=argparse.SUPPRESS)
    parser.add_argument("--simplex", help=argparse.SUPPRESS)
    return parser.parse_args()


def run(program, shape, held):
    command = [program, shape, str(held), str(CALLS)]
    answer = subprocess.run(command, check=True, capture_output=True, text=True).stdout
    count, total, taken = map(int, answer.split())
    return (count, total), taken


def measure(programs, shape, held, runs):
    """The least nanoseconds of each program, which have to give the same."""
    least = [float("inf")] * len(programs)
    for number in range(runs):
        given = set()
        places = range(len(programs))
        for place in places if number % 2 == 0 else reversed(places):
            answer, taken = run(programs[place], shape, held)
            given.add(answer)
            least[place] = min(least[place], taken)
        if len(given) > 1:
            sys.exit(f"disagreement: {shape} {held}: {given}")
    return least


def main():
    given = arguments()
    programs = (given.baseline, given.simplex)
    sizes = SIZES[:-1] if given.quick else SIZES
    for shape, meaning in SHAPES.items():
        per, word = ("held", "a view held") if shape == "finalized" else ("call", "a call")
        print(f"`{shape}`: {meaning}\n")
        print(f"| Held | Baseline µs {word} | Growth | `simplex` µs {word} | Growth | Ratio |")
        print("|---:|---:|---:|---:|---:|---:|")
        before = None
        for held in sizes:
            print(f"measuring {shape} {held}", file=sys.stderr)
            count = held if per == "held" else CALLS
            costs = [1e-3 * taken / count for taken in measure(programs, shape, held, given.runs)]
            growth = [f"{now / then:.1f}" for now, then in zip(costs, before)] if before else ["", ""]
            print(
                f"| {held:,} | {costs[0]:.3f} | {growth[0]} | {costs[1]:.3f} | {growth[1]} |"
                f" {costs[1] / costs[0]:.2g} |"
            )
            before = costs
        print()


if __name__ == "__main__":
    main()
