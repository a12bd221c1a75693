#!/usr/bin/env python3
"""Runs the baseline and simplex on the same certificates, compares and prints what they cost.

Started by certificates.sh, which builds both. A time is the least wall time of some runs, the two
programs taking turns, less that of a run with no repetition, for each repetition and certificate.
"""

import argparse
import os
import subprocess
import sys
import time
from pathlib import Path

import vectors

# The C library gives freed memory back to the system by default, and then each large certificate
# pays for fresh pages. The row `read, memory kept` is measured without that.
KEEPING = {"MALLOC_TRIM_THRESHOLD_": str(2**30), "MALLOC_MMAP_THRESHOLD_": str(2**25)}
PHASES = {
    "read": ("read", {}),
    "read, memory kept": ("read", KEEPING),
    "verify": ("verify", {}),
    "write": ("write", {}),
}
SIZES = [4, 100, 1000, 65535]
QUICK_SIZES = SIZES[:3]
PROPOSALS = [vectors.FOR_A, vectors.FOR_B]
RUNS = 7
# How many attestations one run goes through.
ATTESTATIONS = {"read": 40_000_000, "verify": 2_000_000, "write": 40_000_000}


def arguments():
    parser = argparse.ArgumentParser(prog="certificates.sh", description="Measures certificates.")
    parser.add_argument("--quick", action="store_true", help="leave out the greatest size")
    parser.add_argument("--runs", type=int, default=RUNS)
    parser.add_argument("--input", type=int, help="write the input of so many signers, and no more")
    parser.add_argument("--baseline", help=argparse.SUPPRESS)
    parser.add_argument("--simplex", help=argparse.SUPPRESS)
    parser.add_argument("--folder", type=Path, help=argparse.SUPPRESS)
    return parser.parse_args()


def certificates(signers):
    """A notarization of each proposal by all participants, one behind the other."""
    made = (vectors.certificate("notarization", range(signers), it) for it in PROPOSALS)
    return b"".join(vectors.spelled(it) for it in made)


class Disagreement(Exception):
    pass


class Program:
    def __init__(self, path):
        self.path = path

    def run(self, phase, participants, repetitions, path):
        """The answer, or None where the input is refused, and the wall seconds."""
        word, settings = PHASES[phase]
        command = [self.path, word, str(participants), str(repetitions)]
        environment = {**os.environ, **settings}
        with open(path, "rb") as source:
            start = time.perf_counter()
            done = subprocess.run(command, stdin=source, capture_output=True, env=environment)
            elapsed = time.perf_counter() - start
        if done.returncode not in (0, 1):
            raise Disagreement(f"status {done.returncode} of {' '.join(command)}")
        return (done.stdout.decode() if done.returncode == 0 else None), elapsed


def verdict(data, participants):
    """What verifying these bytes once has to answer."""
    verified = 0
    for _ in PROPOSALS:
        found = vectors.read("notarization", data, participants)
        if isinstance(found, str):
            return None
        value, data = found
        verified += vectors.certifies(participants, value)
    return f"verify {verified}\n"


def check(programs, path):
    """Compares the programs with the plain reading on inputs with one fault."""
    participants = 4
    good = certificates(participants)
    faulty = [good, certificates(2), certificates(3), certificates(5)]
    for place in range(len(good) // 2):
        faulty.append(good[:place])
        for mask in (0x01, 0x80):
            faulty.append(good[:place] + bytes([good[place] ^ mask]) + good[place + 1:])
    for data in faulty:
        path.write_bytes(data)
        wanted = verdict(data, participants)
        for program in programs:
            answer, _ = program.run("verify", participants, 1, path)
            if answer != wanted:
                raise Disagreement(f"{program.path}: {answer}, not {wanted}, of {data.hex()}")
    return len(faulty)


def measure(programs, phase, signers, path, runs):
    """The least seconds for a certificate, of each program."""
    repetitions = max(2, ATTESTATIONS[PHASES[phase][0]] // signers // len(PROPOSALS))
    least = [[float("inf")] * 2 for _ in programs]
    for _ in range(runs):
        for count, at in ((0, 0), (repetitions, 1)):
            answers = set()
            for program, taken in zip(programs, least):
                answer, elapsed = program.run(phase, signers, count, path)
                answers.add(answer)
                taken[at] = min(taken[at], elapsed)
            if len(answers) > 1 or None in answers:
                raise Disagreement(f"answers {answers} of {phase}, {signers} signers")
    return [(full - start) / repetitions / len(PROPOSALS) for start, full in least]


def microseconds(seconds):
    number = 1e6 * seconds
    places = next((places for places, least in enumerate([100, 10, 1]) if number >= least), 3)
    return f"{number:,.{places}f}"


def print_costs(costs):
    print("| Phase | Signers | Baseline µs | `simplex` µs | Ratio |")
    print("|---|---:|---:|---:|---:|")
    for (phase, signers), (baseline, simplex) in costs.items():
        times = f"{microseconds(baseline)} | {microseconds(simplex)}"
        print(f"| {phase} | {signers:,} | {times} | {simplex / baseline:.2f} |")


def print_growths(costs, few, many):
    """How much faster than the signers the times grow: 1 is linear."""
    print(f"| Phase, {few:,} to {many:,} | Baseline | `simplex` |")
    print("|---|---:|---:|")
    for phase in PHASES:
        pairs = zip(costs[phase, few], costs[phase, many])
        cells = [f"{after / before / (many / few):.2f}" for before, after in pairs]
        print(f"| {phase} | " + " | ".join(cells) + " |")


def main():
    given = arguments()
    if given.input is not None:
        sys.stdout.buffer.write(certificates(given.input))
        return
    programs = [Program(path) for path in [given.baseline, given.simplex]]
    sizes = QUICK_SIZES if given.quick else SIZES
    path = given.folder / "input"
    costs = {}
    try:
        print(f"compared on {check(programs, path)} inputs", file=sys.stderr)
        for phase in PHASES:
            for signers in sizes:
                print(f"measuring {phase}: {signers} signers", file=sys.stderr)
                path.write_bytes(certificates(signers))
                costs[phase, signers] = measure(programs, phase, signers, path, given.runs)
    except Disagreement as error:
        sys.exit(f"disagreement: {error}")
    print(f"Least wall time of {given.runs} runs, for one certificate.\n")
    print_costs(costs)
    print("\nGrowth divided by that of the signers:\n")
    print_growths(costs, *sizes[-2:])


if __name__ == "__main__":
    main()
