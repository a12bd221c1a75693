#!/usr/bin/env python3
"""Runs the baseline and simplex over the same views of one member's node, compares what they answer and prints what they cost.

Started by node.sh, which builds both. Each program takes its own time of chunks of twelve views (of one with 1,000 members), without
that of making packets, and tells the median chunk, which a load that now and then takes the processor away hardly moves. The two take
turns; the least of the runs counts, and the median of the runs' ratios stands beside it.
"""

import argparse
import os
import re
import statistics
import subprocess
import sys
import tempfile
import time
from pathlib import Path
from typing import NamedTuple

from measure import CALLGRIND

RUNS = 15
QUICK_RUNS = 5
MEMBERS = [4, 100, 1000]
BEHIND = [10**2, 10**3, 10**4, 10**5]
# How many views a chunk has, and how many chunks are measured, by the size of the committee.
CHUNK = {4: 12, 100: 12, 1000: 1}
CHUNKS = {4: 200, 100: 50, 1000: 100}
SHAPES = {
    "finalized": "each view finalized by all votes",
    "terms": "the same in terms of four views, of which two are optimistic",
}
# How many views are counted, behind a few.
FEW = 12
COUNTED = {4: 240, 100: 48, 1000: 12}
DISK_VIEWS = 240
# How records are rewritten: behind so many final views, and behind how many views it is measured, of which the first is what the others
# are held against. A run ends 984 views behind its last rewrite, where its heap and its record are about greatest.
EVERY = 1000
REWRITTEN_BEHIND = [10**2, 10**3, 10**4, 10**5, 10**6]
REWRITTEN_CHUNKS = 166
REWRITTEN_RUNS = 5
# With how many views behind few runs are made, and how much memory such a run takes where the record is never rewritten.
MANY = 10**6
MANY_RUNS = 3
MANY_NEED = 6 << 30
WAYS = (EVERY, 0)
# What is aimed at: the heap behind the most views to that behind so many, a view behind any number to one behind 100, and an opening.
HEAP_BEHIND = 10**4
MOST_HEAP, MOST_VIEW, MOST_OPENING_MS = 1.2, 1.1, 50
NAMES = ("plain Rust", "`node_steps`")


def arguments():
    parser = argparse.ArgumentParser(prog="node.sh", description="Measures a member's node.")
    parser.add_argument("--quick", action="store_true", help=f"{QUICK_RUNS} runs, and the greatest history left out")
    parser.add_argument("--runs", type=int)
    parser.add_argument("--instructions", action="store_true", help="count instructions, which no load moves, in place of times")
    parser.add_argument("--memory", action="store_true", help="the greatest heap behind more and more views, in place of times")
    parser.add_argument("--disk", type=Path, metavar="FOLDER", help="keep the record in a file of this folder")
    parser.add_argument("--rewrites", action="store_true", help="over two disks, whose record is rewritten behind each 1,000 views, or never")
    parser.add_argument("--baseline", help=argparse.SUPPRESS)
    parser.add_argument("--heap", help=argparse.SUPPRESS)
    parser.add_argument("--simplex", help=argparse.SUPPRESS)
    return parser.parse_args()


class Answer(NamedTuple):
    """What a run came to: a sum over the actions and how many there were, the current view and the last finalized one, how often the
    disk was synced, the length of the record and a sum over it; and the nanoseconds of one view."""

    told: int
    actions: int
    current: int
    finalized: int
    syncs: int
    length: int
    record: int
    taken: int


def answer_of(text, shape, members, views):
    """What a run says, where it went as it has to: each view finalized, by ten syncs."""
    answer = Answer(*map(int, text.split()))
    passed = 0 if shape == "packets" else views
    if (answer.current, answer.finalized, answer.syncs) != (passed + 1, passed, 10 * passed):
        sys.exit(f"not all views were finalized: {shape}, {members} members, {views} views: {answer}")
    return answer


def run(program, shape, members, behind, chunks, disk="memory", wrapper=()):
    """What a run came to, and what it said beside that."""
    command = [*wrapper, program, shape, str(members), str(behind), str(chunks), disk]
    done = subprocess.run(command, check=True, capture_output=True, text=True)
    return answer_of(done.stdout, shape, members, behind + CHUNK[members] * chunks), done.stderr


def compare(answers, what):
    if answers[0][:-1] != answers[1][:-1]:
        sys.exit(f"disagreement: {what}: {answers}")


def measure(programs, shape, members, behind, runs):
    """The least of each program, and the median of the ratios."""
    print(f"measuring {shape}: {members} members, {behind} views behind", file=sys.stderr)
    least = [float("inf")] * len(programs)
    ratios = []
    for number in range(runs):
        answers = [None, None]
        for place in (0, 1) if number % 2 == 0 else (1, 0):
            answers[place], _ = run(programs[place], shape, members, behind, CHUNKS[members])
            least[place] = min(least[place], answers[place].taken)
        compare(answers, f"{shape}, {members} members, {behind} behind")
        ratios.append(answers[1].taken / answers[0].taken)
    return least, statistics.median(ratios)


def by_size(programs, runs):
    print("| Views | Members | Plain Rust, µs | `node_steps`, µs | Ratio | Median of the runs' ratios |")
    print("|---|---:|---:|---:|---:|---:|")
    for shape, meaning in SHAPES.items():
        for members in MEMBERS:
            (plain, ours), median = measure(programs, shape, members, BEHIND[0], runs)
            times = f"{plain / 1e3:,.1f} | {ours / 1e3:,.1f}"
            print(f"| {meaning} | {members:,} | {times} | {ours / plain:.2f} | {median:.2f} |")
    print()


def by_history(programs, runs, histories):
    columns = " | ".join(f"{behind:,}" for behind in histories)
    print(f"| With 4 members, µs a view behind so many | Program | {columns} |")
    print("|---|---|" + "---:|" * len(histories))
    for shape, meaning in SHAPES.items():
        cells = [measure(programs, shape, 4, behind, runs) for behind in histories]
        for place, name in enumerate(NAMES):
            print(f"| {meaning} | {name} | " + " | ".join(f"{least[place] / 1e3:,.1f}" for least, _ in cells) + " |")
        print("| | ratio, by medians | " + " | ".join(f"{median:.2f}" for _, median in cells) + " |")


def instructions(program, shape, members, views):
    """What such a run comes to, and how many instructions it takes."""
    answer, said = run(program, shape, members, views, 0, wrapper=CALLGRIND)
    return answer, int(re.search(r"Collected : (\d+)", said).group(1))


def count(programs):
    """Prints the instructions for a view of each program, less those of making its packets."""
    print("Instructions for one view.\n")
    print("| Views | Members | Plain Rust | `node_steps` | Ratio |")
    print("|---|---:|---:|---:|---:|")
    for shape, meaning in SHAPES.items():
        for members in MEMBERS:
            print(f"counting {shape}: {members} members", file=sys.stderr)
            views, each, answers = COUNTED[members], [], []
            for program in programs:
                few, many = (instructions(program, shape, members, it) for it in (FEW, FEW + views))
                made_few, made = (instructions(program, "packets", members, it) for it in (FEW, FEW + views))
                answers.append(many[0])
                each.append((many[1] - few[1] - made[1] + made_few[1]) / views)
            compare(answers, f"{shape}, {members} members")
            print(f"| {meaning} | {members:,} | {each[0]:,.0f} | {each[1]:,.0f} | {each[1] / each[0]:.2f} |")


def heap(program, members, views, disk):
    """What such a run comes to, and the most bytes that it has on its heap."""
    with tempfile.NamedTemporaryFile() as out:
        wrapper = ["valgrind", "--tool=massif", f"--massif-out-file={out.name}"]
        answer, _ = run(program, "finalized", members, views, 0, disk, wrapper)
        return answer, max(int(it) for it in re.findall(r"mem_heap_B=(\d+)", out.read().decode()))


def weigh(programs, histories):
    """Prints the greatest heap behind more and more views, with the record in memory and with a disk that keeps nothing."""
    columns = " | ".join(f"{views:,}" for views in histories)
    print("The most bytes on the heap behind so many finalized views of 4 members; retention 10.\n")
    print(f"| Disk | Program | {columns} |")
    print("|---|---|" + "---:|" * len(histories))
    lengths = {}
    for disk, meaning in (("memory", "in memory"), ("nothing", "keeps nothing")):
        for name, program in zip(NAMES, programs):
            cells = []
            for views in histories:
                print(f"weighing {name}: {views} views, disk {meaning}", file=sys.stderr)
                answer, weight = heap(program, 4, views, disk)
                lengths[views] = answer.length
                cells.append(f"{weight:,}")
            print(f"| {meaning} | {name} | " + " | ".join(cells) + " |")
    print("| | the record's bytes | " + " | ".join(f"{lengths[views]:,}" for views in histories) + " |")


def bare_syncs(path, count, size):
    """The seconds that so many writes of so many bytes take, each synced."""
    path.unlink(missing_ok=True)
    file = os.open(path, os.O_RDWR | os.O_CREAT | os.O_EXCL)
    entry = bytes(size)
    start = time.perf_counter()
    for place in range(count):
        os.pwrite(file, entry, place * size)
        os.fsync(file)
    elapsed = time.perf_counter() - start
    os.close(file)
    path.unlink()
    return elapsed


def on_disk(programs, folder, members, runs):
    """Prints what a view takes with the record in a file, and what as many bare syncs take there."""
    path = folder / "node_bench_record"
    rows = []
    for number in range(runs):
        print(f"measuring {members} members on a disk: round {number + 1}", file=sys.stderr)
        answers, records, taken = [None, None], [None, None], [0.0, 0.0]
        for place in (0, 1) if number % 2 == 0 else (1, 0):
            path.unlink(missing_ok=True)
            start = time.perf_counter()
            answers[place], _ = run(programs[place], "finalized", members, DISK_VIEWS, 0, str(path))
            taken[place] = time.perf_counter() - start
            records[place] = path.read_bytes()
            path.unlink()
        compare(answers, f"finalized, {members} members, in a file")
        if records[0] != records[1]:
            sys.exit("disagreement: the files differ")
        syncs = answers[1].syncs
        bare = bare_syncs(path, syncs, answers[1].length // syncs)
        rows.append((*taken, bare))
    plain, ours, bare = (1e3 * statistics.median(column) / DISK_VIEWS for column in zip(*rows))
    to_plain = statistics.median(row[1] / row[0] for row in rows)
    to_bare = statistics.median(row[1] / row[2] for row in rows)
    syncs = answers[1].syncs / DISK_VIEWS
    print(f"| {members:,} | {syncs:.0f} | {bare:.2f} | {plain:.2f} | {ours:.2f} | {to_plain:.2f} | {to_bare:.2f} |")


def on_disks(programs, folder, runs):
    print(f"A view with the record in a file, median of {runs} rounds of {DISK_VIEWS} views, wall time with all else of a run.\n")
    print("| Members | Syncs a view | As many bare syncs, ms | Plain Rust, ms | `node_steps`, ms | To plain Rust | To bare syncs |")
    print("|---:|---:|---:|---:|---:|---:|---:|")
    for members in MEMBERS[:2]:
        on_disk(programs, folder, members, runs)


# ---- over two disks, whose record is rewritten


class Rewritten(NamedTuple):
    """What such a run came to: a sum over the actions and how many there were, the current view and the last finalized one, the lengths of
    both disks; the nanoseconds of one view; how often the record was rewritten, and the nanoseconds of the longest rewrite and of all; those
    of the shortest of some openings, and of the longest."""

    told: int
    actions: int
    current: int
    finalized: int
    first: int
    second: int
    taken: int
    rewrites: int
    stall: int
    rewriting: int
    shortest: int
    longest: int


def run_over_two(program, behind, every, disk, **how):
    """What such a run of four members came to, where it went as it has to."""
    command = [program, "finalized", "4", str(behind), str(REWRITTEN_CHUNKS), disk, str(every)]
    done = subprocess.run(command, check=True, capture_output=True, text=True, **how)
    answer = Rewritten(*map(int, done.stdout.splitlines()[-1].split()))
    views = behind + CHUNK[4] * REWRITTEN_CHUNKS
    if (answer.current, answer.finalized, answer.rewrites > 0) != (views + 1, views, every > 0):
        sys.exit(f"not all views were finalized, or no record was rewritten: {behind} behind, each {every}: {answer}")
    return answer


def heap_over_two(program, library, behind, every):
    """The bytes on its heap while the node stands there, and the most till then, on disks that keep nothing."""
    print(f"weighing {behind} views behind, {f'rewritten each {every}' if every else 'never rewritten'}", file=sys.stderr)
    with tempfile.NamedTemporaryFile() as told:
        run_over_two(program, behind, every, "nothing", env=os.environ | {"LD_PRELOAD": library, "HEAP": told.name})
        standing, most = map(int, told.read().split())
    if not standing:
        sys.exit("no request for memory was counted: the program has an allocator of its own")
    return standing, most


def has_room():
    """Whether a run of many views whose record is never rewritten fits into memory."""
    available = re.search(r"MemAvailable: +(\d+) kB", Path("/proc/meminfo").read_text())
    return int(available.group(1)) << 10 > MANY_NEED


def on_two(place, turn):
    """The disk's word, and where it is a file no file is there before."""
    if not place:
        return "memory"
    path = place / f"node_bench_{os.getpid()}_{turn}"
    for file in (path, Path(f"{path}.2")):
        file.unlink(missing_ok=True)
    return str(path)


def times_over_two(program, cases, runs, place):
    """All runs of each case, by turns; each hands out the same, whether its record is rewritten or not."""
    found = {case: [] for case in cases}
    for turn in range(runs):
        for behind, every in cases:
            if behind == MANY and turn >= (MANY_RUNS if every else 1):
                continue
            print(f"measuring {behind} views behind, each {every}: run {turn + 1}", file=sys.stderr)
            disk = on_two(place, turn)
            answer = run_over_two(program, behind, every, disk)
            on_two(place, turn)
            found[behind, every].append(answer)
            if answer[:4] != found[behind, EVERY][0][:4]:
                sys.exit(f"disagreement: {behind} behind, each {every}: {answer} and {found[behind, EVERY][0]}")
    return found


def row(title, cells):
    print(f"| {title} | " + " | ".join(cells) + " |")


def per_view(found, behind, every):
    """The least nanoseconds of a view, and the median of its ratios to one behind the fewest views, never rewritten, of the same turn."""
    runs, few = found[behind, every], found[REWRITTEN_BEHIND[0], 0]
    return min(it.taken for it in runs), statistics.median(it.taken / other.taken for it, other in zip(runs, few))


def told_over_two(found, heaps, every, histories):
    """The rows of a way."""
    way = f"rewritten each {every:,}" if every else "never rewritten"
    cases = [(behind, every) for behind in histories]
    is_there = [bool(found.get(it)) for it in cases]

    def cells(of):
        return [of(it) if there else "" for it, there in zip(cases, is_there)]

    row(f"heap, standing, bytes, {way}", cells(lambda it: f"{heaps[it][0]:,}"))
    row(f"heap, at most, bytes, {way}", cells(lambda it: f"{heaps[it][1]:,}"))
    row(f"both disks, bytes, {way}", cells(lambda it: f"{found[it][0].first:,} + {found[it][0].second:,}"))
    row(f"a view, µs, {way}", cells(lambda it: f"{per_view(found, *it)[0] / 1e3:,.1f} ({per_view(found, *it)[1]:.2f})"))
    row(f"an opening, ms, {way}", cells(lambda it: opening_of(found[it])))
    if every:
        row("a view with its share of the rewrites, µs", cells(lambda it: f"{shared(found[it]) / 1e3:,.1f}"))
        row("rewrites", cells(lambda it: f"{found[it][0].rewrites:,}"))
        row("a rewrite, ms", cells(lambda it: rewrite_of(found[it])))


def shared(runs):
    """The least nanoseconds of a view with its share of the rewrites."""
    return min(it.taken + it.rewriting / it.finalized for it in runs)


def opening_of(runs):
    """The shortest opening, and the longest."""
    return f"{min(it.shortest for it in runs) / 1e6:,.2f} to {max(it.longest for it in runs) / 1e6:,.2f}"


def rewrite_of(runs):
    """The least mean of a run, and the longest of all."""
    return f"{min(it.rewriting / it.rewrites for it in runs) / 1e6:,.2f}, at most {max(it.stall for it in runs) / 1e6:,.2f}"


def aimed_at(found, heaps, histories):
    """What came of what is aimed at."""
    last, (standing, most) = histories[-1], zip(heaps[histories[-1], EVERY], heaps[HEAP_BEHIND, EVERY])
    for name, (many, few) in (("standing", standing), ("at most", most)):
        yield f"heap, {name}, behind {last:,} views to that behind {HEAP_BEHIND:,}: {many / few:.3f}", many / few <= MOST_HEAP, MOST_HEAP
    for behind in histories[1:]:
        least, median = per_view(found, behind, EVERY)
        ratio = least / min(it.taken for it in found[histories[0], 0])
        told = f"a view behind {behind:,} to one behind {histories[0]}: {ratio:.3f} by the least, {median:.3f} the median of the turns"
        yield told, min(ratio, median) <= MOST_VIEW, MOST_VIEW
        longest = statistics.median(it.longest for it in found[behind, EVERY]) / 1e6
        told = f"an opening behind {behind:,}, the median of the runs' longest: {longest:.2f} ms"
        yield told, longest < MOST_OPENING_MS, MOST_OPENING_MS


def rewrites(program, library, histories, runs, place):
    """Prints what a node costs whose record is rewritten, and beside it one whose record never is."""
    cases = [(behind, every) for behind in histories for every in WAYS if every or behind < MANY or has_room()]
    found = times_over_two(program, cases, runs, place)
    heaps = {it: heap_over_two(program, library, *it) for it in cases}
    print(f"\nA node of 4 members over two disks{' in files' if place else ' in memory'}, each view finalized; heaps on disks that keep")
    print("nothing; in brackets the median of the turns' ratios to a view behind the fewest, never rewritten.\n")
    row("Behind so many views", [f"{behind:,}" for behind in histories])
    print("|---|" + "---:|" * len(histories))
    for every in WAYS:
        told_over_two(found, heaps, every, histories)
    print()
    aims = list(aimed_at(found, heaps, histories))
    for told, is_kept, bound in aims:
        print(f"{'kept' if is_kept else 'MISSED'} (at most {bound}): {told}")
    return 0 if all(is_kept for _, is_kept, _ in aims) else 1


def main():
    given = arguments()
    programs = [given.baseline, given.simplex]
    runs = given.runs or (QUICK_RUNS if given.quick else RUNS)
    histories = BEHIND[:-1] if given.quick else BEHIND
    load = os.getloadavg()[0]
    if given.rewrites:
        behind = REWRITTEN_BEHIND[:-1] if given.quick else REWRITTEN_BEHIND
        return rewrites(given.simplex, given.heap, behind, given.runs or (2 if given.quick else REWRITTEN_RUNS), given.disk)
    if given.instructions:
        return count(programs)
    if given.memory:
        return weigh(programs, histories)
    if given.disk:
        return on_disks(programs, given.disk, runs)
    print(f"Least of {runs} runs by turns, load {load:.1f} on {os.cpu_count()} processors.\n")
    by_size(programs, runs)
    by_history(programs, runs, histories)


if __name__ == "__main__":
    sys.exit(main())
