"""What docs/GATE.md tells of the gate's time. tools/make-pages makes it of tools/gate.json, which tools/gate-times writes; nothing of it is
typed, but the budgets below, which are ours."""
import functools
import json
import re
from pathlib import Path

TOP = Path(__file__).resolve().parent.parent
FIGURES = TOP / "tools/gate.json"
COLUMNS = 3
# The sums that are told: which crates they are of, and what they may be by the yardstick.
SUMS = {
    "Drivers of tests": (r"run_|test_", 45),
    "Worlds": (r"world_|simplex_world", None),
    "For C, and `simplex_tool`": (r"simplex_c$|cli_disk|cli_hosted|cli_calls|cli_tool|simplex_tool", 6),
}
ALL, LONGEST_WAY = 230, 75


@functools.cache
def figures():
    return json.loads(FIGURES.read_text())


@functools.cache
def crates():
    """Each crate of crates.txt with those that it stands on, lower ones first."""
    lines = (it.split("#")[0].partition(":") for it in (TOP / "crates.txt").read_text().splitlines())
    return {name.split()[0]: needs.split() for name, _, needs in lines if name.split()}


def took(crate, *kinds):
    """Minutes of a processor: of these kinds, or of all."""
    found = figures()["crates"].get(crate, {})
    return sum(minutes for kind, minutes in found.items() if kind != "load" and (kind in kinds or not kinds))


@functools.cache
def way_over(crate):
    """The longest way over what a crate stands on and the crate itself: its minutes, and its crates from the ground up. A crate waits for
    the proofs below it."""
    minutes, way = max((way_over(it) for it in crates()[crate] if it in crates()), default=(0, ()))
    return minutes + took(crate, "proof"), (*way, crate)


def longest_way():
    """The same to where it ends: in a crate's proof and what compilers take behind it, or in its tests. Kept edits are no part of it."""
    ends = []
    for crate in crates():
        minutes, way = way_over(crate)
        behind = max(took(crate, "compile"), took(crate, "tests") - took(crate, "proof"))
        ends.append((minutes + max(behind, 0), way))
    return max(ends)


def is_late(crate):
    """Whether its figure isn't of the first run."""
    return "load" in figures()["crates"].get(crate, {})


def of_rooms(pattern):
    return sum(took(it) for it in crates() if re.match(pattern, it))


def by_the_yardstick(minutes):
    return round(minutes * figures()["yardstick"])


def names(those):
    return ", ".join(f"`{it}`" for it in those)


def of_crates():
    cells = [(f"`{it}`", f"{took(it):.1f}{'*' * is_late(it)}" if it in figures()["crates"] else "") for it in crates()]
    height = -(-len(cells) // COLUMNS)
    yield "| Crate | Minutes " * COLUMNS + "|"
    yield "|---|---:" * COLUMNS + "|"
    for row in range(height):
        shown = [cells[at] if at < len(cells) else ("", "") for at in range(row, height * COLUMNS, height)]
        yield "".join(f"| {name} | {minutes} " for name, minutes in shown) + "|"


def of_runs():
    yield "| Run of | Processors | Load | Minutes by the clock | Of processors | Of these `rt`'s own | A prover held at most |"
    yield "|---|---:|---|---:|---:|---:|---:|"
    for it in figures()["runs"]:
        load = "nothing else ran" if it["load"] is None else "{} in the mean, {} at most".format(*it["load"])
        told = [f"{it[word]:.0f}" if it.get(word) is not None else "" for word in ("clock", "all", "own")]
        yield f"| {it['day']}, `{it['kit']}` | {it['processors']} | {load} | {' | '.join(told)} | {it['gigabytes']:.1f} GB |"


def of_sums():
    yield "| By the yardstick | Sum and `rt`'s own |" + "".join(f" {it} |" for it in SUMS) + " Longest way |"
    yield "|---" + "|---:" * (2 + len(SUMS)) + "|"
    parts = [str(by_the_yardstick(of_rooms(pattern))) for pattern, _ in SUMS.values()]
    everything = by_the_yardstick(of_rooms("") + (figures()["runs"][0]["own"] or 0))
    yield f"| It takes | {everything} | {' | '.join(parts)} | {by_the_yardstick(longest_way()[0])} |"
    yield f"| Budget | {ALL} | {' | '.join('' if it is None else str(it) for _, it in SUMS.values())} | {LONGEST_WAY} |"


def made(wrapped):
    """The part of the page; `wrapped` lays out a paragraph. All is the sum of the table and what `rt` took for itself."""
    minutes, way = longest_way()
    loads = sorted(figures()["crates"][it]["load"] for it in crates() if is_late(it))
    missing = [it for it in crates() if it not in figures()["crates"]]
    said = [f"**The longest way**, {minutes:.0f} minutes of a processor, leads over {names(way[:-1])} to `{way[-1]}`."]
    said += [f"**The run of {it['day']}** was {it['note']}." for it in figures()["runs"] if it.get("note")]
    said += [f"**With a star**: of no first run, but timed at a load of {loads[0]:g} to {loads[-1]:g}."] if loads else []
    said += [f"**Without a figure**, and in no sum, {'are' if len(missing) > 1 else 'is'} {names(missing)}."] if missing else []
    return "\n".join([*of_crates(), "", *of_runs(), "", *of_sums(), "", *wrapped(" ".join(said), "", "")])
