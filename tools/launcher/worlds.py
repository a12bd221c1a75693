"""A scenario's run: its lines in a file, what came of it in words, and a page that draws it."""
import json
import os
import shutil
import subprocess
from collections.abc import Iterable
from pathlib import Path

from . import MADE, TOP
from .building import CRATES
from .children import child
from .progress import Progress
from .trouble import Trouble

SCENARIOS, PAGE, RUNS = CRATES / "simplex_world/scenarios", TOP / "docs/world.html", MADE / "worlds"
# What draws, a file of its own beside the page, and where the page reads it.
DRAWING, READS = TOP / "docs/drawing.js", '<script src="drawing.js"></script>\n'
# The runs that stand in the page, and the most bytes of lines that a browser is given.
OPENS, CLOSES, MOST = '<script type="text/plain" id="run">\n', "</script>", 64 << 20


def scenario(name: str) -> Path:
    """A scenario by its name, or a file of one."""
    place = SCENARIOS / f"{name}.scenario"
    if place.exists():
        return place
    if Path(name).is_file():
        return Path(name)
    known = ", ".join(sorted(it.stem for it in SCENARIOS.glob("*.scenario")))
    raise Trouble(f"no scenario {name}: there are {known}, or give a file (docs/WORLD.md has its lines)")


def play(program: Path, given: Path, name: str) -> tuple[Path, int]:
    """Runs it, and answers the file of its JSON lines with the program's status."""
    RUNS.mkdir(parents=True, exist_ok=True)
    lines, progress = RUNS / f"{name}.jsonl", Progress(f"running {name}", 2)
    with given.open("rb") as read, lines.open("wb") as written, child(
        [program, "--json"], stdin=read, stdout=written, stderr=subprocess.PIPE
    ) as started:
        while started.poll() is None:
            progress.say(f"{lines.stat().st_size >> 10} kB of lines")
            try:
                started.wait(0.1)
            except subprocess.TimeoutExpired:
                continue
        told = started.stderr.read().decode(errors="replace").strip()
    progress.end("done")
    if started.returncode not in (0, 1):
        raise Trouble(f"simplex_world ended with status {started.returncode}{': ' + told.splitlines()[-1] if told else ''} (docs/WORLD.md)")
    return lines, started.returncode


def drawn(lines: Path) -> Path | None:
    """A page with the run and what draws it in it, or none where that would be more than a browser takes."""
    if lines.stat().st_size > MOST:
        return None
    before, _, behind = PAGE.read_text().partition(OPENS)
    place = lines.with_suffix(".html")
    behind = behind.partition(CLOSES)[2].replace(READS, f"<script>\n{DRAWING.read_text()}</script>\n")
    place.write_text(before + OPENS + lines.read_text() + CLOSES + behind)
    return place


def told(lines: Path) -> list[str]:
    """What came of each run of the file, in words."""
    with lines.open() as file:
        return [line for run in runs_of(file) for line in words_of(run)]


def runs_of(lines: Iterable[str]) -> list[dict]:
    """What came of each run, by its JSON lines."""
    runs: list[dict] = []
    for line in lines:
        event = json.loads(line)
        if event["event"] == "world":
            runs.append({"world": event, "ways": {}, "crashes": 0, "kills": 0, "closings": 0, "rewrites": 0, "late members": 0, "named": set(), "ended": None})
        take(runs[-1], event)
    return runs


def take(run: dict, event: dict) -> None:
    match event["event"]:
        case "liar":
            run["ways"].setdefault(event["member"], []).append(event["way"])
        case "crashed":
            run["crashes"] += 1
        case "down":
            run["kills"] += 1
        case "closed":
            run["closings"] += 1
        case "rewrote":
            run["rewrites"] += 1
        case "joined":
            run["late members"] += 1
        case "evidence":
            run["named"].add(int(event["line"].split(" signer ")[1].split()[0]))
        case "ended":
            run["ended"] = event


def words_of(run: dict) -> list[str]:
    world, ended = run["world"], run["ended"]
    lies = "; ".join(f"{member} lies ({', '.join(ways)})" for member, ways in sorted(run["ways"].items())) or "nobody lies"
    found = [f"{world['members']} members, of whom at most {world['faults']} may lie: {lies}"]
    if not ended:
        return [*found, "it did not end"]
    split = f"{ended['contradictions']} contradictions: THE CHAIN PARTS" if ended["contradictions"] else "one chain"
    named = ", ".join(map(str, sorted(run["named"]))) or "nobody"
    rest = "".join(f", {run[what]} {what}" for what in ("kills", "closings", "rewrites", "late members") if run[what])
    return [
        *found,
        f"{ended['at'] / 1000:.1f} s of the world's time: {ended['chain']} blocks final, {split}",
        f"{ended['packets']} packets, {ended['lost']} of them lost; {run['crashes']} crashes{rest}",
        f"the audit names {named}; {ended['blamed']} blamed wrongly; status {ended['status']}",
    ]


def show(page: Path) -> None:
    """Opens a page where there is a screen."""
    if (os.environ.get("DISPLAY") or os.environ.get("WAYLAND_DISPLAY")) and shutil.which("xdg-open"):
        subprocess.Popen(["xdg-open", page], stdout=subprocess.DEVNULL, stderr=subprocess.DEVNULL, start_new_session=True)
