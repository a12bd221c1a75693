"""The quick test: each program of the repository over its rows, unproved, in minutes.

A driver's rows are `stdin` and `stdout` of its crate, as the gate has them. What passed is kept by the checksum of the code, the rows
and the kit, so a second start tries only what changed. The gate alone proves anything.
"""
import hashlib
import os
import subprocess
import threading
import time
from concurrent.futures import ThreadPoolExecutor, as_completed
from pathlib import Path

from . import MADE, sources
from .building import CRATES, catch, status
from .children import child, folder, say
from .progress import Progress
from .trouble import Trouble

PASSED = MADE / "passed"
# What a build takes of memory, in bytes, and how long a program may run over its rows, in seconds.
NEED, MOST = 2 << 30, 3600
FILES = ("args", "stdin", "stdout", "status")


def programs() -> list[str]:
    """All programs, those with the most rows first."""
    found = [name for name in sources.lines() if (CRATES / name / "src/main.rt").exists()]
    return sorted(found, key=lambda it: -input_of(it).stat().st_size)


def input_of(name: str) -> Path:
    """What it reads: its rows, or nothing."""
    file = CRATES / name / "stdin"
    return file if file.exists() else Path(os.devnull)


def mark(name: str) -> Path:
    """The file that says that these rows passed."""
    rows = hashlib.sha256(f"{sources.code(name)} {sources.kit()}".encode())
    for it in FILES:
        file = CRATES / name / it
        rows.update(file.read_bytes() if file.exists() else b"-")
    return PASSED / f"{name}-{rows.hexdigest()[:16]}"


def side_by_side() -> int:
    """How many builds this machine takes at once."""
    free = os.sysconf("SC_AVPHYS_PAGES") * os.sysconf("SC_PAGE_SIZE")
    return max(1, min(len(os.sched_getaffinity(0)), free // NEED))


def test(names: list[str], jobs: int | None) -> int:
    """Tries these programs, or all. The status is 1 where rows went wrong."""
    wanted = names or programs()
    if unknown := [it for it in wanted if it not in programs()]:
        raise Trouble(f"no program of that name: {', '.join(unknown)}; there are {', '.join(sorted(programs()))}")
    left = [it for it in wanted if not mark(it).exists()]
    if len(left) < len(wanted):
        say(f"{len(wanted) - len(left)} of {len(wanted)} programs passed before, over the same code and rows")
    wrong = try_all(left, jobs or side_by_side()) if left else []
    lines = sum(input_of(it).read_bytes().count(b"\n") for it in wanted if it not in wrong)
    print(f"{len(wanted) - len(wrong)} of {len(wanted)} programs give their rows ({lines} lines of input), unproved")
    return 1 if wrong else 0


def try_all(names: list[str], jobs: int) -> list[str]:
    """Those that went wrong."""
    over, wrong, done = threading.Event(), [], 0
    about = 100 * -(-len(names) // jobs)
    progress = Progress(f"rows of {len(names)} programs, {jobs} at a time", about, f"rows of {len(names)}, {jobs} at a time")
    with folder() as room, ThreadPoolExecutor(jobs) as pool:
        tasks = {pool.submit(trouble_of, name, room, over): name for name in names}
        try:
            while waiting := [it for it in tasks if not it.done()]:
                progress.say(f"{len(names) - len(waiting)} of {len(names)} done")
                time.sleep(0.2)
        finally:
            over.set()
            pool.shutdown(cancel_futures=True)
        for task in as_completed(tasks):
            done += 1
            if trouble := task.result():
                wrong.append(tasks[task])
                progress.write(f"WRONG {tasks[task]}: {trouble}\n")
    progress.end("done", keep=not wrong)
    return wrong


def trouble_of(name: str, room: Path, over: threading.Event) -> str | None:
    """What is wrong with a program over its rows."""
    own, crate = room / name, CRATES / name
    own.mkdir()

    def look() -> None:
        if over.is_set():
            raise Trouble("it was ended")

    words = tuple((crate / "args").read_text().splitlines()) if (crate / "args").exists() else ()
    try:
        program = catch(name, words, input_of(name), own, lambda it: starts(it, look), look)
        found = compare(program, words, crate, own, look)
    except Trouble as trouble:
        return str(trouble)
    if not found:
        PASSED.mkdir(parents=True, exist_ok=True)
        mark(name).touch()
    return found


def wanted_of(crate: Path) -> bytes:
    """What it must write: nothing, where the crate doesn't say."""
    file = crate / "stdout"
    return file.read_bytes() if file.exists() else b""


def starts(program: Path, look) -> bool:
    """Whether the file is whole: it can be run, and no signal ends it."""
    ended = status([program], look)
    return ended is not None and ended >= 0


def compare(program: Path, words: tuple[str, ...], crate: Path, own: Path, look) -> str | None:
    """Runs it over its input, and says where what it wrote differs from what it must write."""
    got, begun = own / "got", time.monotonic()
    with input_of(crate.name).open("rb") as given, got.open("wb") as written, child(
        [program, *words], cwd=own, stdin=given, stdout=written, stderr=subprocess.DEVNULL
    ) as started:
        while started.poll() is None:
            look()
            if time.monotonic() - begun > MOST:
                return f"it didn't end within {MOST} s"
            time.sleep(0.05)
    status = (crate / "status").read_text().strip() if (crate / "status").exists() else "0"
    if str(started.returncode) != status:
        return f"status {started.returncode} in place of {status}"
    lines, right = got.read_bytes().split(b"\n"), wanted_of(crate).split(b"\n")
    for number, (line, wanted) in enumerate(zip(lines, right), 1):
        if line != wanted:
            return f"line {number}: {line[:80]!r} in place of {wanted[:80]!r}"
    return None if len(lines) == len(right) else f"{len(lines)} lines in place of {len(right)}"
