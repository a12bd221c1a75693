"""Programs that are started here. Each is a group of its own, and ends, with all that it started, when this one does."""
import contextlib
import os
import shutil
import signal
import subprocess
import sys
import tempfile
from collections.abc import Iterator
from pathlib import Path

from . import MADE

# How long a group that was asked to end may take, in seconds, before it is killed.
PATIENCE = 10
ENDING = (signal.SIGINT, signal.SIGTERM, signal.SIGHUP)


class Ended(BaseException):
    """A signal came. What is under way is put in order on the way out."""

    def __init__(self, number: int) -> None:
        super().__init__(number)
        self.number = number


def end_on_signals() -> None:
    """Has a signal end this program by way of each `finally`. A second one changes nothing."""

    def end(number: int, _: object) -> None:
        for it in ENDING:
            signal.signal(it, signal.SIG_IGN)
        raise Ended(number)

    for number in ENDING:
        signal.signal(number, end)


@contextlib.contextmanager
def child(words: list, **how: object) -> Iterator[subprocess.Popen]:
    """A program that is gone behind the block, however that is left."""
    started = subprocess.Popen([str(it) for it in words], start_new_session=True, **how)
    try:
        yield started
    finally:
        stop(started)


def stop(started: subprocess.Popen) -> None:
    """Ends a child's group: it is asked to, and killed where it doesn't."""
    if started.poll() is None:
        signal_group(started.pid, signal.SIGTERM)
        with contextlib.suppress(subprocess.TimeoutExpired):
            started.wait(PATIENCE)
    signal_group(started.pid, signal.SIGKILL)  # what it left
    started.wait()


def signal_group(group: int, number: int) -> None:
    with contextlib.suppress(ProcessLookupError, PermissionError):
        os.killpg(group, number)


def hand_over(words: list, folder: Path | None = None) -> int:
    """Runs a program in the foreground, on this one's input and output, and answers its status."""
    with child(words, cwd=folder) as started:
        return status_of(started.wait())


def status_of(status: int) -> int:
    """As a shell tells it: 128 and the number of the signal."""
    return status if status >= 0 else 128 - status


@contextlib.contextmanager
def folder() -> Iterator[Path]:
    """A folder that is gone behind the block. One whose owner was killed is removed by the next."""
    MADE.mkdir(exist_ok=True)
    for old in MADE.glob("under-way-*"):
        if not Path(f"/proc/{old.name.split('-')[2]}").exists():
            shutil.rmtree(old, ignore_errors=True)
    made = Path(tempfile.mkdtemp(prefix=f"under-way-{os.getpid()}-", dir=MADE))
    try:
        yield made
    finally:
        shutil.rmtree(made, ignore_errors=True)


def say(line: str) -> None:
    """A line for whoever watches: standard output is for what a command answers."""
    print(line, file=sys.stderr, flush=True)
