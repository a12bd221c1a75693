"""The line that says what is under way, for how long, and how long it may take.

On a terminal it is one line that changes each second, elsewhere a line each few seconds. How long something took is kept, and is the
next one's estimate.
"""
import json
import sys
import time

from . import MADE

TIMES = MADE / "times.json"
# Seconds between two lines where there is no terminal.
APART = 8


def times() -> dict[str, float]:
    try:
        return json.loads(TIMES.read_text())
    except (OSError, ValueError):
        return {}


class Progress:
    """`what` is under way. The estimate is what it took last time, or else `about` seconds."""

    def __init__(self, what: str, about: float, name: str | None = None) -> None:
        self.what, self.name = what, name or what
        self.begun, self.told = time.monotonic(), -1.0
        self.about = times().get(self.name, about)
        self.live = sys.stderr.isatty()
        self.say("")

    @property
    def seconds(self) -> float:
        return time.monotonic() - self.begun

    def say(self, more: str = "") -> None:
        """Tells where it stands, if it is time to."""
        if self.told >= 0 and self.seconds - self.told < (1 if self.live else APART):
            return
        self.told = self.seconds
        over = ", longer than thought" if self.seconds > self.about else ""
        self.write(f"{self.what}: {spelled(self.seconds)} of some {spelled(self.about)}{over}{', ' + more if more else ''}")

    def write(self, line: str) -> None:
        print(f"\r\x1b[K{line}" if self.live else line, end="" if self.live else "\n", file=sys.stderr, flush=True)

    def end(self, what: str, keep: bool = True) -> None:
        """It is over: what came of it, on a line that stays."""
        if keep:
            MADE.mkdir(exist_ok=True)
            TIMES.write_text(json.dumps({**times(), self.name: round(self.seconds, 1)}, indent=1) + "\n")
        self.write(f"{self.what}: {what}, in {spelled(self.seconds)}" + ("\n" if self.live else ""))


def spelled(seconds: float) -> str:
    if seconds < 300:
        return f"{seconds:.0f} s"
    return f"{seconds / 60:.0f} min" if seconds < 7200 else f"{seconds / 3600:.1f} h"
