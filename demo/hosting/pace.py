"""The time as a node is told it: slower where its views are given up again and again, faster again where they become final.

A node's deadlines don't grow, and it knows no time but its host's: so this is the only back-off there is.
"""

SLOWEST = 8
# It goes twice as fast behind so many views that became final since it changed.
FASTER_AFTER = 32


class Pace:
    """How slow a member's time is told, by what came of its views. It goes on from life to life."""

    def __init__(self, count: int) -> None:
        # Of so many leaders in a row one was no liar, and up.
        self.slower_after = max((count - 1) // 3 + 1, 2)
        self.slowness, self.last, self.finals = 1, -1, 0
        self.given_up: list[int] = []

    def gave_up(self, term: int) -> bool:
        """This member gave up a view of that term. Whether the pace changed."""
        if term <= self.last:
            return False
        self.last = term
        self.given_up.append(term)
        return len(self.given_up) >= self.slower_after and self.change(min(self.slowness * 2, SLOWEST))

    def finalized(self, term: int) -> bool:
        """A view of that term is final: what was given up before is no row with what comes. Whether the pace changed."""
        self.given_up = [one for one in self.given_up if one > term]
        self.finals += 1
        return self.finals >= FASTER_AFTER and self.change(max(self.slowness // 2, 1))

    def change(self, slowness: int) -> bool:
        was, self.slowness, self.finals = self.slowness, slowness, 0
        self.given_up.clear()
        return was != slowness


class Clock:
    """The moments of one life, from 0 on. They don't fall, at whatever pace."""

    def __init__(self, now: float, slowness: int) -> None:
        self.since, self.told, self.slowness = now, 0, slowness

    def moment(self, now: float) -> int:
        return self.told + int((now - self.since) * 1000 / self.slowness)

    def seconds_until(self, moment: int, now: float) -> float:
        return max(0, self.since + (moment - self.told) * self.slowness / 1000 - now)

    def go_on(self, now: float, slowness: int) -> None:
        self.told, self.since, self.slowness = self.moment(now), now, slowness
