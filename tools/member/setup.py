"""What stays the same from an opening on: the committee, the terms, times and policies of one member."""
from dataclasses import dataclass, replace
from functools import cached_property

from .positions import MOST, Terms

# how many views of a term may be optimistic
MOST_OPTIMISTIC = 1_000
FORWARDS = ("disabled", "silent-voters", "silent-leader")
# an ask that nothing settled goes once, or again with each repeated nullify
AGAINS = ("once", "with-nullify")


@dataclass(frozen=True)
class Setup:
    """Times are in milliseconds. What may be missing is None: the own index, the stall and skip timeouts, and the skip budget
    where it is the number of members."""

    scheme: object
    me: int | None
    epoch: int
    length: int
    optimistic: int
    stall: int | None
    retention: int
    leader_timeout: int
    certification_timeout: int
    retry: int
    skip: int | None
    fixed_budget: int | None
    forward: str
    tracks: bool
    # whether a view may be built on the last view of the term before, while that isn't decided
    handoffs: bool
    # whether an ask that nothing settled goes again with a repeated nullify, and how many views to leave behind are asked for at once
    goes_again: bool = False
    window: int | None = None
    # how long one and the same certificate isn't served to the same member again; without it no time
    answers: int | None = None
    # the payload of view 0; or the finalization that an opening brings in its place, and then view 0 has none
    genesis: bytes | None = bytes(32)
    floor: object = None

    def on_genesis(self, payload):
        return replace(self, genesis=payload, floor=None)

    def on_floor(self, finalization):
        return replace(self, genesis=None, floor=finalization)

    @cached_property
    def terms(self):
        return Terms(self.length, self.optimistic)

    @cached_property
    def budget(self):
        """How many terms may be skipped since the last finalized view."""
        if self.skip is None:
            return 0
        return self.scheme.members if self.fixed_budget is None else self.fixed_budget

    @cached_property
    def longest(self):
        """The longest of all times."""
        return max(self.leader_timeout, self.certification_timeout, self.retry, self.stall or 0, self.skip or 0)

    def elect(self, view, certificate=None):
        """Who leads a view that this certificate leads to, if one does: members take turns, a term each, whatever certificate."""
        return (self.epoch + self.terms.index(view)) % 2**64 % self.scheme.members

    def scheduled(self, view):
        """Whom a schedule names for a view, or None where there is none."""
        return self.elect(view)

    def is_in_time(self, now):
        """A moment lies so early that each deadline counted from it is a moment."""
        return now + self.longest <= MOST

    def fault(self):
        """The number of the first trouble of the configuration, or None."""
        troubles = (
            self.scheme.members < 1,
            self.leader_timeout == 0,
            self.certification_timeout <= self.leader_timeout,
            self.skip is not None and self.skip <= self.certification_timeout,
            self.skip is not None and self.skip <= self.retry,
            self.retry == 0,
            self.retention == 0,
            self.scheme.members > 65_535,
        )
        return next((number for number, trouble in enumerate((*troubles, *self.floor_troubles()), 1) if trouble), None)

    def floor_troubles(self):
        """What may be wrong with the finalization that an opening brings."""
        if self.floor is None:
            return
        on = self.floor.on
        yield on.epoch != self.epoch
        yield on.view == 0
        yield not self.terms.has_room(on.view)
        yield on.parent >= on.view
        yield not self.scheme.certifies(self.floor)
