"""The votes of one view: which are accepted, which proposal they select, what they certify."""
from functools import cached_property

from .values import (
    CERTIFICATE_OF, FINALIZE, NOTARIZE, NULLIFICATION, NULLIFY, VOTES_OF, Certificate, Evidence, Proposal, Round, Vote, value,
)

# what is selected: nothing, the leader's proposal, or one that is fixed
UNKNOWN, LEADS, FIXED = "unknown", "leads", "fixed"


@value
class Taken:
    """A vote of another member was accepted."""

    vote: Vote


@value
class Cast:
    """An own vote."""

    vote: Vote


@value
class Certifies:
    """A certificate was accepted, found or made."""

    certificate: Certificate


@value
class Led:
    member: int


@value
class Failed:
    """The waiting votes of a kind were judged, no certificate came of it, and those of these signers failed."""

    kind: str
    invalid: tuple


@value
class WasForwarded:
    """The selected proposal was forwarded."""


class VotesOfAView:
    """What happened to the votes of a round, oldest first. A skipped round keeps no vote in full and makes no certificate."""

    def __init__(self, setup, view, is_skipped, events=()):
        self.setup, self.view, self.is_skipped, self.events = setup, view, is_skipped, tuple(events)
        self.round = Round(setup.epoch, view)

    def then(self, event):
        return VotesOfAView(self.setup, self.view, self.is_skipped, (*self.events, event))

    # ---- accepted votes

    @cached_property
    def accepted(self):
        """The accepted votes, own ones among them."""
        return [it.vote for it in self.events if isinstance(it, (Taken, Cast))]

    def in_the_way(self, vote):
        """The accepted vote of the same signer and of this kind, or of nullify and finalize of either, or None."""
        alike = (NOTARIZE,) if vote.kind == NOTARIZE else (NULLIFY, FINALIZE)
        return next((it for it in self.accepted if it.signer == vote.signer and it.kind in alike), None)

    def is_complete(self, kind):
        """A certificate of this kind is there."""
        return any(isinstance(it, Certifies) and it.certificate.kind == kind for it in self.events)

    def is_kept_in_full(self, vote):
        """A recorded vote is kept in full until its kind is complete, or for good."""
        return not self.is_skipped and (self.setup.tracks or not self.is_complete(CERTIFICATE_OF[vote.kind]))

    def is_blocked(self, vote):
        """Its sender is blocked against the recorded vote: beside one kept in full for any other vote, else for one of its kind for
        another proposal."""
        recorded = self.in_the_way(vote)
        if recorded is None:
            return False
        return recorded != vote if self.is_kept_in_full(recorded) else recorded.kind == vote.kind and recorded.on != vote.on

    def evidence(self, vote):
        """The evidence of a vote that contradicts a recorded one kept in full, the recorded one first; or None."""
        recorded = self.in_the_way(vote)
        if recorded is None or not self.is_kept_in_full(recorded):
            return None
        if recorded.kind != vote.kind:
            nullify, finalize = (recorded, vote) if recorded.kind == NULLIFY else (vote, recorded)
            return Evidence("nullify-finalize", nullify, finalize)
        return None if recorded.on == vote.on else Evidence(f"conflicting-{vote.kind}", recorded, vote)

    def has_nullify(self, member):
        return any(it.signer == member and it.kind == NULLIFY for it in self.accepted)

    def missing_voters(self, proposal):
        """Of whom no notarize or finalize for the proposal was accepted."""
        backers = {it.signer for it in self.accepted if it.on == proposal}
        return [member for member in range(self.setup.scheme.members) if member not in backers]

    # ---- the leader, and the selected proposal

    @cached_property
    def leader(self):
        return next((it.member for it in self.events if isinstance(it, Led)), None)

    @cached_property
    def has_forwarded(self):
        return any(isinstance(it, WasForwarded) for it in self.events)

    def selects(self, selection, place):
        """What is selected behind the event at a place. A proposal is fixed by a certificate or an own finalize; the leader's stands
        until one is fixed, and is that of the first notarize recorded under the leader's index."""
        how, event = selection[0], self.events[place]
        if how == FIXED:
            return selection
        fixed = None
        if isinstance(event, Certifies) and isinstance(event.certificate.on, Proposal):
            fixed = event.certificate.on
        elif isinstance(event, Cast) and event.vote.kind == FINALIZE:
            fixed = event.vote.on
        if fixed is not None:
            return FIXED, fixed
        if how == UNKNOWN:
            seen = self.events[: place + 1]
            leader = next((it.member for it in seen if isinstance(it, Led)), None)
            led = (it.vote.on for it in seen if isinstance(it, (Taken, Cast)) and it.vote.kind == NOTARIZE and it.vote.signer == leader)
            proposal = next(led, None)
            return (LEADS, proposal) if proposal else selection
        return selection

    @cached_property
    def selections(self):
        """What is selected behind each event."""
        selection, found = (UNKNOWN, None), []
        for place in range(len(self.events)):
            selection = self.selects(selection, place)
            found.append(selection)
        return found

    @cached_property
    def selected(self):
        return self.selections[-1][1] if self.selections else None

    @cached_property
    def forwardable(self):
        """The proposal to forward: the selected one, once, where the leader is known and another."""
        is_another = self.leader is not None and self.leader != self.setup.me
        return self.selected if is_another and not self.has_forwarded else None

    # ---- certificates

    @cached_property
    def pools(self):
        """Of each kind the votes that wait to be judged, and those that are known to attest. Votes for another proposal than the
        selected one are dropped, for good; and all of a kind that is complete."""
        waiting = {kind: [] for kind in VOTES_OF}
        verified = {kind: [] for kind in VOTES_OF}
        complete = set()
        for event, (_, selected) in zip(self.events, self.selections):
            for kind, votes in VOTES_OF.items():
                if isinstance(event, Taken) and event.vote.kind == votes:
                    waiting[kind].append(event.vote)
                elif isinstance(event, Cast) and event.vote.kind == votes:
                    verified[kind].append(event.vote)
                elif isinstance(event, Failed) and event.kind == kind:
                    verified[kind] += [it for it in waiting[kind] if it.signer not in event.invalid]
                    waiting[kind] = []
                elif isinstance(event, Certifies) and event.certificate.kind == kind:
                    complete.add(kind)
                for pool in (waiting, verified):
                    if self.is_skipped or kind in complete:
                        pool[kind] = []
                    elif kind != NULLIFICATION and selected is not None:
                        pool[kind] = [it for it in pool[kind] if it.on == selected]
        return waiting, verified

    def on(self, kind):
        """What votes of a kind state that count: the round, or the selected proposal; or None."""
        return self.round if kind == NULLIFICATION else self.selected

    def is_ready(self, kind):
        """Votes that are known to attest are enough, and state one thing."""
        verified = self.pools[1][kind]
        return len(verified) >= self.setup.scheme.quorum and len({it.on for it in verified}) == 1

    def is_worth_judging(self, kind):
        """Some wait, and with those known to attest they may be enough."""
        waiting, verified = (pool[kind] for pool in self.pools)
        return bool(waiting) and self.on(kind) is not None and len(waiting) + len(verified) >= self.setup.scheme.quorum

    @cached_property
    def next_kind(self):
        """The first kind of which a construction is due, or None."""
        return next((kind for kind in VOTES_OF if self.is_ready(kind) or self.is_worth_judging(kind)), None)

    def construction(self, kind):
        """What comes of a construction that is due: a certificate of all votes that attest, where these are enough, or None; and the
        signers whose votes don't attest, ascending."""
        scheme = self.setup.scheme
        waiting, verified = (pool[kind] for pool in self.pools)
        if self.is_ready(kind):
            return scheme.assemble(kind, verified[0].on, verified), ()
        good = [it for it in waiting if scheme.attests(it)]
        invalid = tuple(sorted(it.signer for it in waiting if it not in good))
        enough = len(verified) + len(good) >= scheme.quorum
        return scheme.assemble(kind, self.on(kind), [*verified, *good]) if enough else None, invalid


