"""What a node accepts of a flood: votes of each view that is listened to, certificates also far up, answers and moments, by liars who
could certify anything. Each event is written alone and its reply waited for, so that the dearest can be told, in time and in bytes.

The model of a member (tools/member) judges each reply, and says what the record must hold in the end.
"""
import random
import time
from collections import Counter

from member import words
from member.codec import event_bytes, reply_bytes, varint
from member.history import latest
from member.member import opening, step
from member.positions import MOST
from member.record import record
from member.values import (
    CERTIFICATE_CHANNEL, FETCH_CHANNEL, FINALIZATION, NOTARIZATION, NULLIFICATION, NULLIFY, VOTE_CHANNEL, VOTES_OF, Build, BuiltAnswer,
    Certificate, Certify, CheckedAnswer, Moment, Packet, Proposal, Round, VerdictAnswer, Verify, Wake,
)
from member.codec import certificate_bytes, vote_bytes
from member.voter import current

# how far above the current view a certificate of the far kind lies; a finalization leaves no gap, and may lie farther
FAR, FARTHEST = (10, 100, 1_000), (10, 1_000, 10**6, 2**32, 2**48)


class Climb:
    """What comes next to a node: mostly something that it accepts."""

    def __init__(self, setup, seed):
        self.setup, self.pick, self.salt = setup, random.Random(f"climb {seed}"), 0
        self.liars = [it for it in range(setup.scheme.members) if it != setup.me]
        self.waiting, self.wake, self.cast = [], None, {}

    # ---- what is said

    def sign(self, kind, on, signer):
        self.salt += 1
        return self.setup.scheme.sign(kind, on, signer, self.salt)

    def proposal(self, view):
        """The one proposal of a view, on the view before."""
        return Proposal(self.setup.epoch, view, view - 1, random.Random(view).randbytes(32))

    def on(self, kind, view):
        return Round(self.setup.epoch, view) if kind in (NULLIFY, NULLIFICATION) else self.proposal(view)

    def certificate(self, kind, view):
        on = self.on(kind, view)
        signers = sorted(self.pick.sample(self.liars, self.setup.scheme.quorum))
        attestations = tuple((it, self.sign(VOTES_OF[kind], on, it).signature) for it in signers)
        return Packet(self.pick.choice(self.liars), CERTIFICATE_CHANNEL, certificate_bytes(Certificate(kind, on, attestations)))

    # ---- what comes

    def take(self, reply):
        """What the actions of a reply ask for."""
        for action in reply.actions:
            match action:
                case Build(number, _, context):
                    self.waiting.append(BuiltAnswer(number, self.proposal(context.view).payload))
                case Verify(number, _, _):
                    self.waiting.append(CheckedAnswer(number, True))
                case Certify(proposal):
                    self.waiting.append(VerdictAnswer(proposal.view, self.pick.random() < 0.9))
                case Wake(moment):
                    self.wake = moment

    def vote(self, h):
        """A vote of a view that is listened to, of a liar who cast none of the kind there; a liar finalizes or gives up, not both."""
        here, terms = current(h), self.setup.terms
        listened = [it for it in range(max(here - 3, 1), here + 4 * terms.length + 2) if terms.admits(here, it)]
        for _ in range(20):
            view, liar, kind = self.pick.choice(listened), self.pick.choice(self.liars), self.pick.choice(list(VOTES_OF.values()))
            slot = view, liar, kind if kind == "notarize" else "last"
            if slot not in self.cast:
                break
        self.cast[slot] = kind
        return Packet(liar, VOTE_CHANNEL, vote_bytes(self.sign(kind, self.on(kind, view), liar)))

    def near(self, h):
        kind, here = self.pick.choice((NOTARIZATION, NOTARIZATION, NULLIFICATION, FINALIZATION)), current(h)
        return self.certificate(kind, max(here + self.pick.choice((-2, -1, 0, 0, 0, 1, 2, 5)), 1))

    def far(self, h):
        """Far up; a nullification or notarization that far leaves a gap that is to be repaired."""
        kind = self.pick.choice((NOTARIZATION, NULLIFICATION, FINALIZATION, FINALIZATION))
        return self.certificate(kind, min(current(h) + self.pick.choice(FARTHEST if kind == FINALIZATION else FAR), MOST - 100))

    def moment(self, h):
        ahead = self.pick.choice((0, 1, 100, 1000))
        return Moment(self.wake if self.wake is not None and self.wake > latest(h) and self.pick.random() < 0.5 else latest(h) + ahead)

    def ask(self, h):
        return Packet(self.pick.choice(self.liars), FETCH_CHANNEL, varint(max(current(h) - self.pick.randrange(12), 1)))

    def next(self, h):
        if self.waiting and self.pick.random() < 0.4:
            return self.waiting.pop(self.pick.randrange(len(self.waiting)))
        way = self.pick.choices((self.vote, self.near, self.far, self.moment, self.ask), (60, 14, 1, 12, 6))[0]
        return way(h)


class Dearest:
    """The replies that took longest and that are longest."""

    def __init__(self):
        self.slow, self.long, self.total, self.counts = (0.0, ""), (0, ""), 0.0, Counter()

    def see(self, seconds, event, reply, scheme):
        size, told = len(reply_bytes(reply)), words.event(event, scheme)[:120]
        self.slow = max(self.slow, (seconds, told))
        self.long = max(self.long, (size, told))
        self.total += seconds
        self.counts["refused" if reply.refused else "accepted"] += 1

    def tell(self, count):
        counted = ", ".join(f"{what} {number}" for what, number in sorted(self.counts.items()))
        print(f"{count} events, one at a time: {counted}; {self.total / count * 1000:.2f} ms each, as they are read here")
        print(f"    the slowest reply took {self.slow[0] * 1000:.1f} ms: {self.slow[1]}")
        print(f"    the longest reply has {self.long[0]} bytes: {self.long[1]}", flush=True)


def play(setup, count, seed, give, replies):
    """So many events, each answered before the next: the history, and the dearest replies. `give` hands bytes to the node."""
    climb, dearest = Climb(setup, seed), Dearest()
    first = next(replies)
    climb.take(first)
    h = opening(setup, 0, (), first.actions)
    for _ in range(count):
        event = climb.next(h)
        begun = time.perf_counter()
        give(event_bytes(event))
        reply = next(replies)
        dearest.see(time.perf_counter() - begun, event, reply, setup.scheme)
        h = step(h, event, reply)
        climb.take(reply)
    return record(h), dearest
