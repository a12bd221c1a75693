"""Peers of a node for generated scripts: members that vote, certify and ask, some of whom lie, and an application that answers.

Nothing here decides what is right: what comes is picked by a seed, mostly so that views go on, and often enough so that each
test refuses something.
"""
from .asked import builds, certify_asked, checks, is_awaited
from .codec import certificate_bytes, event_bytes, varint, vote_bytes
from .history import latest
from .positions import MOST
from .record import certificates
from .values import (
    CERTIFICATE_CHANNEL, CHANNELS, FETCH_CHANNEL, FINALIZATION, FINALIZE, NOTARIZATION, NOTARIZE, NULLIFICATION, NULLIFY,
    VOTE_CHANNEL, VOTES_OF, BuiltAnswer, Certificate, CheckedAnswer, Moment, Packet, Proposal, Round, VerdictAnswer, Vote,
)
from .voter import at, current, explicit, last_finalized, views


class Peers:
    """`pick` is a random.Random; `player` a node that gets the same events, by which the peers know what is asked for."""

    def __init__(self, pick, player):
        self.pick, self.player, self.setup = pick, player, player.setup
        self.scheme, self.n, self.me = self.setup.scheme, self.setup.scheme.members, self.setup.me
        self.others = [i for i in range(self.n) if i != self.me]
        self.proposals, self.sent, self.salt = {}, [], 0
        self.honesty = pick.choice((0.7, 0.9, 0.98, 1.0))
        self.patience = pick.choice((0.5, 1, 3))
        # some streams play near the last views that have numbers, some have an application that finds much wrong
        self.is_late = bool(self.others) and self.chance(0.04)
        self.approval = pick.choice((0.9, 0.9, 0.5))

    @property
    def h(self):
        return self.player.h

    def chance(self, likely):
        return self.pick.random() < likely

    # ---- what is voted on

    def near(self):
        """A view around the current one, and sometimes far from it."""
        c, terms = current(self.h), self.setup.terms
        if self.chance(0.06):
            below = max(last_finalized(self.h) - self.setup.retention - 1, 0)
            return min(self.pick.choice((0, 1, c + 50, MOST - 2, below, terms.next_start(c) + terms.length)), MOST)
        if self.chance(0.1):
            return min(terms.next_start(c), MOST)
        return min(max(c + self.pick.choice((-2, -1, -1, 0, 0, 0, 0, 0, 0, 1, 1, 2, 3)), 1), MOST)

    def last_views(self):
        """A finalization near the last view that has room."""
        terms = self.setup.terms
        view = MOST - 2 * terms.length - 1
        while not terms.has_room(view):
            view -= 1
        return self.certificate(FINALIZATION, view - self.pick.randrange(3 * terms.length))

    def parent_of(self, view):
        """A parent that a proposal of a view may have: mostly the one that it should."""
        terms = self.setup.terms
        if self.chance(0.03):
            return self.pick.choice((view, view + 1, max(view - 2, 0), 0))
        if not terms.is_start(view):
            return max(view - 1, 0)
        explicit_below = [u for u in (0, *views(self.h)) if u < view and explicit(self.h, u) is not None]
        return view - 1 if view and self.chance(0.25) else max(explicit_below, default=0)

    def new_proposal(self, view):
        return Proposal(self.setup.epoch, view, self.parent_of(view), bytes([self.pick.randrange(1, 6)]) * 32)

    def proposal(self, view):
        """The proposal that is voted on in a view: what the node holds, or one of a few."""
        held = at(self.h, view).held if view in views(self.h) else None
        if held is not None and self.chance(0.9):
            return held
        of_view = self.proposals.setdefault(view, [])
        if not of_view or self.chance(0.03 if self.honesty > 0.9 else 0.15):
            of_view.append(self.new_proposal(view))
        return of_view[0] if self.chance(0.85) else self.pick.choice(of_view)

    def on(self, kind, view):
        if kind in (NULLIFY, NULLIFICATION):
            return Round(self.setup.epoch, view)
        return self.proposal(view)

    def sign(self, kind, on, signer):
        self.salt += 1
        vote = self.scheme.sign(kind, on, signer, self.salt if self.chance(0.3) else 10_000)
        if self.chance(0.06 * (1 - self.honesty) + 0.004):
            return Vote(kind, on, signer, bytes([vote.signature[0] ^ 1]) + vote.signature[1:])
        return vote

    def astray(self, on):
        """Sometimes another epoch."""
        if not self.chance(0.01):
            return on
        epoch = self.setup.epoch + 1
        return Round(epoch, on.view) if isinstance(on, Round) else Proposal(epoch, on.view, on.parent, on.payload)

    # ---- packets

    def vote(self):
        sender, view = self.pick.choice(self.others), self.near()
        kind = self.pick.choices((NOTARIZE, NULLIFY, FINALIZE), (6, 2, 3))[0]
        leader = self.setup.elect(view)
        if kind == NOTARIZE and leader != self.me and at(self.h, view).held is None and self.chance(0.7):
            sender = leader
        named = self.pick.randrange(self.n + 1) if self.chance(0.02) else sender
        return Packet(sender, VOTE_CHANNEL, vote_bytes(self.sign(kind, self.astray(self.on(kind, view)), named)))

    def quorum(self):
        """The signers of a certificate: often with this member where others alone aren't enough."""
        count = self.scheme.quorum - self.chance(0.03)
        pool = list(self.others) if len(self.others) >= count and self.chance(0.7) else list(range(self.n))
        return sorted(self.pick.sample(pool, min(max(count, 0), len(pool))))

    def certificate(self, kind=None, view=None):
        view = self.near() if view is None else view
        kind = kind or self.pick.choices((NOTARIZATION, NULLIFICATION, FINALIZATION), (5, 3, 2))[0]
        on = self.astray(self.on(kind, view))
        votes = [self.sign(VOTES_OF[kind], on, signer) for signer in self.quorum()]
        certificate = Certificate(kind, on, tuple((it.signer, it.signature) for it in votes))
        return Packet(self.pick.choice(self.others), CERTIFICATE_CHANNEL, certificate_bytes(certificate))

    def ask(self):
        return Packet(self.pick.choice(self.others), FETCH_CHANNEL, varint(self.near()))

    def garbage(self):
        channel = self.pick.choice(CHANNELS)
        data = self.pick.choice((b"", b"\0", b"\x80\0", b"\xff" * 9 + b"\2", bytes(70), b"\3\0\1", b"\1\0\1\1"))
        if self.sent and self.chance(0.5):
            data = self.pick.choice(self.sent).data
            data = self.pick.choice((data[:-1], data + b"\0", b"\3" + data[1:]))
        return Packet(self.pick.choice(self.others), channel, data)

    def again(self):
        """A packet that was sent before, by the same sender or another."""
        if not self.sent:
            return self.ask()
        packet = self.pick.choice(self.sent[-40:])
        return packet if self.chance(0.8) else Packet(self.pick.choice(self.others), packet.channel, packet.data)

    def forged(self):
        """A sender that isn't there, or this node itself."""
        packet = self.vote() if self.chance(0.5) else self.ask()
        return Packet(self.pick.choice((self.me, self.n, 2**32 - 1)), packet.channel, packet.data)

    def round_of_votes(self):
        """Votes of all others of one kind on one view: a quorum mostly comes of it."""
        view = max(current(self.h) + self.pick.choice((-1, 0, 0, 0, 1)), 1)
        kind = self.pick.choices((NOTARIZE, FINALIZE, NULLIFY), (5, 3, 2))[0]
        on = self.on(kind, view)
        members = self.pick.sample(self.others, len(self.others))
        leader = self.setup.elect(view)
        members.sort(key=lambda member: member != leader)
        return [Packet(member, VOTE_CHANNEL, vote_bytes(self.sign(kind, on, member))) for member in members if self.chance(0.95)]

    # ---- the application and the clock

    def built(self):
        number = self.pick.choice(list(builds(self.h)) or [self.pick.randrange(5)])
        return BuiltAnswer(number, None if self.chance(0.12) else bytes([self.pick.randrange(1, 6)]) * 32)

    def checked(self):
        number = self.pick.choice(list(checks(self.h)) or [self.pick.randrange(5)])
        return CheckedAnswer(number, self.pick.choices((True, False, None), (8, 1, 1))[0])

    def verdict(self):
        awaited = [view for view in certify_asked(self.h) if is_awaited(self.h, view)]
        judged_before = [view for kind, view in certificates(self.h) if kind == NOTARIZATION]
        view = self.pick.choice(awaited or judged_before or [1])
        return VerdictAnswer(self.near() if self.chance(0.05) else view, self.chance(self.approval))

    def moment(self):
        now = latest(self.h)
        if self.chance(0.04):
            return Moment(self.pick.choice((max(now - 1, 0), max(now - 1, 0), MOST, MOST - self.setup.longest + 1)))
        later = (0, 1, 37, self.setup.leader_timeout // 2, self.setup.leader_timeout, self.setup.certification_timeout, self.setup.retry)
        return Moment(now + int(self.pick.choice(later) / self.patience))

    def to_the_wake(self, wake):
        """Just the moment at which the node wants to be told the time, or one before."""
        return Moment(max(wake - self.chance(0.2), latest(self.h)))

    # ---- what comes next

    def next(self, wake):
        """The next events: `wake` is the moment at which the node wants to be told the time, or None."""
        if self.is_late and last_finalized(self.h) < MOST // 2 and self.chance(0.5):
            return [self.last_views()]
        wanted = []
        if builds(self.h):
            wanted += [self.built] * 8
        if checks(self.h):
            wanted += [self.checked] * 8
        if any(is_awaited(self.h, view) for view in certify_asked(self.h)):
            wanted += [self.verdict] * 8
        if wake is not None:
            wanted += [lambda: self.to_the_wake(wake)] * 3
        wanted += [self.moment] * 4 + [self.built, self.checked, self.verdict]
        if self.others:
            wanted += [self.vote] * 14 + [self.certificate] * 7 + [self.ask] * 2 + [self.garbage, self.forged] + [self.again] * 2
            wanted += [self.round_of_votes] * 3
        got = self.pick.choice(wanted)()
        events = got if isinstance(got, list) else [got]
        self.sent += [it for it in events if isinstance(it, Packet)]
        return events


def spelled(event):
    return event_bytes(event).hex()
