"""Generated lives of a member over two disks: its record is rewritten now and then, openings bring finalizations, and calls crash. Beside
them stands what has to hold of all that it ever recorded, and of what is kept."""
import random

from .acts import statements
from .codec import artifact_bytes
from .disks import Disks
from .history import Found, Rewrote, latest
from .judging import CONFIG, DEVICE, MEMORY, bytes_of, is_cut, reset_line
from .member import rewriting
from .peers import Peers, spelled
from .player import Player
from .positions import MOST
from .record import Record, floor_of, founded, kept_record, reach, record, recorded_by, rewritten
from .streams import last_wake, setup_of
from .values import FINALIZATION, FINALIZE, NOTARIZE, Proposal, Reply, Vote
from .voter import current, last_finalized


class Unlawful(Exception):
    """What doesn't hold of a member's lists."""


def record_with(setup, artifacts):
    so_far = Record(setup)
    so_far.artifacts = artifacts
    return so_far


def may_ever_follow(setup, ever, kept, artifact):
    """An own vote may stand behind all that was ever recorded, anything else behind what is kept. A notarize's parent isn't below the view
    behind which all begins, and it is of a view behind that of what is kept."""
    if not isinstance(artifact, Vote):
        return record_with(setup, kept).may_follow(artifact)
    low, behind = (floor_of(it) for it in (ever, kept))
    stands = artifact.kind != NOTARIZE or (low <= artifact.on.parent and behind < artifact.view)
    return stands and record_with(setup, ever).may_follow(artifact)


class Ever:
    """All that a member ever recorded, and what is kept of it."""

    def __init__(self, setup):
        self.setup, self.all, self.kept = setup, (), ()

    def add(self, artifact):
        if not may_ever_follow(self.setup, self.all, self.kept, artifact):
            raise Unlawful(f"behind all that was ever recorded may not stand {artifact}")
        self.all, self.kept = (*self.all, artifact), (*self.kept, artifact)

    def rewrite(self, certificate):
        self.kept = rewritten(self.setup.terms, certificate, self.kept)

    def test(self):
        """What is kept stands for all."""
        everything, kept = (record_with(self.setup, it) for it in (self.all, self.kept))
        low = floor_of(self.kept)
        above = [it for it in self.all if reach(self.setup.terms, it) > low]
        if set(self.kept) - set(self.all) or set(above) - set(self.kept):
            raise Unlawful("what is kept is something else, or lacks what reaches above its floor")
        if (everything.seen(), everything.finalized()) != (kept.seen(), kept.finalized()) or floor_of(self.all) > low:
            raise Unlawful("what is kept tells another current view or last finalized one, or begins below all")


def test_history(h):
    """What is kept tells what all tells of an opening, and no vote is due of a view at or below that behind which it begins."""
    told, kept, final = record(h), kept_record(h), last_finalized(h)
    if set(kept) - set(told) or {it for it in told if reach(h.setup.terms, it) > final} - set(kept) or floor_of(kept) > final:
        raise Unlawful("what is kept doesn't tell what all tells")
    if any(on.view <= floor_of(kept) for _, on in statements(h)):
        raise Unlawful("a vote is due at or below the floor")


class Lives:
    """A member, its disks, and all that it ever recorded; each call is told with what it answers. `brings`: openings bring
    finalizations."""

    def __init__(self, pick, setup, order, brings=True):
        self.pick, self.setup, self.player, self.brings = pick, setup, Player(setup, order), brings
        self.disks, self.ever, self.wake, self.calls = Disks(b"", b""), Ever(setup), None, []
        self.say(reset_line(setup).replace("node", "pair", 1), "ok")
        self.open(0)
        self.peers = Peers(pick, self.player)

    def chance(self, likely):
        return self.pick.random() < likely

    def say(self, call, answer):
        self.calls.append((call, answer))

    @property
    def h(self):
        return self.player.h

    # ---- openings

    def finalization(self):
        """One of some view around the last finalized one."""
        scheme, final = self.setup.scheme, last_finalized(self.h) if self.h else 0
        view = min(max(final + self.pick.choice((-1, 0, 1, 2, 3, 7)), 1), MOST)
        on = Proposal(self.setup.epoch, view, view - 1, bytes([self.pick.randrange(1, 6)]) * 32)
        signers = self.pick.sample(range(scheme.members), scheme.quorum)
        return scheme.assemble(FINALIZATION, on, [scheme.sign(FINALIZE, on, it) for it in signers])

    def bring(self):
        """The opening brings a finalization, or the payload of view 0."""
        if not self.brings:
            return
        if self.chance(0.3):
            brought = self.finalization()
            self.player.setup = self.setup.on_floor(brought)
            self.say(f"floor {artifact_bytes(brought).hex()}", "ok")
        elif self.chance(0.5):
            self.player.setup = self.setup
            self.say("floor genesis 0", "ok")

    def open(self, now):
        self.bring()
        while self.player.setup.fault():
            self.say(f"open {now}", f"fault {CONFIG} {self.player.setup.fault()}")
            self.bring()
        if self.h is not None and self.chance(0.3):
            self.crash_in_opening(now)
        found = self.ever.kept
        new = founded(self.player.setup, found)
        actions = self.player.open(now, found)
        for artifact in new:
            self.ever.add(artifact)
        self.take(0)
        self.say(f"open {now}", Reply(0, actions))
        self.wake = last_wake(actions)

    def take(self, old):
        """What points behind the first so many recorded is added, and all is tested."""
        for point in self.h.points()[old:]:
            artifact = None if isinstance(point, Found) else recorded_by(point, self.setup.epoch)
            if artifact is not None:
                self.ever.add(artifact)
            if isinstance(point, Rewrote):
                self.ever.rewrite(point.certificate)
        self.test()

    def test(self):
        self.ever.test()
        test_history(self.h)
        if kept_record(self.h) != self.ever.kept or (current(self.h), last_finalized(self.h)) != self.stands():
            raise Unlawful("what is kept is another list, or the member stands elsewhere")

    def stands(self):
        everything = record_with(self.setup, self.ever.all)
        return everything.seen(), everything.finalized()

    # ---- what comes

    def step(self, event):
        old = len(self.h.points())
        reply = self.player.step(event)
        self.wake = self.wake if reply.refused else last_wake(reply.actions)
        self.say(f"event {spelled(event)}", reply)
        self.take(old)

    def at_rest(self):
        return self.disks.hold(bytes_of(kept_record(self.h)))

    def rewrite(self):
        old, behind = len(self.h.points()), rewriting(self.h)
        self.say("rewrite", "-" if behind is None else str(kept_record(behind)[0].view))
        if behind is not None:
            self.disks = self.at_rest().rewritten(bytes_of(kept_record(behind)))
            self.player.h = behind
            self.take(old)

    # ---- what crashes

    def crash(self):
        events = self.peers.next(self.wake)
        if not events:
            self.leave(self.at_rest())
            return
        event = events[0]
        left = self.player.crash(event, self.pick)
        self.say(f"event {spelled(event)}", self.pick.choice(("crash", "fault 1", "fault 2")))
        self.leave_with(self.at_rest(), left)

    def crash_in_opening(self, now):
        left = self.player.crash_in_opening(now, self.ever.kept, self.pick)
        self.say(f"open {now}", self.pick.choice(("crash", f"fault {DEVICE}", f"fault {MEMORY}")))
        self.leave_with(self.disks, left)

    def leave_with(self, disks, left):
        """On the disk that is read stands what was recorded till then."""
        for artifact in left[len(self.ever.kept) :]:
            self.ever.add(artifact)
        self.leave(disks.hold(bytes_of(left)))

    def crash_in_rewrite(self):
        """The other disk is left as it was, or torn, or whole."""
        behind, rest = rewriting(self.h), self.at_rest()
        if behind is None:
            self.crash()
            return
        new = rest.rewritten(bytes_of(kept_record(behind)))
        data = new.held[rest.other]
        part = b"\0" + data[1 : self.pick.randrange(1, len(data) + 1)]
        self.say("rewrite", self.pick.choice(("crash", "fault 1", "fault 2")))
        left = rest.put(rest.other, self.pick.choice((rest.held[rest.other], b"", part, data, data)))
        if left == new:
            self.ever.rewrite(behind.point.certificate)
        self.leave(left)

    def leave(self, disks):
        self.disks = disks
        self.say("bytes", str(disks))

    def reopen(self):
        now = latest(self.h) + self.pick.choice((0, 5, 2500))
        self.pick.choice((self.crash, self.crash_in_rewrite, lambda: self.leave(self.at_rest())))()
        self.open(now)

    def go(self, count):
        while len(self.calls) < count:
            for event in self.peers.next(self.wake):
                self.step(event)
            if self.chance(0.15):
                self.rewrite()
            if self.chance(0.06):
                self.reopen()
        self.say("bytes", str(self.at_rest()))
        return self.calls


def lives(seed, number, count):
    """The calls of the lives of this number, and what they answer."""
    pick, order = random.Random(f"{seed} {number} lives"), random.Random(f"{seed} {number} order")
    return Lives(pick, setup_of(pick, True), order).go(count)


def founded_by_none(seed, number, count):
    """The same of lives in which no opening brings a finalization, and what is due is done in the fixed order."""
    pick = random.Random(f"{seed} {number} rewrites")
    return Lives(pick, setup_of(pick, True), None, brings=False).go(count)


def calls(seed, number, count):
    """The calls of these as the node's driver reads them. A node that crashed is one whose disks are replaced by two that hold what the
    crash left."""
    was_cut = False
    for call, answer in founded_by_none(seed, number, count):
        if was_cut:
            yield f"disk {answer}"
        elif not is_cut(answer):
            yield call
        was_cut = is_cut(answer)
