"""Rows of a member that is alone and whose disk fails at each of its calls in turn: alone, and with all behind it.

The member builds, certifies and finalizes view 1, until a run meets no failure. Which call falls into the opening or into which event,
that the fault is told by its own number, that each later step answers that the node has failed, and what is left on the disk, byte by
byte, is said by the journal of tools/make-journal-script. Behind each run the record is opened twice more, on a disk that works, and
the member is given another payload for view 1: what it answers there is left to the model of a member.

Over two disks it goes on: its record is rewritten on the second, and behind view 2 on the first. There each call of the disk that is
written fails in turn inside the rewrite. What is left on both is said by the journal of tools/make-pair-script: the next opening finds
the record from before the rewrite or the one that it was to leave, and rewrites it where that wasn't done.
"""
from itertools import count

from member import judging
from member.codec import artifact_bytes, event_bytes
from member.member import rewriting
from member.player import Player
from member.record import kept_record
from member.scheme import PlainScheme
from member.values import FINALIZATION, FINALIZE, NOTARIZATION, NOTARIZE, BuiltAnswer, Proposal, VerdictAnswer, Verdict
from script_rows import digits, script_beside, truth

RESET = "reset node plain 1 0 0 1 0 - 10 1000 2000 5000 - - disabled 1 1"
RESET_PAIR = RESET.replace("node", "pair")
OPEN_DEVICE, STEP_DEVICE, STEP_FAILED = (f"fault {it}" for it in (judging.DEVICE, judging.STEP_DEVICE, judging.STEP_FAILED))
A, B, C = (bytes([it]) * 32 for it in (0xAA, 0xBB, 0xCC))
NEVER = 10**9
WAYS = (("fuse", "that call of the disk and all behind it fail"), ("fail_at", "that call of the disk alone fails"))


journal = script_beside("make-journal-script")
pair = script_beside("make-pair-script")


def script():
    """The member's events, each with the artifacts that it has the member record."""
    scheme, on = PlainScheme(1), Proposal(0, 1, 0, A)
    votes = {kind: scheme.sign(kind, on, 0) for kind in (NOTARIZE, FINALIZE)}
    notarization, finalization = (
        scheme.assemble(kind, on, [votes[of]]) for kind, of in ((NOTARIZATION, NOTARIZE), (FINALIZATION, FINALIZE))
    )
    yield BuiltAnswer(0, A), (votes[NOTARIZE], notarization)
    yield VerdictAnswer(1, True), (Verdict(on.round, True), votes[FINALIZE], finalization)
    yield VerdictAnswer(1, True), ()


def call_of(event):
    return f"event {event_bytes(event).hex()}"


def run(call, number):
    """The rows of the run in which this call of the disk fails, and whether one did. An answer of None is left to the model."""
    disk, opened, failed = journal.MemoryDisk(b""), None, False
    setattr(disk, call, number)
    rows = [(RESET, "ok"), (f"{call} {number}", "ok")]
    try:
        opened = journal.Journal(disk)
        rows.append(("open 0", None))
    except journal.Fault:
        rows.append(("open 0", OPEN_DEVICE))
    for event, artifacts in script():
        if opened is None or failed:
            rows.append((call_of(event), STEP_FAILED if failed else "condition"))
            continue
        failed = any(opened.append(artifact_bytes(it)) == "Device" for it in artifacts)
        rows.append((call_of(event), STEP_DEVICE if failed else None))
    rows.append(("is_failed", "condition" if opened is None else truth(failed)))
    rows += [("bytes", digits(disk.data)), (f"{call} {NEVER}", "ok"), ("open 5000", None), ("bytes", None), ("open 5000", None)]
    rows += [(call_of(BuiltAnswer(0, B)), None), (call_of(VerdictAnswer(1, True)), None), ("bytes", None)]
    return rows, disk.failures > 0


def runs():
    """The rows of all runs over one disk; the last of each way meets no failure."""
    for call, told in WAYS:
        for number in count():
            found, fails = run(call, number)
            said = f"# behind {number} calls: {told}" if fails else f"# of {number} calls none fails"
            yield said, said
            yield from found
            if not fails:
                break


# ---- over two disks


class CountedDisk(pair.MemoryDisk):
    """A disk that counts its calls."""

    def __init__(self):
        super().__init__(b"")
        self.calls = 0

    def admit(self):
        self.calls += 1
        super().admit()


class Alone:
    """A member alone over two disks, as the model of a member and the journal over two disks have it."""

    def __init__(self):
        self.disks = CountedDisk(), CountedDisk()
        self.journal, self.player = pair.Pair(self.disks), Player(judging.setup_of(RESET.removeprefix("reset ")))
        self.player.open(0, ())

    @property
    def kept(self):
        return kept_record(self.player.h)

    def step(self, event):
        before = len(self.kept)
        self.player.step(event)
        for artifact in self.kept[before:]:
            self.journal.append(artifact_bytes(artifact))

    def rewrite(self):
        """Whether that was done."""
        self.player.h = rewriting(self.player.h)
        return self.journal.rewrite([artifact_bytes(it) for it in self.kept]) == "ok"


def view_of(number):
    """The events by which the view of this number is finalized: each is built while the one before is judged."""
    return BuiltAnswer(0 if number == 1 else 1, (A, B)[number - 1]), VerdictAnswer(number, True)


def life_to(last):
    """A member before the rewrite behind this view, and the calls up to there; each view before is followed by a rewrite."""
    alone, calls = Alone(), []
    for number in range(1, last + 1):
        if calls:
            calls.append(("rewrite", str(number - 1)))
            alone.rewrite()
        for event in view_of(number):
            calls.append((call_of(event), None))
            alone.step(event)
    return alone, calls


def run_rewrite(call, last, number):
    """The rows of the run in which a call of the disk that the rewrite behind this view is on fails, so many calls after its first, and
    whether one did."""
    alone, calls = life_to(last)
    which = 2 if last == 1 else 1
    disk = alone.disks[which - 1]
    opened = disk.calls
    setattr(disk, call, number)
    done = alone.rewrite()
    rows = [(RESET_PAIR, "ok"), (f"{call} {which} {opened + number}", "ok"), ("open 0", None), *calls]
    rows.append(("rewrite", str(last) if done else STEP_DEVICE))
    rows += [(call_of(VerdictAnswer(last, True)), None if done else STEP_FAILED), ("rewrite", "-" if done else STEP_FAILED)]
    rows += [("is_failed", truth(not done)), ("bytes", " ".join(digits(it.data) for it in alone.disks))]
    rows += [(f"{call} {which} {NEVER}", "ok"), ("open 5000", None), ("current_view", str(last + 1)), ("last_finalized", str(last))]
    is_new = pair.first_is_read(*(it.data for it in alone.disks)) == (which == 1)
    rows += [("rewrite", "-" if is_new else str(last)), ("rewrite", "-"), ("bytes", None), ("open 5000", None)]
    rows += [(call_of(BuiltAnswer(0, C)), None), ("bytes", None)]
    return rows, not done


def rewrites():
    """The rows of all runs over two disks; the last of each way meets no failure inside the rewrite."""
    for last, which in ((1, "second"), (2, "first")):
        for call, told in WAYS:
            for number in count():
                found, fails = run_rewrite(call, last, number)
                said = f"# behind {number} calls of a rewrite on the {which} of two disks: {told}"
                said = said if fails else f"# of {number} calls of a rewrite on the {which} of two disks none fails"
                yield said, said
                yield from found
                if not fails:
                    break


def rows():
    """The rows of all runs, with what is said to readers."""
    yield from runs()
    yield from rewrites()
