"""The driver of the node in Python: a member by its model, in the order of the product's node (tools/member/in_order.py), over disks
that make the calls of tools/make-journal-script and tools/make-pair-script. It answers each call of crates/run_node but `times`,
`stream`, `live` and those that are no call; and `floor`, as tools/check-member has it."""
from member import judging, words
from member.codec import Reader, artifact_bytes, reply_bytes, whole
from member.disks import LAST, Disks
from member.in_order import InOrder
from member.judging import DEVICE, STEP_DEVICE, STEP_FAILED
from member.member import rewriting
from member.record import kept_record
from member.values import Reply
from member.voter import current, last_finalized
from script_rows import digits, script_beside, truth

MOST_MEMBERS = 65_535
single, pair = script_beside("make-journal-script"), script_beside("make-pair-script")
FAULTS = single.Fault, pair.Fault
# Entries are read by the model, whatever their scheme.
single.artifact_of = pair.journal.artifact_of = lambda body, bound: body


class Played:
    """A member with its disk, or with two."""

    def __init__(self):
        self.setup = self.player = self.journal = None
        self.failed, self.disks = False, []

    def answer(self, line):
        name, *said = line.split()
        return line if name == "#" else getattr(self, f"call_{name}")(*said)

    def close(self):
        self.player, self.failed = None, False

    def hold(self, *held):
        self.close()
        kind = pair if len(held) == 2 else single
        self.disks = [kind.MemoryDisk(it) for it in held]
        return "ok"

    def keep(self, found):
        """What the member recorded behind these is appended, until that fails."""
        artifacts = kept_record(self.player.h)[len(found) :]
        self.failed = any(self.journal.append(artifact_bytes(it)) != "ok" for it in artifacts)
        return not self.failed

    def refused(self):
        """What a call on the node that is open answers where there is none, or one that has failed."""
        if self.player is None:
            return "condition"
        return f"fault {STEP_FAILED}" if self.failed else None

    def fault_of_opening(self, now):
        """Why the member isn't opened at this moment, where no disk fails."""
        case = judging.Case(self.setup)
        case.put(Disks(*(it.data for it in self.disks)))
        return case.fault_of_opening(now)

    # ---- the calls

    def call_floor(self, *said):
        case = judging.Case(self.setup)
        case.begin_at(" ".join(said))
        self.setup = case.setup
        return "ok"

    def call_reset(self, kind, *said):
        self.setup = judging.setup_of(" ".join((kind, *said)))
        return self.hold(b"", b"") if kind == "pair" else self.hold(b"")

    def call_open(self, now):
        self.close()
        fault = self.fault_of_opening(int(now))
        if fault is not None:
            return f"fault {fault}"
        try:
            self.journal = pair.Pair(self.disks) if len(self.disks) == 2 else single.Journal(self.disks[0])
        except FAULTS:
            return f"fault {DEVICE}"
        found = tuple(whole(it, self.setup.scheme.signature_size, MOST_MEMBERS, Reader.artifact) for it in self.journal.found)
        self.player = InOrder(self.setup)
        actions = self.player.open(int(now), found)
        if self.keep(found):
            return reply_bytes(Reply(0, actions)).hex()
        self.close()
        return f"fault {DEVICE}"

    def call_event(self, spelled):
        if self.refused():
            return self.refused()
        found = kept_record(self.player.h)
        reply = self.player.step(words.event_of(spelled, self.setup.scheme))
        return reply_bytes(reply).hex() if self.keep(found) else f"fault {STEP_DEVICE}"

    def call_rewrite(self):
        if self.refused():
            return self.refused()
        may = len(self.disks) == 2 and self.journal.generation < LAST
        behind = rewriting(self.player.h) if may else None
        if behind is None:
            return "-"
        kept = kept_record(behind)
        self.failed = self.journal.rewrite([artifact_bytes(it) for it in kept]) != "ok"
        if self.failed:
            return f"fault {STEP_DEVICE}"
        self.player.h = behind
        return str(kept[0].view)

    def call_current_view(self):
        return "condition" if self.player is None else str(current(self.player.h))

    def call_last_finalized(self):
        return "condition" if self.player is None else str(last_finalized(self.player.h))

    def call_is_failed(self):
        return "condition" if self.player is None else truth(self.failed)

    def call_bytes(self):
        self.close()
        return " ".join(digits(it.data) for it in self.disks)

    def call_disk(self, *said):
        return self.hold(*(bytes.fromhex(it.replace("-", "")) for it in said))

    def call_fuse(self, *said):
        return self.fail("fuse", *said)

    def call_fail_at(self, *said):
        return self.fail("fail_at", *said)

    def fail(self, way, *said):
        *which, calls = map(int, said)
        setattr(self.disks[which[0] - 1 if which else 0], way, calls)
        return "ok"
