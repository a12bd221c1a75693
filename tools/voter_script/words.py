"""Calls and answers of a voter as the words of crates/run_state."""
from dataclasses import dataclass

from member.scheme import PlainScheme
from member.setup import Setup
from member.values import Certificate, Context, Proposal, Vote
from member.words import Words

from rules_script.leaders import order_of
from script_rows import listed, sum_of, truth


# ---- reading


@dataclass(frozen=True)
class Shuffled(Setup):
    """Members take turns in the order of a seed."""

    seed: bytes = b""

    def elect(self, view, certificate=None):
        return order_of(self.seed, self.scheme.members)[super().elect(view)]


class Dynamic(Setup):
    """A view each, and so many turns on as members signed the certificate that the view was entered by. There is no schedule."""

    def elect(self, view, certificate=None):
        signers = len(certificate.signers) if certificate else 0
        return (self.epoch + (view + signers) % 2**64) % 2**64 % self.scheme.members

    def scheduled(self, view):
        return None


def optional(word):
    return None if word == "-" else int(word)


def setup_of(line):
    """`reset voter N ME EPOCH L K STALL RETENTION LEADER CERTIFICATION RETRY BUDGET HANDOFF`, and who leads."""
    given = line.split()[2:]
    members, me, epoch, length, optimistic, stall, retention, leader, certification, retry, budget = map(optional, given[:11])
    leading, *seed = given[12:] or [""]
    return {"": Setup, "shuffled": Shuffled, "dynamic": Dynamic}[leading](
        PlainScheme(members), me, epoch, length, optimistic, stall, retention, leader, certification, retry,
        2**64 - 1, budget, "disabled", False, given[11] == "1", **({"seed": seed[0].encode()} if seed else {}),
    )


class Call(Words):
    """A line, without the name of the call."""

    def context(self):
        epoch, view, key, parent = self.number(), self.number(), self.number(), self.number()
        return Context(epoch, view, key, parent, self.payload())

    def start(self):
        kind = self.word()
        return self.payload() if kind == "genesis" else self.certificate(kind)

    def taken(self):
        return self.certificate(self.word())


# the words of each call; the others have none
READ = {
    **dict.fromkeys("notarization nullification finalization forwardable_proposal leader_index admits_vote "
                    "admits_certificate voted_nullify broadcast_notarization broadcast_nullification "
                    "broadcast_finalization construct_notarize construct_finalize verified is_me "
                    "release_proposal_request next_timeout try_verify scheduled_leader is_waiting known pending_verification "
                    "proposal verifying certified_proposal pending_certification stall_deadline".split(), "number"),
    **dict.fromkeys("elapsed_since_start elapsed_since_entry set_certify_handle try_verify_from first_uncovered "
                    "is_requested".split(), "number number"),
    **dict.fromkeys("supersede_proposal_request pending_handoff_abandonment".split(), "context"),
    **dict.fromkeys("trigger_timeout verification_failed is_first_reason is_first_failure".split(), "number number word"),
    **dict.fromkeys("construct_nullify may_latch".split(), "number word"),
    **dict.fromkeys("add_nullification add_finalization".split(), "number taken"),
    "add_notarization": "taken",
    "parent_certified": "number payload",
    **dict.fromkeys("begin base".split(), "number"),
    "set_genesis": "number payload",
    "set_floor": "number start",
    "certified": "number number truth",
    "set_proposal": "number proposal",
    "replay": "artifact",
    "proposed": "number context payload",
    **dict.fromkeys("epoch current_view last_finalized min_active get_best_certificate prune try_propose "
                    "certify_candidates next_notarize next_finalize counts_silence genesis floor".split(), ""),
}


def answer(voter, line):
    """What the voter answers to this line."""
    name, _, rest = line.partition(" ")
    call = Call(rest, voter.setup.scheme)
    given = [getattr(call, how)() for how in READ[name].split()]
    assert not call.words, line
    return say(voter, name, getattr(voter, name)(*given))


# ---- saying


def k(payload):
    assert payload == payload[:1] * 32
    return payload[0]


def proposal(p):
    return f"{p.epoch} {p.view} {p.parent} {k(p.payload)}"


def on(what):
    return proposal(what) if isinstance(what, Proposal) else f"{what.epoch} {what.view}"


def context(epoch, view, leader, parent, payload):
    return f"{epoch} {view} {leader} {parent} {k(payload)}"


def said(it):
    """A value by itself."""
    if it is None:
        return "-"
    if isinstance(it, bool):
        return truth(it)
    if isinstance(it, Proposal):
        return proposal(it)
    if isinstance(it, Vote):
        return f"{it.kind} {it.signer} {sum_of(it.signature)} {on(it.on)}"
    if isinstance(it, Certificate):
        signatures = b"".join(signature for _, signature in it.attestations)
        return f"{it.kind} {listed(it.signers)} {sum_of(signatures)} {on(it.on)}"
    if isinstance(it, bytes):
        return str(k(it))
    if isinstance(it, list):
        return listed(it)
    if isinstance(it, tuple):
        return " ".join(map(said, it))
    return str(it)


DONE = (
    "set_genesis", "begin", "base", "replay", "release_proposal_request", "set_certify_handle", "trigger_timeout",
    "verification_failed",
)


def say(voter, name, it):
    """The answer of a call."""
    if name in DONE:
        return "ok"
    if name == "certify_candidates":
        ready, fetches = it
        return f"ready {' , '.join(map(proposal, ready)) or '-'} fetch {' , '.join(map(said, fetches)) or '-'}"
    if name == "try_propose" and it:
        view, parent, payload, handoff = it
        return f"{'Prepare' if handoff else 'Propose'} {context(voter.setup.epoch, view, voter.setup.me, parent, payload)}"
    if name.startswith("try_verify"):
        if it is None:
            return "Wait"
        leader = voter.leader_index(it[0])
        if isinstance(it[1], str):
            return f"Resolve {it[0]} {it[2]} {it[1]} {leader}"
        view, verify, payload = it
        return f"Ready {context(voter.setup.epoch, view, leader, verify.parent, payload)} {proposal(verify)}"
    return said(it)

