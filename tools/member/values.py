"""What members vote on, certify, record and report, and what is handed in and out. Two values are one only where their
classes are."""
from dataclasses import dataclass

NOTARIZE, NULLIFY, FINALIZE = "notarize", "nullify", "finalize"
NOTARIZATION, NULLIFICATION, FINALIZATION = "notarization", "nullification", "finalization"
# the kinds of certificates in the order in which they are made, each with the kind of the votes that it is made of
VOTES_OF = {NOTARIZATION: NOTARIZE, NULLIFICATION: NULLIFY, FINALIZATION: FINALIZE}
CERTIFICATE_OF = {vote: certificate for certificate, vote in VOTES_OF.items()}

value = dataclass(frozen=True)


@value
class Round:
    epoch: int
    view: int


@value
class Proposal:
    epoch: int
    view: int
    parent: int
    payload: bytes

    @property
    def round(self):
        return Round(self.epoch, self.view)


# ---- votes and certificates


@value
class Vote:
    """A notarize or finalize on a proposal, a nullify on a round."""

    kind: str
    on: Proposal | Round
    signer: int
    signature: bytes

    @property
    def view(self):
        return self.on.view


@value
class Certificate:
    """Attestations of one statement: pairs of index and signature."""

    kind: str
    on: Proposal | Round
    attestations: tuple

    @property
    def view(self):
        return self.on.view

    @property
    def signers(self):
        return tuple(signer for signer, signature in self.attestations)


@value
class Verdict:
    """What the application judged of a round's notarized proposal."""

    on: Round
    ok: bool

    @property
    def view(self):
        return self.on.view


# ---- reports: a vote, a certificate, or one of these


@value
class Certified:
    """A true verdict on this notarization."""

    notarization: Certificate


@value
class Evidence:
    """Two contradictory votes of one member: conflicting-notarize, conflicting-finalize or nullify-finalize."""

    kind: str
    first: Vote
    second: Vote


@value
class Context:
    """In what a payload is built or verified: the round, its leader's key, the parent's view and payload."""

    epoch: int
    view: int
    leader: bytes
    parent: int
    parent_payload: bytes


# ---- what is handed in

VOTE_CHANNEL, CERTIFICATE_CHANNEL, FETCH_CHANNEL = "votes", "certificates", "fetches"
CHANNELS = (VOTE_CHANNEL, CERTIFICATE_CHANNEL, FETCH_CHANNEL)


@value
class Packet:
    sender: int
    channel: str
    data: bytes


@value
class BuiltAnswer:
    """The application's answer to a build: a payload, or none."""

    number: int
    payload: bytes | None


@value
class CheckedAnswer:
    """Its answer to a verification: true, false, or none."""

    number: int
    answer: bool | None


@value
class VerdictAnswer:
    view: int
    ok: bool


@value
class Moment:
    now: int


# ---- what is handed out


@value
class Send:
    """A packet for one member, or for all where `to` is None."""

    to: int | None
    channel: str
    data: bytes


@value
class Block:
    member: int


@value
class Build:
    number: int
    handoff: bool
    context: Context


@value
class Verify:
    number: int
    context: Context
    proposal: Proposal


@value
class Certify:
    proposal: Proposal


@value
class Forward:
    """A payload is handed on: as a `prepare` for a handoff, a `propose` to all, or `forward` to some members."""

    payload: bytes
    plan: str
    round: Round
    recipients: tuple = ()


@value
class Finalized:
    proposal: Proposal


@value
class Report:
    activity: Vote | Certificate | Certified | Evidence


@value
class Wake:
    moment: int


@value
class Reply:
    """The number of the test that refused the event, 0 where none did, and the actions."""

    refused: int
    actions: tuple
