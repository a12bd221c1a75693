"""How values are spelled as bytes, and read. Each value has one spelling."""
from .positions import MOST
from .values import (
    CERTIFICATE_CHANNEL, CHANNELS, FETCH_CHANNEL, FINALIZATION, FINALIZE, NOTARIZATION, NOTARIZE, NULLIFICATION, NULLIFY,
    VOTE_CHANNEL, Block, Build, BuiltAnswer, Certificate, Certified, Certify, CheckedAnswer, Context, Evidence, Finalized,
    Forward, Moment, Packet, Proposal, Reply, Report, Round, Send, Verdict, VerdictAnswer, Verify, Vote, Wake,
)

PAYLOAD, KEY, LONGEST_PACKET = 32, 4, 16_777_216
VOTE_TAGS = (NOTARIZE, NULLIFY, FINALIZE)
CERTIFICATE_TAGS = (NOTARIZATION, NULLIFICATION, FINALIZATION)
ARTIFACT_TAGS = (NOTARIZE, NOTARIZATION, "certification", NULLIFY, NULLIFICATION, FINALIZE, FINALIZATION)
CONFLICTING_NOTARIZE, CONFLICTING_FINALIZE, NULLIFY_FINALIZE = "conflicting-notarize", "conflicting-finalize", "nullify-finalize"
REPORT_TAGS = (*ARTIFACT_TAGS, CONFLICTING_NOTARIZE, CONFLICTING_FINALIZE, NULLIFY_FINALIZE)
# the kinds of the two votes of an evidence
EVIDENCE = {CONFLICTING_NOTARIZE: (NOTARIZE, NOTARIZE), CONFLICTING_FINALIZE: (FINALIZE, FINALIZE), NULLIFY_FINALIZE: (NULLIFY, FINALIZE)}
PLANS = ("prepare", "propose", "forward")
ANSWERS = (False, True, None)


# ---- spelling


def varint(number):
    """Seven bits a byte, least significant group first, the high bit for more, in the shortest spelling."""
    spelled = bytearray()
    while number >= 128:
        spelled.append(number % 128 + 128)
        number //= 128
    spelled.append(number)
    return bytes(spelled)


def round_bytes(on):
    return varint(on.epoch) + varint(on.view)


def proposal_bytes(proposal):
    return round_bytes(proposal) + varint(proposal.parent) + proposal.payload


def statement_bytes(on):
    """What is signed: a proposal, or a round."""
    return proposal_bytes(on) if isinstance(on, Proposal) else round_bytes(on)


def _vote_body(vote):
    return statement_bytes(vote.on) + varint(vote.signer) + vote.signature


def _certificate_body(certificate):
    listed = b"".join(varint(signer) + signature for signer, signature in certificate.attestations)
    return statement_bytes(certificate.on) + varint(len(certificate.attestations)) + listed


def vote_bytes(vote):
    return bytes([VOTE_TAGS.index(vote.kind)]) + _vote_body(vote)


def certificate_bytes(certificate):
    return bytes([CERTIFICATE_TAGS.index(certificate.kind)]) + _certificate_body(certificate)


def artifact_bytes(artifact):
    if isinstance(artifact, Vote):
        return bytes([ARTIFACT_TAGS.index(artifact.kind)]) + _vote_body(artifact)
    if isinstance(artifact, Certificate):
        return bytes([ARTIFACT_TAGS.index(artifact.kind)]) + _certificate_body(artifact)
    return bytes([ARTIFACT_TAGS.index("certification")]) + round_bytes(artifact.on) + bytes([artifact.ok])


def report_bytes(report):
    """As an artifact, but a certification holds the whole notarization; then evidence."""
    if isinstance(report, Certified):
        return bytes([REPORT_TAGS.index("certification")]) + _certificate_body(report.notarization)
    if isinstance(report, Evidence):
        return bytes([REPORT_TAGS.index(report.kind)]) + _vote_body(report.first) + _vote_body(report.second)
    return artifact_bytes(report)


def context_bytes(context):
    return varint(context.epoch) + varint(context.view) + context.leader + varint(context.parent) + context.parent_payload


def counted(data):
    return varint(len(data)) + data


def event_bytes(event):
    match event:
        case Packet(sender, channel, data):
            return b"\0" + varint(sender) + bytes([CHANNELS.index(channel)]) + counted(data)
        case BuiltAnswer(number, payload):
            return b"\1" + varint(number) + (b"\0" if payload is None else b"\1" + payload)
        case CheckedAnswer(number, answer):
            return b"\2" + varint(number) + bytes([ANSWERS.index(answer)])
        case VerdictAnswer(view, ok):
            return b"\3" + varint(view) + bytes([ok])
        case Moment(now):
            return b"\4" + varint(now)


def action_bytes(action):
    match action:
        case Send(to, channel, data):
            return b"\0" + (b"\0" if to is None else b"\1" + varint(to)) + bytes([CHANNELS.index(channel)]) + counted(data)
        case Block(member):
            return b"\1" + varint(member)
        case Build(number, handoff, context):
            return b"\2" + varint(number) + bytes([handoff]) + context_bytes(context)
        case Verify(number, context, proposal):
            return b"\3" + varint(number) + context_bytes(context) + proposal_bytes(proposal)
        case Certify(proposal):
            return b"\4" + proposal_bytes(proposal)
        case Forward(payload, plan, at, recipients):
            members = varint(len(recipients)) + b"".join(map(varint, recipients)) if plan == "forward" else b""
            return b"\5" + payload + bytes([PLANS.index(plan)]) + round_bytes(at) + members
        case Finalized(proposal):
            return b"\6" + proposal_bytes(proposal)
        case Report(activity):
            return b"\7" + report_bytes(activity)
        case Wake(moment):
            return b"\x08" + varint(moment)


def reply_bytes(reply):
    return bytes([reply.refused]) + varint(len(reply.actions)) + b"".join(map(action_bytes, reply.actions))


# ---- reading


class Unreadable(Exception):
    """The bytes are no spelling of what was to be read."""


class Reader:
    """Bytes that are read from left to right. A certificate lists at most `bound` attestations, of indices below it."""

    def __init__(self, data, signature, bound):
        self.data, self.signature, self.bound, self.place = data, signature, bound, 0

    def take(self, count):
        taken = self.data[self.place : self.place + count]
        if len(taken) < count:
            raise Unreadable
        self.place += count
        return taken

    def varint(self, most=MOST):
        number, shift = 0, 0
        while True:
            byte = self.take(1)[0]
            number += byte % 128 << shift
            shift += 7
            if number > most or (byte == 0 and shift > 7):
                raise Unreadable
            if byte < 128:
                return number

    def index(self):
        return self.varint(2**32 - 1)

    def one_of(self, names):
        byte = self.take(1)[0]
        if byte >= len(names):
            raise Unreadable
        return names[byte]

    def truth(self):
        return self.one_of((False, True))

    def round(self):
        return Round(self.varint(), self.varint())

    def proposal(self):
        return Proposal(self.varint(), self.varint(), self.varint(), self.take(PAYLOAD))

    def on(self, kind):
        return self.round() if kind in (NULLIFY, NULLIFICATION) else self.proposal()

    def vote_of(self, kind):
        return Vote(kind, self.on(kind), self.index(), self.take(self.signature))

    def certificate_of(self, kind):
        on, count, listed = self.on(kind), self.varint(), []
        if count > self.bound:
            raise Unreadable
        for _ in range(count):
            signer = self.index()
            if signer >= self.bound or (listed and signer <= listed[-1][0]):
                raise Unreadable
            listed.append((signer, self.take(self.signature)))
        return Certificate(kind, on, tuple(listed))

    def vote(self):
        return self.vote_of(self.one_of(VOTE_TAGS))

    def certificate(self):
        return self.certificate_of(self.one_of(CERTIFICATE_TAGS))

    def tagged(self, kind):
        return self.vote_of(kind) if kind in VOTE_TAGS else self.certificate_of(kind)

    def artifact(self):
        kind = self.one_of(ARTIFACT_TAGS)
        return Verdict(self.round(), self.truth()) if kind == "certification" else self.tagged(kind)

    def report(self):
        kind = self.one_of(REPORT_TAGS)
        if kind == "certification":
            return Certified(self.certificate_of(NOTARIZATION))
        if kind in EVIDENCE:
            first, second = map(self.vote_of, EVIDENCE[kind])
            same_round = (first.on.epoch, first.view, first.signer) == (second.on.epoch, second.view, second.signer)
            if not same_round or (kind != NULLIFY_FINALIZE and first.on == second.on):
                raise Unreadable
            return Evidence(kind, first, second)
        return self.tagged(kind)

    def packet(self, channel):
        return {VOTE_CHANNEL: self.vote, CERTIFICATE_CHANNEL: self.certificate, FETCH_CHANNEL: self.varint}[channel]()

    def context(self):
        return Context(self.varint(), self.varint(), self.take(KEY), self.varint(), self.take(PAYLOAD))

    def counted(self):
        size = self.varint()
        if size > LONGEST_PACKET:
            raise Unreadable
        return self.take(size)

    def event(self):
        kind = self.one_of((Packet, BuiltAnswer, CheckedAnswer, VerdictAnswer, Moment))
        if kind is Packet:
            return Packet(self.index(), self.one_of(CHANNELS), self.counted())
        if kind is BuiltAnswer:
            return BuiltAnswer(self.varint(), self.take(PAYLOAD) if self.truth() else None)
        if kind is CheckedAnswer:
            return CheckedAnswer(self.varint(), self.one_of(ANSWERS))
        return VerdictAnswer(self.varint(), self.truth()) if kind is VerdictAnswer else Moment(self.varint())

    def action(self):
        kind = self.one_of((Send, Block, Build, Verify, Certify, Forward, Finalized, Report, Wake))
        if kind is Send:
            return Send(self.index() if self.truth() else None, self.one_of(CHANNELS), self.counted())
        if kind is Build:
            return Build(self.varint(), self.truth(), self.context())
        if kind is Verify:
            return Verify(self.varint(), self.context(), self.proposal())
        if kind is Forward:
            payload, plan, at = self.take(PAYLOAD), self.one_of(PLANS), self.round()
            return Forward(payload, plan, at, tuple(self.index() for _ in range(self.varint())) if plan == "forward" else ())
        return kind({Block: self.index, Wake: self.varint, Report: self.report}.get(kind, self.proposal)())

    def reply(self):
        refused, count = self.one_of(range(17)), self.varint()
        return Reply(refused, tuple(self.action() for _ in range(count)))

    def end(self):
        if self.place != len(self.data):
            raise Unreadable


def whole(data, signature, bound, read):
    """What these bytes are, as exactly one value: `read` names a reading of Reader."""
    reader = Reader(data, signature, bound)
    got = read(reader)
    reader.end()
    return got
