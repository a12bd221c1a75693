"""Values as words, with one blank between two, and read from them.

    K            32 bytes of value K, a payload; other bytes as 64 hexadecimal digits
    PROPOSAL     EPOCH VIEW PARENT K
    vote         notarize SIGNER ATT PROPOSAL, finalize SIGNER ATT PROPOSAL, nullify SIGNER ATT EPOCH VIEW
    certificate  notarization SIGNERS PROPOSAL, finalization SIGNERS PROPOSAL, nullification SIGNERS EPOCH VIEW
    artifact     a vote, a certificate, certification EPOCH VIEW TRUTH
    report       a vote, a certificate, certification SIGNERS PROPOSAL, conflicting-notarize VOTE VOTE,
                 conflicting-finalize VOTE VOTE, nullify-finalize VOTE VOTE
    event        packet SENDER VOTE, packet SENDER CERTIFICATE, packet SENDER ask VIEW, packet SENDER CHANNEL HEX,
                 built NUMBER K, checked NUMBER TRUTH (- for none in both), verdict VIEW TRUTH, moment NOW
    action       send TO VOTE, send TO CERTIFICATE, send TO ask VIEW (TO is a member or all; FIRST..LAST for one of each
                 view), block MEMBER,
                 build NUMBER TRUTH EPOCH VIEW LEADER PARENT K, verify NUMBER LEADER K PROPOSAL (K is the parent's
                 payload), certify PROPOSAL, finalized PROPOSAL, report REPORT, wake NOW,
                 forward K prepare EPOCH VIEW, forward K propose EPOCH VIEW, forward K MEMBERS EPOCH VIEW
    reply        actions with ` , ` between two, or nothing; in front of them, where a test refused, refused NUMBER

SIGNERS and MEMBERS are numbers with commas; a signer whose attestation is spoiled has a `!` behind it, and one that salts by s
has `/s`. ATT is twice the salt of a signature, and one more where its first byte is spoiled.
"""
from . import codec
from .codec import EVIDENCE, FETCH_CHANNEL, PAYLOAD, VOTE_TAGS, Reader, whole
from .scheme import key
from .values import (
    CERTIFICATE_CHANNEL, CHANNELS, NULLIFICATION, NULLIFY, VOTE_CHANNEL, VOTES_OF, Block, Build, BuiltAnswer,
    Certificate, Certified, Certify, CheckedAnswer, Context, Evidence, Finalized, Forward, Moment, Packet, Proposal, Reply, Report,
    Round, Send, Verdict, VerdictAnswer, Verify, Vote, Wake,
)

TRUTHS = {"0": False, "1": True, "-": None}


class Unclear(Exception):
    """Words that say nothing."""


# ---- reading


class Words:
    """Words that are read from left to right, for a committee's scheme."""

    def __init__(self, text, scheme):
        self.words, self.scheme = text.split(), scheme

    def word(self):
        if not self.words:
            raise Unclear("words are missing")
        return self.words.pop(0)

    def number(self):
        word = self.word()
        if not word.isdecimal():
            raise Unclear(f"{word} is no number")
        return int(word)

    def truth(self):
        word = self.word()
        if word not in TRUTHS:
            raise Unclear(f"{word} is no truth value")
        return TRUTHS[word]

    def payload(self):
        word = self.word()
        if word == "-":
            return None
        return bytes.fromhex(word) if len(word) == 2 * PAYLOAD else bytes([int(word)]) * PAYLOAD

    def round(self):
        return Round(self.number(), self.number())

    def proposal(self):
        return Proposal(self.number(), self.number(), self.number(), self.payload())

    def on(self, kind):
        return self.round() if kind in (NULLIFY, NULLIFICATION) else self.proposal()

    def sign(self, kind, on, signer, salt, spoiled):
        vote = self.scheme.sign(kind, on, signer, salt)
        return Vote(kind, on, signer, bytes([vote.signature[0] ^ 1]) + vote.signature[1:]) if spoiled else vote

    def vote(self, kind):
        signer, attestation = self.number(), self.number()
        return self.sign(kind, self.on(kind), signer, attestation // 2, attestation % 2)

    def certificate(self, kind):
        signers, listed = self.word(), []
        on = self.on(kind)
        for signer in signers.split(",") if signers != "-" else ():
            index, _, salt = signer.rstrip("!").partition("/")
            vote = self.sign(VOTES_OF[kind], on, int(index), int(salt or 0), signer.endswith("!"))
            listed.append((vote.signer, vote.signature))
        return Certificate(kind, on, tuple(listed))

    def message(self, kind):
        if kind in VOTE_TAGS:
            return self.vote(kind)
        if kind in VOTES_OF:
            return self.certificate(kind)
        raise Unclear(f"{kind} is no vote or certificate")

    def artifact(self):
        kind = self.word()
        return Verdict(self.round(), self.truth()) if kind == "certification" else self.message(kind)

    def report(self):
        kind = self.word()
        if kind == "certification":
            return Certified(self.certificate("notarization"))
        if kind in EVIDENCE:
            return Evidence(kind, self.message(self.word()), self.message(self.word()))
        return self.message(kind)

    def packet(self):
        """A channel and bytes."""
        kind = self.word()
        if kind in CHANNELS:
            return kind, bytes.fromhex(self.word().replace("-", ""))
        if kind == "ask":
            return FETCH_CHANNEL, codec.varint(self.number())
        message = self.message(kind)
        if isinstance(message, Vote):
            return VOTE_CHANNEL, codec.vote_bytes(message)
        return CERTIFICATE_CHANNEL, codec.certificate_bytes(message)

    def event(self):
        kind = self.word()
        if kind == "packet":
            return Packet(self.number(), *self.packet())
        if kind == "built":
            return BuiltAnswer(self.number(), self.payload())
        if kind == "checked":
            return CheckedAnswer(self.number(), self.truth())
        if kind == "verdict":
            return VerdictAnswer(self.number(), self.truth())
        if kind == "moment":
            return Moment(self.number())
        raise Unclear(f"{kind} is no event")

    def forward(self):
        payload, plan = self.payload(), self.word()
        if plan in ("prepare", "propose"):
            return Forward(payload, plan, self.round())
        return Forward(payload, "forward", self.round(), tuple(map(int, plan.split(","))))

    def action(self):
        kind = self.word()
        if kind == "send":
            to = self.word()
            return Send(None if to == "all" else int(to), *self.packet())
        if kind == "build":
            number, handoff = self.number(), self.truth()
            return Build(number, handoff, Context(self.number(), self.number(), key(self.number()), self.number(), self.payload()))
        if kind == "verify":
            number, leader, payload = self.number(), self.number(), self.payload()
            on = self.proposal()
            return Verify(number, Context(on.epoch, on.view, key(leader), on.parent, payload), on)
        simple = {"certify": (Certify, self.proposal), "finalized": (Finalized, self.proposal), "report": (Report, self.report)}
        simple |= {"block": (Block, self.number), "wake": (Wake, self.number)}
        if kind == "forward":
            return self.forward()
        if kind not in simple:
            raise Unclear(f"{kind} is no action")
        make, read = simple[kind]
        return make(read())

    def end(self, got):
        if self.words:
            raise Unclear(f"left over: {' '.join(self.words)}")
        return got


def payload_of(word):
    return Words(word, None).payload()


def is_hexadecimal(text):
    """One word of bytes, and no name or number of a few digits is meant."""
    return " " not in text and len(text) % 2 == 0 and all(digit in "0123456789abcdef" for digit in text)


def _either(text, scheme, by_bytes, by_words):
    if is_hexadecimal(text):
        return whole(bytes.fromhex(text), scheme.signature_size, scheme.members, by_bytes)
    words = Words(text, scheme)
    return words.end(by_words(words))


def event_of(text, scheme):
    """An event by the bytes of its spelling in hexadecimal digits, or by words."""
    return _either(text, scheme, Reader.event, Words.event)


def artifact_of(text, scheme):
    if is_hexadecimal(text):
        return whole(bytes.fromhex(text), scheme.signature_size, 65_535, Reader.artifact)
    return _either(text, scheme, None, Words.artifact)


def reply_of(text, scheme):
    """A reply by its bytes in hexadecimal digits, or by words."""
    if is_hexadecimal(text):
        return whole(bytes.fromhex(text), scheme.signature_size, scheme.members, Reader.reply)
    parts, refused = [part.strip() for part in text.split(" , ")], 0
    if parts[0].startswith("refused "):
        refused = int(parts.pop(0).removeprefix("refused "))
    elif parts == ["nothing"]:
        parts = []
    actions = []
    for part in (one for part in parts for one in each_view(part)):
        words = Words(part, scheme)
        actions.append(words.end(words.action()))
    return Reply(refused, tuple(actions))


def each_view(part):
    """An ask for views from a first to a last as one for each."""
    asked, dots, last = part.partition("..")
    if not dots:
        return [part]
    rest, _, first = asked.rpartition(" ")
    return [f"{rest} {view}" for view in range(int(first), int(last) + 1)]


# ---- writing


def payload(data):
    return "-" if data is None else str(data[0]) if len(set(data)) == 1 else data.hex()


def on(it):
    return f"{it.epoch} {it.view} {it.parent} {payload(it.payload)}" if isinstance(it, Proposal) else f"{it.epoch} {it.view}"


def attestation(scheme, kind, on_, signer, signature):
    """Twice the salt, and one more where it doesn't attest."""
    salt = int.from_bytes(signature[: scheme.salt], "big")
    return 2 * salt + (not scheme.attests(Vote(kind, on_, signer, signature)))


def message(it, scheme):
    """A vote, a certificate, a verdict or a report."""
    if isinstance(it, Vote):
        return f"{it.kind} {it.signer} {attestation(scheme, it.kind, it.on, it.signer, it.signature)} {on(it.on)}"
    if isinstance(it, Certificate):
        kind, signers = VOTES_OF[it.kind], []
        for signer, signature in it.attestations:
            sign = attestation(scheme, kind, it.on, signer, signature)
            signers.append(str(signer) + (f"/{sign // 2}" if sign // 2 else "") + "!" * (sign % 2))
        return f"{it.kind} {','.join(signers) or '-'} {on(it.on)}"
    if isinstance(it, Verdict):
        return f"certification {on(it.on)} {int(it.ok)}"
    if isinstance(it, Certified):
        return message(it.notarization, scheme).replace("notarization", "certification", 1)
    return f"{it.kind} {message(it.first, scheme)} {message(it.second, scheme)}"


def packet(channel, data, scheme):
    try:
        got = whole(data, scheme.signature_size, scheme.members, lambda reader: Reader.packet(reader, channel))
    except codec.Unreadable:
        return f"{channel} {data.hex() or '-'}"
    return f"ask {got}" if channel == FETCH_CHANNEL else message(got, scheme)


TRUTH_WORDS = {truth: word for word, truth in TRUTHS.items()}


def event(it, scheme):
    match it:
        case Packet(sender, channel, data):
            return f"packet {sender} {packet(channel, data, scheme)}"
        case BuiltAnswer(number, given):
            return f"built {number} {payload(given)}"
        case CheckedAnswer(number, answer):
            return f"checked {number} {TRUTH_WORDS[answer]}"
        case VerdictAnswer(view, ok):
            return f"verdict {view} {int(ok)}"
        case Moment(now):
            return f"moment {now}"


def leader(context):
    return int.from_bytes(context.leader, "big")


def action(it, scheme):
    match it:
        case Send(to, channel, data):
            return f"send {'all' if to is None else to} {packet(channel, data, scheme)}"
        case Block(member):
            return f"block {member}"
        case Build(number, handoff, c):
            return f"build {number} {int(handoff)} {c.epoch} {c.view} {leader(c)} {c.parent} {payload(c.parent_payload)}"
        case Verify(number, c, proposal):
            return f"verify {number} {leader(c)} {payload(c.parent_payload)} {on(proposal)}"
        case Certify(proposal):
            return f"certify {on(proposal)}"
        case Forward(given, plan, at, members):
            return f"forward {payload(given)} {','.join(map(str, members)) or '-' if plan == 'forward' else plan} {on(at)}"
        case Finalized(proposal):
            return f"finalized {on(proposal)}"
        case Report(activity):
            return f"report {message(activity, scheme)}"
        case Wake(moment):
            return f"wake {moment}"


def reply(it, scheme):
    parts = [f"refused {it.refused}"] if it.refused else []
    return " , ".join([*parts, *(action(one, scheme) for one in it.actions)]) or "nothing"




def point(it, scheme):
    """A point of a history, by its name and what it tells."""
    told = []
    for name, given in vars(it).items():
        if isinstance(given, (Vote, Certificate, Verdict)):
            told.append(message(given, scheme))
        elif isinstance(given, (Proposal, Round)):
            told.append(f"{name} {on(given)}")
        elif isinstance(given, Context):
            told.append(f"{name} {given.epoch} {given.view} {leader(given)} {given.parent} {payload(given.parent_payload)}")
        elif isinstance(given, bytes):
            told.append(f"{name} {payload(given)}")
        else:
            told.append(f"{name} {given}")
    return f"{type(it).__name__}: {', '.join(told)}" if told else type(it).__name__
