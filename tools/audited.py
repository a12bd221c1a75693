"""Reports, and what an audit finds in them, by a plain slow definition: what docs/FORMATS.md says, word by word.

A report is read by bench/vectors.py, from the left and one behind the other. Its votes are it, both votes of
evidence, or one for each attestation that a certificate lists. Those that verify count. Two of one round and signer
contradict each other where both are notarizes or both finalizes, for two proposals, or one is a nullify and one a
finalize. Of each round and signer, in order, and of each way to contradict there is one piece of evidence: of the
least two proposals, or of the least beside a nullify, and of each the vote that was read first.
"""

import hashlib
import sys
from functools import lru_cache

from script_rows import TOP, sum_of

sys.path.insert(0, str(TOP / "bench"))

import vectors  # noqa: E402


class Plain:
    """The plain scheme: one signature of each signer on each subject."""

    name = "plain"
    signature_size = 32

    @staticmethod
    def signature(signer, kind, subject, salt=0):
        return vectors.signature(signer, kind, subject)


class Salted:
    """The salted scheme: a counter of 8 bytes, and the hash of it and of what the plain scheme hashes."""

    name = "salted"
    signature_size = 40

    @staticmethod
    def signature(signer, kind, subject, salt=0):
        counter = salt.to_bytes(8, "big")
        return counter + hashlib.sha256(counter + vectors.hashed(signer, kind, subject)).digest()


def signed_by(scheme, signer, kind, subject, salt=0):
    """The vote of this signer."""
    signature = scheme.signature(signer, kind, subject, salt)
    return (kind, subject, ("attestation", signer, signature))


@lru_cache(maxsize=None)
def verifies(scheme, members, vote):
    kind, subject, (_, signer, given) = vote
    salt = int.from_bytes(given[:8], "big")
    return signer < members and given == scheme.signature(signer, kind, subject, salt)


def certificate(scheme, kind, signers, subject, salt=0):
    votes = [signed_by(scheme, signer, vectors.VOTE_OF[kind], subject, salt) for signer in signers]
    return (kind, subject, ("list",) + tuple(vote[2] for vote in votes))


def report(message):
    """The bytes of a report."""
    return vectors.tagged("Activity", message)


def messages_of(scheme, members, data):
    """The reports that the bytes begin with, and the place of the first byte at which none stands, if any."""
    messages, rest = [], data
    while rest:
        read = vectors.read("Activity", rest, members, scheme.signature_size)
        if isinstance(read, str):
            return messages, len(data) - len(rest)
        message, rest = read
        messages.append(message)
    return messages, None


def votes_of(message):
    kind, *items = message
    if kind == "certified":
        return votes_of(items[0])
    if kind in vectors.VOTE_OF:
        subject, listed = items
        return [(vectors.VOTE_OF[kind], subject, each) for each in listed[1:]]
    if kind in ("notarize", "nullify", "finalize"):
        return [message]
    return items


def round_and_signer(vote):
    """Epoch, view and signer."""
    return vectors.round_of(vote)[1:] + (vectors.signer_of(vote),)


def firsts(votes, kind):
    """Of the votes of the kind the first for each choice, by the choices in order: parent, then payload."""
    first = {}
    for vote in votes:
        if vote[0] == kind:
            choice = () if kind == "nullify" else vote[1][2:]
            first.setdefault(choice, vote)
    return [first[choice] for choice in sorted(first)]


def evidence_of(votes):
    """The evidence against the one signer of these votes, all of one round."""
    notarizes, nullifies, finalizes = (
        firsts(votes, kind) for kind in ("notarize", "nullify", "finalize")
    )
    if len(notarizes) > 1:
        yield ("conflicting-notarize", notarizes[0], notarizes[1])
    if len(finalizes) > 1:
        yield ("conflicting-finalize", finalizes[0], finalizes[1])
    if nullifies and finalizes:
        yield ("nullify-finalize", nullifies[0], finalizes[0])


def audit(scheme, members, data):
    """The evidence, in order, and the place of the fault."""
    messages, fault = messages_of(scheme, members, data)
    cast = {}
    for message in messages:
        for vote in votes_of(message):
            if verifies(scheme, members, vote):
                cast.setdefault(round_and_signer(vote), []).append(vote)
    return [piece for key in sorted(cast) for piece in evidence_of(cast[key])], fault


def names_of(evidence):
    """Whom evidence is against, and of what."""
    return [(piece[0],) + round_and_signer(piece[1]) for piece in evidence]


def in_words(vote):
    """A vote: kind, signer, the sum of its signature, and what it is for."""
    kind, subject, (_, signer, given) = vote
    words = [kind, signer, sum_of(given)]
    if kind == "nullify":
        return " ".join(map(str, words + list(subject[1:])))
    _, (_, epoch, view), parent, payload = subject
    told = payload[0] if len(set(payload)) == 1 else payload.hex()
    return " ".join(map(str, words + [epoch, view, parent, told]))


def evidence_in_words(evidence):
    return " , ".join(f"{kind} {in_words(one)} {in_words(two)}" for kind, one, two in evidence) or "-"


def lines_of(evidence, fault):
    """What `simplex audit` prints."""
    lines = ""
    for kind, one, two in evidence:
        proposals = [two[1]] if kind == "nullify-finalize" else [one[1], two[1]]
        lines += "{} epoch {} view {} signer {}".format(kind, *round_and_signer(one))
        for _, _, parent, payload in proposals:
            lines += f" parent {parent} payload {payload.hex()}"
        lines += "\n"
    if fault is not None:
        lines += f"fault at byte {fault}\n"
    return lines
