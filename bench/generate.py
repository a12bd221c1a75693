#!/usr/bin/env python3
"""Makes inputs for `simplex audit`, the same ones for the same seed.

The shapes:
  views     notarizes in the order of the views, by every member in each view
  round     all notarizes in one round, each for a proposal of its own
  signer    one signer casts all notarizes, in successive views
  shuffled  the reports of `views` in no order
  kinds     votes, certificates and evidence of all kinds, in the order of the views
  certificates-4, certificates-100, certificates-1000
            certificates of all kinds in the order of the views, each by a quorum of so many
  forged    the votes of `views`, of which none verifies
  twice     the members' notarizes of two proposals in each view
  falling   all members' notarizes in one round, each for a lesser proposal than the one before
  descending
            one signer's notarizes of two proposals in each view, the last view first
  crossed   of each round a nullification and a finalization by the whole committee, which has half as many members as there
            are votes, and 65,535 at most
  stored    the two votes of the repository's stored run; their output goes to OUT_stdout

Beside the shape's votes each has evidence, or certificates that contradict each other.
"""

import argparse
import hashlib
import itertools
import random

TAGS = {
    "notarize": b"\x00",
    "notarization": b"\x01",
    "certification": b"\x02",
    "nullify": b"\x03",
    "nullification": b"\x04",
    "finalize": b"\x05",
    "finalization": b"\x06",
    "conflicting-notarize": b"\x07",
    "conflicting-finalize": b"\x08",
    "nullify-finalize": b"\x09",
}
VOTE_OF = {
    "notarization": "notarize",
    "certification": "notarize",
    "nullification": "nullify",
    "finalization": "finalize",
}
EPOCH = 0

# How many members the committee has: what `simplex audit` has to be told.
MEMBERS = {
    "views": 100,
    "round": 100,
    "signer": 100,
    "shuffled": 100,
    "kinds": 100,
    "certificates-4": 5,
    "certificates-100": 149,
    "certificates-1000": 1499,
    "forged": 100,
    "twice": 100,
    "falling": 100,
    "descending": 100,
    "crossed": 65535,
    "stored": 4,
}


def members_of(shape, votes):
    """The same for so many votes: that of `crossed` grows with them, so that each size has whole certificates."""
    return max(4, min(votes // 2, MEMBERS[shape])) if shape == "crossed" else MEMBERS[shape]


# The shapes that are measured.
MEASURED = [shape for shape in MEMBERS if shape != "stored"]

# One loose vote in so many has evidence beside it, from two others where it is of two proposals.
GUILTY = 1000
# One loose vote or certificate in so many does not verify.
FORGED = 200
# One report in so many of the shape `round` is evidence; there every signer is guilty.
EVIDENCE = 500
# One view in so many, and the second, has certificates that contradict each other.
SPLIT = 100


def varint(value):
    groups = bytearray()
    while value >= 0x80:
        groups.append(value & 0x7F | 0x80)
        value >>= 7
    groups.append(value)
    return bytes(groups)


def spell_round(epoch, view):
    return varint(epoch) + varint(view)


def spell_proposal(epoch, view, parent, payload):
    return spell_round(epoch, view) + varint(parent) + payload


def attest(kind, index, subject):
    """The attestation of a vote of this kind for the subject, a spelled round or proposal."""
    namespace = b"simplex_" + kind.upper().encode()
    signed = index.to_bytes(4, "big") + len(namespace).to_bytes(4, "big") + namespace + subject
    return varint(index) + hashlib.sha256(signed).digest()


def spell_vote(kind, index, subject):
    return subject + attest(kind, index, subject)


def quorum(members):
    return members - (members - 1) // 3


class Source:
    """All that the seed decides."""

    def __init__(self, seed):
        self.random = random.Random(seed)

    def one_in(self, many):
        return self.random.random() * many < 1

    def proposal(self, view):
        return spell_proposal(EPOCH, view, view - 1, self.random.randbytes(32))

    def forged(self, message):
        """The vote or certificate, seldom with the last bit of its last signature turned over."""
        if self.one_in(FORGED):
            return message[:-1] + bytes([message[-1] ^ 1])
        return message

    def vote(self, kind, index, subject):
        return self.forged(spell_vote(kind, index, subject))

    def certificate(self, kind, members, subject):
        """A report of a certificate by some quorum, with how many votes it has."""
        signers = sorted(self.random.sample(range(members), quorum(members)))
        listed = b"".join(attest(VOTE_OF[kind], index, subject) for index in signers)
        message = self.forged(subject + varint(len(signers)) + listed)
        return len(signers), TAGS[kind] + message


# The reports of a shape, each with how many votes it has.


def loose(kind, vote):
    return 1, TAGS[kind] + vote


def evidence(kind, first, second):
    return 2, TAGS[kind] + first + second


def guilty_reports(source, kind, first, second):
    """Two others report the evidence, and the second vote need not be seen outside of it."""
    if source.one_in(2):
        yield loose(kind, second)
    yield evidence(f"conflicting-{kind}", first, second)
    yield evidence(f"conflicting-{kind}", second, first)


def voted(source, kind, view, proposal, signers):
    """Each signer's vote for the proposal, and evidence against some."""
    for index in signers:
        vote = source.vote(kind, index, proposal)
        yield loose(kind, vote)
        if source.one_in(GUILTY):
            second = source.vote(kind, index, source.proposal(view))
            yield from guilty_reports(source, kind, vote, second)


def views(source, signers):
    for view in itertools.count(1):
        yield from voted(source, "notarize", view, source.proposal(view), signers)


def one_round(source, signers):
    for index in itertools.cycle(signers):
        vote = source.vote("notarize", index, source.proposal(1))
        if source.one_in(EVIDENCE):
            second = source.vote("notarize", index, source.proposal(1))
            yield evidence("conflicting-notarize", vote, second)
        else:
            yield loose("notarize", vote)


def forged(source, signers):
    """Each signer's vote in each view, with a signature on nothing."""
    for view in itertools.count(1):
        proposal = source.proposal(view)
        for index in signers:
            vote = proposal + varint(index) + source.random.randbytes(32)
            yield loose("notarize", vote)


def twice(source, signers):
    """Each signer's votes for two proposals in each view."""
    for view in itertools.count(1):
        for proposal in (source.proposal(view), source.proposal(view)):
            for index in signers:
                yield loose("notarize", spell_vote("notarize", index, proposal))


def falling(source, signers):
    """Votes in one round, each for a proposal with a lesser payload than all before."""
    for count in itertools.count(1):
        payload = (2**256 - count * 2**200).to_bytes(32, "big")
        proposal = spell_proposal(EPOCH, 1, 0, payload)
        for index in signers:
            yield loose("notarize", spell_vote("notarize", index, proposal))


def descending(source, signers):
    """One signer's votes for two proposals in each view, from a view of three bytes down."""
    index = len(signers) // 2
    for view in range(2**21 - 1, 0, -1):
        for proposal in (source.proposal(view), source.proposal(view)):
            yield loose("notarize", spell_vote("notarize", index, proposal))


def crossed(source, signers):
    """All give each view up, and finalize it."""
    for view in itertools.count(1):
        for kind, subject in (("nullification", spell_round(EPOCH, view)), ("finalization", source.proposal(view))):
            listed = b"".join(attest(VOTE_OF[kind], index, subject) for index in signers)
            yield len(signers), TAGS[kind] + subject + varint(len(signers)) + listed


def given_up(source, round_, proposal, signers):
    """Each signer's vote to give the round up, and evidence that some finalized the proposal."""
    for index in signers:
        vote = source.vote("nullify", index, round_)
        yield loose("nullify", vote)
        if source.one_in(GUILTY):
            finalize = source.vote("finalize", index, proposal)
            yield evidence("nullify-finalize", vote, finalize)


def kinds(source, members):
    """One view in two is given up, after its proposal was certified."""
    everyone = range(members)
    for view in itertools.count(1):
        round_, proposal = spell_round(EPOCH, view), source.proposal(view)
        yield from voted(source, "notarize", view, proposal, everyone)
        yield source.certificate("notarization", members, proposal)
        yield source.certificate("certification", members, proposal)
        if view % 2 == 0:
            yield from given_up(source, round_, proposal, everyone)
            yield source.certificate("nullification", members, round_)
        else:
            yield from voted(source, "finalize", view, proposal, everyone)
            yield source.certificate("finalization", members, proposal)


def certificates(source, members):
    """One view in two is given up, after its proposal was certified; those that are split are
    certified and finalized twice."""
    for view in itertools.count(1):
        round_, proposal = spell_round(EPOCH, view), source.proposal(view)
        yield source.certificate("notarization", members, proposal)
        yield source.certificate("certification", members, proposal)
        if view % 2 == 1 or view % SPLIT == 2:
            yield source.certificate("finalization", members, proposal)
        if view % SPLIT == 2:
            other = source.proposal(view)
            yield source.certificate("notarization", members, other)
            yield source.certificate("finalization", members, other)
        if view % 2 == 0:
            yield source.certificate("nullification", members, round_)


HOSTILE = {"forged": forged, "twice": twice, "falling": falling, "descending": descending, "crossed": crossed}


def taken(reports, votes):
    """The first reports with so many votes, or a few more where the last holds several."""
    for count, message in reports:
        if votes <= 0:
            return
        votes -= count
        yield message


def generate(shape, votes, seed):
    source = Source(seed)
    members = members_of(shape, votes)
    if shape == "round":
        reports = one_round(source, range(members))
    elif shape == "signer":
        reports = views(source, [members // 2])
    elif shape == "kinds":
        reports = kinds(source, members)
    elif shape.startswith("certificates"):
        reports = certificates(source, members)
    elif shape in HOSTILE:
        reports = HOSTILE[shape](source, range(members))
    else:
        reports = views(source, range(members))
    messages = taken(reports, votes)
    if shape == "shuffled":
        messages = list(messages)
        source.random.shuffle(messages)
    return messages


def write_stored(path):
    """Two votes of signer 1 in round (0, 2), and the line that an audit of them prints."""
    payloads = [b"\xaa" * 32, b"\xbb" * 32]
    proposals = [spell_proposal(0, 2, 1, payload) for payload in payloads]
    with open(path, "wb") as out:
        out.writelines(TAGS["notarize"] + spell_vote("notarize", 1, it) for it in proposals)
    choices = "".join(f" parent 1 payload {payload.hex()}" for payload in payloads)
    with open(path + "_stdout", "w") as out:
        out.write(f"conflicting-notarize epoch 0 view 2 signer 1{choices}\n")


def arguments():
    parser = argparse.ArgumentParser(
        description=__doc__, formatter_class=argparse.RawDescriptionHelpFormatter
    )
    parser.add_argument("--shape", choices=MEMBERS, required=True)
    parser.add_argument("--votes", type=int, default=10000, help="how many votes")
    parser.add_argument("--seed", type=int, default=1)
    parser.add_argument("--out", required=True)
    return parser.parse_args()


def main():
    given = arguments()
    if given.shape == "stored":
        write_stored(given.out)
        return
    messages = generate(given.shape, given.votes, given.seed)
    with open(given.out, "wb") as out:
        out.writelines(messages)


if __name__ == "__main__":
    main()
