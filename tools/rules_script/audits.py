"""Audits, by the plain slow definition in audited.py."""

import random
from itertools import permutations

# audited.py says where bench/ is.
from audited import (
    Plain, Salted, audit, certificate, evidence_in_words, names_of, report, signed_by, vectors,
)
import check_baseline
from rules_script.common import LAST, ROUND_3, quorum, script
from script_rows import digits, listed, sum_of


class Kept:
    """What the driver keeps, each piece under its number."""

    def __init__(self):
        script.reset()
        self.pieces = []
        self.numbers = {}

    def keep(self, data):
        if data not in self.numbers:
            self.pushed(f"keep {digits(data)}", data)
        return self.numbers[data]

    def report(self, message):
        return self.keep(report(message))

    def pushed(self, call, data):
        script.ask(call, len(self.pieces))
        self.numbers.setdefault(data, len(self.pieces))
        self.pieces.append(data)
        return len(self.pieces) - 1

    def joined(self, numbers):
        return b"".join(self.pieces[it] for it in numbers)

    def front(self, length, numbers):
        return self.pushed(f"front {length} {listed(numbers)}", self.joined(numbers)[:length])

    def audit(self, scheme, members, numbers, wanted=None, fault=None):
        """The row of an audit of these pieces. `wanted` and `fault` are worked by hand."""
        evidence, place = audit(scheme, members, self.joined(numbers))
        if wanted is not None:
            assert (evidence, place) == (list(wanted), fault), (evidence, place, wanted)
        place = "-" if place is None else place
        script.ask(f"audit {scheme.name} {members} {listed(numbers)}", f"{place} {evidence_in_words(evidence)}")
        return evidence

    def audit_sum(self, scheme, members, numbers):
        evidence, place = audit(scheme, members, self.joined(numbers))
        data = b"".join(map(report, evidence))
        place = "-" if place is None else place
        script.ask(f"audit_sum {scheme.name} {members} {listed(numbers)}", f"{place} {len(data)} {sum_of(data)}")


ROUND_2 = ("round", 0, 2)
LISTING = {"notarize": "notarization", "nullify": "nullification", "finalize": "finalization"}


def proposal(payload, round_=ROUND_2, parent=1):
    return ("proposal", round_, parent, bytes([payload]) * 32)


def subject_of(kind, payload, round_, parent=1):
    return round_ if kind == "nullify" else proposal(payload, round_, parent)


def vote(scheme, kind, payload, salt=0, signer=1, round_=ROUND_2, parent=1):
    """The signer's vote, by the byte that its payload repeats."""
    return signed_by(scheme, signer, kind, subject_of(kind, payload, round_, parent), salt)


def forged(scheme, kind, payload, salt=100, signer=1, round_=ROUND_2):
    """The same with what the signer signed to give view 9 up."""
    elsewhere = scheme.signature(signer, "nullify", ("round", 0, 9), salt)
    return (kind, subject_of(kind, payload, round_), ("attestation", signer, elsewhere))


def salted_vote(kind, payload=10, salt=0, signer=1, round_=ROUND_2):
    """A counter of 0, or of 100 and more, stands for a forged vote."""
    make = forged if salt == 0 or salt >= 100 else vote
    return make(Salted, kind, payload, salt, signer, round_)


def notarize(payload, salt):
    return salted_vote("notarize", payload, salt)


def nullify(salt):
    return salted_vote("nullify", 10, salt)


def finalize(payload, salt):
    return salted_vote("finalize", payload, salt)


def conflict(one, two):
    return (f"conflicting-{one[0]}", one, two)


def beside(one, two):
    return ("nullify-finalize", one, two)


def audit_votes(kept, votes, wanted):
    kept.audit(Salted, 4, [kept.report(it) for it in votes], wanted)


def worked_ballots():
    kept = Kept()
    script.note(
        "worked by hand: of the votes for a proposal the one that is read first and verifies is kept,"
        " of the least two proposals"
    )
    for votes, one, two in (
        ([(10, 0), (10, 1), (11, 2), (10, 3), (11, 0), (11, 4)], (10, 1), (11, 2)),
        ([(12, 1), (11, 0), (11, 2), (11, 3), (10, 0), (10, 4), (10, 5)], (10, 4), (11, 2)),
        ([(11, 5), (12, 1), (10, 6), (12, 2), (11, 1), (10, 1)], (10, 6), (11, 5)),
    ):
        wanted = [conflict(notarize(*one), notarize(*two))]
        audit_votes(kept, [notarize(*it) for it in votes], wanted)
    script.note(
        "worked by hand: the nullify that is read first stands beside the finalize for the least "
        "proposal"
    )
    finalizes = [(12, 1), (10, 0), (13, 2), (11, 0), (11, 3), (11, 4), (12, 5)]
    audit_votes(
        kept,
        [nullify(0), nullify(7), nullify(8)] + [finalize(*it) for it in finalizes],
        [conflict(finalize(11, 3), finalize(12, 1)), beside(nullify(7), finalize(11, 3))],
    )
    script.note("worked by hand: unequal signatures on one proposal don't contradict each other")
    one, again, other = finalize(10, 7), finalize(10, 8), finalize(11, 9)
    audit_votes(kept, [one, again], [])
    audit_votes(kept, [one, again, other], [conflict(one, other)])


def worked_claims():
    kept = Kept()
    script.note("worked by hand: forged votes shadow no true one for the same proposal")
    false, again = notarize(10, 100), notarize(10, 101)
    first, second, other = notarize(10, 1), notarize(10, 2), notarize(11, 3)
    for votes in (
        [false, first, other],
        [first, false, other],
        [false, again, first, second, other],
        [false, first, again, other, false],
        [false, false, other, first, second],
        [other, false, false, again, first],
    ):
        audit_votes(kept, votes, [conflict(first, other)])
    script.note("worked by hand: nor for another proposal")
    low, high = finalize(9, 100), finalize(13, 100)
    first, second = finalize(10, 1), finalize(11, 2)
    for votes in (
        [low, first, second],
        [first, low, second],
        [first, second, low],
        [high, first, low, second],
        [high, low, second, first],
        [second, high, low, high, first],
    ):
        audit_votes(kept, votes, [conflict(first, second)])
    script.note("worked by hand: forged votes alone name nobody")
    for votes in (
        [notarize(10, 100), notarize(11, 1)],
        [notarize(11, 1), notarize(10, 100)],
        [nullify(100), finalize(10, 1)],
        [nullify(1), finalize(10, 100)],
        [nullify(100), finalize(10, 100)],
    ):
        audit_votes(kept, votes, [])
    script.note("worked by hand: claims stand on both sides of a nullify beside a finalize")
    given_up, final = nullify(1), finalize(10, 2)
    for votes in (
        [given_up, final],
        [final, given_up],
        [nullify(100), final, given_up],
        [finalize(9, 100), given_up, final],
        [nullify(100), finalize(9, 100), final, given_up, nullify(3)],
    ):
        audit_votes(kept, votes, [beside(given_up, final)])


def worked_rounds():
    kept = Kept()

    def cast(kind, payload, salt, epoch, view):
        return salted_vote(kind, payload, salt, 1, ("round", epoch, view))

    script.note(
        "worked by hand: a second proposal is found wherever its round came: at first nothing, then "
        "the vote for another"
    )
    for rounds, again in (
        # In order: the last, the first, and one between.
        ([(0, 2), (0, 3), (0, 4)], (0, 4)),
        ([(0, 2), (0, 3), (0, 4)], (0, 2)),
        ([(0, 2), (0, 3), (0, 4)], (0, 3)),
        # Late: below all, between two, and the last of several.
        ([(0, 5), (0, 2)], (0, 2)),
        ([(0, 2), (0, 5), (0, 3)], (0, 3)),
        ([(0, 9), (0, 4), (0, 2), (0, 7)], (0, 7)),
        ([(0, 9), (0, 8), (0, 7), (0, 6)], (0, 6)),
        # In order beside late ones.
        ([(0, 5), (0, 3), (0, 6)], (0, 6)),
        ([(0, 5), (0, 3), (0, 6)], (0, 5)),
        # Far apart, and at the ends.
        ([(0, 2), (0, LAST)], (0, LAST)),
        ([(0, LAST), (0, 2)], (0, 2)),
        # An epoch stands above each view of those before.
        ([(1, 2), (0, LAST)], (0, LAST)),
        ([(0, LAST), (1, 2)], (1, 2)),
        ([(LAST, 2), (0, LAST), (LAST, LAST), (7, 2)], (7, 2)),
    ):
        votes = [cast("notarize", 10, 1, *it) for it in rounds]
        audit_votes(kept, votes, [])
        other = cast("notarize", 11, 2, *again)
        audit_votes(kept, votes + [other], [conflict(cast("notarize", 10, 1, *again), other)])
    script.note("worked by hand: votes for one proposal accuse nobody however late")
    first, again, other = ("notarize", 10, 1), ("notarize", 10, 3), ("notarize", 11, 2)
    for casts in (
        [(0, 2, first), (0, 2, again)],
        [(0, 2, first), (0, 3, other), (0, 2, again), (0, 3, other)],
        [(0, 5, first), (0, 2, other), (0, 5, again), (0, 2, other)],
        [(0, LAST, first), (0, 2, other), (0, 3, first), (0, 2, other)],
    ):
        audit_votes(kept, [cast(*it, epoch, view) for epoch, view, it in casts], [])
    script.note("worked by hand: a nullify stands beside a finalize of its round alone")
    given_up, final = ("nullify", 10, 1), ("finalize", 10, 2)
    found = beside(cast(*given_up, 0, 4), cast(*final, 0, 4))
    for casts in (
        [(0, 4, final), (0, 4, given_up)],
        [(0, 2, final), (0, 4, final), (0, 6, final), (0, 4, given_up)],
        [(0, 6, final), (0, 4, final), (0, 4, given_up)],
        [(0, 4, given_up), (0, 6, final), (0, 2, final), (0, 4, final)],
        # A late finalize for what the last round's is for, in a view of that number.
        [(1, 4, final), (0, 4, final), (1, 6, final), (0, 4, given_up)],
    ):
        audit_votes(kept, [cast(*it, epoch, view) for epoch, view, it in casts], [found])
    for casts in (
        [(0, 2, final), (0, 6, final), (0, 4, given_up)],
        [(0, 6, final), (0, 2, final), (0, 4, given_up)],
        [(0, 4, final), (1, 4, given_up), (0, LAST, given_up)],
    ):
        audit_votes(kept, [cast(*it, epoch, view) for epoch, view, it in casts], [])
    script.note("worked by hand: evidence of many rounds comes in their order")
    rounds = [(1, 2), (0, LAST), (0, 7), (1, 9), (0, 8)]
    votes = [cast(*it, *round_) for it in (first, other) for round_ in rounds]
    ordered = [(0, 7), (0, 8), (0, LAST), (1, 2), (1, 9)]
    audit_votes(kept, votes, [conflict(cast(*first, *it), cast(*other, *it)) for it in ordered])


def worked_hostile():
    kept = Kept()
    script.note("worked by hand: a certificate below the quorum doesn't verify, and its vote counts")
    lone = kept.report(certificate(Plain, "finalization", [1], proposal(10)))
    ten, eleven = vote(Plain, "finalize", 10), vote(Plain, "finalize", 11)
    script.ask(f"right 4 {lone}", "false")
    kept.audit(Plain, 4, [lone, kept.report(eleven)], [conflict(ten, eleven)])
    script.ask(f"right 4 {kept.report(eleven)}", "true")
    script.ask(f"right 4 {kept.report(certificate(Plain, 'finalization', [0, 1, 2], proposal(10)))}", "true")
    script.ask(f"right 4 {kept.keep(b'')}", "End")
    script.note("worked by hand: members past the committee are not named")
    ten, eleven = (vote(Plain, "finalize", it, signer=7) for it in (10, 11))
    numbers = [kept.report(ten), kept.report(eleven)]
    kept.audit(Plain, 8, numbers, [conflict(ten, eleven)])
    kept.audit(Plain, 7, numbers, [])
    script.note("worked by hand: a hundred thousand messages of one signer are one piece")
    ten, eleven = vote(Plain, "finalize", 10), vote(Plain, "finalize", 11)
    numbers = [kept.report(eleven), kept.report(ten)]
    for times in (1, 2, 3):
        assert audit(Plain, 4, kept.joined(numbers * times)) == ([conflict(ten, eleven)], None)
    script.ask(f"repeat 50000 {listed(numbers)}", len(kept.pieces))
    script.ask(f"audit plain 4 {len(kept.pieces)}", f"- {evidence_in_words([conflict(ten, eleven)])}")
    script.note("worked by hand: a committee has 1 to 65,535 members, and what isn't a call")
    for members in (0, 65536):
        for scheme in ("plain", "salted"):
            script.ask(f"audit {scheme} {members} -", "condition")
        script.ask(f"right {members} 0", "condition")
    script.ask("audit plain 65535 -", "- -")
    script.ask("audit_sum plain 65535 -", "- 0 0")
    for line in (
        "keep", "keep 0", "keep 0G", "repeat 1", "front 1 1000", "audit plain 4", "audit plain 4 1000",
        "audit sealed 4 0", "audit plain 4 0 0", "audit_sum plain 0,0", "right 4 1000", "right plain 4 0",
    ):
        script.ask(line, "unreadable")


def worked_flood():
    kept = Kept()
    script.note(
        "worked by hand: forged votes of three members for two hundred proposals, by growing and by "
        "falling payload, of which each member has a true one, and all but member 1 another: only "
        "these two are named"
    )
    true = {99: (120, 1), 150: (110, 2)}
    wanted = [
        conflict(*(salted_vote("notarize", payload, salt, it) for payload, salt in ((110, 2), (120, 1))))
        for it in (0, 2)
    ]
    for is_falling in (False, True):
        numbers = []
        for step in range(200):
            for member in range(3):
                payload, salt = (255 - step if is_falling else step), 100 + step
                if step == 99 or (step == 150 and member != 1):
                    payload, salt = true[step]
                numbers.append(kept.report(salted_vote("notarize", payload, salt, member)))
        kept.audit(Salted, 4, numbers, wanted)


def worked_certificates():
    kept = Kept()
    script.note(
        "worked by hand: finalizations of two proposals by 0, 1, 2 and by 1, 2, 3 name 1 and 2, in "
        "either order"
    )
    round_ = ("round", 0, 1)
    first, second = (subject_of("finalize", it, round_, 0) for it in (0xAA, 0xBB))
    numbers = [
        kept.report(certificate(Plain, "finalization", [0, 1, 2], first)),
        kept.report(certificate(Plain, "finalization", [1, 2, 3], second)),
    ]
    wanted = [
        conflict(*(signed_by(Plain, it, "finalize", each) for each in (first, second))) for it in (1, 2)
    ]
    for order in permutations(numbers):
        kept.audit(Plain, 4, order, wanted)
    script.note("worked by hand: a nullification by 0, 1, 2 beside a finalization by 1, 2, 3 names 1 and 2")
    round_, final = ROUND_3, subject_of("finalize", 0xCC, ROUND_3, 2)
    numbers = [
        kept.report(certificate(Plain, "nullification", [0, 1, 2], round_)),
        kept.report(certificate(Plain, "finalization", [1, 2, 3], final)),
    ]
    wanted = [
        beside(signed_by(Plain, it, "nullify", round_), signed_by(Plain, it, "finalize", final))
        for it in (1, 2)
    ]
    for order in permutations(numbers):
        kept.audit(Plain, 4, order, wanted)
    script.note(
        "worked by hand: notarizations by 0 to 4 and by 2 to 6 of seven name 2, 3 and 4, also where "
        "one is reported as certified"
    )
    first, second = proposal(0xAA), proposal(0xBB)
    one = certificate(Plain, "notarization", range(5), first)
    other = certificate(Plain, "notarization", range(2, 7), second)
    numbers = [kept.report(it) for it in (one, other, ("certified", one))]
    wanted = [
        conflict(*(signed_by(Plain, it, "notarize", each) for each in (first, second)))
        for it in (2, 3, 4)
    ]
    for order in ([0, 1], [1, 0], [2, 1], [1, 2], [0, 2, 1, 0]):
        kept.audit(Plain, 7, [numbers[it] for it in order], wanted)
    script.note("worked by hand: one of five is no report in a committee of four")
    kept.audit(Plain, 4, numbers[:1], [], 0)


def generated_broken():
    kept = Kept()
    script.note("generated: short streams of reports of every kind at the ends of the numbers, many of them broken")
    for seed in range(250):
        data = check_baseline.some_input(random.Random(seed))
        if len(data) < 600:
            kept.audit(Plain, check_baseline.COUNT, [kept.keep(data)])


def generated_claims():
    kept = Kept()
    script.note(
        "generated: streams of ten votes of one signer, of three kinds, three proposals, two true "
        "signatures and two forged ones; told by length and sum"
    )
    pool = [kept.report(salted_vote("nullify", 10, salt)) for salt in (1, 2, 100, 101)]
    pool += [
        kept.report(salted_vote(kind, payload, salt))
        for kind in ("notarize", "finalize") for payload in (10, 11, 12) for salt in (1, 2, 100, 101)
    ]
    chance = random.Random(5)
    for _ in range(10_000):
        kept.audit_sum(Salted, 4, [chance.choice(pool) for _ in range(10)])


def generated_crowds():
    kept = Kept()
    script.note(
        "generated: streams of 24 votes of three members in four rounds of two epochs, loose or as "
        "the only one that a certificate lists"
    )
    pool = []
    for round_ in (ROUND_2, ("round", 0, LAST), ("round", 1, 2), ("round", 1, 3)):
        for signer in range(3):
            for kind in ("notarize", "nullify", "finalize"):
                for payload in (10, 11, 12):
                    for salt in (1, 100):
                        loose = salted_vote(kind, payload, salt, signer, round_)
                        pool.append(kept.report(loose))
                        pool.append(kept.report((LISTING[kind], loose[1], ("list", loose[2]))))
    chance = random.Random(6)
    for _ in range(10_000):
        kept.audit_sum(Salted, 4, [chance.choice(pool) for _ in range(24)])


def some_messages(scheme, members, chance):
    """Reports of every kind in few rounds, some of them forged."""
    rounds = [("round", chance.choice([0, 1]), chance.choice([1, 2, 300])) for _ in range(2)]

    def some_vote(kind, round_, signer):
        payload, salt, parent = chance.choice([10, 11, 12]), chance.randrange(1, 3), chance.choice([0, 1])
        made = vote(scheme, kind, payload, salt, signer, round_, parent)
        if chance.random() < 0.1:
            return (made[0], made[1], ("attestation", signer, bytes(scheme.signature_size)))
        return made

    def some_certificate(kind, round_):
        subject = subject_of(vectors.VOTE_OF[kind], chance.choice([10, 11]), round_)
        signers = sorted(chance.sample(range(members), chance.choice([1, quorum(members), members])))
        return certificate(scheme, kind, signers, subject, chance.randrange(1, 3))

    messages = []
    for _ in range(chance.randrange(3, 9)):
        round_, signer = chance.choice(rounds), chance.randrange(members + 1)
        dice = chance.random()
        if dice < 0.45:
            messages.append(some_vote(chance.choice(["notarize", "nullify", "finalize"]), round_, signer))
        elif dice < 0.75:
            kind = chance.choice(["notarization", "nullification", "finalization"])
            made = some_certificate(kind, round_)
            messages.append(("certified", made) if kind == "notarization" and chance.random() < 0.5 else made)
        else:
            name, kinds = chance.choice([
                ("conflicting-notarize", ("notarize", "notarize")),
                ("conflicting-finalize", ("finalize", "finalize")),
                ("nullify-finalize", ("nullify", "finalize")),
            ])
            one, two = (some_vote(kind, round_, signer) for kind in kinds)
            if vectors.contradict(one, two):
                messages.append((name, one, two))
    return messages


def generated_orders():
    script.note(
        "generated: reports of every kind in five orders, one of them with some twice, and then one "
        "more by one: names rest on the reports alone, and further ones take none away"
    )
    chance = random.Random(7)
    for scheme in (Plain, Salted):
        for _ in range(20):
            kept = Kept()
            members = chance.choice([4, 4, 7])
            numbers = [kept.report(it) for it in some_messages(scheme, members, chance)]
            names = names_of(kept.audit(scheme, members, numbers))
            for _ in range(4):
                order = chance.sample(numbers, len(numbers)) + chance.choice([[], numbers[:2]])
                assert names_of(kept.audit(scheme, members, order)) == names
            before = set()
            for length in range(1, len(numbers)):
                told = set(names_of(kept.audit(scheme, members, numbers[:length])))
                assert before <= told <= set(names)
                before = told


def generated_contradictions():
    kept = Kept()
    script.note(
        "generated: certificates of one round that contradict each other, by quorums as they come: at"
        " least one member more is named than may be faulty, and each of them stands in both"
    )
    chance = random.Random(8)
    kinds = [("notarization", "notarization"), ("finalization", "finalization"), ("nullification", "finalization")]
    for _ in range(60):
        scheme, members = chance.choice([Plain, Salted]), chance.choice([1, 2, 3, 4, 5, 6, 7, 10, 13])
        pair, round_ = chance.choice(kinds), ("round", chance.choice([0, 7]), chance.choice([1, 2, LAST]))
        signers = [sorted(chance.sample(range(members), quorum(members))) for _ in pair]
        made = [
            certificate(scheme, kind, who, subject_of(vectors.VOTE_OF[kind], payload, round_))
            for kind, who, payload in zip(pair, signers, chance.sample([10, 11, 12], 2))
        ]
        evidence = kept.audit(scheme, members, [kept.report(it) for it in chance.sample(made, 2)])
        named = {vectors.signer_of(piece[1]) for piece in evidence}
        assert named == set(signers[0]) & set(signers[1]) and len(named) > (members - 1) // 3


EVERY_KIND = [
    vectors.NULLIFY_FINALIZE, vectors.CONFLICTING_FINALIZE, vectors.CONFLICTING_NOTARIZE, vectors.FINALIZATION,
    vectors.FINALIZE_A, vectors.NULLIFICATION, vectors.NULLIFY, vectors.CERTIFIED, vectors.NOTARIZATION,
    vectors.FINALIZE_B, vectors.NOTARIZE_A,
]


def generated_cuts():
    kept = Kept()
    script.note(
        "generated: a stream of a report of every kind, and what is found where it is cut at each "
        "byte"
    )
    numbers = [kept.report(it) for it in EVERY_KIND]
    kept.audit(Plain, 4, numbers)
    for length in range(len(kept.joined(numbers))):
        kept.audit_sum(Plain, 4, [kept.front(length, numbers)])


def together(one, two):
    return (vectors.spelled(one) + vectors.spelled(two)).hex()


def generated_faults():
    kept = Kept()
    script.note(
        "generated: what is no report, in front of, between and behind reports; nothing behind it is "
        "looked at"
    )
    good = [kept.report(it) for it in (vectors.NOTARIZE_A, vectors.NULLIFY, vectors.NOTARIZATION)]
    behind = kept.report(vectors.CONFLICTING_FINALIZE)
    for text in (
        "0a", "ff",  # no such tag
        "00 00 82 00 01",  # a view in two groups, the second of which is 0
        "03 00 ff ff ff ff ff ff ff ff ff 02",  # a view of more than 64 bits
        "03 00 02 ff ff ff ff 1f",  # an index of more than 32 bits
        "04 00 03 05", "04 00 03 01 04",  # a list of five in four, and one of a fifth member
        "04 00 03 02 01" + "77" * 32 + "01", "04 00 03 02 01" + "77" * 32 + "00",  # lists that don't ascend
        "02 00 03 01",  # a verdict as records hold it
        "07" + together(vectors.NOTARIZE_A, vectors.NOTARIZE_A),  # two notarizes for one proposal
        "08" + together(vectors.FINALIZE_A, vectors.vote("finalize", 2, vectors.FOR_B)),
        "09" + together(vectors.vote("nullify", 1, ROUND_3), vectors.FINALIZE_A),
    ):
        broken = kept.keep(bytes.fromhex(text.replace(" ", "")))
        kept.audit(Plain, 4, [broken, behind], [], 0)
        kept.audit(Plain, 4, [*good, broken, behind], [], len(kept.joined(good)))
        kept.audit(Plain, 4, [behind, broken, *good])


def worked():
    worked_ballots()
    worked_claims()
    worked_rounds()
    worked_hostile()
    worked_flood()
    worked_certificates()


def generated():
    generated_orders()
    generated_contradictions()
    generated_cuts()
    generated_faults()
    generated_broken()
    generated_claims()
    generated_crowds()
