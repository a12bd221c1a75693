"""The salted scheme, by what docs/FORMATS.md says of its signatures."""

import random

from audited import Salted, vectors
from rules_script.common import LAST, ROUND_3, quorum, script
from script_rows import digits, listed, truth

WIDE = ("proposal", ("round", 300, 70_000), 129, b"\xaa" * 32)
HASHED = {
    # Of FORMATS.md and of an earlier run of hashlib: the member, the counter, the kind and the subject.
    (1, 0x0102030405060708, "nullify", ROUND_3):
        "0102030405060708e5cc69aa77eccd6fdd3ce4b0bd2ddb66c7c70e6f638bc9b55cd164f683105d28",
    (2, LAST, "notarize", WIDE):
        "ffffffffffffffffb67ad2a56bbfc892fbd0dc55e620a70052e75e95c45468245ff2bfe27e166ccc",
    (2, 0, "finalize", WIDE):
        "0000000000000000742c5d75a45feb98f73447b219f5e89d5ce04131256e4c4d8fb9f0ca9b2a63b7",
}


def subject_words(kind, subject):
    if kind == "nullify":
        return "nullify {} {}".format(*subject[1:])
    _, (_, epoch, view), parent, payload = subject
    return f"{kind} {epoch} {view} {parent} {payload[0]}"


def signed(signer, counter, kind, subject):
    return ("attestation", signer, Salted.signature(signer, kind, subject, counter))


def spelled(*values):
    return b"".join(map(vectors.spelled, values))


def salted(members, me, counter, kind, subject, asked, answer):
    me = "-" if me is None else me
    script.ask(f"salted {members} {me} {counter} {subject_words(kind, subject)} {asked}", answer)


def attests(members, kind, subject, attestation):
    _, signer, given = attestation
    counter = int.from_bytes(given[:8], "big")
    return signer < members and given == Salted.signature(signer, kind, subject, counter)


def failing(members, kind, subject, given):
    return sorted({it[1] for it in given if not attests(members, kind, subject, it)})


def assembled(members, kind, subject, given):
    """The list of all that is given, where it certifies."""
    signers = [it[1] for it in given]
    is_sound = len(set(signers)) == len(given) and not failing(members, kind, subject, given)
    if not is_sound or len(given) < quorum(members):
        return "-"
    return digits(spelled(("list", *sorted(given))))


def worked_signatures():
    script.note("the hashes were made by hashlib: a signature is the counter and a hash")
    for (me, counter, kind, subject), wanted in HASHED.items():
        made = signed(me, counter, kind, subject)
        assert made[2].hex() == wanted
        salted(4, me, counter, kind, subject, "sign 1", digits(spelled(made)))
        salted(4, None, 0, kind, subject, f"verify {digits(spelled(made))}", "true")
        script.ask(f"signature {wanted}", f"{wanted} 40 40 true 0")
        script.ask(f"taken {wanted}ab", f"{wanted} 1")
    script.note("worked by hand: each signature carries the next counter, and the last is followed by 0")
    for counter, following in ((254, [254, 255, 256]), (LAST, [LAST, 0, 1])):
        made = [signed(0, it, "nullify", ROUND_3) for it in following]
        salted(4, 0, counter, "nullify", ROUND_3, "sign 3", digits(spelled(*made)))
    script.note("worked by hand: naming a counter spends none")
    made = [signed(0, it, "nullify", ROUND_3) for it in (9, 7)]
    salted(4, 0, 7, "nullify", ROUND_3, "sign_with 9", digits(spelled(*made)))
    made = [signed(0, it, "nullify", ROUND_3) for it in (8, 8)]
    salted(4, 0, 8, "nullify", ROUND_3, "sign_with 8", digits(spelled(*made)))
    script.note("worked by hand: a turned signature is refused: no byte, two of the counter, two of the hash")
    given = signed(1, 5, "nullify", ROUND_3)
    for place, is_taken in ((40, True), (0, False), (7, False), (8, False), (39, False)):
        turned = bytes(byte ^ (at == place) for at, byte in enumerate(given[2]))
        asked = f"verify {digits(spelled(('attestation', 1, turned)))}"
        salted(4, 1, 5, "nullify", ROUND_3, asked, truth(is_taken))
    script.note("worked by hand: an attestation is refused in another name and for another view")
    asked = f"verify {digits(spelled(given))}"
    salted(4, 1, 5, "nullify", ROUND_3, asked, "true")
    salted(4, 1, 5, "nullify", ROUND_3, f"verify {digits(spelled(('attestation', 0, given[2])))}", "false")
    salted(4, 1, 5, "nullify", ("round", 0, 4), asked, "false")
    script.note("worked by hand: only members attest")
    stranger = signed(4, 0, "nullify", ROUND_3)
    for members, signer, is_taken in ((5, 4, True), (4, 4, False), (4, 2**32 - 1, False)):
        asked = f"verify {digits(spelled(('attestation', signer, stranger[2])))}"
        salted(members, None, 0, "nullify", ROUND_3, asked, truth(is_taken))
    script.note("worked by hand: nobody of the committee signs nothing")
    salted(4, None, 0, "nullify", ROUND_3, "sign 1", "-")
    salted(4, None, 0, "nullify", ROUND_3, "sign_with 1", "-")
    script.ask("seat 4 -", "4 - true")
    script.ask("seat 4 3", "4 3 true")
    script.note("worked by hand: each member has its key")
    script.ask("key 4 3", 3)
    script.ask("key 4 4", "-")
    script.note("worked by hand: a quorum certifies")
    for signers, view, is_enough in (
        ([0], 3, False), ([0, 1], 3, False), ([0, 1, 3], 3, True), ([0, 1, 3], 4, False),
    ):
        made = ("list", *(signed(it, 9, "nullify", ROUND_3) for it in signers))
        salted(4, 0, 0, "nullify", ("round", 0, view), f"certifies {digits(spelled(made))}", truth(is_enough))
    script.note("worked by hand: a quorum is assembled by index, and two of four are none")
    given = [signed(it, 6, "nullify", ROUND_3) for it in (2, 0, 1)]
    made = ("list", given[1], given[2], given[0])
    script.ask(f"assemble 4 {digits(spelled(*given))}", digits(spelled(made)))
    script.ask(f"assemble 4 {digits(spelled(*given[:2]))}", "insufficient 3 2")
    script.ask("assemble 4 -", "insufficient 3 0")
    script.note("worked by hand: callers owe distinct members, one seat of a committee that can be")
    script.ask(f"assemble 4 {digits(spelled(*given, given[0]))}", "condition")
    script.ask(f"assemble 4 {digits(spelled(*given, stranger))}", "condition")
    for line in ("seat 0 -", "seat 65536 -", "seat 4 4", "key 0 0"):
        script.ask(line, "condition")
    script.ask("seat 65535 65534", "65535 65534 true")
    script.note("worked by hand: a cut signature is not read, and none is taken")
    script.ask(f"signature {'07' * 39}", "End")
    script.ask(f"taken {'07' * 39}", "- 39")
    script.ask("signature -", "End")
    for line in (
        "seat 4", "key 4", "salted 4 1 5 nullify 0 3", "salted 4 1 5 nullify 0 3 verify 00",
        "salted 4 1 5 nullify 0 3 failing", "salted 4 1 5 abstain 0 3 sign 1", "assemble 4", "assemble 4 00",
        "signature", "signature 0", "signature 0g", "taken",
    ):
        script.ask(line, "unreadable")


def worked_batches():
    script.note(
        "worked by hand: the salted scheme judges many at once: of the committee of four, which "
        "signers failed, and whether a list is made"
    )
    subject = ("round", 0, 2)
    elsewhere = ("round", 0, 3)
    for given, failed, is_made in (
        ([2, 0, 1], [], True),
        ([0, 1], [], False),  # one short
        ([0, 1, 2, 1], [], False),  # a signer twice, by two counters
        ([0, 1, 2, 4], [4], False),  # a stranger
        ([0, 1, 2, (3,)], [3], False),  # one that signed for another view, beside a quorum
        ([(3,), 1, 0, (1,), 4, (3,)], [1, 3, 4], False),  # several, of member 1 one of two
    ):
        made = []
        for counter, signer in enumerate(given):
            broken = isinstance(signer, tuple)
            signer = signer[0] if broken else signer
            made.append(signed(signer, counter, "nullify", elsewhere if broken else subject))
        assert failing(4, "nullify", subject, made) == failed
        answer = assembled(4, "nullify", subject, made)
        assert (answer != "-") == is_made
        salted(4, None, 0, "nullify", subject, f"failing {digits(spelled(*made))}", listed(failed))
        salted(4, None, 0, "nullify", subject, f"assemble {digits(spelled(*made))}", answer)


def generated():
    script.note("generated: salted signatures, and many judged at once")
    chance = random.Random(4)
    for _ in range(60):
        members = chance.choice([1, 2, 4, 5, 7, 10])
        kind = chance.choice(["notarize", "nullify", "finalize"])
        round_ = ("round", chance.choice([0, 1, LAST]), chance.choice([1, 2, 300, LAST]))
        payload = bytes([chance.randrange(256)]) * 32
        proposal = ("proposal", round_, chance.choice([0, 1, LAST]), payload)
        subject = round_ if kind == "nullify" else proposal
        me, counter = chance.randrange(members), chance.choice([0, 1, 2**32, LAST, chance.randrange(2**64)])
        salted(members, me, counter, kind, subject, "sign 2", digits(spelled(
            signed(me, counter, kind, subject), signed(me, (counter + 1) % 2**64, kind, subject))))
        count = chance.choice([quorum(members) - 1, quorum(members), members])
        given = []
        for signer in chance.sample(range(members), count):
            made = signed(signer, chance.randrange(4), kind, subject)
            if chance.random() < 0.08:
                made = ("attestation", signer, made[2][:-1] + bytes([made[2][-1] ^ 1]))
            given.append(made)
        together = digits(spelled(*given))
        failed = listed(failing(members, kind, subject, given))
        salted(members, None, 0, kind, subject, f"failing {together}", failed)
        answer = assembled(members, kind, subject, given)
        salted(members, None, 0, kind, subject, f"assemble {together}", answer)
        ascending = digits(spelled(("list", *sorted(given))))
        salted(members, None, 0, kind, subject, f"certifies {ascending}", truth(answer != "-"))


def worked():
    worked_signatures()
    worked_batches()
