#!/usr/bin/env python3
"""Every message, spelled and read, plainly and slowly. It needs nothing but hashlib.

    python3 vectors.py             print every example, byte by byte, after the self-test
    python3 vectors.py test        the self-test alone
    python3 vectors.py constants   print the examples as Rattle constants
    python3 vectors.py formats     print the example blocks of the formats page
    python3 vectors.py check FILE  compare each example in FORMATS.md or constants.rt.txt with the vectors

Values are tuples whose first item names their kind:
    ("round", epoch, view)                       ("proposal", round, parent, payload)
    ("context", round, leader, parent, payload)  ("attestation", signer, signature)
    ("notarize" | "finalize", proposal, attestation)
    ("nullify", round, attestation)              ("list", attestation, ...)
    ("notarization" | "finalization", proposal, list)
    ("nullification", round, list)               ("certification", round, truth)
    ("certified", notarization)                  what tag 2 of an activity holds
    ("conflicting-notarize", notarize, notarize) ("conflicting-finalize", finalize, finalize)
    ("nullify-finalize", nullify, finalize)
"""

import hashlib
import re
import sys

U32 = 2**32 - 1
U64 = 2**64 - 1
BASE = b"simplex"

VOTE = {0: "notarize", 1: "nullify", 2: "finalize"}
CERTIFICATE = {0: "notarization", 1: "nullification", 2: "finalization"}
ARTIFACT = {
    0: "notarize", 1: "notarization", 2: "certification", 3: "nullify", 4: "nullification",
    5: "finalize", 6: "finalization",
}
ACTIVITY = {
    0: "notarize", 1: "notarization", 2: "certified", 3: "nullify", 4: "nullification",
    5: "finalize", 6: "finalization", 7: "conflicting-notarize", 8: "conflicting-finalize",
    9: "nullify-finalize",
}
TAGGED = {"Vote": VOTE, "Certificate": CERTIFICATE, "Artifact": ARTIFACT, "Activity": ACTIVITY}


# ---------------------------------------------------------------- spelling

def varint(number):
    out = b""
    while number >= 128:
        out += bytes([128 + number % 128])
        number //= 128
    return out + bytes([number])


def name_of(payload):
    return {b"\xaa" * 32: "A", b"\xbb" * 32: "B"}.get(payload, payload.hex())


def parts(value):
    """The value's spelling as a list of (name of the part, bytes)."""
    kind = value[0]
    if kind == "round":
        return [(f"epoch {value[1]}", varint(value[1])), (f"view {value[2]}", varint(value[2]))]
    if kind == "proposal":
        _, round_, parent, payload = value
        named = [(f"parent {parent}", varint(parent)), (f"payload {name_of(payload)}", payload)]
        return parts(round_) + named
    if kind == "context":
        _, round_, leader, parent, payload = value
        return parts(round_) + [
            (f"key of leader {leader}", leader.to_bytes(4, "big")),
            (f"parent's view {parent}", varint(parent)),
            (f"parent's payload {name_of(payload)}", payload),
        ]
    if kind == "attestation":
        _, signer, signature = value
        return [(f"signer {signer}", varint(signer)), (f"signature of {signer}", signature)]
    if kind == "list":
        out = [(f"count {len(value) - 1}", varint(len(value) - 1))]
        for attestation in value[1:]:
            out += parts(attestation)
        return out
    if kind == "certification":
        return parts(value[1]) + [(str(value[2]).lower(), bytes([int(value[2])]))]
    out = []
    for item in value[1:]:  # votes, certificates and evidence are their items one after the other
        out += parts(item)
    return out


def spelled(value):
    return b"".join(part for _, part in parts(value))


def tagged_parts(type_, value):
    tags = [tag for tag, kind in TAGGED[type_].items() if kind == value[0]]
    assert len(tags) == 1, (type_, value[0])
    name = "certification, a whole notarization" if value[0] == "certified" else value[0]
    return [(f"tag {tags[0]}: {name}", bytes([tags[0]]))] + parts(value)


def tagged(type_, value):
    return b"".join(part for _, part in tagged_parts(type_, value))


# ---------------------------------------------------------------- the plain scheme

NAMES = {"notarize": b"_NOTARIZE", "nullify": b"_NULLIFY", "finalize": b"_FINALIZE"}


def hashed(signer, kind, subject, base=BASE):
    """What the signature on a proposal (notarize, finalize) or a round (nullify) is the SHA-256 of."""
    namespace = base + NAMES[kind]
    front = signer.to_bytes(4, "big") + len(namespace).to_bytes(4, "big") + namespace
    return front + spelled(subject)


def signature(signer, kind, subject, base=BASE):
    return hashlib.sha256(hashed(signer, kind, subject, base)).digest()


def vote(kind, signer, subject):
    return (kind, subject, ("attestation", signer, signature(signer, kind, subject)))


VOTE_OF = {"notarization": "notarize", "nullification": "nullify", "finalization": "finalize"}


def certificate(kind, signers, subject):
    votes = [vote(VOTE_OF[kind], signer, subject) for signer in signers]
    return (kind, subject, ("list",) + tuple(v[2] for v in votes))


def attests(n, kind, subject, attestation):
    _, signer, given = attestation
    return signer < n and given == signature(signer, kind, subject)


def certifies(n, value):
    kind, subject, listed = value
    signers = {a[1] for a in listed[1:]}
    return (
        len(signers) == len(listed) - 1
        and len(signers) >= n - (n - 1) // 3
        and all(attests(n, VOTE_OF[kind], subject, a) for a in listed[1:])
    )


# ---------------------------------------------------------------- reading

class Trouble(Exception):
    """The first trouble from the left, and how many bytes were looked at when it was known."""

    def __init__(self, name, looked_at):
        super().__init__(name)
        self.name = name
        self.looked_at = looked_at


class Input:
    def __init__(self, data, signature_size=32):
        self.data = data
        self.at = 0
        self.signature_size = signature_size  # 32 in the plain scheme, 40 in the salted one

    def trouble(self, name):
        return Trouble(name, self.at)

    def byte(self):
        if self.at == len(self.data):
            raise self.trouble("End")
        self.at += 1
        return self.data[self.at - 1]

    def raw(self, count):
        part = self.data[self.at:self.at + count]
        self.at += len(part)
        if len(part) < count:
            raise self.trouble("End")
        return part

    def number(self, limit):
        low, weight = 0, 1
        while True:
            byte = self.byte()
            low += byte % 128 * weight
            if byte < 128:
                # The last group. It is 0 only in the number 0.
                if low > limit or (weight > 1 and byte == 0):
                    raise self.trouble("Invalid")
                return low
            weight *= 128
            # More groups follow. The least that they can add is one group of 1.
            if low + weight > limit:
                raise self.trouble("Invalid")


def read_number(i, n):
    return i.number(U64)


def read_index(i, n):
    return i.number(U32)


def read_truth(i, n):
    byte = i.byte()
    if byte > 1:
        raise i.trouble("Invalid")
    return byte == 1


def read_round(i, n):
    epoch = i.number(U64)
    view = i.number(U64)
    return ("round", epoch, view)


def read_proposal(i, n):
    round_ = read_round(i, n)
    parent = i.number(U64)
    return ("proposal", round_, parent, i.raw(32))


def read_context(i, n):
    round_ = read_round(i, n)
    leader = int.from_bytes(i.raw(4), "big")
    parent = i.number(U64)
    return ("context", round_, leader, parent, i.raw(32))


def read_attestation(i, n):
    signer = i.number(U32)
    return ("attestation", signer, i.raw(i.signature_size))


def read_list(i, n):
    count = i.number(U64)
    if count > n:
        raise i.trouble("TooLong")
    listed, last = [], -1
    for _ in range(count):
        index = i.number(U32)
        if index <= last or index >= n:
            raise i.trouble("Invalid")  # before the signature is looked at
        listed.append(("attestation", index, i.raw(i.signature_size)))
        last = index
    return ("list",) + tuple(listed)


def reader_of(kind, *fields):
    def read(i, n):
        return (kind,) + tuple(field(i, n) for field in fields)
    return read


read_notarize = reader_of("notarize", read_proposal, read_attestation)
read_nullify = reader_of("nullify", read_round, read_attestation)
read_finalize = reader_of("finalize", read_proposal, read_attestation)
read_notarization = reader_of("notarization", read_proposal, read_list)
read_nullification = reader_of("nullification", read_round, read_list)
read_finalization = reader_of("finalization", read_proposal, read_list)
read_certification = reader_of("certification", read_round, read_truth)
read_certified = reader_of("certified", read_notarization)


def round_of(vote_):
    return vote_[1] if vote_[0] == "nullify" else vote_[1][1]


def signer_of(vote_):
    return vote_[2][1]


def contradict(first, second):
    if round_of(first) != round_of(second) or signer_of(first) != signer_of(second):
        return False
    return first[0] != second[0] or first[1] != second[1]


def evidence_reader(kind, first, second):
    def read(i, n):
        one = first(i, n)
        two = second(i, n)
        if not contradict(one, two):  # judged when both are read
            raise i.trouble("Invalid")
        return (kind, one, two)
    return read


read_conflicting_notarize = evidence_reader("conflicting-notarize", read_notarize, read_notarize)
read_conflicting_finalize = evidence_reader("conflicting-finalize", read_finalize, read_finalize)
read_nullify_finalize = evidence_reader("nullify-finalize", read_nullify, read_finalize)

READERS = {
    "number": read_number, "index": read_index, "truth": read_truth, "round": read_round,
    "proposal": read_proposal, "context": read_context, "attestation": read_attestation,
    "list": read_list, "notarize": read_notarize, "nullify": read_nullify,
    "finalize": read_finalize, "notarization": read_notarization,
    "nullification": read_nullification, "finalization": read_finalization,
    "certification": read_certification, "certified": read_certified,
    "conflicting-notarize": read_conflicting_notarize,
    "conflicting-finalize": read_conflicting_finalize,
    "nullify-finalize": read_nullify_finalize,
}


def tagged_reader(tags):
    def read(i, n):
        tag = i.byte()
        if tag not in tags:
            raise i.trouble("Invalid")
        return READERS[tags[tag]](i, n)
    return read


for _type, _tags in TAGGED.items():
    READERS[_type] = tagged_reader(_tags)


def read(type_, data, n, signature_size=32):
    """(value, rest), or the name of the first trouble: "End", "Invalid" or "TooLong"."""
    i = Input(data, signature_size)
    try:
        value = READERS[type_](i, n)
    except Trouble as trouble:
        return trouble.name
    return (value, data[i.at:])


# ---------------------------------------------------------------- the fixed examples

A, B = b"\xaa" * 32, b"\xbb" * 32
N = 4
ROUND = ("round", 0, 2)
FOR_A = ("proposal", ROUND, 1, A)
FOR_B = ("proposal", ROUND, 1, B)
NOTARIZE_A = vote("notarize", 1, FOR_A)
NOTARIZE_B = vote("notarize", 1, FOR_B)
NULLIFY = vote("nullify", 1, ROUND)
FINALIZE_A = vote("finalize", 1, FOR_A)
FINALIZE_B = vote("finalize", 1, FOR_B)
NOTARIZATION = certificate("notarization", (0, 1, 2), FOR_A)
NULLIFICATION = certificate("nullification", (0, 1, 2), ROUND)
FINALIZATION = certificate("finalization", (0, 1, 2), FOR_A)
CERTIFICATION = ("certification", ROUND, True)
CERTIFIED = ("certified", NOTARIZATION)
CONFLICTING_NOTARIZE = ("conflicting-notarize", NOTARIZE_A, NOTARIZE_B)
CONFLICTING_FINALIZE = ("conflicting-finalize", FINALIZE_A, FINALIZE_B)
NULLIFY_FINALIZE = ("nullify-finalize", NULLIFY, FINALIZE_A)
CONTEXT = ("context", ROUND, 1, 1, A)
MESSAGES = [
    NOTARIZE_A, NOTARIZE_B, NULLIFY, FINALIZE_A, FINALIZE_B, NOTARIZATION, NULLIFICATION,
    FINALIZATION, CERTIFICATION, CERTIFIED, CONFLICTING_NOTARIZE, CONFLICTING_FINALIZE,
    NULLIFY_FINALIZE,
]
VALUES = [ROUND, FOR_A, FOR_B, CONTEXT, NOTARIZE_A[2], NOTARIZATION[2], ("list",)] + MESSAGES

NUMBERS = [0, 1, 127, 128, 300, 16383, 16384, U32, 2**32, 2**63, U64]

# (type, bound, bytes in hex, what is read). A read row says value and rest.
FF9 = "ff " * 9
ROWS = [
    ("number", 4, "", "End"),
    ("number", 4, "80", "End"),
    ("number", 4, "8a 00", "Invalid"),
    ("number", 4, "80 80 00", "Invalid"),
    ("number", 4, FF9 + "01", (U64, "")),
    ("number", 4, FF9, "End"),
    ("number", 4, FF9 + "00", "Invalid"),
    ("number", 4, FF9 + "02", "Invalid"),
    ("number", 4, FF9 + "81", "Invalid"),
    ("index", 4, "ff ff ff ff 0f", (U32, "")),
    ("index", 4, "ff ff ff ff", "End"),
    ("index", 4, "ff ff ff ff ff", "Invalid"),
    ("index", 4, "80 80 80 80 10", "Invalid"),
    ("truth", 4, "00", (False, "")),
    ("truth", 4, "01", (True, "")),
    ("truth", 4, "02", "Invalid"),
    ("proposal", 4, "00 0a 05" + "01" * 32, (("proposal", ("round", 0, 10), 5, b"\x01" * 32), "")),
    ("proposal", 4, "00 8a 00 05" + "01" * 32, "Invalid"),
    ("Artifact", 4, "02 00 03 01", (("certification", ("round", 0, 3), True), "")),
    ("Activity", 4, "02 00 03 01", "End"),
    ("Artifact", 4, "02 00 03 02", "Invalid"),
    ("Artifact", 4, "02 00 03", "End"),
    ("Artifact", 4, "07", "Invalid"),
    ("Artifact", 4, "09", "Invalid"),
    ("Vote", 4, "03", "Invalid"),
    ("Certificate", 4, "03", "Invalid"),
    ("Activity", 4, "0a", "Invalid"),
    ("Activity", 4, "", "End"),
    ("nullification", 4, "00 03 05", "TooLong"),
    ("nullification", 4, "00 03 01 04", "Invalid"),
    ("nullification", 4, "00 03 00", (("nullification", ("round", 0, 3), ("list",)), "")),
    ("nullification", 4, "00 03 00 ff", (("nullification", ("round", 0, 3), ("list",)), "ff")),
    ("nullification", 5, "00 03 05", "End"),
    ("nullification", 5, "00 03 01 04", "End"),
    ("nullification", 4, "00 03 85", "End"),
    ("nullification", 4, "00 03 85 00", "Invalid"),
    ("nullification", 4, "00 03 80 80 80 80 10", "TooLong"),
    ("nullification", 4, "00 03 ff ff ff ff ff", "End"),
    ("nullification", 4, "00 03 " + FF9 + "01", "TooLong"),
    ("nullification", 4, "00 03 " + FF9 + "02", "Invalid"),
    ("nullification", 4, "00 03 01 84", "End"),
    ("nullification", 4, "00 03 01 84 00", "Invalid"),
    ("nullification", 4, "00 03 01 84 01", "Invalid"),
    ("nullification", 4, "00 03 02 01" + "77" * 32 + "01", "Invalid"),
    ("nullification", 4, "00 03 02 01" + "77" * 32 + "00", "Invalid"),
    ("nullification", 4, "00 03 02 03" + "77" * 32, "End"),
]


def bytes_of(text):
    return bytes.fromhex(text.replace(" ", ""))


# ---------------------------------------------------------------- self-test

def number_of(most, data):
    """A number by recursion, as another way to say what `Input.number` says."""
    if not data:
        return "End"
    first, rest = data[0], data[1:]
    if first < 128:
        return "Invalid" if most < first else (first, rest)
    if most < 128:
        return "Invalid"
    got = number_of((most - (first - 128)) // 128, rest)
    if isinstance(got, str):
        return got
    return "Invalid" if got[0] == 0 else (first - 128 + 128 * got[0], got[1])


def test_numbers():
    # Against all the spellings there are, for small limits: read where one of them stands in front,
    # End where the bytes begin one, else Invalid.
    for limit in (0, 1, 9, 127, 128, 129, 200, 255, 256, 300, 16383):
        spellings = {varint(v): v for v in range(limit + 1)}
        begun = {s[:k] for s in spellings for k in range(len(s))}
        for length in (0, 1, 2):
            for code in range(256**length):
                data = code.to_bytes(length, "big")
                front = [s for s in (data[:1], data[:2]) if s in spellings]
                wanted = "Invalid"
                if front:
                    wanted = (spellings[front[0]], data[len(front[0]):])
                elif data in begun:
                    wanted = "End"
                i = Input(data)
                try:
                    got = (i.number(limit), data[i.at:])
                except Trouble as trouble:
                    got = trouble.name
                assert got == wanted, (limit, data.hex(), got, wanted)
    # Against the recursion, for the two limits of the grammar: all mixtures of telling bytes.
    telling = (0x00, 0x01, 0x02, 0x0f, 0x10, 0x7f, 0x80, 0x81, 0xff)
    for front in (b"", b"\xff" * 4, b"\x80" * 4, b"\xff" * 8, b"\x80" * 8, b"\xff" * 9, b"\x80" * 9):
        for length in range(5):
            for code in range(len(telling)**length):
                tail = bytes(telling[code // len(telling)**k % len(telling)] for k in range(length))
                data = front + tail
                assert read("number", data, N) == number_of(U64, data), data.hex()
                assert read("index", data, N) == number_of(U32, data), data.hex()
    for number in NUMBERS:
        assert read("number", varint(number) + b"\xff", N) == (number, b"\xff")


def steady(type_, data, n):
    """Reads, and asserts of every cut: End before the byte that decides, the same from it on."""
    i = Input(data)
    try:
        READERS[type_](i, n)
        answer = (read(type_, data, n)[0],)
    except Trouble as trouble:
        answer = trouble.name
    decided = i.at if answer != "End" else len(data) + 1
    for cut in {0, 1, 2, 3, decided // 2, decided - 2, decided - 1, decided, decided + 1, len(data)}:
        if 0 <= cut <= len(data):
            got = read(type_, data[:cut], n)
            if cut < decided:
                assert got == "End", (type_, data.hex(), cut, got)
            elif isinstance(answer, str):
                assert got == answer, (type_, data.hex(), cut, got)
            else:
                assert got == (answer[0], data[i.at:cut]), (type_, data.hex(), cut, got)
    return answer


def as_types(value):
    out = [(value[0], spelled(value))]
    for type_, tags in TAGGED.items():
        if value[0] in tags.values():
            out.append((type_, tagged(type_, value)))
    return out


def test_values():
    wide = ("round", 300, 2**40)
    far = ("proposal", wide, U64, bytes(range(32)))
    near = ("proposal", wide, 0, bytes(range(32)))
    large = (0, 127, 128, 16384, 65534)
    more = [
        (value, 65535)
        for value in (
            vote("notarize", U32, far), vote("nullify", 128, wide), vote("finalize", 65535, far),
            certificate("notarization", large, far), certificate("nullification", large, wide),
            certificate("finalization", range(300), far), ("certification", wide, False),
            ("certified", certificate("notarization", large, near)),
            ("conflicting-notarize", vote("notarize", U32, far), vote("notarize", U32, near)),
            ("conflicting-finalize", vote("finalize", 0, near), vote("finalize", 0, far)),
            ("nullify-finalize", vote("nullify", 9, wide), vote("finalize", 9, far)),
            ("context", wide, U32, U64, B),
        )
    ]
    count = 0
    for value, n in [(value, N) for value in VALUES] + more:
        for type_, data in as_types(value):
            for rest in (b"", b"\x00", b"\xff" * 40, data):
                assert read(type_, data + rest, n) == (value, rest), (type_, value[0])
            for cut in range(len(data)):
                assert read(type_, data[:cut], n) == "End", (type_, value[0], cut)
            count += 1
    # The bound is all that a list's reading depends on.
    for n in range(6):
        for type_, data in as_types(NULLIFICATION):
            wanted = "TooLong" if n < 3 else (NULLIFICATION, b"")
            assert read(type_, data, n) == wanted, (type_, n)
    return count


def test_changes():
    """Each byte of each example changed in each way: what is read is spelled again."""
    for value in MESSAGES:
        for type_, data in as_types(value):
            for place in range(len(data)):
                # All changes of the numbers; of raw bytes a few, since each is read.
                changes = range(1, 256) if place < 4 or data[place] < 8 else (1, 128, 255)
                for change in changes:
                    changed = data[:place] + bytes([data[place] ^ change]) + data[place + 1:]
                    answer = steady(type_, changed, N)
                    if isinstance(answer, tuple):
                        got, rest = read(type_, changed, N)
                        front = tagged(type_, got) if type_ in TAGGED else spelled(got)
                        assert front + rest == changed, (type_, changed.hex())


def test_evidence():
    def evidence(kind, first, second):
        return {"conflicting-notarize": b"\x07", "conflicting-finalize": b"\x08",
                "nullify-finalize": b"\x09"}[kind] + spelled(first) + spelled(second)

    other_epoch, other_view = ("round", 1, 2), ("round", 0, 3)
    for kind, one in (("notarize", NOTARIZE_A), ("finalize", FINALIZE_A)):
        name = "conflicting-" + kind
        broken = (kind, FOR_A, ("attestation", 1, bytes(32)))
        for second in (
            vote(kind, 1, ("proposal", other_epoch, 1, B)),
            vote(kind, 1, ("proposal", other_view, 1, B)),
            vote(kind, 2, FOR_B),
            one,
            broken,  # one proposal, another signature
        ):
            data = evidence(name, one, second)
            assert steady("Activity", data, N) == "Invalid"
            assert read("Activity", data[:-1], N) == "End"
        for second in (
            vote(kind, 1, FOR_B),
            vote(kind, 1, ("proposal", ROUND, 0, A)),  # another parent alone
            (kind, FOR_B, ("attestation", 1, bytes(32))),  # signatures are not judged by reading
        ):
            for pair in ((one, second), (second, one)):  # each order is a value of its own
                data = evidence(name, *pair)
                assert read("Activity", data, N) == ((name,) + pair, b"")
    for first, second, wanted in (
        (NULLIFY, FINALIZE_A, True),
        (NULLIFY, FINALIZE_B, True),
        (vote("nullify", 2, ROUND), FINALIZE_A, False),
        (vote("nullify", 1, other_epoch), FINALIZE_A, False),
        (vote("nullify", 1, other_view), FINALIZE_A, False),
    ):
        data = evidence("nullify-finalize", first, second)
        got = read("Activity", data, N)
        assert got == ((("nullify-finalize", first, second), b"") if wanted else "Invalid")
        assert read("Activity", data[:-1], N) == "End"


def test_scheme():
    known = {
        (1, "notarize", FOR_A): "abe9158c3bdc71f0939c80b81d8e0e602c446bdd5c95e5d44f3310cec6a914a2",
        (1, "notarize", FOR_B): "f530ef208ea9a2540f28454f93fa6de670e5025af54ad73ff6ac2c816fb3098f",
        (1, "nullify", ROUND): "0173deda8b89faadd1f179126ef119f2567d473d85af1f4095ffecca380e76a2",
        (1, "finalize", FOR_A): "55ecc3dc66e6fbcf74469701d3c04cafb38cf09de93ad698c8e2986f04c3d6b8",
        (1, "notarize", ("proposal", ("round", 300, 2**40), 2**40 - 1, A)):
            "218156a6ba3f310404ea5779744e35ad65994b537390b53ddb05f2af85bc129f",
    }
    for (signer, kind, subject), digits in known.items():
        assert signature(signer, kind, subject).hex() == digits
    for value in (NOTARIZATION, NULLIFICATION, FINALIZATION):
        assert certifies(4, value) and not certifies(5, value) and not certifies(2, value)
    assert not certifies(4, certificate("notarization", (0, 1), FOR_A))
    assert not certifies(4, ("notarization", FOR_B, NOTARIZATION[2]))
    assert not certifies(4, ("finalization", FOR_A, NOTARIZATION[2]))
    assert not certifies(4, ("nullification", ("round", 0, 3), ("list",)))
    assert [n - (n - 1) // 3 for n in (1, 2, 3, 4, 5, 6, 7, 10)] == [1, 2, 3, 3, 4, 5, 5, 7]


def row_answer(type_, bound, text):
    got = read(type_, bytes_of(text), bound)
    return got if isinstance(got, str) else (got[0], got[1].hex())


def test_rows():
    for type_, bound, text, wanted in ROWS:
        assert row_answer(type_, bound, text) == wanted, (type_, bound, text)
        steady(type_, bytes_of(text), bound)
    for type_, tags in TAGGED.items():
        for tag in range(256):
            wanted = "End" if tag in tags else "Invalid"
            assert read(type_, bytes([tag]), N) == wanted
    assert len(tagged("Activity", NOTARIZE_A)) == 69


def test():
    test_numbers()
    count = test_values()
    test_changes()
    test_evidence()
    test_scheme()
    test_rows()
    return count


# ---------------------------------------------------------------- printing

def hex_of(part):
    if len(part) == 32 and len(set(part)) == 1:
        return f"{part[:1].hex()} × 32"
    return part.hex() if len(part) == 32 else part.hex(" ")


def show(title, named):
    size = sum(len(part) for _, part in named)
    print(f"{title} ({size} byte{'s' * (size != 1)})")
    at = 0
    for name, part in named:
        print(f"  {at:4}  {hex_of(part):<64}  {name}")
        at += len(part)
    print(f"   all  {b''.join(part for _, part in named).hex()}")
    print()


TITLES = [
    ("notarize of signer 1 for A", NOTARIZE_A),
    ("notarize of signer 1 for B", NOTARIZE_B),
    ("nullify of signer 1", NULLIFY),
    ("finalize of signer 1 for A", FINALIZE_A),
    ("finalize of signer 1 for B", FINALIZE_B),
    ("notarization of A by 0, 1, 2", NOTARIZATION),
    ("nullification by 0, 1, 2", NULLIFICATION),
    ("finalization of A by 0, 1, 2", FINALIZATION),
    ("certification, true", CERTIFICATION),
    ("certification as an activity: a notarization", CERTIFIED),
    ("conflicting notarize of signer 1", CONFLICTING_NOTARIZE),
    ("conflicting finalize of signer 1", CONFLICTING_FINALIZE),
    ("nullify and finalize of signer 1", NULLIFY_FINALIZE),
]


def readable_changes(data):
    """How many of the inputs that differ from this one at one place begin with an activity."""
    return sum(
        isinstance(read("Activity", data[:place] + bytes([byte]) + data[place + 1:], N), tuple)
        for place in range(len(data)) for byte in range(256) if byte != data[place]
    )


def print_all(count):
    print(f"self-test: good ({count} spelled values, {len(ROWS)} rows)\n")
    print("The base is simplex, the committee has 4 members, A is 32 bytes aa, B is 32 bytes bb.\n")
    print("numbers")
    for number in NUMBERS:
        print(f"  {number:>20}  {varint(number).hex(' ')}")
    print()
    show("round", parts(ROUND))
    show("proposal for A", parts(FOR_A))
    show("attestation of signer 1 (notarize, A)", parts(NOTARIZE_A[2]))
    show("list of attestations of 0, 1, 2 (notarize, A)", parts(NOTARIZATION[2]))
    show("context, leader 1, the parent's payload is A", parts(CONTEXT))
    for title, value in TITLES:
        if value[0] != "certified":
            show(f"{title}, loose", parts(value))
        for type_, tags in TAGGED.items():
            if value[0] in tags.values():
                show(f"{title}, as {type_}", tagged_parts(type_, value))
    print("what signer 1 hashes for its notarize of A")
    print(f"  {hex_of((1).to_bytes(4, 'big'))}  index; 00 00 00 10  16, the namespace's length;")
    print("  simplex_NOTARIZE; the proposal's 35 bytes\n")
    print("rows (type, bound, bytes: what is read)")
    for type_, bound, text, _ in ROWS:
        answer = row_answer(type_, bound, text)
        i = Input(bytes_of(text))
        try:
            READERS[type_](i, bound)
        except Trouble:
            pass
        said = answer if isinstance(answer, str) else f"{answer[0]}, rest '{answer[1]}'"
        short = bytes_of(text).hex(" ").replace("77 " * 31 + "77", "77 × 32").replace("01 " * 31 + "01", "01 × 32")
        print(f"  {type_:<13} {bound}  {short or '(nothing)':<34} {said}  (after {i.at} bytes)")
    print("\nhow many one-byte changes of an activity still begin with an activity, bound 4")
    for title, value in TITLES:
        if value[0] in ACTIVITY.values():
            print(f"  {title:<46} {readable_changes(tagged('Activity', value))}")


# ---------------------------------------------------------------- constants

def rows_of(part):
    text = [f"0x{byte:02x}," for byte in part]
    return ["    " + " ".join(text[k:k + 16]) for k in range(0, len(text), 16)]


def constant(doc, name, named):
    size = sum(len(part) for _, part in named)
    lines = [f"/// {line}" for line in doc] + [f"const {name}: [u8; {size}] = ["]
    small = []

    def flush():
        if small:
            numbers = ", ".join(str(byte) for _, part in small for byte in part)
            lines.append(f"    {numbers}, // {', '.join(word for word, _ in small)}")
            small.clear()

    for word, part in named:
        if len(part) == 32:
            flush()
            lines += rows_of(part)
            continue
        short = word.split(":")[0].split(" ")[0]
        if short == "tag":
            lines.append(f"    {part[0]}, // the {word}")
            continue
        if short in ("signer", "count"):
            flush()
            word = {"signer": word, "count": "how many signed"}[short]
            lines.append(f"    {part[0]}, // {word}")
            continue
        small.append((short, part))
    flush()
    return "\n".join(lines + ["];"])


def constants():
    words = {
        "certified": "a certification, which in a report holds its notarization",
        "conflicting-notarize": "two notarizes",
        "conflicting-finalize": "two finalizes",
        "nullify-finalize": "a nullify and a finalize",
    }

    def one(doc, name, type_, value):
        named = tagged_parts(type_, value)
        tag = (f"tag of {words.get(value[0], 'a ' + value[0])}", named[0][1])
        return constant(doc, name, [tag] + named[1:])

    head = [
        "// All are of epoch 0 and view 2 under the base `simplex`, proposals on view 1 for 32 bytes aa or",
        "// bb. The signatures are the SHA-256 that Python's hashlib gives. As an `Artifact` and as an",
        "// `Activity` the tags 0, 1 and 3 to 6 are the same. As a `Vote` it is 0, 1, 2 for notarize,",
        "// nullify, finalize, as a `Certificate` 0, 1, 2 for notarization, nullification, finalization;",
        "// the bytes behind the tag don't change.",
    ]
    return "\n\n".join([
        "\n".join(head),
        one(["Member 1's vote to give view 2 up, as a report and as an artifact."],
            "REPORT_NULLIFY", "Activity", NULLIFY),
        one(["Member 1's vote to finalize 32 bytes aa, as a report and as an artifact."],
            "REPORT_FINALIZE_AA", "Activity", FINALIZE_A),
        one(["The same for 32 bytes bb."], "REPORT_FINALIZE_BB", "Activity", FINALIZE_B),
        one(["The notarization of 32 bytes aa by members 0, 1 and 2, as a report and as an artifact."],
            "REPORT_NOTARIZATION", "Activity", NOTARIZATION),
        one(["The nullification of view 2 by members 0, 1 and 2, as a report and as an artifact."],
            "REPORT_NULLIFICATION", "Activity", NULLIFICATION),
        one(["The finalization of 32 bytes aa by members 0, 1 and 2, as a report and as an artifact."],
            "REPORT_FINALIZATION", "Activity", FINALIZATION),
        one(["The verdict that view 2 is certified, as an artifact."],
            "ARTIFACT_CERTIFICATION", "Artifact", CERTIFICATION),
        one(["The certification of 32 bytes aa, as a report: behind the tag it is the notarization."],
            "REPORT_CERTIFICATION", "Activity", CERTIFIED),
        one(["Member 1's votes to certify 32 bytes aa and 32 bytes bb, as a report."],
            "REPORT_CONFLICTING_NOTARIZE", "Activity", CONFLICTING_NOTARIZE),
        one(["Member 1's votes to finalize 32 bytes aa and 32 bytes bb, as a report."],
            "REPORT_CONFLICTING_FINALIZE", "Activity", CONFLICTING_FINALIZE),
        one(["Member 1's vote to give view 2 up and its vote to finalize 32 bytes aa, as a report."],
            "REPORT_NULLIFY_FINALIZE", "Activity", NULLIFY_FINALIZE),
    ]) + "\n"


# ---------------------------------------------------------------- blocks of the formats page

def block(named):
    """Lines of bytes and names. A signer and its signature share a line, as do neighbours of one byte."""
    lines, small = [], []

    def flush():
        if small:
            text = b"".join(part for _, part in small).hex(" ")
            lines.append((text, ", ".join(word for word, _ in small)))
            small.clear()

    for word, part in named:
        if word.startswith(("tag", "count", "signer", "epoch")):
            flush()
        if word.startswith("signature"):
            signer, index = small.pop()
            lines.append((f"{index.hex()} {part.hex()}", f"{signer}, signature"))
        elif len(part) == 32:
            flush()
            lines.append((hex_of(part), word))
        else:
            small.append((word, part))
            if word.startswith(("tag", "count")):
                flush()
    flush()
    return "\n".join(f"    {text:<67}  {word}" for text, word in lines)


def formats():
    out = []
    for title, value in TITLES:
        if value[0] == "certification":
            out.append((title, block(tagged_parts("Artifact", value))))
        elif value not in (NOTARIZE_B, FINALIZE_B):
            out.append((title, block(tagged_parts("Activity", value))))
    return "\n\n".join(f"{title}\n\n{text}" for title, text in out)


# ---------------------------------------------------------------- checking the two files

def salted_nullify():
    """The one example of the salted scheme, as a report: a counter, and the hash behind it of it and of what else is hashed."""
    view, counter = ("round", 0, 3), bytes(range(1, 9))
    namespace = BASE + NAMES["nullify"]
    hashed = counter + (1).to_bytes(4, "big") + len(namespace).to_bytes(4, "big") + namespace + spelled(view)
    return b"\x03" + spelled(view) + b"\x01" + counter + hashlib.sha256(hashed).digest()


def known_bytes():
    out = {spelled(CONTEXT), salted_nullify()}
    for value in MESSAGES:
        out |= {data for _, data in as_types(value)}
    return out


def hex_bytes(text):
    out, words = b"", text.split()
    while words:
        word = words.pop(0)
        if words[:1] == ["×"]:
            out += bytes.fromhex(word) * int(words[1])
            words = words[2:]
        else:
            out += bytes.fromhex(word)
    return out


def check(path):
    known, found, text = known_bytes(), [], open(path, encoding="utf-8").read()
    lines = text.split("\n")
    if path.endswith(".md"):
        data = b""
        for line in lines + [""]:
            if re.match("    ([0-9a-f][0-9a-f])+ ", line):
                data += hex_bytes(line[4:].split("  ")[0])
            elif data:
                assert data in known, data.hex()
                found.append(data)
                data = b""
    else:
        for piece in text.split("const ")[1:]:
            head, body = piece.split("= [\n")
            body = "\n".join(line.split("//")[0] for line in body.split("];")[0].split("\n"))
            data = bytes(int(word, 0) for word in body.replace("\n", " ").split(",") if word.strip())
            assert data in known and f"; {len(data)}]" in head, head
            found.append(data)
    width = max(len(line) for line in lines)
    print(f"{path}: {len(found)} examples, all of them vectors; widest line {width}")


def main(words):
    if words[:1] == ["constants"]:
        print(constants(), end="")
    elif words[:1] == ["formats"]:
        print(formats())
    elif words[:1] == ["check"]:
        for path in words[1:]:
            check(path)
    elif words and words != ["test"]:
        print(__doc__)
    else:
        count = test()
        if words[:1] == ["test"]:
            print(f"good: {count} spelled values, {len(ROWS)} rows")
        else:
            print_all(count)


if __name__ == "__main__":
    main(sys.argv[1:])
