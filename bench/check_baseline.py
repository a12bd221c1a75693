#!/usr/bin/env python3
"""Compares an audit program with a slow model of it on small random inputs, many of them broken.

usage: check_baseline.py PROGRAM [CASES]

The model is the plain definition in tools/audited.py.
"""

import random
import subprocess
import sys
from pathlib import Path

sys.path.insert(0, str(Path(__file__).resolve().parent.parent / "tools"))

from audited import Plain, audit, lines_of
from vectors import VOTE_OF, tagged_parts, vote

COUNT = 3
NUMBERS = [0, 1, 2, 127, 128, 2**14, 2**32 - 1, 2**32, 2**63 - 1, 2**63, 2**64 - 1]
INDICES = [0, 1, 2, 3, 2**32 - 1]
PAYLOADS = [bytes(32), bytes(31) + b"\x01", b"\x01" + bytes(31), b"\xff" * 32]
# Spellings that are too long or too large, the last one for an index only.
ODD = [
    b"\x80\x00",
    b"\xff\x00",
    b"\xff" * 9 + b"\x02",
    b"\xff" * 9 + b"\x81\x00",
    b"\xff" * 10 + b"\x01",
    b"\x80" * 4 + b"\x10",
]
VOTES = ("notarize", "nullify", "finalize")
CERTIFICATES = ("notarization", "nullification", "finalization")


# The model


def model(data):
    evidence, fault = audit(Plain, COUNT, data)
    return lines_of(evidence, fault), 0 if fault is None else 3


# The inputs


def some_vote(kind, key, chance):
    epoch, view, index = key
    subject = round_ = ("round", epoch, view)
    if kind != "nullify":
        subject = ("proposal", round_, chance.choice(NUMBERS), chance.choice(PAYLOADS))
    return (kind, subject, some_attestation(kind, index, subject, chance))


def some_attestation(kind, index, subject, chance):
    if chance.random() < 0.9:
        return vote(kind, index, subject)[2]
    return ("attestation", index, bytes(32))


def some_certificate(kind, key, chance):
    """Often below the quorum, or with attestations that do not verify."""
    voted = VOTE_OF[kind]
    subject = some_vote(voted, key, chance)[1]
    signers = [index for index in (0, 1, 2, 3) if chance.random() < (0.8 if index < 3 else 0.02)]
    listed = (some_attestation(voted, index, subject, chance) for index in signers)
    return (kind, subject, ("list", *listed))


def some_message(keys, chance):
    first, second = chance.choice(keys), chance.choice(keys)
    dice = chance.random()
    if dice < 0.5:
        return some_vote(chance.choice(VOTES), first, chance)
    if dice < 0.75:
        made = some_certificate(chance.choice(CERTIFICATES), first, chance)
        certified = made[0] == "notarization" and chance.random() < 0.5
        return ("certified", made) if certified else made
    # Evidence of two rounds or signers is broken, as that of equal proposals is: both are rare.
    second = first if chance.random() < 0.98 else second
    name, kinds = chance.choice([
        ("conflicting-notarize", ("notarize", "notarize")),
        ("conflicting-finalize", ("finalize", "finalize")),
        ("nullify-finalize", ("nullify", "finalize")),
    ])
    return (name, some_vote(kinds[0], first, chance), some_vote(kinds[1], second, chance))


def some_spelling(message, chance):
    """The message's bytes, seldom with an odd spelling in place of a number or the tag."""
    return b"".join(
        chance.choice(ODD) if len(part) != 32 and chance.random() < 0.002 else part
        for _, part in tagged_parts("Activity", message)
    )


def bent(data, chance):
    """The data cut off or with one byte changed."""
    place = chance.randrange(len(data))
    if chance.random() < 0.5:
        return data[:place]
    return data[:place] + chance.randbytes(1) + data[place + 1 :]


def some_input(chance):
    keys = [
        (chance.choice(NUMBERS), chance.choice(NUMBERS), chance.choice(INDICES)) for _ in range(4)
    ]
    data = b"".join(
        some_spelling(some_message(keys, chance), chance) for _ in range(chance.randrange(30))
    )
    return bent(data, chance) if data and chance.random() < 0.4 else data


def main():
    if len(sys.argv) < 2 or sys.argv[1] in ("-h", "--help"):
        return print(__doc__)
    program, cases = sys.argv[1], int((sys.argv[2:] or ["2000"])[0])
    for seed in range(cases):
        data = some_input(random.Random(seed))
        done = subprocess.run([program, "audit", str(COUNT)], input=data, stdout=subprocess.PIPE)
        if (done.stdout.decode(), done.returncode) != model(data):
            sys.exit(f"{program} differs from the model on the input of seed {seed}")
    print(f"{program} agrees with the model on {cases} inputs")


if __name__ == "__main__":
    main()
