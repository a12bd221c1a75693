"""Leaders and terms, by the rules of electors."""

import random
from hashlib import sha256

from rules_script.common import LAST, script, term_index
from script_rows import digits, listed


def order_of(seed, members):
    """By the hash of the seed and the index in four bytes, the most significant first."""
    if seed is None:
        return list(range(members))
    return sorted(range(members), key=lambda it: (sha256(seed + it.to_bytes(4, "big")).digest(), it))


def leader(seed, length, members, epoch, view):
    return order_of(seed, members)[(epoch + term_index(length, view)) % 2**64 % members]


def elector(asked, seed, terms, members, epoch, view, leaders):
    order = "ascending" if seed is None else f"shuffled {digits(seed)}"
    named = "rotating" if terms is None else "stable {} {} {}".format(*terms)
    length = 1 if terms is None else terms[0]
    for later, wanted in enumerate(leaders):
        assert wanted == leader(seed, length, members, epoch, view + later)
    call = f"elector {asked} {order} {named} {members} {epoch} {view} {len(leaders)}"
    script.ask(call, listed(leaders))


def worked():
    script.note("worked by hand: terms of one view are led in turn")
    both = ("leads", "copies_lead")
    for asked in both:
        elector(asked, None, None, 5, 0, 1, [1, 2, 3, 4, 0, 1])
    script.note(
        "worked by hand: the views of a term have one leader, and an epoch starts one place further "
        "on"
    )
    for asked in both:
        elector(asked, None, (3, 500, 2), 4, 1, 1, [2, 2, 2, 3, 3, 3, 0])
    script.note("worked by hand: view 0 is before the first term")
    elector("leads", None, None, 4, 2, 0, [2, 3, 0])
    script.note("worked by hand: the sum of epoch and term wraps at 2^64, which is no multiple of 5")
    elector("leads", None, None, 5, LAST, 0, [0, 0, 1])
    script.note("worked by hand: one participant leads alone")
    elector("leads", b"simplex", None, 1, 7, 1, [0, 0, 0])
    script.note("the order of the seed is 0, 3, 5, 2, 1, 6, 4 by hashlib")
    assert order_of(b"simplex", 7) == [0, 3, 5, 2, 1, 6, 4]
    for asked in both:
        elector(asked, b"simplex", None, 7, 0, 1, [3, 5, 2, 1, 6, 4, 0])
        elector(asked, b"simplex", (2, 500, 0), 7, 3, 1, [1, 1, 6, 6, 4, 4, 0])
    script.note("worked by hand: terms are of one view unless set, and all are schedules")
    for order in ("ascending", "shuffled 73696d706c6578"):
        script.ask(f"elector sets {order} rotating 4", "1 - 0 scheduled")
        script.ask(f"elector sets {order} stable 3 500 2 4", "3 500 2 scheduled")
    script.ask("terms default", "1 - 0")
    script.ask("terms rotating", "1 - 0")
    script.ask("terms stable 3 500 2", "3 500 2")
    script.note(
        "worked by hand: callers owe a participant, and a time above 0 after which a term is given up"
    )
    script.ask("elector leads ascending rotating 0 0 1 1", "condition")
    script.ask("elector copies_lead ascending rotating 0 0 1 1", "condition")
    script.ask("elector sets ascending rotating 0", "condition")
    script.ask("elector leads ascending stable 3 0 2 4 0 1 1", "condition")
    script.ask("terms stable 3 0 2", "condition")
    script.note(
        "worked by hand: an elector that is no schedule goes by the certificate: one signature, of "
        "member 2"
    )
    one = bytes([1, 2]) + bytes(32)
    script.ask("elector by_count 4 0 1 -", 0)
    script.ask(f"elector by_count 4 0 2 {digits(one)}", 1)
    script.ask("elector by_count 4 0 2 -", "condition")
    script.ask("elector by_count 0 0 1 -", "condition")
    script.ask(f"elector by_count 1 0 2 {digits(one)}", "unreadable")
    script.note("worked by hand: a kind is printed as its lower-case word")
    for kind in ("notarization", "nullification", "finalization"):
        script.ask(f"kind {kind}", kind)
    script.note("worked by hand: what isn't a call")
    for line in (
        "elector", "elector leads", "elector leads ascending rotating 5 0 1",
        "elector leads falling rotating 5 0 1 1", "elector leads ascending rotating 5 0 1 1 1",
        "elector leads ascending stable 0 500 2 5 0 1 1", f"elector leads ascending rotating 5 0 {LAST} 2",
        "elector leads shuffled", "elector by_count 4 0 1", "terms", "kind Notarization", "laws 1", "lead",
        "reset rules",
    ):
        script.ask(line, "unreadable")
    script.ask("laws", "ok")


def generated():
    script.note("generated: leaders")
    chance = random.Random(1)
    for _ in range(150):
        seed = chance.choice([None, b"", b"simplex", chance.randbytes(chance.randrange(1, 70))])
        length = chance.choice([1, 2, 3, 5, 100, 2**32 - 1])
        stable = (length, chance.choice([1, LAST]), chance.choice([0, 1, LAST]))
        terms = chance.choice([None, stable])
        members = chance.choice([1, 2, 3, 4, 5, 7, 10, 31, 100])
        epoch = chance.choice([0, 1, 2, 300, LAST - 1, LAST])
        view = chance.choice([0, 1, 2, chance.randrange(1000), 2**32, 2**63, LAST - 12])
        length = 1 if terms is None else terms[0]
        leaders = [leader(seed, length, members, epoch, view + later) for later in range(chance.randrange(1, 13))]
        elector(chance.choice(["leads", "copies_lead"]), seed, terms, members, epoch, view, leaders)
    for members in (1000, 65535):
        leaders = [leader(b"seed", 1, members, 0, view) for view in range(1, 13)]
        elector("leads", b"seed", None, members, 0, 1, leaders)
