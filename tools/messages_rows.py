"""The rows of the scripts that make-messages-script writes: worked ones with their answers, and chosen ones."""

A, B, ONE = "aa" * 32, "bb" * 32, "01" * 32
# Signatures of the plain scheme over the base simplex for view 2 of epoch 0, proposals on view 1 for 32 bytes
# aa or bb: SHA-256 as Python's hashlib gives it.
NOTARIZE_AA = [
    "b6194c39aa29f859c078d1646c45f4816deaee704fda835828a1e8d4e1947d7c",
    "abe9158c3bdc71f0939c80b81d8e0e602c446bdd5c95e5d44f3310cec6a914a2",
    "d2d71f0a3389fbad2c1794309acc0b13be1976118265c9aa3be032b4e7e5c5c3",
]
NOTARIZE_BB_1 = "f530ef208ea9a2540f28454f93fa6de670e5025af54ad73ff6ac2c816fb3098f"
NULLIFY = [
    "dfee6c852304a6e37cf58330984df133a6f47e179d626863b8717b5dfc9c9a2f",
    "0173deda8b89faadd1f179126ef119f2567d473d85af1f4095ffecca380e76a2",
    "f22af2abdb42381670c84b0f8ae82e6b44c848dbae366f253155706ddccd6448",
]
FINALIZE_AA = [
    "97f58db43d12bdb6b49d09323c586535b0f6b5d782eadd952d1f267b36c46734",
    "55ecc3dc66e6fbcf74469701d3c04cafb38cf09de93ad698c8e2986f04c3d6b8",
    "fec27a20c75b33681d8e683fd008a6690f657912d2b79384c9a5d96acaaff8f0",
]
FINALIZE_BB_1 = "51acaedcfcae0c7e83253742cd6ea60c90b0d947cf3d21d14fc07156aa644367"
P_AA, P_BB = "000201" + A, "000201" + B
ROUND = "0002"


def listed(signatures):
    return "%02x" % len(signatures) + "".join("%02x" % place + one for place, one in enumerate(signatures))


def turned(text, place=0):
    """The bytes with the lowest bit of the one at this place turned."""
    data = bytearray.fromhex(text)
    data[place] ^= 1
    return data.hex()


def spelled(script, kind, text, bound=4):
    """The bytes are one value whatever follows, and end at each cut."""
    size = len(text) // 2
    script.worked(f"read {kind} {bound} {text}", f"{text} {size} 0")
    script.worked(f"read {kind} {bound} {text}7768617420666f6c6c6f7773", f"{text} {size} 12")
    script.worked(f"cuts {kind} {bound} {text}", "e" * size + "v")


def refused(script, kind, text, reason, bound=4):
    script.worked(f"read {kind} {bound} {text or '-'}", f"{reason} {len(text) // 2}")


# ---------------------------------------------------------------- types

def types(script, here, chance):
    numbers_by_hand(script)
    values_by_hand(script)
    lists_by_hand(script)
    positions_by_hand(script)
    signing_by_hand(script, here)
    judging_by_hand(script, here)
    lines_by_hand(script)
    chosen_numbers(script, here, chance)
    chosen_values(script, here, chance)
    chosen_positions(script, here, chance)
    chosen_signing(script, here, chance)


def numbers_by_hand(script):
    greatest, index = "ff" * 9 + "01", "ffffffff0f"
    script.note("worked by hand: numbers are groups of seven bits")
    spelled(script, "epoch", "ac02")
    script.worked("epoch 300", "300 false")
    spelled(script, "view", "808080808020")
    spelled(script, "round", "80017f")
    for text in ("7f", "8001", "ac02"):
        spelled(script, "view", text)
    script.note("worked by hand: the greatest number of 64 bits")
    spelled(script, "view", greatest)
    refused(script, "view", greatest[:-2] + "02", "Invalid")
    refused(script, "view", greatest[:-2] + "81", "Invalid")
    script.worked("most view", "10")
    script.note("worked by hand: the greatest index")
    spelled(script, "member", index)
    for last in ("1f", "ff", "10"):
        refused(script, "member", index[:-2] + last, "Invalid")
    refused(script, "member", "ffffffff8f", "Invalid")
    script.worked("most member", "5")
    script.note("worked by hand: a long number is invalid")
    refused(script, "proposal", "008a0005" + ONE, "Invalid")
    refused(script, "view", "8a00", "Invalid")
    spelled(script, "view", "0a")
    script.worked("laws", "ok")
    script.note("worked by hand: truth values")
    spelled(script, "truth", "00")
    spelled(script, "truth", "01")
    refused(script, "truth", "02", "Invalid")
    refused(script, "truth", "ff", "Invalid")
    refused(script, "truth", "", "End")


def values_by_hand(script):
    script.note("worked by hand: a proposal")
    spelled(script, "proposal", "000a05" + ONE)
    script.worked("most proposal", "62")
    script.note("worked by hand: an attestation is an index and a signature")
    spelled(script, "attestation", "ac02" + A)
    spelled(script, "signature", A)
    script.worked("most attestation", "37")
    script.note("worked by hand: a digest is its bytes")
    spelled(script, "digest", "01" + "00" * 30 + "ef")
    script.worked("digest 01" + "00" * 30 + "ef", "01" + "00" * 30 + "ef " + "01" + "00" * 30 + "ef")
    script.note("worked by hand: copies are equal")
    for kind, text in [
        ("round", "0207"), ("digest", ONE), ("proposal", "020705" + ONE), ("signature", A), ("member", "03"),
        ("attestation", "03" + A), ("key", "00000003"), ("context", "00020000010201" + A),
        ("list", "0100" + "0a" * 32),
    ]:
        script.worked(f"equal {kind} {text} {text}", "true true")
    script.note("worked by hand: a context is a round, a leader and a parent")
    spelled(script, "context", "00020000000101" + A)
    spelled(script, "context", "000200000102ac02" + A)
    script.worked("belongs context 00020000000101" + A, "0 2")
    script.worked("most context", "66")
    script.note("worked by hand: every four bytes are a key")
    for text in ("00000000", "01020304", "ffffffff"):
        spelled(script, "key", text)
    script.note("worked by hand: contexts that differ in the leader or the parent, and one of them again")
    one, two, three = "00020000000101" + A, "00020000000201" + A, "00020000000100" + A
    script.worked(f"distinct context {one} {two} {three} {one}", "3")
    script.note("worked by hand: proposals by epoch, then view, then parent, then payload")
    ascending = [
        "000908" + "07" * 32, "010201" + "07" * 32, "010300" + "09" * 32, "010301" + "00" * 32,
        "010301" + "01" * 32,
    ]
    for low, high in zip(ascending, ascending[1:]):
        script.worked(f"order proposal {low} {high}", "Less")
        script.worked(f"order proposal {high} {low}", "Greater")
    script.worked(f"order proposal {ascending[0]} {ascending[0]}", "Equal")
    script.worked(f"distinct proposal {' '.join(ascending + ascending)}", "5")
    script.note("worked by hand: rounds by epoch, then view")
    script.worked("order round 0105 0200", "Less")
    script.worked("order round 0200 0201", "Less")
    script.worked("order round 0201 0201", "Equal")
    script.note("worked by hand: what values belong to")
    script.worked("belongs round 0207", "2 7")
    script.worked("belongs proposal 020705" + ONE, "2 7")
    script.worked("belongs attestation 03" + A, "3")


def lists_by_hand(script):
    three = "0300" + "0a" * 32 + "01" + "0b" * 32 + "03" + "0d" * 32
    two = "027f" + "14" * 32 + "ac02" + "15" * 32
    script.note("worked by hand: lists are read as they were written")
    spelled(script, "list", "00", 0)
    spelled(script, "list", "00", 4)
    spelled(script, "list", three, 4)
    spelled(script, "list", two, 301)
    script.worked("listed 00", "0")
    script.worked("listed " + three, f"3 00{'0a' * 32} 01{'0b' * 32} 03{'0d' * 32}")
    script.worked("listed " + two, f"2 7f{'14' * 32} ac02{'15' * 32}")
    script.note("worked by hand: a new list ascends")
    script.worked(f"list 4 03{'0d' * 32} 00{'0a' * 32} 01{'0b' * 32}", three)
    script.worked(f"list 3 03{'0d' * 32} 00{'0a' * 32} 01{'0b' * 32}", "condition")
    script.worked(f"list 4 03{'0d' * 32} 03{'0d' * 32}", "condition")
    script.worked("list 4", "00")
    script.note("worked by hand: a list is within the bounds under which it is read")
    script.worked("within 0 00", "true")
    for bound, is_within in [(0, "false"), (2, "false"), (3, "false"), (4, "true"), (2**32 - 1, "true")]:
        script.worked(f"within {bound} {three}", is_within)
    refused(script, "list", three, "TooLong", 0)
    refused(script, "list", three, "TooLong", 2)
    refused(script, "list", three, "Invalid", 3)
    script.worked(f"read list {2**32 - 1} {three}", f"{three} 100 0")
    script.note("worked by hand: counts")
    for bound, text, reason in [
        (4, "05", "TooLong"), (0, "01", "TooLong"), (4, "8080808010", "TooLong"), (4, "ff" * 9 + "01", "TooLong"),
        (4, "ff" * 9 + "02", "Invalid"), (4, "85", "End"), (4, "8500", "Invalid"), (4, "ff" * 5, "End"),
        (5, "05", "End"),
    ]:
        refused(script, "list", text, reason, bound)
    script.note("worked by hand: an index is judged before its signature is read")
    for bound, text, reason in [
        (4, "0104", "Invalid"), (5, "0104", "End"), (4, "0184", "End"), (4, "018400", "Invalid"),
        (4, "018401", "Invalid"), (4, "01ffffffff0f", "Invalid"), (2**32 - 1, "01ffffffff0f", "Invalid"),
        (2**32 - 1, "01feffffff0f", "End"),
    ]:
        refused(script, "list", text, reason, bound)
    for index, reason in [("01", "Invalid"), ("00", "Invalid"), ("02", "End")]:
        refused(script, "list", "0201" + "77" * 32 + index, reason)
    script.note("worked by hand: lists that differ in the index, the signature or the length, and one again")
    lists = ["0100" + "0a" * 32, "0101" + "0a" * 32, "0100" + "0b" * 32, "00"]
    script.worked(f"distinct list {' '.join(lists + lists[:1])}", "4")
    for other in lists[1:]:
        script.worked(f"equal list {lists[0]} {other}", "false false")
    script.worked(f"equal list {lists[0]} {lists[0]}", "true true")
    script.note("worked by hand: the longest lists have five bytes of count and of each index")
    for participants, most in [(0, 5), (1, 42), (4, 153), (65535, 2424800), (2**32 - 1, 158913789920)]:
        script.worked(f"most list {participants}", str(most))
    script.note("worked by hand: members stand once each, in any order")
    for indices, is_so in [
        ([], "true"), ([2], "true"), ([3, 0, 2, 1], "true"), ([2, 0, 2], "false"), ([4], "false"),
    ]:
        given = "".join(f" {index:02x}{A}" for index in indices)
        script.worked("distinct_members 4" + given, is_so)
    script.worked(f"distinct_members 4 01{A} ffffffff0f{A} 00{A}", "false")


TERMS = [
    (1, 0, 0, 0, 0, 1), (1, 1, 1, 1, 1, 2), (1, 2, 2, 2, 2, 3), (1, 3, 3, 3, 3, 4), (1, 4, 4, 4, 4, 5),
    (1, 5, 5, 5, 5, 6), (1, 6, 6, 6, 6, 7), (1, 15, 15, 15, 15, 16), (1, 16, 16, 16, 16, 17),
    (3, 0, 0, 0, 0, 1), (3, 1, 1, 1, 3, 4), (3, 2, 1, 1, 3, 4), (3, 3, 1, 1, 3, 4), (3, 4, 2, 4, 6, 7),
    (3, 5, 2, 4, 6, 7), (3, 6, 2, 4, 6, 7), (3, 15, 5, 13, 15, 16), (3, 16, 6, 16, 18, 19),
    (5, 0, 0, 0, 0, 1), (5, 1, 1, 1, 5, 6), (5, 2, 1, 1, 5, 6), (5, 3, 1, 1, 5, 6), (5, 4, 1, 1, 5, 6),
    (5, 5, 1, 1, 5, 6), (5, 6, 2, 6, 10, 11), (5, 14, 3, 11, 15, 16), (5, 15, 3, 11, 15, 16),
    (5, 16, 4, 16, 20, 21),
]


def positions_by_hand(script):
    last = 2**64 - 1
    script.note("worked by hand: terms")
    for length, view, index, first, end, after in TERMS:
        start = "true" if view == first else "false"
        script.worked(f"term {length} {view}", f"{index} {first} {start} true")
        script.worked(f"term_end {length} {view}", str(end))
        script.worked(f"next_term_start {length} {view}", str(after))
    script.note("worked by hand: a nullification covers the rest of its term")
    script.worked("covers 5 14 14", "true 11 14")
    for nullified, view, covers, first in [
        (0, 0, "true", 0), (0, 1, "false", 1), (1, 0, "false", 0), (10, 14, "false", 11), (11, 14, "true", 11),
        (14, 14, "true", 11), (15, 14, "false", 11), (11, 15, "true", 11), (11, 16, "false", 16),
    ]:
        script.worked(f"covers 5 {nullified} {view}", f"{covers} {first} {view}")
    script.note("worked by hand: room, to the end of the numbers")
    for length, below in [(1, 4), (3, 9), (5, 15)]:
        for lower, has_room in [(below, "true"), (below - 1, "false"), (0, "false")]:
            answer = script.ask(f"term {length} {last - lower}")
            if answer.split(" ")[3] != has_room:
                raise SystemExit(f"room otherwise: {length} {lower}")
            if has_room == "false":
                script.worked(f"next_term_start {length} {last - lower}", "condition")
    script.worked(f"term {2**32 - 1} 0", "0 0 true true")
    script.worked(f"term {2**32 - 1} {last}", "4294967297 18446744069414584321 false false")
    script.worked(f"term 5 {last}", f"3689348814741910323 {last - 4} false false")
    script.worked(f"term_end 5 {last}", str(last))
    script.worked(f"term_end 3 {last - 1}", str(last))
    script.worked(f"term_end 4 {last}", "condition")
    script.note("worked by hand: steps by one")
    script.worked("previous 0", "-")
    script.worked("previous 1", "0")
    script.worked("previous 7", "6")
    script.worked("next 41", "42")
    script.worked(f"next {last}", "condition")
    script.note("worked by hand: numbers are kept, and zero is zero alone")
    for name in ("epoch", "view", "delta"):
        for number in (0, 1, 9, 10):
            script.worked(f"{name} {number}", f"{number} {'false' if number else 'true'}")
    script.worked("length 1", "1 true")
    script.worked("length 5", "5 false")
    script.worked("length 0", "unreadable")
    script.worked("read member 4 03", "03 1 0")
    script.note("worked by hand: quorums are all but as many as may be faulty")
    for members, lying, enough in [
        (1, 0, 1), (2, 0, 2), (3, 0, 3), (4, 1, 3), (5, 1, 4), (6, 1, 5), (7, 2, 5), (8, 2, 6), (9, 2, 7),
        (10, 3, 7), (65535, 21844, 43691),
    ]:
        script.worked(f"quorum {members}", f"{lying} {enough}")


SUBJECTS = {"notarize": "notarize 0 2 1 170", "nullify": "nullify 0 2", "finalize": "finalize 0 2 1 170"}


def signing_by_hand(script, here):
    simplex = b"simplex".hex()
    script.note("worked by hand: what is signed names its kind")
    for kind, message, signature in [
        ("notarize", P_AA, NOTARIZE_AA[1]), ("nullify", ROUND, NULLIFY[1]), ("finalize", P_AA, FINALIZE_AA[1]),
    ]:
        name = ("_" + kind.upper()).encode().hex()
        told = f"{simplex} 0 2 {name} {simplex}{name} {message} {signature}"
        script.worked(f"subject {simplex} 1 {SUBJECTS[kind]}", told)
    for base, words, round_, kind, message in [
        ("-", "nullify 4 8", "4 8", "nullify", "0408"),
        (simplex, "notarize 3 7 1 170", "3 7", "notarize", "030701" + A),
        (simplex, "finalize 3 7 1 170", "3 7", "finalize", "030701" + A),
    ]:
        name = ("_" + kind.upper()).encode().hex()
        answer = script.ask(f"subject {base} 0 {words}")
        if answer.rsplit(" ", 1)[0] != f"{base} {round_} {name} {base.strip('-')}{name} {message}":
            raise SystemExit(f"signed otherwise: {words}")
    script.note("worked by hand: signatures hash what is signed")
    for kind, signature in [("notarize", NOTARIZE_AA[1]), ("nullify", NULLIFY[1]), ("finalize", FINALIZE_AA[1])]:
        script.worked(f"scheme plain 4 1 sign {SUBJECTS[kind]}", "01" + signature)
        script.worked(f"scheme plain 4 1 verify {SUBJECTS[kind]} 01{signature}", "true")
        script.worked(f"scheme serial 4 1 sign {SUBJECTS[kind]}", "01" + signature)
    large = f"notarize 300 {2**40} {2**40 - 1} 170"
    large_signature = "218156a6ba3f310404ea5779744e35ad65994b537390b53ddb05f2af85bc129f"
    script.worked(f"scheme plain 4 1 sign {large}", "01" + large_signature)
    script.worked(f"scheme plain 4 1 verify {large} 01{large_signature}", "true")
    script.note("worked by hand: an attestation is of one subject")
    for other in ("notarize 0 2 0 170", "finalize 0 2 1 170", "nullify 0 2"):
        script.worked(f"scheme plain 4 1 verify {other} 01{NOTARIZE_AA[1]}", "false")
    script.note("worked by hand: an attestation is of one member")
    for index, verifies in [("00", "false"), ("01", "true"), ("02", "false"), ("04", "false"), ("ffffffff0f", "false")]:
        script.worked(f"scheme plain 4 1 verify notarize 0 2 1 170 {index}{NOTARIZE_AA[1]}", verifies)
    script.worked(f"scheme plain 4 1 verify notarize 0 2 1 170 01{turned(NOTARIZE_AA[1], 31)}", "false")
    script.note("worked by hand: only members attest")
    for index, verifies in [(0, "true"), (3, "true"), (4, "false"), (2**32 - 1, "false")]:
        made = script.ask(f"subject {simplex} {index} notarize 0 2 1 170").split(" ")[-1]
        script.worked(f"scheme plain 4 1 verify notarize 0 2 1 170 {here.varint(index).hex()}{made}", verifies)
    script.note("worked by hand: a committee is shown")
    script.worked("scheme plain 4 1 shown", "4 1 true")
    script.worked("scheme plain 4 - shown", "4 - true")
    script.worked("scheme serial 4 - shown", "4 - false")
    script.worked("scheme plain 4 1 key 3", "00000003")
    script.worked("scheme plain 4 1 key 4", "-")
    script.worked("scheme plain 4 - key 3", "00000003")
    script.note("worked by hand: nobody signs without a key")
    script.worked("scheme plain 4 - sign notarize 0 2 1 170", "-")
    script.note("worked by hand: no committee has no member, too many, or a stranger among them")
    for words in ("0 - shown", "65536 - shown", "4 4 shown"):
        script.worked("scheme plain " + words, "condition")
    script.worked("scheme plain 65535 65534 shown", "65535 65534 true")


def attested(here, kind, stated, index):
    return here.spell_attestation((index, here.signature(index, kind, stated))).hex()


def judging_by_hand(script, here):
    proposal = ((0, 2), 1, b"\xaa" * 32)
    script.note("worked by hand: assembled lists ascend whatever the order")
    for order in ([2, 0, 1], [1, 2, 0]):
        given = " ".join(f"{index:02x}{NULLIFY[index]}" for index in order)
        script.worked(f"scheme plain 4 - assemble {given}", listed(NULLIFY))
        script.worked(f"scheme serial 4 - assemble {given}", listed(NULLIFY))
    script.worked(f"scheme plain 4 - verify_certificate nullify 0 2 {listed(NULLIFY)}", "true")
    script.note("worked by hand: assembly wants a quorum")
    given = " ".join(attested(here, "finalize", proposal, index) for index in (0, 1, 4))
    script.worked(f"scheme plain 5 - assemble {given}", "3 attestations, where a quorum is 4")
    one = attested(here, "finalize", proposal, 0)
    script.worked(f"scheme plain 1 - assemble {one}", "01" + one)
    script.worked(f"scheme plain 4 - assemble {given}", "condition")
    script.worked(f"scheme plain 4 - assemble {one} {one} {one}", "condition")
    script.note("worked by hand: a quorum certifies")
    for indices, four, five in [
        ([0], "false", "false"), ([0, 1], "false", "false"), ([0, 1, 2], "true", "false"),
        ([0, 1, 2, 3], "true", "true"), ([0, 1, 4], "false", "false"), ([0, 1, 2, 4], "false", "true"),
    ]:
        spelling = "%02x" % len(indices) + "".join(attested(here, "notarize", proposal, index) for index in indices)
        script.worked(f"scheme plain 4 - verify_certificate notarize 0 2 1 170 {spelling}", four)
        script.worked(f"scheme plain 5 - verify_certificate notarize 0 2 1 170 {spelling}", five)
        script.worked(f"scheme serial 5 - verify_certificate notarize 0 2 1 170 {spelling}", five)
    script.note("worked by hand: a turned bit spoils the certificate")
    for count in (3, 4):
        spelling = "%02x" % count + "".join(
            "01" + turned(NOTARIZE_AA[1]) if index == 1 else attested(here, "notarize", proposal, index)
            for index in range(count)
        )
        script.worked(f"scheme plain 4 - verify_certificate notarize 0 2 1 170 {spelling}", "false")
    script.note("worked by hand: a certificate is of one subject")
    for epoch, view in [(0, 3), (1, 2), (2, 0)]:
        script.worked(f"scheme plain 4 - verify_certificate nullify {epoch} {view} {listed(NULLIFY)}", "false")
    for kind in ("notarize", "finalize"):
        script.worked(f"scheme plain 4 - verify_certificate {SUBJECTS[kind]} {listed(NULLIFY)}", "false")
    script.note("worked by hand: many attestations at once. A broken one is of another view")
    for given, failing, count in [
        ([0, 1, 2], [], 3), ([2, 3, 0, 1], [], 4), ([0, 1], [], None), ([], [], None), ([0, 1, 1], [], None),
        ([0, 1, 2, 1], [], None), ([0, 1, 2, 4], [4], None), ([0, 1, 2, -3], [3], None),
        ([-3, 1, 0, -1, 4, -3], [1, 3, 4], None),
    ]:
        broken = [attested(here, "nullify", (0, 3), -index) for index in given if index < 0]
        words = "".join(" " + (broken.pop(0) if index < 0 else attested(here, "nullify", (0, 2), index)) for index in given)
        named = " ".join(str(number) for number in [len(failing)] + failing)
        made = "-"
        if count:
            made = "%02x" % count + "".join(attested(here, "nullify", (0, 2), index) for index in range(count)) + " true"
        for scheme in ("plain", "serial"):
            script.worked(f"scheme {scheme} 4 - failing nullify 0 2{words}", named)
            script.worked(f"scheme {scheme} 4 - optimistic nullify 0 2{words}", made if scheme == "plain" else "-")


def lines_by_hand(script):
    script.note("worked by hand: lines that are no calls")
    for line in (
        "term", "term 5", "term 5 14 3", "term 5 x", "term 0 14", "reset", "read", "read proposal", "read ballot 4 00",
        "read proposal 4 0", "read proposal 4 xy", "order view 00 00", "distinct view 00", "subject - 1 abstain 0 2",
        "scheme fast 4 1 shown", "scheme plain 4 1 ask", "quorum -1", "quorum 01", "next 18446744073709551616",
        "within 4 0100", "most", "most digests", "previous 1 ", "next  1",
    ):
        script.worked(line, "unreadable")


BOUNDARIES = [0, 1, 127, 128, 129, 255, 256, 16383, 16384, 2**21 - 1, 2**21, 2**28 - 1, 2**28, 2**31, 2**32 - 1]
WIDE = [2**32, 2**35 - 1, 2**35, 2**40, 2**42, 2**49 - 1, 2**49, 2**56, 2**63 - 1, 2**63, 2**64 - 2, 2**64 - 1]


def number(chance, most=2**64 - 1):
    """A number of any length, or one beside a boundary."""
    if chance.random() < 0.4:
        return min(chance.choice(BOUNDARIES + WIDE), most)
    return min(chance.getrandbits(chance.randrange(1, 65)), most)


def chosen_numbers(script, here, chance):
    script.note("numbers beside the boundaries of groups")
    for value in BOUNDARIES + WIDE:
        for kind in ("view", "epoch", "member"):
            text = here.varint(value).hex()
            script.ask(f"read {kind} 4 {text}ff")
            script.ask(f"cuts {kind} 4 {text}")
        # The same with a group of 0 more, and with the last group's high bit set.
        data = here.varint(value)
        longer = data[:-1] + bytes([data[-1] | 128])
        for kind in ("view", "member"):
            script.ask(f"cuts {kind} 4 {longer.hex()}00")
            script.ask(f"cuts {kind} 4 {longer.hex()}01")
    script.note("bytes as numbers")
    for _ in range(250):
        data = bytes(chance.choice([0, 1, 2, 15, 16, 127, 128, 129, 254, 255]) for _ in range(chance.randrange(1, 12)))
        script.ask(f"cuts {chance.choice(['view', 'epoch', 'member', 'round'])} 4 {data.hex()}")


def some_bytes(chance, count=32):
    return chance.choice([bytes([chance.getrandbits(8)]) * count, bytes(chance.getrandbits(8) for _ in range(count))])


def some_round(chance):
    return (number(chance), number(chance))


def some_proposal(chance):
    return (some_round(chance), number(chance), some_bytes(chance))


def some_list(chance, bound):
    indices = sorted(chance.sample(range(bound), chance.randrange(0, min(bound, 5) + 1)))
    return tuple((index, some_bytes(chance)) for index in indices)


def some_value(chance, kind, bound):
    return {
        "member": lambda: number(chance, 2**32 - 1),
        "round": lambda: some_round(chance),
        "digest": lambda: some_bytes(chance),
        "signature": lambda: some_bytes(chance),
        "key": lambda: number(chance, 2**32 - 1),
        "proposal": lambda: some_proposal(chance),
        "context": lambda: (some_round(chance), number(chance, 2**32 - 1), number(chance), some_bytes(chance)),
        "attestation": lambda: (number(chance, 2**32 - 1), some_bytes(chance)),
        "list": lambda: some_list(chance, bound),
    }[kind]()


def changed(chance, data):
    """The bytes with one of them changed, cut out or put in."""
    place = chance.randrange(len(data))
    act = chance.randrange(4)
    if act == 0:
        return data[:place] + data[place + 1:]
    other = bytes([chance.choice([0, 1, 2, 3, 5, 127, 128, 255, chance.getrandbits(8)])])
    return data[:place] + other + data[place + (act > 1):]


def asked_of(script, here, chance, kind, value, bound):
    """The value's bytes read under its bound and others, cut, and changed."""
    data = here.SPELL[kind](value)
    script.ask(f"read {kind} {bound} {data.hex()}{some_bytes(chance, chance.randrange(0, 3)).hex()}")
    script.ask(f"cuts {kind} {chance.choice([bound, bound, 0, 1, 3, 4, 2**32 - 1])} {data.hex()}")
    for _ in range(3):
        other = changed(chance, data)
        if other:
            script.ask(f"read {kind} {chance.choice([bound, bound - 1, 65535])} {other.hex()}")


def chosen_values(script, here, chance):
    for kind in here.VALUES:
        script.note(f"values: {kind}")
        for _ in range(25):
            bound = chance.choice([1, 2, 4, 7, 300, 65535])
            asked_of(script, here, chance, kind, some_value(chance, kind, bound), bound)
        for _ in range(8):
            values = [here.SPELL[kind](some_value(chance, kind, 7)).hex() for _ in range(chance.randrange(1, 6))]
            values += chance.sample(values, chance.randrange(1, len(values) + 1))
            chance.shuffle(values)
            script.ask(f"distinct {kind} {' '.join(values)}")
            script.ask(f"equal {kind} {values[0]} {values[-1]}")
    script.note("values in order")
    for _ in range(60):
        one = some_proposal(chance)
        other = list(some_proposal(chance))
        for place in range(chance.randrange(0, 4)):
            other[place] = one[place]
        pair = [one, tuple(other)]
        chance.shuffle(pair)
        for kind, part in (("proposal", lambda value: value), ("round", lambda value: value[0]), ("digest", lambda value: value[2])):
            words = " ".join(here.SPELL[kind](part(value)).hex() for value in pair)
            script.ask(f"order {kind} {words}")
        script.ask(f"belongs proposal {here.SPELL['proposal'](one).hex()}")
    for participants in (0, 1, 2, 3, 7, 100, 65534):
        script.ask(f"most list {participants}")


def chosen_positions(script, here, chance):
    last = 2**64 - 1
    script.note("terms")
    for _ in range(300):
        length = chance.choice([1, 2, 3, 4, 5, 7, 16, 1000, 65536, 2**31, 2**32 - 1, chance.randrange(1, 2**32)])
        view = chance.choice([number(chance), chance.randrange(40), last - chance.randrange(4 * length), last - chance.randrange(40)])
        script.ask(f"term {length} {view}")
        script.ask(f"term_end {length} {view}")
        script.ask(f"next_term_start {length} {view}")
        near = chance.choice([number(chance), max(0, min(last, view + chance.randrange(-2 * min(length, 8), 3)))])
        script.ask(f"covers {length} {near} {view}")
        script.ask(f"previous {view}")
        script.ask(f"next {view}")
    script.note("committees")
    for members in list(range(0, 40)) + [100, 65534, 65535, 65536, 2**32 - 1]:
        script.ask(f"quorum {members}")


def some_subject(chance):
    kind = chance.choice(["notarize", "nullify", "finalize"])
    if kind == "nullify":
        stated = some_round(chance)
        return kind, stated, "nullify %d %d" % stated
    byte = chance.getrandbits(8)
    stated = (some_round(chance), number(chance), bytes([byte]) * 32)
    return kind, stated, "%s %d %d %d %d" % (kind, *stated[0], stated[1], byte)


def some_attestations(here, chance, kind, stated, members, most=6):
    """Good ones mostly, in any order, some broken, twice, of strangers or on something else."""
    given = []
    for index in chance.sample(range(members), chance.randrange(0, min(members, most) + 1)):
        given.append((index, here.signature(index, kind, stated)))
    if given and chance.random() < 0.3:
        given.append(chance.choice(given))
    if chance.random() < 0.3:
        given.append((members + chance.randrange(3), here.signature(members, kind, stated)))
    if given and chance.random() < 0.3:
        place = chance.randrange(len(given))
        given[place] = (given[place][0], some_bytes(chance))
    chance.shuffle(given)
    return given


def chosen_signing(script, here, chance):
    script.note("hashes under other bases")
    for length in (0, 1, 6, 100, 246, 255, 256):
        base = some_bytes(chance, length).hex() or "-"
        for _ in range(4):
            _, _, words = some_subject(chance)
            script.ask(f"subject {base} {number(chance, 2**32 - 1)} {words}")
    script.note("committees that sign, judge and assemble")
    for _ in range(120):
        members = chance.choice([1, 2, 3, 4, 5, 6, 7])
        me = chance.randrange(members)
        scheme = chance.choice(["plain", "plain", "serial"])
        kind, stated, words = some_subject(chance)
        script.ask(f"scheme {scheme} {members} {me} sign {words}")
        given = some_attestations(here, chance, kind, stated, members)
        told = "".join(" " + here.spell_attestation(one).hex() for one in given)
        script.ask(f"scheme {scheme} {members} {me} failing {words}{told}")
        script.ask(f"scheme {scheme} {members} - optimistic {words}{told}")
        script.ask(f"scheme {scheme} {members} - assemble{told}")
        script.ask(f"list {members}{told}")
        if given:
            script.ask(f"scheme {scheme} {members} - verify {words} {told.split(' ')[1]}")
            script.ask(f"scheme {scheme} {members} - verify {some_subject(chance)[2]} {told.split(' ')[1]}")
        distinct = here.spell_list(tuple(sorted(dict(given).items()))).hex()
        script.ask(f"scheme {scheme} {members} - verify_certificate {words} {distinct}")
        script.ask(f"within {members} {distinct}")
        script.ask(f"scheme {scheme} {members} {me} key {chance.randrange(members + 2)}")


# ---------------------------------------------------------------- messages

NOTARIZE = P_AA + "01" + NOTARIZE_AA[1]
NOTARIZE_BB = P_BB + "01" + NOTARIZE_BB_1
NULLIFY_1 = ROUND + "01" + NULLIFY[1]
FINALIZE = P_AA + "01" + FINALIZE_AA[1]
FINALIZE_BB = P_BB + "01" + FINALIZE_BB_1
NOTARIZATION = P_AA + listed(NOTARIZE_AA)
NULLIFICATION = ROUND + listed(NULLIFY)
FINALIZATION = P_AA + listed(FINALIZE_AA)
# Reports of each tag as programs that have nothing of the product spell them.
REPORTS = [
    "00" + NOTARIZE, "01" + NOTARIZATION, "02" + NOTARIZATION, "03" + NULLIFY_1, "04" + NULLIFICATION,
    "05" + FINALIZE, "06" + FINALIZATION, "07" + NOTARIZE + NOTARIZE_BB, "08" + FINALIZE + FINALIZE_BB,
    "09" + NULLIFY_1 + FINALIZE,
]
OF_CERTIFICATE = (1, 2, 4, 6)


def retagged(report, tag):
    return "%02x" % tag + REPORTS[report][2:]


def with_byte(text, place, byte):
    data = bytearray.fromhex(text)
    data[place] = byte
    return data.hex()


def messages(script, here, chance):
    kinds_by_hand(script)
    tags_by_hand(script)
    evidence_by_hand(script)
    verdicts_by_hand(script, here)
    making_by_hand(script, here)
    map_by_hand(script)
    chosen_messages(script, here, chance)
    chosen_verdicts(script, here, chance)
    chosen_making(script, here, chance)
    chosen_maps(script, chance)
    no_calls_by_hand(script)


def one_value(script, kind, text):
    """The bytes are one value of view 2 of epoch 0, with an equal copy."""
    spelled(script, kind, text)
    script.worked(f"belongs {kind} {text}", "0 2")
    script.worked(f"equal {kind} {text} {text}", "true true")


def kinds_by_hand(script):
    script.note("worked by hand: each message stands in its bytes")
    for kind, text in [
        ("notarize", NOTARIZE), ("notarize", NOTARIZE_BB), ("nullify", NULLIFY_1), ("finalize", FINALIZE),
        ("notarization", NOTARIZATION), ("nullification", NULLIFICATION), ("finalization", FINALIZATION),
        ("two-notarizes", NOTARIZE + NOTARIZE_BB), ("two-finalizes", FINALIZE + FINALIZE_BB),
        ("nullify-finalize", NULLIFY_1 + FINALIZE),
    ]:
        one_value(script, kind, text)
    script.note("worked by hand: votes and evidence name their signer")
    for kind, text in [
        ("notarize", NOTARIZE), ("nullify", NULLIFY_1), ("finalize", FINALIZE), ("vote", "00" + NOTARIZE),
        ("vote", "01" + NULLIFY_1), ("vote", "02" + FINALIZE), ("two-notarizes", NOTARIZE + NOTARIZE_BB),
        ("two-finalizes", FINALIZE + FINALIZE_BB), ("nullify-finalize", NULLIFY_1 + FINALIZE),
    ]:
        script.worked(f"signer {kind} {text}", "1")
    script.note("worked by hand: the greatest sizes")
    for kind, most in [
        ("notarize", 99), ("two-notarizes", 198), ("vote", 100), ("certificate 4", 216), ("notarization 4", 215),
        ("finalization 4", 215), ("nullification 4", 173), ("nullify", 57), ("finalize", 99),
        ("two-finalizes", 198), ("nullify-finalize", 156),
    ]:
        script.worked(f"most {kind}", str(most))
    greatest = "ff" * 9 + "01"
    longest = greatest * 3 + "%s" + "ffffffff0f" + NOTARIZE_AA[1]
    spelled(script, "notarize", longest % A)
    spelled(script, "two-notarizes", longest % A + longest % B)
    spelled(script, "report", "07" + longest % A + longest % B)
    script.note("worked by hand: a list is judged by its count, then by each index")
    for text, reason in [
        ("000305", "TooLong"), ("00038080808010", "TooLong"), ("00030104", "Invalid"), ("000385", "End"),
    ]:
        refused(script, "nullification", text, reason)
    spelled(script, "nullification", "000300")
    script.worked("verify nullification 4 000300", "false")


def tags_by_hand(script):
    script.note("worked by hand: votes behind the tags 0 to 2")
    for own, tag in [(0, 0), (1, 3), (2, 5)]:
        one_value(script, "vote", retagged(tag, own))
        script.worked(f"becomes vote {retagged(tag, own)}", REPORTS[tag])
        script.worked(f"reports vote {retagged(tag, own)}", REPORTS[tag])
    refused(script, "vote", "", "End")
    for tag in (3, 9, 255):
        refused(script, "vote", retagged(0, tag), "Invalid")
    refused(script, "vote", "03", "Invalid")
    script.note("worked by hand: certificates behind the tags 0 to 2")
    for own, tag in [(0, 1), (1, 4), (2, 6)]:
        one_value(script, "certificate", retagged(tag, own))
        script.worked(f"verify certificate 4 {retagged(tag, own)}", "true")
        script.worked(f"becomes certificate {retagged(tag, own)}", REPORTS[tag])
        script.worked(f"reports certificate {retagged(tag, own)}", REPORTS[tag])
    refused(script, "certificate", retagged(1, 3), "Invalid")
    refused(script, "certificate", "03", "Invalid")
    refused(script, "certificate", "", "End")
    script.worked(f"verify certificate 4 {retagged(1, 2)}", "false")
    script.note("worked by hand: artifacts behind the tags 0 to 6")
    one_value(script, "artifact", "02000201")
    for tag in (0, 1, 3, 4, 5, 6):
        one_value(script, "artifact", REPORTS[tag])
    script.worked("read artifact 4 0200030109", "02000301 4 1")
    script.worked("certification 0 3 1", "02000301")
    script.worked("certification 0 3 0", "02000300")
    refused(script, "artifact", "02000302", "Invalid")
    refused(script, "artifact", "020003", "End")
    refused(script, "artifact", "", "End")
    for tag in ("07", "09", "ff"):
        refused(script, "artifact", tag + "0003", "Invalid")
    refused(script, "artifact", "07", "Invalid")
    script.note("worked by hand: an artifact is within a bound where its certificate is")
    for bound in (4, 2):
        script.worked(f"within {bound} 02000201", "true")
        for tag in (0, 1, 3, 4, 5, 6):
            script.worked(f"within {bound} {REPORTS[tag]}", "false" if bound == 2 and tag in OF_CERTIFICATE else "true")
    script.note("worked by hand: reports behind the tags 0 to 9")
    for tag, text in enumerate(REPORTS):
        one_value(script, "report", text)
        script.worked(f"verified {text}", "true" if tag in OF_CERTIFICATE else "false")
    refused(script, "report", "", "End")
    for tag in (10, 11, 128, 255):
        refused(script, "report", retagged(9, tag), "Invalid")
    refused(script, "report", "02000301", "End")
    script.note("worked by hand: the sizes of reports")
    for text, size in zip(REPORTS, (69, 136, 136, 36, 103, 69, 136, 137, 137, 104)):
        script.worked(f"read report 4 {text}", f"{text} {size} 0")
    script.note("worked by hand: how many changes of one byte still are a report, as another program counted")
    for tag, count in [(0, 16830), (3, 8541), (4, 24997), (9, 24614)]:
        script.worked(f"changes report 4 0 {REPORTS[tag]}", str(count))
    script.note("how many changes of one bit")
    for text in REPORTS:
        script.ask(f"changes report 4 1 {text}")
    script.note("worked by hand: reports of each kind are keys of a set")
    for tag, other in [(0, 5), (1, 2), (2, 1), (3, 0), (4, 3), (5, 0), (6, 1), (7, 8), (8, 7), (9, 5)]:
        one, two = REPORTS[tag], REPORTS[other]
        script.worked(f"equal report {one} {two}", "false false")
        script.worked(f"distinct report {one} {two} {one}", "2")
    script.worked(f"distinct report {' '.join(REPORTS + REPORTS)}", "10")
    script.worked("laws", "ok")


def evidence_by_hand(script):
    pairs = [("two-notarizes", NOTARIZE, NOTARIZE_BB), ("two-finalizes", FINALIZE, FINALIZE_BB)]
    script.note("worked by hand: a vote, and evidence in both orders, as keys")
    script.worked(f"distinct notarize {NOTARIZE} {NOTARIZE_BB} {NOTARIZE}", "2")
    script.worked(f"equal notarize {NOTARIZE} {NOTARIZE_BB}", "false false")
    for kind, first, second in pairs:
        script.worked(f"equal {kind} {first}{second} {second}{first}", "false false")
        script.worked(f"distinct {kind} {first}{second} {second}{first} {first}{second}", "2")
        spelled(script, kind, second + first)
    script.note("worked by hand: votes contradict for one signer and round, and two proposals")
    other_view, other_signer = with_byte(NOTARIZE_BB, 1, 3), with_byte(NOTARIZE_BB, 35, 2)
    other_epoch, other_parent = with_byte(NOTARIZE_BB, 0, 1), with_byte(NOTARIZE, 2, 0)
    for other, is_so in [
        (NOTARIZE_BB, "true"), (NOTARIZE, "false"), (other_view, "false"), (other_signer, "false"),
        (other_epoch, "false"), (other_parent, "true"), (turned(NOTARIZE, 40), "false"),
    ]:
        for kind in ("notarize", "finalize"):
            script.worked(f"contradict {kind} {NOTARIZE} {other}", is_so)
            script.worked(f"contradict {kind} {other} {NOTARIZE}", is_so)
        if is_so == "false":
            script.worked(f"conflict notarize {NOTARIZE} {other}", "condition")
            refused(script, "two-notarizes", NOTARIZE + other, "Invalid")
        else:
            script.worked(f"conflict notarize {NOTARIZE} {other}", f"{NOTARIZE}{other} {NOTARIZE} {other} 0 2")
            script.worked(f"conflict finalize {other} {NOTARIZE}", f"{other}{NOTARIZE} {other} {NOTARIZE} 0 2")
            script.worked(f"read two-notarizes 4 {NOTARIZE}{other}", f"{NOTARIZE}{other} 136 0")
    script.note("worked by hand: a nullify beside a finalize")
    script.worked(f"beside {NULLIFY_1} {FINALIZE}", "true")
    made = f"{NULLIFY_1}{FINALIZE} {NULLIFY_1} {FINALIZE} 0 2"
    script.worked(f"nullify_finalize {NULLIFY_1} {FINALIZE}", made)
    for place, byte in [(2, 2), (1, 3), (0, 1)]:
        nullify = with_byte(NULLIFY_1, place, byte)
        script.worked(f"beside {nullify} {FINALIZE}", "false")
        script.worked(f"nullify_finalize {nullify} {FINALIZE}", "condition")
        refused(script, "nullify-finalize", nullify + FINALIZE, "Invalid")
    script.note("worked by hand: evidence is judged once both its votes are read")
    for tag, place in [(7, 69), (7, 70), (7, 104), (8, 69), (8, 70), (8, 104), (9, 36), (9, 37), (9, 71)]:
        text = with_byte(REPORTS[tag], place, 3)
        refused(script, "report", text, "Invalid")
        refused(script, "report", text[:-2], "End")
    for tag, vote in [(7, NOTARIZE), (8, FINALIZE)]:
        text = "%02x" % tag + vote + vote
        refused(script, "report", text, "Invalid")
        refused(script, "report", text[:-2], "End")
    text = with_byte("07" + NOTARIZE + NOTARIZE, 71, 0)
    script.worked(f"read report 4 {text}", f"{text} 137 0")


def verdicts_by_hand(script, here):
    script.note("worked by hand: reports verify by their signatures, under the tag of their kind")
    for tag, text in enumerate(REPORTS):
        script.worked(f"verify report 4 {text}", "true")
        script.worked(f"verify report 4 {text[:-2]}55", "false")
    for tag, other in [(0, 5), (5, 0), (1, 6), (6, 1), (6, 2), (7, 8), (8, 7)]:
        script.worked(f"verify report 4 {retagged(tag, other)}", "false")
    script.note("worked by hand: nobody signs without a key")
    script.worked("sign notarize 4 - 0 2 1 170", "-")
    script.worked("sign finalize 4 - 0 2 1 170", "-")
    script.worked("sign nullify 4 - 0 2", "-")
    script.note("worked by hand: members sign as another program does")
    script.worked("sign notarize 4 1 0 2 1 170", NOTARIZE + " 0 2")
    script.worked("sign notarize 4 1 0 2 1 187", NOTARIZE_BB + " 0 2")
    script.worked("sign nullify 4 1 0 2", NULLIFY_1 + " 0 2")
    script.worked("sign finalize 4 1 0 2 1 170", FINALIZE + " 0 2")
    script.worked("sign finalize 4 1 0 2 1 187", FINALIZE_BB + " 0 2")
    script.worked("sign nullify 4 4 0 2", "condition")
    script.note("worked by hand: whose votes verify")
    for kind, text in [("notarize", NOTARIZE), ("nullify", NULLIFY_1), ("finalize", FINALIZE)]:
        script.worked(f"verify {kind} 4 {text}", "true")
        script.worked(f"verify {kind} 4 {text[:-2]}55", "false")
        script.worked(f"verify {kind} 1 {text}", "false")
    script.worked(f"verify notarize 4 {P_AA}01{NOTARIZE_BB_1}", "false")
    script.worked(f"verify notarize 4 {P_AA}02{NOTARIZE_AA[1]}", "false")
    script.worked(f"verify finalize 4 {NOTARIZE}", "false")
    script.worked(f"verify notarize 4 {FINALIZE}", "false")
    script.note("worked by hand: a signer past the committee is read and does not verify")
    fifth = [script.ask(f"sign notarize 5 4 0 2 1 {byte}").split(" ")[0] for byte in (170, 187)]
    script.worked(f"read two-notarizes 4 {fifth[0]}{fifth[1]}", f"{fifth[0]}{fifth[1]} 136 0")
    script.worked(f"verify notarize 5 {fifth[0]}", "true")
    script.worked(f"verify notarize 4 {fifth[0]}", "false")
    script.worked(f"verify two-notarizes 5 {fifth[0]}{fifth[1]}", "true")
    script.worked(f"verify two-notarizes 4 {fifth[0]}{fifth[1]}", "false")
    script.note("worked by hand: evidence verifies with both its votes")
    wrong = attested(here, "notarize", ((0, 3), 1, b"\xaa" * 32), 1)[2:]
    for kind, first, second in [
        ("two-notarizes", NOTARIZE, NOTARIZE_BB), ("two-finalizes", FINALIZE, FINALIZE_BB),
        ("nullify-finalize", NULLIFY_1, FINALIZE),
    ]:
        script.worked(f"verify {kind} 4 {first}{second}", "true")
        script.worked(f"verify {kind} 4 {first}{second[:-64]}{wrong}", "false")
        script.worked(f"verify {kind} 4 {first[:-64]}{wrong}{second}", "false")
    script.note("worked by hand: a certificate is of its committee and its kind")
    for kind, text in [("notarization", NOTARIZATION), ("nullification", NULLIFICATION), ("finalization", FINALIZATION)]:
        script.worked(f"verify {kind} 4 {text}", "true")
        script.worked(f"verify {kind} 5 {text}", "false")
        script.worked(f"verify {kind} 3 {text}", "true")
        script.worked(f"verify {kind} 2 {text}", "false")
    script.worked(f"verify notarization 4 {FINALIZATION}", "false")
    script.worked(f"verify finalization 4 {NOTARIZATION}", "false")
    script.note("worked by hand: each of many certificates has its answer")
    many = [retagged(1, 0), retagged(6, 0), retagged(4, 1), retagged(6, 2)]
    script.worked(f"certificates 4 {' '.join(many)}", "4 true false true true")
    script.worked("certificates 4", "0")


def making_by_hand(script, here):
    proposal = ((0, 2), 1, b"\xaa" * 32)
    votes = {
        "notarization": [P_AA + attested(here, "notarize", proposal, index) for index in range(5)],
        "finalization": [P_AA + attested(here, "finalize", proposal, index) for index in range(5)],
        "nullification": [ROUND + attested(here, "nullify", (0, 2), index) for index in range(5)],
    }
    made = {"notarization": NOTARIZATION, "finalization": FINALIZATION, "nullification": NULLIFICATION}
    script.note("worked by hand: votes lent or handed over make the certificate, in any order")
    for kind, given in votes.items():
        for order in ([2, 0, 1], [1, 2, 0]):
            words = " ".join(given[index] for index in order)
            for owned in (0, 1):
                script.worked(f"assemble {kind} {owned} 4 {words}", made[kind] + " 0 2")
                script.worked(f"assemble {kind} {owned} 5 {words}", "3 attestations, where a quorum is 4")
    script.note("worked by hand: certificates are made of votes of distinct members on one thing")
    other = {
        "notarization": P_BB + attested(here, "notarize", ((0, 2), 1, b"\xbb" * 32), 2),
        "finalization": P_BB + attested(here, "finalize", ((0, 2), 1, b"\xbb" * 32), 2),
        "nullification": "0003" + attested(here, "nullify", (0, 3), 2),
    }
    for kind, given in votes.items():
        for first, second, can in [
            (given[2], given[0], "true"), (given[1], given[1], "false"), (given[1], other[kind], "false"),
        ]:
            script.worked(f"can_assemble {kind} 4 {first} {second}", can)
            script.worked(f"can_assemble {kind} 1 {first} {second}", "false")
            if can == "false":
                script.worked(f"assemble {kind} 0 4 {first} {second}", "condition")
                script.worked(f"assemble {kind} 1 4 {first} {second}", "condition")
        script.worked(f"can_assemble {kind} 4", "false")
        script.worked(f"assemble {kind} 0 4", "condition")


def map_by_hand(script):
    def offered(participants, rows):
        script.worked(f"reset {participants}", "ok")
        for signer, tag, answer in rows:
            script.worked(f"map insert {signer} {tag}", answer)

    last = 2**32 - 1
    script.note("worked by hand: no map is there before the first")
    script.worked("map len", "unreadable")
    script.note("worked by hand: a map keeps the first item of each signer")
    offered(4, [(2, 7, "true"), (0, 5, "true"), (2, 8, "false"), (2, 7, "false")])
    for call, answer in [("len", "2 false"), ("get 0", "5"), ("get 1", "-"), ("get 2", "7")]:
        script.worked("map " + call, answer)
    script.note("worked by hand: it refuses signers past the participants")
    offered(4, [(4, 1, "false"), (3, 2, "true"), (last, 3, "false")])
    for call, answer in [("len", "1 false"), ("get 4", "-"), ("get 3", "2"), (f"get {last}", "-")]:
        script.worked("map " + call, answer)
    script.note("worked by hand: it is walked by rising signer")
    offered(4, [(3, 1, "true"), (0, 2, "true"), (3, 4, "false"), (2, 3, "true")])
    script.worked("map items", "3 0 2 2 3 3 1")
    script.note("worked by hand: it is empty once cleared, and takes items again")
    offered(4, [(1, 1, "true"), (2, 2, "true")])
    for call, answer in [
        ("clear", "ok"), ("len", "0 true"), ("items", "0"), ("insert 2 9", "true"), ("get 2", "9"),
        ("insert 4 9", "false"),
    ]:
        script.worked("map " + call, answer)
    script.note("worked by hand: it holds nothing without participants")
    offered(0, [(0, 1, "false")])
    script.worked("map len", "0 true")


def some_vote(here, chance, kind, members):
    """A vote that verifies mostly, on one of few things."""
    index = chance.randrange(members + 1)
    round_ = chance.choice([(0, 2), (0, 2), (0, 3), (1, 2), some_round(chance)])
    stated = round_
    if kind != "nullify":
        stated = (round_, chance.choice([0, 1, number(chance)]), chance.choice([b"\xaa" * 32, b"\xbb" * 32, some_bytes(chance)]))
    mark = here.signature(index, kind, stated) if chance.random() < 0.8 else some_bytes(chance)
    return (stated, (index, mark))


def some_certificate(here, chance, kind, members):
    voted = here.SUBJECTS[kind]
    stated = some_vote(here, chance, voted, members)[0]
    listed = dict(one for one in some_attestations(here, chance, voted, stated, members, members) if one[0] < members)
    if chance.random() < 0.5:
        listed = {index: here.signature(index, voted, stated) for index in chance.sample(range(members), here.quorum(members))}
    return (stated, tuple(sorted(listed.items())))


def some_message(here, chance, kind, members):
    if kind in here.TAGS:
        inner = chance.choice(here.TAGS[kind])
        return (inner, some_message(here, chance, inner, members))
    if kind in here.VOTES:
        return some_vote(here, chance, kind, members)
    if kind == "certification":
        return (some_round(chance), chance.random() < 0.5)
    if kind in here.SUBJECTS:
        return some_certificate(here, chance, kind, members)
    first, second = {
        "two-notarizes": ("notarize", "notarize"), "two-finalizes": ("finalize", "finalize"),
        "nullify-finalize": ("nullify", "finalize"),
    }[kind]
    one = some_vote(here, chance, first, members)
    round_ = one[0] if first == "nullify" else one[0][0]
    parent, payload = number(chance), some_bytes(chance)
    if first != "nullify" and chance.random() < 0.3:
        parent = one[0][1]
    other = (round_, parent, payload)
    index = one[1][0]
    mark = here.signature(index, second, other) if chance.random() < 0.7 else some_bytes(chance)
    return (one, (other, (index, mark)))


def chosen_messages(script, here, chance):
    for kind in here.MESSAGES:
        script.note(f"messages: {kind}")
        for _ in range(14):
            members = chance.choice([1, 3, 4, 5, 7])
            value = some_message(here, chance, kind, members)
            asked_of(script, here, chance, kind, value, members)
            script.ask(f"belongs {kind} {here.SPELL[kind](value).hex()}")
        for _ in range(5):
            values = [here.SPELL[kind](some_message(here, chance, kind, 4)).hex() for _ in range(chance.randrange(1, 4))]
            values += chance.sample(values, 1)
            script.ask(f"distinct {kind} {' '.join(values)}")
            script.ask(f"equal {kind} {values[0]} {values[-1]}")


def chosen_verdicts(script, here, chance):
    script.note("verdicts")
    for kind in here.VOTES + here.CERTIFICATES + here.EVIDENCE + ("certificate", "report"):
        for _ in range(12):
            members = chance.choice([1, 3, 4, 5, 7])
            text = here.SPELL[kind](some_message(here, chance, kind, members)).hex()
            script.ask(f"verify {kind} {members} {text}")
            script.ask(f"verify {kind} {chance.randrange(1, 8)} {text}")
    for _ in range(10):
        members = chance.choice([3, 4, 5])
        many = [here.SPELL["certificate"](some_message(here, chance, "certificate", members)).hex() for _ in range(chance.randrange(0, 6))]
        script.ask(" ".join([f"certificates {members}"] + many))
    for kind in ("notarize", "finalize"):
        for _ in range(20):
            one, other = (here.SPELL[kind](some_vote(here, chance, kind, 1)).hex() for _ in range(2))
            script.ask(f"contradict {kind} {one} {other}")
            script.ask(f"conflict {kind} {one} {other}")
    for _ in range(20):
        words = " ".join(here.SPELL[kind](some_vote(here, chance, kind, 1)).hex() for kind in ("nullify", "finalize"))
        script.ask(f"beside {words}")
        script.ask(f"nullify_finalize {words}")


def chosen_making(script, here, chance):
    script.note("votes signed, and certificates made of them")
    for _ in range(60):
        members = chance.choice([1, 2, 3, 4, 5, 7])
        certificate = chance.choice(here.CERTIFICATES)
        kind = here.SUBJECTS[certificate]
        byte = chance.getrandbits(8)
        round_ = some_round(chance)
        stated = round_ if kind == "nullify" else (round_, number(chance), bytes([byte]) * 32)
        told = "%d %d" % round_ if kind == "nullify" else "%d %d %d %d" % (*round_, stated[1], byte)
        script.ask(f"sign {kind} {members} {chance.randrange(members)} {told}")
        given = some_attestations(here, chance, kind, stated, members, members)
        if chance.random() < 0.5:
            given = [(index, here.signature(index, kind, stated)) for index in chance.sample(range(members), here.quorum(members))]
        votes = [here.SPELL[kind]((stated, one)).hex() for one in given]
        if chance.random() < 0.2:
            votes.append(here.SPELL[kind](some_vote(here, chance, kind, members)).hex())
        script.ask(" ".join([f"can_assemble {certificate} {members}"] + votes))
        for owned in (0, 1):
            script.ask(" ".join([f"assemble {certificate} {owned} {members}"] + votes))


def chosen_maps(script, chance):
    for _ in range(12):
        script.note("a map")
        participants = chance.choice([0, 1, 2, 4, 9, 300])
        script.ask(f"reset {participants}")
        for _ in range(30):
            signer = chance.choice([chance.randrange(participants + 2), chance.randrange(6), 2**32 - 1])
            call = chance.choice([f"insert {signer} {chance.getrandbits(8)}"] * 5 + [f"get {signer}"] * 2 + ["len", "items"])
            script.ask("map " + (call if chance.random() > 0.03 else "clear"))
        script.ask("map items")


def no_calls_by_hand(script):
    script.note("worked by hand: lines that are no calls, or of what isn't so")
    for line in (
        "map", "map insert 1", "map insert 1 256", "map insert 1 2 3", "map drop 1", "map len 1", "reset", "reset 4 1",
        "read ballot 4 00", "read vote 4 0", f"signer certificate {retagged(1, 0)}", "verify artifact 4 02000201",
        "verify vote 4 " + REPORTS[0], "most artifact", "most certificate", "sign certificate 4 1 0 2",
        "assemble vote 0 4", "assemble notarization 2 4", "becomes report " + REPORTS[0], "certification 0 3 2",
        "contradict nullify 00 00", "verified 02000301", "beside", f"verify notarize 4 {NOTARIZE} 0",
        f"verify notarize 4 {NOTARIZE}00",
    ):
        script.worked(line, "unreadable")
    for line in (f"verify notarize 0 {NOTARIZE}", f"verify notarize 65536 {NOTARIZE}", "certificates 0"):
        script.worked(line, "condition")
