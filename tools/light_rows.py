"""Rows of crates/run_settings on what certificates certify: of the vectors, and of chains, written from docs/FORMATS.md."""
import json

from artifact_bytes import attestation, proposal, round_of, varint
from script_rows import TOP, Script, digits

FILE = (("file", '0 ""'),)
KINDS = {"notarization": 0, "nullification": 1, "finalization": 2}


def certificate(kind, said, signers, base=b"simplex"):
    """One that these members signed, each on what it says."""
    listed = b"".join(attestation(base, signer, kind, said) for signer in signers)
    return bytes([KINDS[kind]]) + said + varint(len(signers)) + listed


def final(view, signers=(0, 1, 2), epoch=0, base=b"simplex"):
    """A finalization whose parent is the view before, and its payload of bytes of the view's number."""
    return certificate("finalization", proposal(epoch, view, view - 1, view), signers, base)


def told(view, epoch=0):
    return f" {epoch} {view} {view - 1} {view}"


def number_at(data, place):
    """A number, and the place behind it."""
    number, shift = 0, 0
    while data[place] >= 128:
        number, shift, place = number + (data[place] - 128 << shift), shift + 7, place + 1
    return number + (data[place] << shift), place + 1


def in_words(data):
    """What a certificate says."""
    (epoch, place), kind = number_at(data, 1), next(name for name, tag in KINDS.items() if tag == data[0])
    view, place = number_at(data, place)
    if kind == "nullification":
        return f"{kind} {epoch} {view}"
    parent, place = number_at(data, place)
    payload = data[place : place + 32]
    return f"{kind} {epoch} {view} {parent} {payload[0] if len(set(payload)) == 1 else payload.hex()}"


class Rows:
    def __init__(self):
        self.script = Script()

    def members(self, title, *lines):
        """A committee."""
        self.script.note("light clients: " + title)
        self.script.reset()
        self.script.ask("lines " + " ".join(lines), sum(len(line) + 1 for line in lines))
        self.script.put(FILE)

    def ask(self, call, data, answer):
        self.script.ask(f"{call} {digits(data)}", answer)


def of_vectors(rows):
    for vector in json.loads((TOP / "docs/vectors.json").read_text())["certificates"]:
        rows.members(vector["name"], f"members={vector['members']}", "member=0")
        data = bytes.fromhex(vector["bytes"])
        rows.ask("certifies", data, in_words(data) if vector["certifies"] else "unsigned")


def of_settings(rows):
    good = final(2)
    rows.members("bytes that are not just one", "members=4", "member=0")
    for data, why in ((b"", "End"), (good[:-1], "End"), (good + b"\0", "Invalid"), (good + good, "Invalid"), (b"\3" + good[1:], "Invalid")):
        rows.ask("certifies", data, why)
    rows.members("the members of another base", "members=4", "member=0", 'base="ours"')
    rows.ask("certifies", good, "unsigned")
    rows.ask("certifies", final(2, base=b"ours"), "finalization" + told(2))
    rows.members("another epoch", "members=4", "member=0", "epoch=300")
    rows.ask("certifies", good, "epoch")
    rows.ask("certifies", final(2, epoch=300), "finalization" + told(2, 300))
    rows.members("more members than its quorum is of", "members=5", "member=0")
    rows.ask("certifies", good, "unsigned")
    rows.ask("certifies", final(2, (0, 1, 2, 4)), "finalization" + told(2))
    rows.members("fewer members than it lists", "members=2", "member=0")
    rows.ask("certifies", good, "TooLong")
    for kind in KINDS:
        said = round_of(0, 7) if kind == "nullification" else proposal(0, 7, 5, 9)
        rows.members(f"a {kind}", "members=4", "member=3", 'seed="5eed"', "term-length=1")
        rows.ask("certifies", certificate(kind, said, (1, 2, 3)), f"{kind} 0 7" + ("" if kind == "nullification" else " 5 9"))


def of_chains(rows):
    one, two, five = final(1), final(2), final(5)
    size = len(one)
    rows.members("chains", "members=4", "member=0")
    for chain, views in ((b"", ()), (one, (1,)), (one + two, (1, 2)), (one + five, (1, 5)), (two + five, (2, 5))):
        rows.ask("chain", chain, str(len(views)) + "".join(map(told, views)))
    notarized = certificate("notarization", proposal(0, 2, 1, 2), (0, 1, 2))
    given_up = certificate("nullification", round_of(0, 2), (0, 1, 2))
    for broken, why in (
        (one, "-"), (final(2, (0, 1)), "unsigned"), (final(2, epoch=1), "epoch"), (final(2, base=b"ours"), "unsigned"), (notarized, "-"),
        (given_up, "-"), (two[:-1], "End"), (b"\3", "Invalid"), (final(2, (2, 1, 0)), "Invalid"),
    ):
        rows.ask("chain", one + broken, f"{size} {why}")
        if why != "End":
            rows.ask("chain", one + broken + five, f"{size} {why}")
    rows.ask("chain", two + one, f"{size} -")
    rows.ask("chain", notarized, "0 -")


def light_rows():
    rows = Rows()
    for part in (of_vectors, of_settings, of_chains):
        part(rows)
    return list(zip(rows.script.calls, rows.script.answers))
