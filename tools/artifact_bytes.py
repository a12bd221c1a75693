"""How artifacts of a record are spelled and signed, written from docs/FORMATS.md, for the generators of scripts."""
import hashlib

TAGS = {
    "notarize": 0, "notarization": 1, "certification": 2, "nullify": 3, "nullification": 4, "finalize": 5, "finalization": 6,
}
NAMES = {tag: name for name, tag in TAGS.items()}


def varint(number):
    """Seven bits a byte, the least significant first, in the shortest spelling."""
    spelled = bytearray()
    while number >= 128:
        spelled.append(number % 128 + 128)
        number //= 128
    spelled.append(number)
    return bytes(spelled)


def round_of(epoch, view):
    return varint(epoch) + varint(view)


def proposal(epoch, view, parent, payload):
    """A proposal whose payload is 32 bytes of one value."""
    return round_of(epoch, view) + varint(parent) + bytes([payload]) * 32


def signature(base, index, kind, message):
    """What the plain scheme signs: who, in which namespace, what."""
    namespace = base + {"notar": b"_NOTARIZE", "nulli": b"_NULLIFY", "final": b"_FINALIZE"}[kind[:5]]
    hashed = index.to_bytes(4, "big") + len(namespace).to_bytes(4, "big") + namespace + message
    return hashlib.sha256(hashed).digest()


def attestation(base, index, kind, message):
    return varint(index) + signature(base, index, kind, message)


def vote(kind, said, index, base=b"simplex"):
    """A vote for what was said, a proposal's or a round's spelling."""
    return bytes([TAGS[kind]]) + said + attestation(base, index, kind, said)


def certificate(kind, said, indices, base=b"simplex"):
    """A certificate that lists the attestations of these members, a quorum or not."""
    listed = b"".join(attestation(base, index, kind, said) for index in indices)
    return bytes([TAGS[kind]]) + said + varint(len(indices)) + listed


def certification(epoch, view, verdict):
    return bytes([TAGS["certification"]]) + round_of(epoch, view) + bytes([verdict])


class Trouble(Exception):
    """The bytes spell no value."""


class Reader:
    """Bytes that are read from left to right."""

    def __init__(self, data):
        self.rest = data

    def take(self, count):
        if len(self.rest) < count:
            raise Trouble
        taken, self.rest = self.rest[:count], self.rest[count:]
        return taken

    def varint(self, most=2**64 - 1):
        number, place = 0, 0
        while True:
            byte = self.take(1)[0]
            number += byte % 128 << place
            place += 7
            if number > most:
                raise Trouble
            if byte < 128:
                if byte == 0 and place > 7:
                    raise Trouble
                return number
            if place > 63:
                raise Trouble

    def index(self):
        return self.varint(2**32 - 1)

    def round(self):
        return self.varint(), self.varint()

    def proposal(self):
        return self.round() + (self.varint(), self.take(32))

    def truth(self):
        byte = self.take(1)[0]
        if byte > 1:
            raise Trouble
        return bool(byte)

    def attestation(self):
        return self.index(), self.take(32)

    def certificate(self, bound):
        """Attestations of members below the bound, in their order."""
        count = self.varint()
        if count > bound:
            raise Trouble
        listed = []
        for _ in range(count):
            index, signed = self.attestation()
            if index >= bound or (listed and index <= listed[-1][0]):
                raise Trouble
            listed.append((index, signed))
        return listed

    def artifact(self, bound):
        """The kind, what is said of which round or proposal, and the attestations or the verdict."""
        kind = NAMES.get(self.take(1)[0])
        if kind is None:
            raise Trouble
        said = self.round() if kind in ("certification", "nullify", "nullification") else self.proposal()
        if kind == "certification":
            return kind, said, self.truth()
        if kind in ("notarize", "nullify", "finalize"):
            return kind, said, [self.attestation()]
        return kind, said, self.certificate(bound)


def artifact_of(data, bound):
    """The artifact that the bytes spell, none of them left, or nothing."""
    reader = Reader(data)
    try:
        artifact = reader.artifact(bound)
    except Trouble:
        return None
    return artifact if not reader.rest else None
