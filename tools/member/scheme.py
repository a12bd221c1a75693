"""Who signed what, and what certifies. Neither scheme has a secret: whoever knows an index can sign in its name."""
import hashlib
from functools import lru_cache

from .codec import PAYLOAD, statement_bytes
from .positions import quorum
from .values import VOTES_OF, Certificate, Vote

NAMESPACES = {"notarize": b"_NOTARIZE", "nullify": b"_NULLIFY", "finalize": b"_FINALIZE"}


def number(of):
    return of.to_bytes(4, "big")


def key(index):
    """A member's key."""
    return number(index)


@lru_cache(maxsize=None)
def _signature(base, kind, on, signer, salt):
    namespace = base + NAMESPACES[kind]
    return salt + hashlib.sha256(salt + number(signer) + number(len(namespace)) + namespace + statement_bytes(on)).digest()


def forget():
    """Forgets the signatures that were made: whoever makes very many has no room for all."""
    _signature.cache_clear()


class PlainScheme:
    """A signature is the hash of who signs, in which namespace, what. One subject is signed always alike."""

    name, salt = "plain", 0

    def __init__(self, members, base=b"simplex"):
        self.members, self.base, self.quorum = members, base, quorum(members)
        self.signature_size = self.salt + PAYLOAD

    def sign(self, kind, on, signer, counter=0):
        salt = counter.to_bytes(self.salt, "big") if self.salt else b""
        return Vote(kind, on, signer, _signature(self.base, kind, on, signer, salt))

    def attests(self, vote):
        """The vote's signature is its signer's, a member's, on what the vote says."""
        right = _signature(self.base, vote.kind, vote.on, vote.signer, vote.signature[: self.salt])
        return vote.signer < self.members and vote.signature == right

    def certifies(self, certificate):
        """At least a quorum of distinct members is listed, and each attests."""
        signers, kind = certificate.signers, VOTES_OF[certificate.kind]
        return (
            len(set(signers)) == len(signers) >= self.quorum
            and all(self.attests(Vote(kind, certificate.on, *attestation)) for attestation in certificate.attestations)
        )

    def assemble(self, kind, on, votes):
        """The certificate of these votes on one statement, ascending by signer."""
        return Certificate(kind, on, tuple(sorted((vote.signer, vote.signature) for vote in votes)))


class SaltedScheme(PlainScheme):
    """The same behind eight bytes of a counter, which are hashed too: one subject is signed differently each time."""

    name, salt = "salted", 8


SCHEMES = {"plain": PlainScheme, "salted": SaltedScheme}
