"""What happened to one view of a member, oldest first, and what follows from it."""
from functools import cached_property

from .values import FINALIZATION, FINALIZE, NOTARIZATION, NOTARIZE, NULLIFY, Certificate, Proposal, value


@value
class Offered:
    """The proposal that the view's votes select. Behind an own nullify it isn't taken."""

    proposal: Proposal
    taken: bool


@value
class Certified:
    """A notarization or finalization, with its proposal."""

    certificate: Certificate


@value
class Own:
    """An own proposal: built here, or of a recorded own notarize."""

    proposal: Proposal


@value
class Confirmed:
    """The held proposal was found good."""


@value
class BuildAsked:
    pass


@value
class BuildReleased:
    pass


@value
class VerifyAsked:
    pass


@value
class CertifyAsked:
    pass


@value
class CertifyPutOff:
    pass


@value
class Asked:
    """Another view was asked for, which the proposal lacks."""

    view: int


@value
class Bound:
    """The proposal is bound to this payload of its parent."""

    proposal: Proposal
    payload: bytes


@value
class Unbound:
    pass


@value
class Entered:
    """The view was entered: from then on its deadlines run."""

    leader_deadline: int
    certification_deadline: int
    stall_deadline: int | None


@value
class Latched:
    """A reason to give the view up, at this moment."""

    moment: int
    reason: str


@value
class Voted:
    """An own vote, at this moment. `backs` is false of a recorded notarize whose proposal wasn't taken."""

    kind: str
    moment: int
    backs: bool = True


@value
class Judged:
    ok: bool


class View(tuple):
    """What happened to a view, oldest first."""

    def then(self, *items):
        return View((*self, *items))

    def of(self, kind):
        return [it for it in self if isinstance(it, kind)]

    # ---- the proposal that it holds

    @cached_property
    def was_offered(self):
        """Its leader's proposal came, taken or not."""
        return bool(self.of(Offered))

    @cached_property
    def taken(self):
        """The proposals that were taken, each with whether a certificate brought it."""
        return [
            (it.certificate.on, True) if isinstance(it, Certified) else (it.proposal, False)
            for it in self
            if isinstance(it, (Certified, Own)) or (isinstance(it, Offered) and it.taken)
        ]

    @cached_property
    def held(self):
        """The held proposal: that of the last certificate, or else the first that was taken."""
        certified = [proposal for proposal, by_certificate in self.taken if by_certificate]
        if certified:
            return certified[-1]
        return self.taken[0][0] if self.taken else None

    @cached_property
    def is_tainted(self):
        """Two different proposals were taken."""
        return len({proposal for proposal, _ in self.taken}) > 1

    @cached_property
    def is_unequivocated(self):
        return self.held is not None and not self.is_tainted

    @cached_property
    def is_verified(self):
        """The held proposal is untainted, and was built here, voted for by the record, or found good."""
        return self.is_unequivocated and bool(self.of((Own, Confirmed)))

    @cached_property
    def was_replaced(self):
        """A certificate brought another proposal than the held one."""
        held = None
        for it in self:
            if isinstance(it, Certified):
                if held is not None and held != it.certificate.on:
                    return True
                held = it.certificate.on
            elif isinstance(it, Own) or (isinstance(it, Offered) and it.taken):
                held = held or it.proposal
        return False

    @cached_property
    def is_build_open(self):
        """Nothing is held, and no build was asked for but those that were given back."""
        asked = [isinstance(it, BuildAsked) for it in self.of((BuildAsked, BuildReleased))]
        return self.held is None and not (asked and asked[-1])

    @cached_property
    def is_verify_open(self):
        """No verification was asked for, none is needed, and no certificate replaced what was held."""
        return not self.of((VerifyAsked, Own)) and not self.was_replaced

    # ---- certificates and verdict

    def certificate(self, kind):
        """The first certificate of a kind, notarization or finalization."""
        return next((it.certificate for it in self.of(Certified) if it.certificate.kind == kind), None)

    @cached_property
    def notarization(self):
        return self.certificate(NOTARIZATION)

    @cached_property
    def finalization(self):
        return self.certificate(FINALIZATION)

    @cached_property
    def is_direct(self):
        """A notarization or finalization is there."""
        return bool(self.of(Certified))

    @cached_property
    def verdict(self):
        """The first verdict, or None."""
        return next((it.ok for it in self.of(Judged)), None)

    @cached_property
    def certified_proposal(self):
        """The held proposal where it is finalized or judged good."""
        return self.held if self.finalization or self.verdict else None

    @cached_property
    def certificate_payload(self):
        """The payload that its certificates support: the finalization's, or the notarization's without a false verdict."""
        if self.finalization:
            return self.finalization.on.payload
        return self.notarization.on.payload if self.notarization and self.verdict is not False else None

    @cached_property
    def forwardable(self):
        """The proposal that may be forwarded: the held one where its certificates support a payload."""
        return self.held if self.certificate_payload is not None else None

    # ---- requests

    @cached_property
    def is_certify_asked(self):
        return bool(self.of(CertifyAsked))

    @cached_property
    def is_put_off(self):
        return bool(self.of(CertifyPutOff))

    @cached_property
    def last_asked(self):
        """The view that was asked for last."""
        return next((it.view for it in reversed(self.of(Asked))), None)

    @cached_property
    def binding(self):
        """What the proposal is bound to: Bound, or None."""
        last = next(reversed(self.of((Bound, Unbound))), None)
        return last if isinstance(last, Bound) else None

    # ---- own votes

    def has_voted(self, kind):
        return any(it.kind == kind for it in self.of(Voted))

    @cached_property
    def has_notarized(self):
        return self.has_voted(NOTARIZE)

    @cached_property
    def has_nullified(self):
        return self.has_voted(NULLIFY)

    @cached_property
    def has_finalized(self):
        return self.has_voted(FINALIZE)

    @cached_property
    def is_undecided(self):
        """Neither nullify nor finalize was voted."""
        return not self.has_nullified and not self.has_finalized

    @cached_property
    def is_backed(self):
        """An own notarize stands behind the held proposal."""
        return any(it.kind == NOTARIZE and it.backs for it in self.of(Voted))

    # ---- when it is given up

    @cached_property
    def _while_undecided(self):
        """What happened before the first own nullify or finalize."""
        decided = next((place for place, it in enumerate(self) if isinstance(it, Voted) and it.kind != NOTARIZE), len(self))
        return self[:decided]

    @cached_property
    def was_entered(self):
        return bool(self.of(Entered))

    @cached_property
    def deadlines(self):
        """The leader's and the verdict's deadline, where the view was entered before it was decided here."""
        return next((it for it in self._while_undecided if isinstance(it, Entered)), None)

    @cached_property
    def stall_deadline(self):
        """Until when its term may stand still, while it isn't finalized."""
        entered = self.of(Entered)
        return entered[-1].stall_deadline if entered and not self.finalization else None

    @cached_property
    def latch(self):
        """The moment of the first reason to give it up that came while it was undecided."""
        return next((it.moment for it in self._while_undecided if isinstance(it, Latched)), None)

    @cached_property
    def nullified_at(self):
        """When the own nullify was last sent, or found by an opening."""
        return next((it.moment for it in reversed(self.of(Voted)) if it.kind == NULLIFY), None)
