"""What points record, what a record says, and which records are lawful."""
from .history import Came, Constructs, Found, Judged, Rewrote, Votes, over
from .values import (
    FINALIZATION, FINALIZE, NOTARIZATION, NOTARIZE, NULLIFICATION, NULLIFY, Certificate, Certified, Proposal, Round, Verdict, Vote,
)


def recorded_by(point, epoch):
    """What a point records: what was found, a certificate that is taken, a verdict, an own vote."""
    match point:
        case Found(artifact, _):
            return artifact
        case Came(certificate) | Constructs(_, _, certificate, _):
            return certificate
        case Judged(view, ok):
            return Verdict(Round(epoch, view), ok)
        case Votes(vote):
            return vote
    return None


def certificate_taken(here):
    """The certificate that the last point of a history brought, found, accepted or made, or None."""
    artifact = recorded_by(here.point, here.setup.epoch)
    return artifact if isinstance(artifact, Certificate) else None


@over(())
def record(artifacts, here):
    """The record, oldest first: what the opening found, and what was recorded since, whatever a rewrite dropped."""
    artifact = recorded_by(here.point, here.setup.epoch)
    return artifacts if artifact is None else (*artifacts, artifact)


@over(())
def kept_record(artifacts, here):
    """What is kept of it since the last rewrite: what the next opening finds."""
    if isinstance(here.point, Rewrote):
        return rewritten(here.setup.terms, here.point.certificate, artifacts)
    artifact = recorded_by(here.point, here.setup.epoch)
    return artifacts if artifact is None else (*artifacts, artifact)


@over(frozenset())
def judged(verdicts, here):
    """The recorded verdicts: pairs of view and truth."""
    artifact = recorded_by(here.point, here.setup.epoch)
    return verdicts | {(artifact.view, artifact.ok)} if isinstance(artifact, Verdict) else verdicts


def is_judged(h, view):
    """A verdict on the view is recorded."""
    return (view, True) in judged(h) or (view, False) in judged(h)


def is_kept_judged(h, view):
    """A verdict on the view is recorded, and kept since the last rewrite."""
    return any(isinstance(it, Verdict) and it.view == view for it in kept_record(h))


@over({})
def certificates(by_kind, here):
    """The recorded certificates, by kind and view; of each the first."""
    certificate = certificate_taken(here)
    if certificate is None or (certificate.kind, certificate.view) in by_kind:
        return by_kind
    return {**by_kind, (certificate.kind, certificate.view): certificate}


def reports_of(h, artifact):
    """As what an artifact is reported behind a history: a true verdict with its notarization, a false one not."""
    if isinstance(artifact, Verdict):
        notarization = certificates(h).get((NOTARIZATION, artifact.view))
        return (Certified(notarization),) if artifact.ok and notarization else ()
    return (artifact,)


# ---- what a record says


def enters(terms, artifact):
    """The view that an artifact enters, or 0: behind a nullification the next term's start, behind a finalization or a true
    verdict the next view."""
    if isinstance(artifact, Certificate):
        return {NOTARIZATION: 0, NULLIFICATION: terms.next_start(artifact.view), FINALIZATION: artifact.view + 1}[artifact.kind]
    return artifact.view + 1 if isinstance(artifact, Verdict) and artifact.ok else 0


def finalizes(artifact):
    """The view that an artifact finalizes, or 0."""
    return artifact.view if isinstance(artifact, Certificate) and artifact.kind == FINALIZATION else 0


def floor_of(artifacts):
    """The view that a record begins behind: that of its first artifact, where it is a finalization, or 0."""
    return finalizes(artifacts[0]) if artifacts else 0


def reach(terms, artifact):
    """Up to which view an artifact reaches: a nullification up to the end of its term, all else up to its own."""
    gives_up = isinstance(artifact, Certificate) and artifact.kind == NULLIFICATION
    return terms.end(artifact.view) if gives_up else artifact.view


def rewritten(terms, certificate, artifacts):
    """What a rewrite leaves: this finalization, then in order what reaches above its view."""
    return (certificate, *(it for it in artifacts if reach(terms, it) > certificate.view))


def next_floor(artifacts):
    """The finalization that a rewrite makes a record begin with: that of the last finalized view. None where nothing is final, or the
    record begins behind that view already."""
    last = max([0, *map(finalizes, artifacts)])
    return next((it for it in artifacts if finalizes(it) == last > floor_of(artifacts)), None)


def founded(setup, found):
    """What an opening records of the finalization that it brings, behind what it found: nothing where that is of a view as high."""
    brought = setup.floor
    return (brought,) if brought and brought.view > max([0, *map(finalizes, found)]) else ()


class Record:
    """Artifacts in order, and which may stand behind them."""

    def __init__(self, setup):
        self.setup, self.artifacts = setup, []

    def of(self, kind, view=None):
        """The votes or certificates of a kind, of a view or of all."""
        return [it for it in self.artifacts if not isinstance(it, Verdict) and it.kind == kind and view in (None, it.view)]

    def verdicts(self, view):
        return [it for it in self.artifacts if isinstance(it, Verdict) and it.view == view]

    def seen(self):
        """The current view."""
        return max([1, *(enters(self.setup.terms, it) for it in self.artifacts)])

    def finalized(self):
        """The last finalized view, or 0."""
        return max([0, *map(finalizes, self.artifacts)])

    def covers_between(self, parent, view):
        """Each view strictly between is covered: a nullification of it or of an earlier one of its term is there."""
        nullified = {it.view for it in self.of(NULLIFICATION)}
        between, terms = parent + 1, self.setup.terms
        while between < view:
            if not any(terms.covers(it, between) for it in nullified):
                return False
            between = terms.next_start(between)
        return True

    def may_notarize(self, p):
        """An own notarize: behind the floor, the first of its view, which wasn't given up; each view between its parent and it is
        covered, but for those up to the floor."""
        low = floor_of(self.artifacts)
        first = not self.of(NOTARIZE, p.view) and not self.of(NULLIFY, p.view)
        return low < p.view and first and p.parent < p.view and self.covers_between(max(p.parent, low), p.view)

    def may_nullify(self, view):
        """An own nullify: of the current view, the first there, and no finalize of it."""
        return view == self.seen() and not self.of(NULLIFY, view) and not self.of(FINALIZE, view)

    def may_finalize(self, p):
        """An own finalize: above the last finalized view, the first of its view, which wasn't given up, is notarized for this
        proposal and judged good, and certified for no other; no earlier view of its term above the last finalized one was given
        up."""
        low, terms = self.finalized(), self.setup.terms
        certified = {it.on for it in (*self.of(NOTARIZATION, p.view), *self.of(FINALIZATION, p.view))}
        return (
            p.view > low
            and not self.of(NULLIFY, p.view)
            and not self.of(FINALIZE, p.view)
            and p in [it.on for it in self.of(NOTARIZATION, p.view)]
            and certified == {p}
            and any(it.ok for it in self.verdicts(p.view))
            and all(it.view <= low for it in self.of(NULLIFY) if terms.start(p.view) <= it.view < p.view)
        )

    def may_take(self, certificate):
        """A certificate: it certifies, is of the epoch, of a view with room, with its parent below, the first of its kind."""
        on, view = certificate.on, certificate.view
        return (
            on.epoch == self.setup.epoch
            and view >= 1
            and self.setup.terms.has_room(view)
            and has_parent_below(on)
            and not self.of(certificate.kind, view)
            and self.setup.scheme.certifies(certificate)
        )

    def may_judge(self, verdict):
        """A verdict: on a round that is notarized, the first of its view."""
        return any(it.on.round == verdict.on for it in self.of(NOTARIZATION, verdict.view)) and not self.verdicts(verdict.view)

    def may_vote(self, vote):
        """An own vote carries this member's name, verifies and is of the epoch."""
        if vote.signer != self.setup.me or vote.on.epoch != self.setup.epoch or not self.setup.scheme.attests(vote):
            return False
        if vote.kind == NULLIFY:
            return self.may_nullify(vote.view)
        return self.may_notarize(vote.on) if vote.kind == NOTARIZE else self.may_finalize(vote.on)

    def may_follow(self, artifact):
        if isinstance(artifact, Vote):
            return self.may_vote(artifact)
        return self.may_take(artifact) if isinstance(artifact, Certificate) else self.may_judge(artifact)

    def add(self, artifact):
        self.artifacts.append(artifact)


def has_parent_below(on):
    """What names a parent names one below its view."""
    return not isinstance(on, Proposal) or on.parent < on.view


def first_refused(setup, artifacts):
    """How many artifacts stand before the first that breaks a rule, or None where the record is lawful."""
    so_far = Record(setup)
    for position, artifact in enumerate(artifacts):
        if not so_far.may_follow(artifact):
            return position
        so_far.add(artifact)
    return None


def may_record(h, artifact):
    """An artifact may stand behind what a history recorded."""
    so_far = Record(h.setup)
    so_far.artifacts = record(h)
    return so_far.may_follow(artifact)


# ---- the bytes of a disk


def bodies(disk):
    """The bodies of a disk's entries, and the places of their gates. An entry is a gate 01, four bytes of length, that many
    bytes, and the byte of the next gate: where one of these is missing the record ends."""
    found, place = [], 0
    while place < len(disk) and disk[place] == 1 and place + 5 <= len(disk):
        end = place + 5 + int.from_bytes(disk[place + 1 : place + 5], "big")
        if end >= len(disk):
            break
        found.append((place, disk[place + 5 : end]))
        place = end
    return found


def spelled_record(spellings):
    """The bytes of a disk at rest whose entries are these: each behind an open gate and its length, and a closed gate."""
    return b"".join(b"\1" + len(it).to_bytes(4, "big") + it for it in spellings) + b"\0"
