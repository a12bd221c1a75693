"""A voter: which point a call is, and what it answers. What is due, and why, tools/member says of the history."""
from member import due, view as of_view, voter as of_voter
from member.positions import is_retained
from member.values import FINALIZATION, FINALIZE, NOTARIZATION, NOTARIZE, NULLIFICATION, NULLIFY, Proposal, Round, Verdict

from voter_script.history import (
    Based, BuiltAt, Judged, Looked, Pruned, Recalled, Saw, Sent, Started, Took, at, base, behind, current, entered_at, floor, has_sent,
    is_tracked, latch, last_finalized, leaders, next_timeout, nothing, nullifications, started_at, views,
)


class Voter:
    """A voter to which nothing has happened."""

    def __init__(self, setup):
        self.setup, self.h = setup, nothing(setup)

    def happens(self, point):
        self.h = behind(self.h, point)

    def saw(self, view, *items):
        self.happens(Saw(view, items))

    # ---- what is told

    def epoch(self):
        return self.setup.epoch

    def current_view(self):
        return current(self.h)

    def last_finalized(self):
        return last_finalized(self.h)

    def min_active(self):
        return floor(self.h)

    def is_me(self, index):
        return index == self.setup.me

    def leader_index(self, view):
        return leaders(self.h).get(view)

    def admits_certificate(self, view):
        return is_retained(last_finalized(self.h), self.setup.retention, view)

    def admits_vote(self, view):
        return self.admits_certificate(view) and self.setup.terms.admits(current(self.h), view)

    def voted_nullify(self, view):
        return at(self.h, view).has_nullified

    def elapsed_since_start(self, now, view):
        moment = started_at(at(self.h, view))
        return None if moment is None else max(now - moment, 0)

    def elapsed_since_entry(self, now, view):
        moment = entered_at(at(self.h, view))
        return None if moment is None else max(now - moment, 0)

    def notarization(self, view):
        return at(self.h, view).notarization

    def finalization(self, view):
        return at(self.h, view).finalization

    def nullification(self, view):
        return nullifications(self.h).get(view)

    def forwardable_proposal(self, view):
        return at(self.h, view).forwardable

    def parent_certified(self, view, payload):
        return of_voter.explicit(self.h, view) == payload

    def get_best_certificate(self):
        return due.best_certificate(self.h) if current(self.h) else None

    # ---- what is learnt

    def set_genesis(self, now, payload):
        self.happens(Started(now, payload))

    def begin(self, now):
        self.happens(Started(now, None))

    def base(self, view):
        self.happens(Based(view))

    def floor(self):
        return base(self.h)

    def set_floor(self, now, start):
        """Starts on a payload, or on a finalization, which is handed out."""
        if isinstance(start, bytes):
            return self.set_genesis(now, start)
        self.add_finalization(now, start)
        return self.broadcast_finalization(start.view)

    def _take(self, now, certificate, known):
        """Takes the first certificate of its kind and view, where that has room."""
        if known is not None or not self.setup.terms.has_room(certificate.view):
            return False
        self.happens(Took(now, certificate))
        return True

    def _replace(self, now, certificate, known):
        """Whether it is taken, and who leads its view, where another proposal was held there."""
        view = certificate.view
        held, leader = at(self.h, view).held, self.leader_index(view)
        taken = self._take(now, certificate, known)
        return taken, leader if taken and held not in (None, certificate.on) else None

    def add_notarization(self, certificate):
        return self._replace(0, certificate, self.notarization(certificate.view))

    def add_finalization(self, now, certificate):
        return self._replace(now, certificate, self.finalization(certificate.view))

    def add_nullification(self, now, certificate):
        return self._take(now, certificate, self.nullification(certificate.view))

    def certified(self, now, view, ok):
        notarization = self.notarization(view)
        if notarization is None or not self.setup.terms.has_room(view):
            return None
        self.happens(Judged(now, view, ok))
        return notarization

    def set_proposal(self, view, proposal):
        told = at(self.h, view)
        self.saw(view, of_view.Offered(proposal, not told.has_nullified))
        return not told.has_nullified and told.held is None

    def replay(self, artifact):
        taken = False
        if not isinstance(artifact, Verdict) and artifact.kind == NOTARIZE:
            taken = at(self.h, artifact.view).held in (None, artifact.on)
        self.happens(Recalled(artifact, taken))

    def prune(self):
        low = floor(self.h)
        dropped = sorted(view for view in {*views(self.h), *leaders(self.h)} if view < low)
        self.happens(Pruned())
        return dropped

    # ---- what is handed out

    def _hand_out(self, kind, view, certificate):
        if certificate is None or has_sent(at(self.h, view), kind):
            return None
        self.saw(view, Sent(kind))
        return certificate

    def broadcast_notarization(self, view):
        return self._hand_out(NOTARIZATION, view, self.notarization(view))

    def broadcast_nullification(self, view):
        kept = self.nullification(view) if view in views(self.h) else None
        return self._hand_out(NULLIFICATION, view, kept)

    def broadcast_finalization(self, view):
        return self._hand_out(FINALIZATION, view, self.finalization(view))

    # ---- what is built

    def try_propose(self):
        """What is to be built on: view, parent, its payload, and whether by a handoff."""
        builds = due.due_builds(self.h)
        if not builds:
            return None
        self.saw(builds[0][0], of_view.BuildAsked())
        return builds[0]

    def proposed(self, now, context, payload):
        view, parent, parent_payload = context.view, context.parent, context.parent_payload
        told, proposal = at(self.h, view), Proposal(context.epoch, view, parent, payload)
        captured = of_voter.is_captured(self.h, view, parent, parent_payload)
        if not is_tracked(self.h, view) or not captured or told.has_nullified or told.held not in (None, proposal):
            return False
        self.saw(view, BuiltAt(now), of_view.Own(proposal), of_view.Bound(proposal, parent_payload))
        return True

    def release_proposal_request(self, view):
        if is_tracked(self.h, view):
            self.saw(view, of_view.BuildReleased())

    def supersede_proposal_request(self, context):
        superseded = due.is_superseded(self.h, context.view, context.parent, context.parent_payload)
        if superseded:
            self.release_proposal_request(context.view)
        return superseded

    def pending_handoff_abandonment(self, context):
        """Why a handoff is to stop, or None."""
        view, parent, payload = context.view, context.parent, context.parent_payload
        if of_voter.explicit(self.h, parent) == payload:
            return None
        if self.voted_nullify(current(self.h)):
            return "ParentNullify"
        return None if of_voter.is_captured(self.h, view, parent, payload) else "AncestryInvalidated"

    # ---- what is asked of the proposals of others, and answered

    def try_verify(self, now):
        return self.try_verify_from(now, 0)

    def try_verify_from(self, now, first):
        """Of the lowest view for whose proposal something is to be asked that: (view, proposal, payload) or (view, kind, other). On the
        way views are given up for proposals that can never stand."""
        for view in sorted(views(self.h)):
            if view < max(first, current(self.h)):
                continue
            ready = [it for it in due.due_verifications(self.h) if it[0] == view]
            lacks = [it for it in due.missing(self.h) if it[0] == view]
            if ready:
                _, proposal, payload = ready[0]
                self.saw(view, of_view.VerifyAsked(), of_view.Bound(proposal, payload))
                return ready[0]
            if lacks:
                self.saw(view, of_view.Asked(lacks[0][2]))
                return lacks[0]
            if view in due.invalid_views(self.h):
                self.saw(view, of_view.Latched(now, of_voter.INVALID))
        return None

    def verified(self, view):
        told = at(self.h, view)
        if not of_voter.is_steady(self.h, view):
            self.saw(view, of_view.Unbound())
            return False
        if told.held is None or told.has_nullified:
            return False
        self.saw(view, of_view.Confirmed())
        return told.is_unequivocated and not told.is_verified

    def is_first_failure(self, now, view, reason):
        if of_voter.is_steady(self.h, view):
            return self.is_first_reason(now, view, reason)
        self.saw(view, of_view.Unbound())
        return False

    def verification_failed(self, now, view, reason):
        self.is_first_failure(now, view, reason)

    def certify_candidates(self):
        """The proposals on which verdicts are to be asked for; and the views whose verdicts wait, each with that whose notarization is to
        be asked for."""
        ready, put_off = due.due_certifies(self.h), due.put_offs(self.h)
        fetches = [(view, required) for view, required in put_off if self.notarization(required) is None]
        for view, _ in put_off:
            self.saw(view, of_view.CertifyPutOff())
        return ready, fetches

    def set_certify_handle(self, view, _handle):
        if is_tracked(self.h, view):
            self.saw(view, of_view.CertifyAsked())

    # ---- own votes

    def _vote(self, kind, view, is_due):
        if self.setup.me is None or not is_due:
            return None
        proposal = at(self.h, view).held
        self.saw(view, of_view.Voted(kind, 0))
        return self.setup.scheme.sign(kind, proposal, self.setup.me)

    def construct_notarize(self, view):
        return self._vote(NOTARIZE, view, base(self.h) < view and due.notarize_is_due(self.h, view))

    def construct_finalize(self, view):
        return self._vote(FINALIZE, view, due.finalize_is_due(self.h, view))

    def construct_nullify(self, view, _reason):
        """Whether it was voted before, and the vote."""
        told = at(self.h, view)
        is_current = 0 < view == current(self.h) and self.setup.terms.has_room(view)
        if not is_current or self.setup.me is None or told.has_finalized:
            return None
        self.saw(view, of_view.Voted(NULLIFY, 0))
        return told.has_nullified, self.setup.scheme.sign(NULLIFY, Round(self.setup.epoch, view), self.setup.me)

    def next_notarize(self):
        return next((it.view for it in due.due_notarizes(self.h) if base(self.h) < it.view), None)

    def next_finalize(self):
        return next((it.view for it in due.due_finalizes(self.h)), None)

    # ---- when the current view is given up

    def next_timeout(self, now):
        if current(self.h) == 0:
            return None
        self.happens(Looked(now))
        return next_timeout(self.h, now)

    def may_latch(self, view, reason):
        return due.may_latch(self.h, view, reason)

    def counts_silence(self):
        return due.has_budget(self.h) and self.may_latch(current(self.h), of_voter.INACTIVITY)

    def is_first_reason(self, now, view, reason):
        """Whether a reason is the first that counts."""
        told, counts = at(self.h, view), self.may_latch(view, reason)
        if counts:
            self.saw(view, of_view.Latched(now, reason))
        return counts and told.is_undecided and latch(told) is None

    def trigger_timeout(self, now, view, reason):
        self.is_first_reason(now, view, reason)

    # ---- what its views tell

    def genesis(self):
        return self.h.setup.genesis

    def scheduled_leader(self, view):
        return self.setup.scheduled(view)

    def first_uncovered(self, parent, view):
        return of_voter.first_uncovered(self.h, parent, view)

    def is_waiting(self, view):
        return at(self.h, view).is_put_off

    def pending_verification(self, view):
        told, leader = at(self.h, view), self.leader_index(view)
        is_open = leader not in (None, self.setup.me) and told.is_verify_open and not told.has_nullified and not told.is_backed
        return told.held if is_open else None

    def proposal(self, view):
        return at(self.h, view).held

    def verifying(self, view):
        binding = at(self.h, view).binding
        return None if binding is None else (binding.proposal, binding.payload)

    def certified_proposal(self, view):
        return at(self.h, view).certified_proposal

    def pending_certification(self, view):
        told = at(self.h, view)
        is_open = told.notarization and told.verdict is None and not told.is_certify_asked
        return told.notarization.on if is_open else None

    def stall_deadline(self, view):
        return at(self.h, view).stall_deadline

    def is_requested(self, view, other):
        return at(self.h, view).last_asked == other if is_tracked(self.h, view) else None

    def known(self, view):
        """Words for what is so of a view, or None where nothing is known of it."""
        told, leader = at(self.h, view), self.leader_index(view)
        is_mine = leader is not None and leader == self.setup.me
        is_so = {
            "known": True,
            "unequivocated": told.is_unequivocated,
            "verified": told.is_verified,
            "may_propose": is_mine and told.is_build_open and not told.has_nullified,
            "direct": told.is_direct,
            "certified": told.verdict is True,
            "failed": told.verdict is False,
            "notarized": told.has_notarized,
            "nullified": told.has_nullified,
            "finalized": told.has_finalized,
            "may_notarize": told.is_verified and not told.has_notarized and not told.has_nullified,
            "may_finalize": told.is_undecided and told.is_unequivocated and bool(told.notarization and told.verdict),
            "entered": told.was_entered,
        }
        return " ".join(word for word, so in is_so.items() if so) if is_tracked(self.h, view) else None
