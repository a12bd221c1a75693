"""All views of a member: which is current, who leads each, what a view's proposal may stand on."""
from .history import (
    COUNTS, FALLS, AsksBuild, AsksCertify, AsksVerify, Began, Built, Came, Checked, Constructs, Forwards, Found, GivesBack,
    Judged, Latches, Opened, PutsOff, Repeats, Resolves, Votes, kept, latest, over,
)
from .positions import retention_floor
from .record import certificate_taken, enters, finalizes, recorded_by
from . import view as of_view
from .values import NOTARIZATION, NOTARIZE, NULLIFICATION, Certificate, Proposal, Verdict
from .view import View

FAILED_CERTIFICATION, MISSING, IGNORED, INVALID = "FailedCertification", "MissingProposal", "IgnoredProposal", "InvalidProposal"
LEADER_NULLIFY, INACTIVITY = "LeaderNullify", "Inactivity"


def proposal_on(context, payload):
    """What an application built in a context."""
    return Proposal(context.epoch, context.view, context.parent, payload)


# ---- how far it is


@over(0)
def current(view, here):
    """The current view: view 1 at the opening, then the highest that was entered. It never falls."""
    if isinstance(here.point, Opened):
        return 1
    artifact = recorded_by(here.point, here.setup.epoch)
    return view if artifact is None else max(view, enters(here.setup.terms, artifact))


@over(0)
def last_finalized(view, here):
    artifact = recorded_by(here.point, here.setup.epoch)
    return view if artifact is None else max(view, finalizes(artifact))


def floor(h):
    """The least view that is kept."""
    return retention_floor(last_finalized(h), h.setup.retention)


def prunes(here):
    """The last point drops what need not be kept: the record was gone through, or a finalization above the last one came."""
    if isinstance(here.point, Began):
        return True
    return isinstance(here.point, (Came, Constructs)) and last_finalized(here) > last_finalized(here.before)


# ---- what happened to each view


class _Telling:
    """The views as a point finds them, and what it adds."""

    def __init__(self, views, here):
        self.views, self.here, self.setup, self.now = dict(views), here, here.setup, latest(here)

    def at(self, view):
        return self.views.get(view, View())

    def add(self, view, *items):
        self.views[view] = self.at(view).then(*items)

    def enter(self, view):
        """A view is entered where it lies above the current one: its deadlines are set."""
        if view > current(self.here.before):
            s, now = self.setup, self.now
            stall = None if s.stall is None else now + s.stall
            self.add(view, of_view.Entered(now + s.leader_timeout, now + s.certification_timeout, stall))

    def take(self, certificate):
        if certificate.kind != NULLIFICATION:
            self.add(certificate.view, of_view.Certified(certificate))
        if certificate.kind != NOTARIZATION:
            self.enter(enters(self.setup.terms, certificate))

    def judge(self, view, ok):
        """A true verdict enters the next view; a false one is a reason to give the view up, unless it is behind."""
        self.add(view, of_view.Judged(ok))
        if ok:
            self.enter(view + 1)
        elif view >= current(self.here.before):
            self.add(view, of_view.Latched(self.now, FAILED_CERTIFICATION))

    def vote(self, vote):
        self.add(vote.view, of_view.Voted(vote.kind, self.now))

    def find(self, artifact, taken):
        """What the record said. An own notarize is bound to what its parent's view holds, unless that has a certificate."""
        if isinstance(artifact, Certificate):
            self.take(artifact)
        elif isinstance(artifact, Verdict):
            self.judge(artifact.view, artifact.ok)
        elif artifact.kind != NOTARIZE:
            self.vote(artifact)
        else:
            parent = self.at(artifact.on.parent)
            if taken:
                self.add(artifact.view, of_view.Own(artifact.on))
            self.add(artifact.view, of_view.Voted(NOTARIZE, self.now, taken))
            if parent.held is not None and not parent.is_direct:
                self.add(artifact.view, of_view.Bound(artifact.on, parent.held.payload))

    def build(self, context, payload):
        """A payload is taken as the own proposal, bound to its parent's payload; none is a reason to give the view up."""
        if payload is None:
            self.add(context.view, of_view.Latched(self.now, MISSING))
        else:
            proposal = proposal_on(context, payload)
            self.add(context.view, of_view.Own(proposal), of_view.Bound(proposal, context.parent_payload))

    def check(self, view, answer, outcome):
        if outcome == FALLS:
            self.add(view, of_view.Unbound())
        elif outcome == COUNTS and answer is True:
            if not self.at(view).has_nullified:
                self.add(view, of_view.Confirmed())
        elif outcome == COUNTS:
            self.add(view, of_view.Latched(self.now, IGNORED if answer is None else INVALID))

    def prune(self):
        low = floor(self.here)
        self.views = {view: told for view, told in self.views.items() if view >= low}


@over({})
def views(known, here):
    """What happened to each view that is kept."""
    telling = _Telling(known, here)
    match here.point:
        case Opened(_):
            telling.enter(1)
        case Found(artifact, taken):
            telling.find(artifact, taken)
        case Came(certificate) | Constructs(_, _, Certificate() as certificate, _):
            telling.take(certificate)
        case Judged(view, ok):
            telling.judge(view, ok)
        case Built(_, _, context, payload, True):
            telling.build(context, payload)
        case Checked(_, view, answer, outcome):
            telling.check(view, answer, outcome)
        case Forwards(view, proposal):
            telling.add(view, of_view.Offered(proposal, not telling.at(view).has_nullified))
        case Latches(view, reason):
            telling.add(view, of_view.Latched(telling.now, reason))
        case AsksBuild(_, _, context):
            telling.add(context.view, of_view.BuildAsked())
        case GivesBack(_, view):
            telling.add(view, of_view.BuildReleased())
        case AsksVerify(_, context, proposal):
            telling.add(context.view, of_view.VerifyAsked(), of_view.Bound(proposal, context.parent_payload))
        case AsksCertify(proposal):
            telling.add(proposal.view, of_view.CertifyAsked())
        case PutsOff(view):
            telling.add(view, of_view.CertifyPutOff())
        case Resolves(view, _, lacks):
            telling.add(view, of_view.Asked(lacks))
        case Votes(vote) | Repeats(vote, _):
            telling.vote(vote)
    if prunes(here):
        telling.prune()
    return telling.views


def at(h, view):
    return views(h).get(view, View())


@over(frozenset())
def nullified(known, here):
    """The views of which a nullification was ever taken."""
    certificate = certificate_taken(here)
    return known | {certificate.view} if certificate and certificate.kind == NULLIFICATION else known


@over({})
def nullifications(known, here):
    """The nullifications, by view; of each the first."""
    certificate = certificate_taken(here)
    if certificate is None or certificate.kind != NULLIFICATION or certificate.view in known:
        return known
    return {**known, certificate.view: certificate}


# ---- covering and windows


@kept
def is_covered(h, view):
    """A nullification of the view or of an earlier one of its term was taken."""
    return any(h.setup.terms.covers(it, view) for it in nullified(h))


@kept
def first_uncovered(h, parent, view):
    """The least view strictly between that isn't covered, or None."""
    between = parent + 1
    while between < view:
        if not is_covered(h, between):
            return between
        between = h.setup.terms.next_start(between)
    return None


@kept
def is_in_window(h, view):
    """The view may be taken up before those before it are certified: it starts no term, and its issuance window reaches the
    start or a view with a notarization or finalization."""
    low = h.setup.terms.issuance_floor(view)
    return low is not None and (low == 0 or any(low <= u < view and it.is_direct for u, it in views(h).items()))


# ---- who leads


@over({})
def leaders(known, here):
    """Who leads each view, where that is known; whoever becomes known first stays. The start names the leader of view 1, a certificate
    that of the view it leads to, as the elector answers; and a schedule this member for a term's start that it may build by a handoff."""
    terms, named = here.setup.terms, {}
    if isinstance(here.point, Opened):
        named[1] = here.setup.elect(1)
    certificate = certificate_taken(here)
    if certificate:
        view = terms.next_start(certificate.view) if certificate.kind == NULLIFICATION else certificate.view + 1
        named[view] = here.setup.elect(view, certificate)
    named |= {view + 1: here.setup.me for view, it in views(here).items() if it.has_notarized and starts_by_handoff(here.setup, view + 1)}
    found = handed_on(here, {**named, **known})
    return {view: member for view, member in found.items() if view >= floor(here)} if prunes(here) else found


def led(h):
    """The views whose leader is known."""
    return frozenset(leaders(h))


def handed_on(h, known):
    """The known leaders with those that are handed on from view to view."""
    found, handed = dict(known), dict(known)
    while handed:
        handed = {view + 1: member for view, member in handed.items() if view + 1 not in found and inherits(h, view + 1)}
        found |= handed
    return found


def inherits(h, view):
    """A view has the leader of the view before: where views are optimistic, behind a notarization or finalization of its term that its
    window reaches; and in the window behind a view whose leader's proposal was offered or notarized here."""
    terms = h.setup.terms
    low = max(terms.start(view), view - (terms.optimistic + 1))
    if terms.optimistic and any(low <= u < view and it.is_direct for u, it in views(h).items()):
        return True
    return is_spoken(at(h, view - 1)) and is_in_window(h, view)


def is_spoken(told):
    """The leader's proposal of a view was offered, or an own notarize of it recorded."""
    return told.was_offered or told.has_notarized


def starts_by_handoff(setup, view):
    """The view starts a term, and a schedule names this member for it, where handoffs occur."""
    return setup.handoffs and setup.me is not None and setup.terms.is_start(view) and setup.scheduled(view) == setup.me


def leader(h, view):
    """Who leads a view, where that is known."""
    return leaders(h).get(view)


# ---- what a proposal may stand on


def explicit(h, view):
    """The explicit payload of a view: that of the start, or of the held proposal where it is finalized or judged good."""
    if view == 0:
        return h.setup.genesis
    proposal = at(h, view).certified_proposal
    return proposal.payload if proposal else None


def is_handoff_parent(h, view):
    """This member may build at the next term's start before the view that ends this one is decided."""
    return starts_by_handoff(h.setup, view + 1) and not is_covered(h, view)


def _has_failed(h, view):
    """A view of the term up to this one, above the last finalized view, has a false verdict."""
    start, low = h.setup.terms.start(view), last_finalized(h)
    return any(start <= u <= view and u > low and it.verdict is False for u, it in views(h).items())


@kept
def optimistic(h, view):
    """The optimistic payload of a view: that of the start; what its certificates support; or without any, that of the own
    verified and notarized proposal, over the optimistic payload of its parent."""
    told = at(h, view)
    if view == 0:
        return h.setup.genesis
    if told.is_direct:
        return None if _has_failed(h, view) else told.certificate_payload
    if not (told.has_notarized and told.is_verified and (is_in_window(h, view + 1) or is_handoff_parent(h, view))):
        return None
    parent = told.held.parent
    if not last_finalized(h) <= parent < view or first_uncovered(h, parent, view) is not None:
        return None
    payload = optimistic(h, parent)
    if payload is None or (told.binding and told.binding.payload != payload):
        return None
    return told.held.payload


def is_invalid_parent(h, view, parent):
    """A proposal can never stand on this parent: it isn't below the view, or below the last finalized one, or a view between is
    passed over inside a term."""
    return parent >= view or parent < last_finalized(h) or (not h.setup.terms.is_start(view) and view != parent + 1)


def is_span(h, view, parent):
    """A proposal may stand on this parent, once that has a payload."""
    return not is_invalid_parent(h, view, parent) and first_uncovered(h, parent, view) is None


def supported(h, view, parent):
    """The payload with which a view's proposal may stand on a parent: inside the window the optimistic one, else the explicit."""
    return optimistic(h, parent) if is_in_window(h, view) else explicit(h, parent)


def parent_payload(h, view, parent):
    """The parent rule: the payload of a parent on which a view's proposal may stand, or None."""
    return supported(h, view, parent) if is_span(h, view, parent) else None


@kept
def find_parent(h, view):
    """The parent that a view is built on, with its payload, or None. Inside a term the view before; at a term's start the highest
    explicit view, where each view between is covered, or else the view before, where it may be handed off."""
    if not h.setup.terms.is_start(view):
        payload = supported(h, view, view - 1)
        return None if payload is None else (view - 1, payload)
    highest = max((u for u in (0, *views(h)) if u < view and explicit(h, u) is not None), default=None)
    if highest is not None and first_uncovered(h, highest, view) is None:
        return highest, explicit(h, highest)
    payload = optimistic(h, view - 1) if is_handoff_parent(h, view - 1) else None
    return None if payload is None else (view - 1, payload)


def required_parent(h, view, parent):
    """The view that has to be explicit before a view's proposal is certified or finalized, or None: inside a term the view
    before; at a term's start the view before where it is the parent, a schedule names this member and it notarized here."""
    if not h.setup.terms.is_start(view):
        return view - 1
    leads = h.setup.me is not None and h.setup.scheduled(view) == h.setup.me
    early = parent == view - 1 and leads and at(h, view).has_notarized
    return view - 1 if early else None


def is_captured(h, view, parent, payload):
    """The parent that a build was asked for on may still be used."""
    return find_parent(h, view) == (parent, payload) or parent_payload(h, view, parent) == payload


def is_steady(h, view):
    """What the view's proposal is bound to, if to anything, hasn't fallen: it is the held proposal, and the parent rule, or for
    the leader the parent that it would build on, still gives the bound payload."""
    told, binding = at(h, view), at(h, view).binding
    if binding is None:
        return True
    parent, payload = binding.proposal.parent, binding.payload
    if told.held != binding.proposal:
        return False
    leads = leader(h, view) is not None and leader(h, view) == h.setup.me
    return parent_payload(h, view, parent) == payload or (leads and find_parent(h, view) == (parent, payload))
