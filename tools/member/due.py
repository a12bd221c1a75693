"""Which votes of a member are due, when its current view is given up, and what it is to ask for."""
from .history import kept, latest
from .positions import is_retained
from .record import floor_of, kept_record
from .values import NOTARIZATION, NULLIFICATION
from .voter import (
    INACTIVITY, at, current, explicit, find_parent, first_uncovered, is_captured, is_in_window, is_invalid_parent, is_span, is_steady,
    last_finalized, leader, led, nullifications, optimistic, parent_payload, required_parent, supported, views,
)


def may_speak_of(h, view):
    """The view has room and may be spoken of."""
    terms = h.setup.terms
    return terms.has_room(view) and terms.admits_outbound(current(h), view)


# ---- own votes


def notarize_is_due(h, view):
    """The view is kept, lies behind the record's floor and may be spoken of; neither notarize nor nullify was voted; the held
    proposal is verified; inside the window the view before has an optimistic payload; what the proposal is bound to hasn't fallen."""
    told = at(h, view)
    return (
        told.is_verified
        and not told.has_notarized
        and not told.has_nullified
        and is_retained(last_finalized(h), h.setup.retention, view)
        and floor_of(kept_record(h)) < view
        and may_speak_of(h, view)
        and (not is_in_window(h, view) or optimistic(h, view - 1) is not None)
        and is_steady(h, view)
    )


def finalize_is_due(h, view):
    """The view lies above the last finalized one and may be spoken of; neither finalize nor nullify was voted; the held proposal,
    which nothing contradicts, is notarized and judged good; no earlier view of the term above the last finalized one was given up
    here; the required parent is explicit."""
    told, low = at(h, view), last_finalized(h)
    if not (told.notarization and told.verdict and told.is_unequivocated and told.is_undecided):
        return False
    if view <= low or not may_speak_of(h, view):
        return False
    start = h.setup.terms.start(view)
    if any(start <= u < view and u > low and it.has_nullified for u, it in views(h).items()):
        return False
    required = required_parent(h, view, told.held.parent)
    return required is None or explicit(h, required) is not None


@kept
def due_notarizes(h):
    """The proposals on which a notarize is due, by their views."""
    return [at(h, view).held for view in sorted(views(h)) if notarize_is_due(h, view)]


@kept
def due_finalizes(h):
    return [at(h, view).held for view in sorted(views(h)) if finalize_is_due(h, view)]


# ---- giving the current view up


def has_budget(h):
    """Fewer terms were skipped since the last finalized view than may be."""
    terms = h.setup.terms
    return max(terms.index(current(h)) - terms.index(last_finalized(h) + 1), 0) < h.setup.budget


def stall_deadline(h):
    """Until when the current term may stand still: by its oldest view that was entered and isn't finalized."""
    start, view = max(last_finalized(h) + 1, h.setup.terms.start(current(h))), current(h)
    entered = [u for u, it in views(h).items() if start <= u <= view and it.was_entered]
    return at(h, min(entered)).stall_deadline if entered else None


def first_moments(h, latched=None):
    """The moments from which on the current view is to be given up, each with why. A reason that counts counts alone; `latched`
    is the moment of one more reason, behind those that are there."""
    told = at(h, current(h))
    reason = latched if told.latch is None else told.latch
    if reason is not None and has_budget(h):
        own = [(reason, "a reason that counts")]
    elif told.deadlines is None or told.verdict:
        own = []
    elif told.held is None:
        own = [(told.deadlines.leader_deadline, "the leader's deadline")]
    else:
        own = [(told.deadlines.certification_deadline, "the verdict's deadline")]
    stall = stall_deadline(h)
    return own + ([] if stall is None else [(stall, "the term's standstill")])


def give_up_moments(h, latched=None):
    """The same once more: behind an own nullify the interval until it is repeated counts alone; none behind an own finalize, where
    the view is finalized, or where it has no room."""
    told = at(h, current(h))
    if told.has_finalized or told.finalization or current(h) == 0 or not h.setup.terms.has_room(current(h)):
        return []
    if told.has_nullified:
        return [(told.nullified_at + h.setup.retry, "the repetition")]
    return first_moments(h, latched)


def nullify_is_due(h, now=None, latched=None):
    """A nullify of the current view is due, or due once more, at a moment: the latest, unless another is given."""
    now = latest(h) if now is None else now
    return any(moment <= now for moment, _ in give_up_moments(h, latched))


def may_latch(h, view, reason):
    """A reason to give a view up counts: the view isn't behind, something is known of it, and that its leader is silent counts
    only while no proposal is held that nothing contradicts."""
    known = view in views(h) or view in led(h)
    return view >= current(h) and known and not (reason == INACTIVITY and at(h, view).is_unequivocated)


def best_certificate(h):
    """The best certificate to enter the current view by: the finalization of the view before; where a term starts the highest
    nullification that covers that; its notarization."""
    before, terms = current(h) - 1, h.setup.terms
    if before == 0:
        return None
    told = at(h, before)
    covering = [u for u in nullifications(h) if terms.covers(u, before)] if terms.is_start(current(h)) else []
    return told.finalization or (nullifications(h)[max(covering)] if covering else None) or told.notarization


# ---- requests of the application


def is_open(h, view):
    """Something may be asked for the view's proposal: it isn't behind, may be spoken of, and wasn't given up here."""
    return view >= current(h) and may_speak_of(h, view) and not at(h, view).has_nullified


def is_handoff(h, view, parent, payload):
    """Building on this parent is a handoff: the view starts a term, and the parent isn't explicit with this payload."""
    return h.setup.terms.is_start(view) and explicit(h, parent) != payload


@kept
def due_builds(h):
    """The builds to ask for: view, parent, its payload, and whether it is a handoff. This member leads, nothing is held, none was
    asked for but those given back, there is a parent to build on. A handoff waits while the current view is given up here."""
    found = []
    for view in sorted(led(h)):
        if leader(h, view) == h.setup.me and at(h, view).is_build_open and is_open(h, view):
            preferred = find_parent(h, view)
            if preferred is not None:
                handoff = is_handoff(h, view, *preferred)
                if not (handoff and at(h, current(h)).has_nullified):
                    found.append((view, *preferred, handoff))
    return found


def waits_for_parent(h, view):
    """The held proposal waits for its parent alone to be verified: another member leads, no verification was asked for, no
    certificate replaced what was held, and no own notarize stands behind it."""
    told = at(h, view)
    if told.held is None or not told.is_verify_open or told.is_backed:
        return False
    return leader(h, view) not in (None, h.setup.me) and is_open(h, view)


@kept
def waiting_views(h):
    """The views whose proposals wait for their parents."""
    return [view for view in sorted(views(h)) if waits_for_parent(h, view)]


@kept
def due_verifications(h):
    """The verifications to ask for: view, proposal, its parent's payload."""
    found = []
    for view in waiting_views(h):
        proposal = at(h, view).held
        payload = parent_payload(h, view, proposal.parent)
        if payload is not None:
            found.append((view, proposal, payload))
    return found


@kept
def invalid_views(h):
    """The views to give up for a proposal that can never stand."""
    return [view for view in waiting_views(h) if is_invalid_parent(h, view, at(h, view).held.parent)]


@kept
def missing(h):
    """What proposals lack: view, the kind and view of the certificate to ask its leader for. The least uncovered view between
    needs a nullification; outside the window a parent without payload its notarization; unless asked for last."""
    found = []
    for view in waiting_views(h):
        parent = at(h, view).held.parent
        if is_invalid_parent(h, view, parent):
            continue
        bare = first_uncovered(h, parent, view)
        if bare is not None:
            lacks = NULLIFICATION, bare
        elif supported(h, view, parent) is None and not is_in_window(h, view):
            lacks = NOTARIZATION, parent
        else:
            continue
        if at(h, view).last_asked != lacks[1]:
            found.append((view, *lacks))
    return found


def is_verdict_open(h, view):
    """A verdict may be asked for: notarized above the last finalized view, with room, none is there, none was asked for, the
    parent lies below, and where a parent is required that may be stood on."""
    told = at(h, view)
    if not told.notarization or told.verdict is not None or told.is_certify_asked:
        return False
    parent = told.notarization.on.parent
    if view <= last_finalized(h) or not h.setup.terms.has_room(view) or parent >= view:
        return False
    return required_parent(h, view, parent) is None or is_span(h, view, parent)


@kept
def open_verdicts(h):
    """The views whose verdicts are open, with the required parent that isn't explicit yet, or None."""
    found = []
    for view in sorted(views(h)):
        if is_verdict_open(h, view):
            required = required_parent(h, view, at(h, view).notarization.on.parent)
            found.append((view, None if required is None or explicit(h, required) is not None else required))
    return found


def due_certifies(h):
    """The proposals on which a verdict is to be asked for."""
    return [at(h, view).notarization.on for view, waits_for in open_verdicts(h) if waits_for is None]


def put_offs(h):
    """The verdicts that begin to wait for their required parents: pairs of view and parent."""
    return [(view, required) for view, required in open_verdicts(h) if required is not None and not at(h, view).is_put_off]


def wanted_certificates(h):
    """The required parents whose notarization isn't there and is to be asked for."""
    return [required for _, required in put_offs(h) if not at(h, required).notarization]


def stops_handoff(h, view, parent, payload):
    """A handoff is to stop: its parent isn't explicit with that payload, and the current view is given up here, or the parent may
    no longer be used."""
    return explicit(h, parent) != payload and (at(h, current(h)).has_nullified or not is_captured(h, view, parent, payload))


def is_superseded(h, view, parent, payload):
    """A build is superseded: its parent may no longer be used, and there is another to build on."""
    return not is_captured(h, view, parent, payload) and find_parent(h, view) is not None
