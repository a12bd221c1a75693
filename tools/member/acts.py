"""Which acts of a node may come next.

Acts that hand nothing out are of two sorts. Those of the first only tell one part of the node what another knows; they are done
at once. Those of the second take something back or give something up, and are done where a reply can't be understood
otherwise, or at its end.
"""
from itertools import islice

from .asked import builds, checks, has_number, is_answered, is_out, last_heard, next_number, pending
from .due import (
    best_certificate, due_builds, due_certifies, due_finalizes, due_notarizes, due_verifications, invalid_views,
    is_superseded, may_latch, missing, nullify_is_due, put_offs, stops_handoff, wanted_certificates,
)
from .history import (
    COUNTS, FALLS, PASSES, Asks, AsksBuild, AsksCertify, AsksVerify, Built, Came, Checked, Constructs, Forwards, GivesBack, Heard, Judged,
    Latches, Leads, LeavesBehind, PutsOff, Repeats, Resolves, Told, Votes, Wanted, latest,
)
from .record import record
from .refusals import held_by
from .repair import ANCESTRY, BACKFILL, outstanding
from .rounds import rounds
from .scheme import key
from .values import (
    FINALIZE, NOTARIZATION, NOTARIZE, NULLIFICATION, NULLIFY, BuiltAnswer, Certificate, CheckedAnswer, Context, Moment, Packet, Round,
    VerdictAnswer, Vote,
)
from .voter import (
    IGNORED, INACTIVITY, INVALID, LEADER_NULLIFY, MISSING, at, current, is_captured, is_steady, leader, proposal_on,
)

# ---- the point that an accepted event is


def build_counts(h, context, payload):
    """An answer to a build takes effect. A payload: its parent may still be used, the view wasn't given up here, and holds nothing
    else. None: as a reason to give the view up."""
    if payload is None:
        return may_latch(h, context.view, MISSING)
    told = at(h, context.view)
    return (
        is_captured(h, context.view, context.parent, context.parent_payload)
        and not told.has_nullified
        and told.held in (None, proposal_on(context, payload))
    )


def outcome_of(h, view, answer):
    """What comes of an answer on a proposal: none while what that was bound to has fallen; a good one counts, and one that isn't
    good where it counts as a reason to give the view up."""
    if not is_steady(h, view):
        return FALLS
    return COUNTS if answer is True or may_latch(h, view, IGNORED if answer is None else INVALID) else PASSES


def point_of(h, event):
    """What an event is that no test refuses."""
    match event:
        case Packet(sender, _, _):
            message = held_by(h, event)
            if isinstance(message, Vote):
                return Heard(message)
            return Came(message) if isinstance(message, Certificate) else Wanted(sender, message)
        case BuiltAnswer(number, payload):
            handoff, context = builds(h)[number]
            return Built(number, handoff, context, payload, build_counts(h, context, payload))
        case CheckedAnswer(number, answer):
            view = checks(h)[number]
            return Checked(number, view, answer, outcome_of(h, view, answer))
        case VerdictAnswer(view, ok):
            return Judged(view, ok)
        case Moment(now):
            return Told(now)


def while_numbers_last(h, found):
    """What is looked for only while a number is left to ask the application by."""
    return found if has_number(h) else ()


# ---- acts that hand nothing out


def tellings(h):
    """What one part of the node tells another: who leads a view, which proposal its votes select; that a verdict waits, or that what
    a proposal lacks was asked for, where that was."""
    for view, votes in rounds(h).items():
        if votes.leader is None and leader(h, view) is not None:
            yield Leads(view, leader(h, view))
        if votes.forwardable is not None:
            yield Forwards(view, votes.forwardable)
    for view, required in put_offs(h):
        if at(h, required).notarization or is_answered(h, required, NOTARIZATION, ANCESTRY, None):
            yield PutsOff(view)
    for view, kind, lacks in while_numbers_last(h, missing(h)):
        if is_answered(h, lacks, kind, ANCESTRY, leader(h, view)):
            yield Resolves(view, kind, lacks)


def is_silent(h, now):
    """The leader of the current view is another, and was silent too long at a moment, where views are given up for that."""
    named = leader(h, current(h))
    return h.setup.skip is not None and named not in (None, h.setup.me) and last_heard(h, named) + h.setup.skip <= now


def reasons(h):
    """Which views there is a reason to give up, and why: the leader's nullify was accepted; the current leader is silent; a proposal
    can never stand."""
    for view, votes in rounds(h).items():
        named = leader(h, view)
        if named not in (None, h.setup.me) and votes.has_nullify(named):
            yield view, LEADER_NULLIFY
    if is_silent(h, latest(h)):
        yield current(h), INACTIVITY
    for view in invalid_views(h):
        yield view, INVALID


def latches(h):
    """The reasons that count and are the first of their views, while those aren't decided here."""
    for view, reason in reasons(h):
        told = at(h, view)
        if may_latch(h, view, reason) and told.latch is None and told.is_undecided:
            yield Latches(view, reason)


def withdrawals(h):
    """The builds that are withdrawn: superseded, for a handoff that is to stop, or left behind."""
    for number, (handoff, context) in builds(h).items():
        told = context.view, context.parent, context.parent_payload
        if context.view < current(h):
            yield LeavesBehind(number)
        elif is_superseded(h, *told) or (handoff and stops_handoff(h, *told)):
            yield GivesBack(number, context.view)


# ---- acts that hand something out


def constructions(h):
    """Of the votes of each view the first kind that is due."""
    for view, votes in rounds(h).items():
        if votes.next_kind:
            yield Constructs(view, votes.next_kind, *votes.construction(votes.next_kind))


def certifies(h):
    for proposal in due_certifies(h):
        yield AsksCertify(proposal)


def asked_builds(h):
    for view, parent, payload, handoff in while_numbers_last(h, due_builds(h)):
        yield AsksBuild(next_number(h), handoff, Context(h.setup.epoch, view, key(h.setup.me), parent, payload))


def asked_verifications(h):
    for view, proposal, payload in while_numbers_last(h, due_verifications(h)):
        context = Context(h.setup.epoch, view, key(leader(h, view)), proposal.parent, payload)
        yield AsksVerify(next_number(h), context, proposal)


def asks(h):
    """What members are asked for, where it wasn't yet or goes again: all of them for the first views to repair, as many as are asked
    for at once, and for notarizations that verdicts wait for, a leader for what its proposal lacks; and what stands until a
    finalization."""
    sought = [(view, NULLIFICATION, BACKFILL, None) for view in islice(outstanding(h), h.setup.window)]
    sought += [(view, NOTARIZATION, ANCESTRY, None) for view in wanted_certificates(h)]
    sought += [(lacks, kind, ANCESTRY, leader(h, view)) for view, kind, lacks in while_numbers_last(h, missing(h))]
    for ask in dict.fromkeys(sought + pending(h)):
        if not is_out(h, *ask):
            yield Asks(*ask)


def statements(h):
    """What an own vote is due on: its kind, and the proposal or round."""
    yield from ((NOTARIZE, proposal) for proposal in due_notarizes(h))
    yield from ((FINALIZE, proposal) for proposal in due_finalizes(h))
    if nullify_is_due(h) and not at(h, current(h)).has_nullified:
        yield NULLIFY, Round(h.setup.epoch, current(h))


def own_votes(h, signed):
    """Own votes that are due. `signed` gives the votes on a statement that the member may have signed: of a scheme that signs one
    subject differently each time the reply tells which."""
    for kind, on in statements(h):
        for vote in signed(kind, on):
            yield Votes(vote)


def repetitions(h):
    """The recorded nullify of the current view, where it is due once more, with the best certificate to enter the view by."""
    if nullify_is_due(h) and at(h, current(h)).has_nullified:
        vote = next(it for it in record(h) if isinstance(it, Vote) and it.kind == NULLIFY and it.view == current(h))
        yield Repeats(vote, best_certificate(h))
