"""Steps and openings of a node: whether a reply is one that the model allows, and what a crash may leave.

A step takes its event, then does one due act after another until none is due; its actions are what the event and the acts hand
out, and the moment at which it wants to be told the time comes last. Which of several due acts comes first is free. So acts are
looked for that hand out just the reply's actions: each the first of those that are left, and what else it hands out wherever
that stands behind.
"""
from itertools import chain

from . import words
from .acts import (
    asked_builds, asked_verifications, asks, certifies, constructions, is_silent, latches, own_votes, point_of, repetitions,
    statements, tellings, withdrawals,
)
from .asked import last_heard
from .codec import Reader, Unreadable, whole
from .deeds import deeds
from .doings import done_too_much
from .due import give_up_moments, may_latch, nullify_is_due
from .history import Began, Forwards, Found, History, Opened, Rewrote, latest
from .record import founded, kept_record, may_record, next_floor, recorded_by
from .refusals import NAMES, handed_out, refusal_of
from .values import (
    CERTIFICATE_CHANNEL, FETCH_CHANNEL, NOTARIZE, VOTE_CHANNEL, Block, Build, Certificate, Certify, Finalized, Forward, Report, Send,
    Verify, Vote, Wake,
)
from .voter import INACTIVITY, at, current, leader


class Disagreement(Exception):
    """A reply that the model doesn't allow, and why."""


MOST_TRIED = 200_000


def found_point(h, artifact):
    """What an opening makes of an artifact: the proposal of an own notarize is taken where its view holds none or the same."""
    taken = isinstance(artifact, Vote) and artifact.kind == NOTARIZE and at(h, artifact.view).held in (None, artifact.on)
    return Found(artifact, taken)


# ---- when the node wants to be told the time


def is_given_up_at(h, now):
    """At this moment the current view would be given up: by a deadline, or since its leader was silent till then."""
    silent = is_silent(h, now) and may_latch(h, current(h), INACTIVITY)
    return nullify_is_due(h, now) or (silent and nullify_is_due(h, now, latched=now))


def wake(h):
    """The earliest moment ahead at which, with nothing else coming in, that is so; or None."""
    moments = [moment for moment, _ in give_up_moments(h)]
    if leader(h, current(h)) is not None and h.setup.skip is not None:
        moments.append(last_heard(h, leader(h, current(h))) + h.setup.skip)
    ahead = sorted(max(moment, latest(h) + 1) for moment in moments)
    return next((moment for moment in ahead if is_given_up_at(h, moment)), None)


# ---- what is due


def due_in_words(h):
    """What is due and hands something out, each in words."""
    scheme = h.setup.scheme
    for kind, on in statements(h):
        yield f"an own {kind} {words.on(on)}"
    for source in (constructions, certifies, asked_builds, asked_verifications, asks, repetitions):
        for act in source(h):
            handed = deeds(h.then(act))
            yield " , ".join(words.action(it, scheme) for it in handed) or f"{act.kind} of view {act.view}"


def told(h):
    """What parts of the node tell one another is told. A proposal that is selected for the current view while its leader's silence
    counts waits: which of the two comes first is free."""
    while True:
        contested = current(h) if any(it.reason == INACTIVITY for it in latches(h)) else None
        acts = (it for it in tellings(h) if not (isinstance(it, Forwards) and it.view == contested))
        act = next(acts, None)
        if act is None:
            return h
        h = h.then(act)


def silent_acts(h):
    """The acts that hand nothing out and aren't done at once."""
    yield from (it for it in tellings(h))
    yield from latches(h)
    yield from withdrawals(h)


# ---- understanding a reply


def own_votes_in(actions, setup):
    """The own votes that actions send: `signed` of these."""
    votes = {}
    for it in actions:
        if isinstance(it, Send) and it.channel == VOTE_CHANNEL:
            try:
                vote = whole(it.data, setup.scheme.signature_size, setup.scheme.members, Reader.vote)
            except Unreadable:
                continue
            if vote.signer == setup.me and setup.scheme.attests(vote):
                votes.setdefault((vote.kind, vote.on), []).append(vote)
    return lambda kind, on: votes.get((kind, on), ())


def sources_of(action, signed):
    """The acts that may hand out an action."""

    def votes(h):
        return own_votes(h, signed)

    if isinstance(action, Send):
        return {VOTE_CHANNEL: (votes, repetitions), CERTIFICATE_CHANNEL: (constructions, repetitions), FETCH_CHANNEL: (asks,)}[action.channel]
    of = type(action.activity) if isinstance(action, Report) else type(action)
    return {
        Vote: (votes,), Build: (asked_builds,), Verify: (asked_verifications,), Certify: (certifies,),
        Certificate: (constructions,), Block: (constructions,), Forward: (constructions,), Finalized: (constructions,),
    }.get(of, ())


def without(actions, handed):
    """What is left of actions where these are taken out, or None where one of them isn't there."""
    left = list(actions)
    for it in handed:
        if it not in left:
            return None
        left.remove(it)
    return tuple(left)


def is_recordable(here):
    """What the last point records may stand behind the record."""
    artifact = recorded_by(here.point, here.setup.epoch)
    return artifact is None or may_record(here.before, artifact)


def next_steps(h, rest, signed):
    """Where an act leads that hands out the next action: each with what is left of the actions."""
    for source in sources_of(rest[0], signed) if rest else ():
        for act in source(h):
            here = h.then(act)
            handed = deeds(here)
            if rest[0] in handed and (left := without(rest, handed)) is not None and is_recordable(here):
                yield here, left


def ways(h, rest, signed):
    """Where acts lead: those that hand out the next action, then those that hand out nothing."""
    yield from next_steps(h, rest, signed)
    yield from ((h.then(act), rest) for act in silent_acts(h))


def follow(h, rest, last):
    """The history behind acts that hand out the rest of a reply's actions and leave nothing due, or a disagreement. Acts are tried in
    the order of the actions, and where they lead nowhere others. `last` is what stands behind all others."""
    signed, least, trouble = own_votes_in(rest, h.setup), len(rest) + 1, ""
    open_ends = [iter([(h, rest)])]
    for _ in range(MOST_TRIED):
        while open_ends and (end := next(open_ends[-1], None)) is None:
            open_ends.pop()
        if not open_ends:
            raise Disagreement(trouble)
        h, rest = told(end[0]), end[1]
        further = ways(h, rest, signed)
        first = next(further, None)
        if first is not None:
            open_ends.append(chain([first], further))
            continue
        why = unexplained(h, rest) if rest else unfinished(h, last)
        if why is None:
            return h
        if len(rest) < least:
            least, trouble = len(rest), why
    raise Disagreement(f"no order was found in {MOST_TRIED} tries; {trouble}")


def unexplained(h, rest):
    """What is said of an action that no due act hands out."""
    due = "; ".join(due_in_words(h)) or "nothing"
    return f"wrong or too many: nothing that is due hands out {words.action(rest[0], h.setup.scheme)}; due is: {due}"


def in_words(actions, setup):
    return " , ".join(words.action(it, setup.scheme) for it in actions) or "nothing"


def unfinished(h, last):
    """Why a reply may not end here, or None: something is due, or the moment to be woken at isn't the last."""
    due = next(due_in_words(h), None)
    if due is not None:
        return f"missing: {due}"
    moment = wake(h)
    wanted = () if moment is None else (Wake(moment),)
    if last == wanted:
        return None
    return f"at the end stands {in_words(last, h.setup)}, where it is to be {in_words(wanted, h.setup)}"


def finish(h, handed, actions):
    """The history behind a reply to what handed this out itself: acts hand out all else, and the moment to be woken at is the last."""
    last = actions[-1:] if actions and isinstance(actions[-1], Wake) else ()
    rest = actions[: len(actions) - len(last)]
    left = without(rest, handed)
    if left is None:
        lacking = [it for it in handed if it not in rest] or handed
        raise Disagreement(f"missing of what the event itself hands out: {in_words(lacking, h.setup)}")
    end = follow(h, left, last)
    too_much = done_too_much(h, end)
    if too_much is not None:
        raise Disagreement(too_much)
    return end


def step(h, event, reply):
    """The history behind a step with this reply."""
    number = refusal_of(h, event)
    if number != reply.refused:
        right, told_of = (f"{it} ({NAMES[it]})" if it else "none" for it in (number, reply.refused))
        raise Disagreement(f"refused by {told_of}, where the first test that applies is {right}")
    if number:
        handed = handed_out(h, event, number)
        if without(reply.actions, handed) != ():
            raise Disagreement(f"of a refused event is handed out: {in_words(handed, h.setup)}")
        return h
    here = h.then(point_of(h, event))
    if not is_recordable(here):
        raise Disagreement("what the event brings may not stand behind the record")
    return finish(here, deeds(here), reply.actions)


def read_record(setup, now, found):
    """The history of an opening up to where its record was gone through, and what it handed out by then. A finalization that it brings
    and records stands behind what it found, and is gone through with that."""
    h, handed = History(setup).then(Opened(now)), []
    for artifact in (*found, *founded(setup, found)):
        h = h.then(found_point(h, artifact))
        handed += deeds(h)
    h = h.then(Began())
    return h, handed + deeds(h)


def opening(setup, now, found, actions):
    """The history behind an opening that found a lawful record and handed out these actions."""
    return finish(*read_record(setup, now, found), actions)


# ---- a rewrite


def rewriting(h):
    """The history behind a rewrite of the record, or None where none is to be done. It hands nothing out, and nothing is due behind it."""
    certificate = next_floor(kept_record(h))
    if certificate is None:
        return None
    here = h.then(Rewrote(certificate))
    due = next(due_in_words(here), None) or next(silent_acts(here), None)
    if due is not None or wake(here) != wake(h):
        raise Disagreement(f"behind a rewrite the node isn't as it was: {due or wake(here)}")
    return here


# ---- a crash at any moment


def may_be_left(h, left):
    """Whether a step or opening that was cut may leave this record: what was recorded by then, and what further acts record one after
    the other. `h` is the history up to the event, with it, or up to where the record was gone through."""

    def signed(kind, on):
        return [it for it in left if isinstance(it, Vote) and (it.kind, it.on) == (kind, on)]

    open_ends = [h]
    for _ in range(MOST_TRIED):
        if not open_ends:
            return False
        h = told(open_ends.pop())
        so_far = kept_record(h)
        if so_far == left:
            return True
        if so_far != left[: len(so_far)]:
            continue
        coming = left[len(so_far)]
        acts = [it for it in (*constructions(h), *own_votes(h, signed)) if recorded_by(it, h.setup.epoch) in (None, coming)]
        ways = [h.then(act) for act in (*acts, *silent_acts(h))]
        open_ends.extend(reversed([it for it in ways if is_recordable(it)]))
    return False
