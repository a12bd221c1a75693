"""Replies with one thing wrong, to see that the checker refuses them: an action left out, one twice, one turned into another. And
checkers with one rule wrong."""
from contextlib import contextmanager
from dataclasses import replace

from . import disks, judging, member, record, refusals
from .deeds import deeds
from .history import Came
from .member import Disagreement, step
from .values import Block, Build, Certificate, Certified, Certify, Evidence, Finalized, Forward, Reply, Report, Send, Verify, Vote, Wake
from .words import event_of, reply_of


def flipped(data):
    """The same bytes but for one bit of the last."""
    return data[:-1] + bytes([data[-1] ^ 1]) if data else b"\1"


def other_proposal(proposal):
    return replace(proposal, payload=flipped(proposal.payload))


def other_activity(activity):
    """The same report, with one bit of a signature turned."""
    match activity:
        case Vote():
            return replace(activity, signature=flipped(activity.signature))
        case Certificate(_, _, attestations):
            signer, signature = attestations[-1]
            return replace(activity, attestations=(*attestations[:-1], (signer, flipped(signature))))
        case Certified(notarization):
            return Certified(other_activity(notarization))
        case Evidence():
            return replace(activity, second=other_activity(activity.second))


def turned(action, pick):
    """Another action of the same kind."""
    match action:
        case Send(to, _, data):
            return replace(action, to=0 if to is None else None) if pick.random() < 0.5 else replace(action, data=flipped(data))
        case Block(member):
            return Block(member + 1)
        case Build(_, handoff, _):
            return replace(action, handoff=not handoff)
        case Verify(number, _, _):
            return replace(action, number=number + 1)
        case Certify(proposal):
            return Certify(other_proposal(proposal))
        case Forward(payload, _, _, _):
            return replace(action, payload=flipped(payload))
        case Finalized(proposal):
            return Finalized(other_proposal(proposal))
        case Report(activity):
            return Report(other_activity(activity))
        case Wake(moment):
            return Wake(moment + pick.choice((1, -1)))


def spoil(reply, how, pick):
    """A reply with one of its actions dropped, doubled or turned."""
    actions, place = list(reply.actions), pick.randrange(len(reply.actions))
    actions[place : place + 1] = {"dropped": [], "doubled": [actions[place]] * 2, "turned": [turned(actions[place], pick)]}[how]
    return Reply(reply.refused, tuple(actions))


class Spoiling:
    """Spoils some of the replies that are judged, and counts the spoiled ones that are refused. `tries` of each way."""

    def __init__(self, pick, tries, likely):
        self.pick, self.likely = pick, likely
        self.left = {how: tries for how in ("dropped", "doubled", "turned")}
        self.refused = {how: 0 for how in self.left}
        self.allowed = []

    def try_line(self, h, scheme, call, answer):
        """Spoils an answer to an event of a node at this history."""
        how = self.pick.choice([it for it, left in self.left.items() if left] or [None])
        if how is None or h is None or self.pick.random() > self.likely:
            return
        reply, event = reply_of(answer, scheme), event_of(call.removeprefix("event "), scheme)
        if not reply.actions:
            return
        self.left[how] -= 1
        try:
            step(h, event, spoil(reply, how, self.pick))
            self.allowed.append(f"{how}: {call} => {answer}")
        except Disagreement:
            self.refused[how] += 1


# ---- judges with one rule on floors and rewrites wrong, to see that some answer is known that refuses each


def _forgetting(terms, certificate, artifacts):
    return tuple(it for it in _RIGHT["rewritten"](terms, certificate, artifacts) if not isinstance(it, Vote))


def _keeping_all(terms, certificate, artifacts):
    return (certificate, *(it for it in artifacts if it != certificate))


def _again(artifacts):
    last = max([0, *map(record.finalizes, artifacts)])
    return next((it for it in artifacts if last and record.finalizes(it) == last), None)


def _sent(setup, now, found):
    """The opening takes the floor as if it had come: it is sent to all."""
    h, handed = _RIGHT["read_record"](setup.on_genesis(setup.genesis), now, found)
    for certificate in record.founded(setup, found):
        h = h.then(Came(certificate))
        handed = handed + deeds(h)
    return h, handed


def _first(setup, now, found):
    """The floor is put in front of what was found."""
    brought = record.founded(setup, found)
    return _RIGHT["read_record"](setup.on_genesis(setup.genesis), now, (*brought, *found))


def _by_kept(h):
    return {(it.kind, it.view): it for it in record.kept_record(h) if isinstance(it, Certificate)}


_RIGHT = {"rewritten": record.rewritten, "read_record": member.read_record}
EVERYWHERE = (member, judging)
WRONG_JUDGES = {
    "a rewrite forgets an own vote above the floor": ((record,), "rewritten", _forgetting),
    "a rewrite forgets a nullification that reaches past the floor": ((record,), "reach", lambda terms, it: it.view),
    "a rewrite forgets nothing": ((record,), "rewritten", _keeping_all),
    "a record is rewritten that begins so already": ((record, member), "next_floor", _again),
    "a record on one disk is rewritten, and one of the last generation": ((disks.Disks,), "may_rewrite", lambda it: True),
    "a floor that an opening brings is sent": (EVERYWHERE, "read_record", _sent),
    "a floor stands in front of what was found": (EVERYWHERE, "read_record", _first),
    "a floor below the last finalized view is taken": ((member,), "founded", lambda setup, found: (setup.floor,) if setup.floor else ()),
    "no floor is taken": ((member,), "founded", lambda setup, found: ()),
    "a verdict on a dropped view is a second one": ((refusals,), "is_kept_judged", record.is_judged),
    "a dropped certificate is taken again by the same opening": ((refusals,), "certificates", _by_kept),
}


@contextmanager
def judged_by(name):
    """What is judged within is judged so."""
    modules, called, wrong = WRONG_JUDGES[name]
    right = [getattr(it, called) for it in modules]
    for it in modules:
        setattr(it, called, wrong)
    try:
        yield
    finally:
        for it, was in zip(modules, right):
            setattr(it, called, was)
