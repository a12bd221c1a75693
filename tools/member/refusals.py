"""Why events are refused: the first test that applies."""
from .asked import builds, checks, is_awaited
from .codec import Unreadable, whole
from .history import latest
from .positions import is_retained
from .record import certificates, has_parent_below, is_kept_judged
from .rounds import votes_of
from .values import Block, BuiltAnswer, CheckedAnswer, Certificate, Moment, Packet, Report, VerdictAnswer, Vote
from .voter import current, last_finalized

NAMES = (
    None, "UnknownSender", "OwnName", "NotDecoded", "WrongEpoch", "ViewZero", "OutsideWindow", "NoRoom", "ParentNotBelow",
    "NotItsSigner", "Contradiction", "Repeated", "NotVerifying", "UnknownAnswer", "SecondVerdict", "MomentFell", "MomentTooLate",
)
NUMBERS = {name: number for number, name in enumerate(NAMES)}
BLOCKS = ("NotDecoded", "ParentNotBelow", "NotItsSigner", "Contradiction", "NotVerifying")


def held_by(h, packet):
    """What a packet holds: a vote, a certificate, the view of an ask, or None where its bytes aren't exactly one of its channel."""
    scheme = h.setup.scheme
    try:
        return whole(packet.data, scheme.signature_size, scheme.members, lambda reader: reader.packet(packet.channel))
    except Unreadable:
        return None


def _place_tests(h, message, admits):
    on, view, terms = message.on, message.view, h.setup.terms
    yield "WrongEpoch", on.epoch != h.setup.epoch
    yield "ViewZero", view == 0
    yield "OutsideWindow", not (is_retained(last_finalized(h), h.setup.retention, view) and admits)
    yield "NoRoom", not terms.has_room(view)
    yield "ParentNotBelow", not has_parent_below(on)


def _vote_tests(h, sender, vote):
    yield from _place_tests(h, vote, h.setup.terms.admits(current(h), vote.view))
    yield "NotItsSigner", vote.signer != sender
    votes = votes_of(h, vote.view)
    yield "Contradiction", votes.is_blocked(vote)
    yield "Repeated", votes.in_the_way(vote) is not None


def _certificate_tests(h, certificate):
    yield from _place_tests(h, certificate, True)
    yield "Repeated", (certificate.kind, certificate.view) in certificates(h)
    yield "NotVerifying", not h.setup.scheme.certifies(certificate)


def _packet_tests(h, packet):
    yield "UnknownSender", packet.sender >= h.setup.scheme.members
    yield "OwnName", packet.sender == h.setup.me
    message = held_by(h, packet)
    if message is None:
        yield "NotDecoded", True
    elif isinstance(message, Vote):
        yield from _vote_tests(h, packet.sender, message)
    elif isinstance(message, Certificate):
        yield from _certificate_tests(h, message)
    else:
        yield "ViewZero", message == 0


def tests(h, event):
    """The tests of an event in order, each with whether it applies."""
    match event:
        case Packet():
            yield from _packet_tests(h, event)
        case BuiltAnswer(number, _):
            yield "UnknownAnswer", number not in builds(h)
        case CheckedAnswer(number, _):
            yield "UnknownAnswer", number not in checks(h)
        case VerdictAnswer(view, _):
            yield "UnknownAnswer", not is_kept_judged(h, view) and not is_awaited(h, view)
            yield "SecondVerdict", is_kept_judged(h, view)
        case Moment(now):
            yield "MomentFell", now < latest(h)
            yield "MomentTooLate", not h.setup.is_in_time(now)


def refusal_of(h, event):
    """The number of the first test that applies, or 0."""
    return next((NUMBERS[name] for name, applies in tests(h, event) if applies), 0)


def handed_out(h, event, number):
    """What is handed out for a refused event: its sender's block, and beside that of a contradiction the evidence."""
    name = NAMES[number]
    if name not in BLOCKS:
        return []
    evidence = votes_of(h, held_by(h, event).view).evidence(held_by(h, event)) if name == "Contradiction" else None
    return [Block(event.sender), *([Report(evidence)] if evidence else [])]
