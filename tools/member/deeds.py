"""What a point hands out. Where several things come of one point their order among themselves is free."""
from .asked import answer_to
from .codec import certificate_bytes, varint, vote_bytes
from .history import (
    Asks, AsksBuild, AsksCertify, AsksVerify, Began, Built, Came, Constructs, Found, Heard, Judged, Repeats, Votes, Wanted,
)
from .record import certificates, recorded_by, reports_of
from .rounds import votes_of
from .values import (
    CERTIFICATE_CHANNEL, FETCH_CHANNEL, FINALIZATION, VOTE_CHANNEL, Block, Build, Certificate, Certify, Finalized, Forward, Report,
    Round, Send, Verify,
)
from .voter import at, current, last_finalized, leader


def to_all(certificate):
    return Send(None, CERTIFICATE_CHANNEL, certificate_bytes(certificate))


def recipients(h, view, proposal):
    """To whom the payload of the view before goes when a view is entered: of the others those of whom no vote for it is known, or
    the new leader where it is one of them."""
    silent = [member for member in votes_of(h, proposal.view).missing_voters(proposal) if member != h.setup.me]
    if h.setup.forward == "silent-leader":
        return tuple(member for member in silent if member == leader(h, view))
    return tuple(silent) if h.setup.forward == "silent-voters" else ()


def entry_deeds(here):
    """Where the last point entered a view, the forwardable payload of the view before goes to those who may lack it."""
    view = current(here)
    proposal = at(here, view - 1).forwardable
    if view == current(here.before) or proposal is None:
        return []
    members = recipients(here, view, proposal)
    return [Forward(proposal.payload, "forward", proposal.round, members)] if members else []


def certificate_deeds(here, certificate):
    """A certificate that is taken is reported and sent to all; it may make a proposal final, and enter a view."""
    final = certificate.kind == FINALIZATION and certificate.view > last_finalized(here.before)
    return [
        Report(certificate),
        to_all(certificate),
        *([Finalized(certificate.on)] if final else []),
        *entry_deeds(here),
    ]


def found_final(h):
    """The proposal of the highest recorded finalization is final."""
    certificate = certificates(h).get((FINALIZATION, last_finalized(h)))
    return [Finalized(certificate.on)] if certificate else []


def deeds(here):
    """What the last point of a history hands out."""
    h, point, epoch = here.before, here.point, here.setup.epoch
    match point:
        case Found(artifact, _):
            return [Report(it) for it in reports_of(h, artifact)]
        case Began():
            return found_final(h)
        case Heard(vote):
            return [Report(vote)]
        case Came(certificate):
            return certificate_deeds(here, certificate)
        case Wanted(member, view):
            certificate = answer_to(h, member, view)
            return [Send(member, CERTIFICATE_CHANNEL, certificate_bytes(certificate))] if certificate else []
        case Built(_, handoff, context, payload, True) if payload is not None:
            return [Forward(payload, "prepare" if handoff else "propose", Round(context.epoch, context.view))]
        case Judged():
            return [*(Report(it) for it in reports_of(h, recorded_by(point, epoch))), *entry_deeds(here)]
        case Constructs(_, _, certificate, invalid):
            made = certificate_deeds(here, certificate) if isinstance(certificate, Certificate) else []
            return [*map(Block, invalid), *made]
        case AsksBuild(number, handoff, context):
            return [Build(number, handoff, context)]
        case AsksVerify(number, context, proposal):
            return [Verify(number, context, proposal)]
        case AsksCertify(proposal):
            return [Certify(proposal)]
        case Asks(view, _, _, to):
            return [Send(to, FETCH_CHANNEL, varint(view))]
        case Votes(vote):
            return [Send(None, VOTE_CHANNEL, vote_bytes(vote)), Report(vote)]
        case Repeats(vote, best):
            return [Send(None, VOTE_CHANNEL, vote_bytes(vote)), *([to_all(best)] if best else [])]
    return []
