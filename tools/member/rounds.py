"""The votes of each view of a member, since they came up."""
from .history import Came, Constructs, Forwards, Found, Heard, Leads, Votes, over
from .record import recorded_by
from .values import Certificate, Verdict, Vote
from .voter import current, floor
from .votes_of_a_view import Cast, Certifies, Failed, Led, Taken, VotesOfAView, WasForwarded


def concerns(point, epoch):
    """The view of which a point brings a vote or a certificate, or None. Of what a round itself makes it is known already."""
    if isinstance(point, Heard):
        return point.vote.view
    artifact = recorded_by(point, epoch) if isinstance(point, (Found, Came, Votes)) else None
    return None if artifact is None or isinstance(artifact, Verdict) else artifact.view


def event_of(point, epoch):
    """What a point is to the votes of a view: the view and the event, or None."""
    match point:
        case Found(Vote() as vote, _) | Votes(vote):
            return vote.view, Cast(vote)
        case Heard(vote):
            return vote.view, Taken(vote)
        case Found(Certificate() as certificate, _) | Came(certificate) | Constructs(_, _, Certificate() as certificate, _):
            return certificate.view, Certifies(certificate)
        case Constructs(view, kind, None, invalid):
            return view, Failed(kind, invalid)
        case Leads(view, member):
            return view, Led(member)
        case Forwards(view, _):
            return view, WasForwarded()
    return None


def new_votes(h, view):
    """The votes of a view as they come up: passed over where the view is behind, unless votes are kept in full for good."""
    return VotesOfAView(h.setup, view, view < current(h) and not h.setup.tracks)


@over({})
def rounds(known, here):
    """The votes of each kept view with room, since they came up: at the first vote or certificate of it, or when it is entered."""
    before, epoch, terms = here.before, here.setup.epoch, here.setup.terms
    low = floor(here)
    found = {view: votes for view, votes in known.items() if view >= low} if low > floor(before) else known
    for view in (concerns(here.point, epoch), current(here)):
        if view is not None and view not in found and view >= low and terms.has_room(view):
            found = {**found, view: new_votes(before, view)}
    told = event_of(here.point, epoch)
    if told is not None and told[0] in found:
        found = {**found, told[0]: found[told[0]].then(told[1])}
    return found


def votes_of(h, view):
    """The votes of a view, also where none came up."""
    return rounds(h).get(view) or new_votes(h, view)
