"""What acts do, and how many there can be behind one event: each thing is done at most once."""
from .asked import next_number
from .history import (
    Asks, AsksBuild, AsksCertify, AsksVerify, Constructs, Forwards, GivesBack, Latches, Leads, LeavesBehind, PutsOff, Repeats,
    Resolves, Votes,
)

# What can be done of one view: its votes learn who leads, their proposal goes on, of each kind a construction makes a certificate or
# none, a reason to give it up counts, its timeout is polled, its nullify is sent again, of each kind a vote is cast, a verdict is asked
# for or put off.
OF_A_VIEW = 16

# An ask is for a nullification or a notarization, and stands until a view is passed or finalized.
ASKS = 4


def doing(act):
    """What an act does: the kind of thing, and of what."""
    match act:
        case Constructs(view, kind, certificate, _):
            return "makes" if certificate else "judges", kind, view
        case Votes(vote) | Repeats(vote, _):
            return type(act).__name__, vote.kind, vote.view
        case Asks(view, kind, until, to):
            return "seeks", view, kind, until, to
        case Resolves(view, _, lacks):
            return "resolves", view, lacks
        case AsksBuild(number) | AsksVerify(number):
            return "numbers", number
        case GivesBack(number) | LeavesBehind(number):
            return "returns", number
        case AsksCertify(proposal):
            return "certifies", proposal.view
        case Leads(view) | Forwards(view) | Latches(view) | PutsOff(view):
            return type(act).__name__, view
    raise ValueError(f"no act: {act}")


def views_of(done):
    """The views that something is done of."""
    match done:
        case ("seeks", view, *_):
            return (view,)
        case ("resolves", view, lacks):
            return view, lacks
        case ("numbers" | "returns", _):
            return ()
    return done[-1:]


def acts_behind(h, end):
    """The acts that lead from one history to another, oldest first."""
    acts = []
    while end is not h:
        acts.append(end.point)
        end = end.before
    return acts[::-1]


def most_acts(views, members, numbers):
    """How much can be done with so many views and members, where so many numbers were used."""
    return OF_A_VIEW * views + ASKS * (members + 1) * views + views * views + 2 * numbers


def done_too_much(h, end):
    """What acts that lead from one history to another did twice or too much of, or None."""
    done = [doing(act) for act in acts_behind(h, end)]
    twice = next((it for it in done if done.count(it) > 1), None)
    if twice is not None:
        return f"done twice behind one event: {twice}"
    views = {view for it in done for view in views_of(it)}
    most = most_acts(len(views), h.setup.scheme.members, next_number(end))
    return f"{len(done)} acts behind one event, where at most {most} can be" if len(done) > most else None
