"""Which views a member has to repair, and what it serves to others: all by what it recorded of certificates and verdicts."""
from heapq import merge
from itertools import groupby

from .history import has_begun, over
from .record import certificates, finalizes, is_judged, judged, recorded_by
from .values import FINALIZATION, NOTARIZATION, NULLIFICATION, Certificate, Verdict
from .voter import is_covered, last_finalized, nullifications

BACKFILL, ANCESTRY = "floor", "finalization"


@over(0)
def floor(view, here):
    """The highest view that was finalized or judged good, or 0."""
    artifact = recorded_by(here.point, here.setup.epoch)
    if isinstance(artifact, Verdict):
        return max(view, artifact.view) if artifact.ok else view
    return view if artifact is None else max(view, finalizes(artifact))


@over(0)
def highest(view, here):
    """The highest view of which a certificate came, or 0."""
    artifact = recorded_by(here.point, here.setup.epoch)
    return max(view, artifact.view) if isinstance(artifact, Certificate) else view


class Ascending:
    """Views in their order, each found when it is first asked for: between two far certificates there are too many to find all."""

    def __init__(self, views):
        self.found, self.rest = [], views

    def __iter__(self):
        place = 0
        while place < len(self.found) or self.finds_another():
            yield self.found[place]
            place += 1

    def finds_another(self):
        view = next(self.rest, None)
        self.found += () if view is None else (view,)
        return view is not None


def openings(h):
    """Ascending, above the floor: the view right above it and each start of a term, as long as they lie below the highest
    certificate's view."""
    view = floor(h) + 1
    while view < highest(h):
        yield view
        view = h.setup.terms.next_start(view)


@over(())
def outstanding(views, here):
    """The views to repair, ascending: not covered, above the floor, and either below the highest certificate's view and right
    above the floor or a term's start, or with a false verdict. None before the record was gone through; only what is recorded
    changes them."""
    if not has_begun(here) or (recorded_by(here.point, here.setup.epoch) is None and has_begun(here.before)):
        return views
    failed = sorted(view for view, ok in judged(here) if not ok and view > floor(here))
    told = (view for view, _ in groupby(merge(failed, openings(here))))
    return Ascending(view for view in told if not is_covered(here, view))


def is_settled(h, view, kind):
    """Nothing is left to be asked of a kind at a view: it is at or below the last finalized one, is covered, or has a notarization or
    verdict."""
    if view <= last_finalized(h):
        return True
    if kind == NULLIFICATION:
        return is_covered(h, view)
    return (NOTARIZATION, view) in certificates(h) or is_judged(h, view)


def served(h, view):
    """What is served to who asks for a view, or None: the highest finalization, where it isn't below; the view's certified
    notarization; the highest nullification that covers it; the floor's certified notarization, where the floor isn't below."""
    final, low = last_finalized(h), floor(h)

    def certified(u):
        return certificates(h).get((NOTARIZATION, u)) if u > final and (u, True) in judged(h) else None

    covering = [u for u in nullifications(h) if view > final and h.setup.terms.covers(u, view)]
    return (
        (certificates(h).get((FINALIZATION, final)) if view <= final else None)
        or certified(view)
        or (nullifications(h)[max(covering)] if covering else None)
        or (certified(low) if view <= low else None)
    )
