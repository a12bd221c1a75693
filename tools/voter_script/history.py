"""What happens to a voter: points, one behind the other, and questions over all of them.

Everything that `tools/member` knows of a member's views is asked there; here stands what a voter by itself has besides: calls that
hand certificates out, look at the timeout or drop views, a record that is taken in, and leaders that a certificate decides.
"""
from dataclasses import replace

from member import due
from member import view as of_view
from member import voter as of_voter
from member.history import History, over
from member.positions import MOST, retention_floor
from member.values import FINALIZATION, NOTARIZE, NULLIFICATION, Certificate, Verdict, Vote, value
from member.view import View

# ---- what happens; a point stands only where it took effect


@value
class Started:
    """Without a payload where view 0 has none."""

    now: int
    payload: bytes | None


@value
class Based:
    """The member's record begins behind this view."""

    view: int


@value
class Took:
    """A certificate, the first of its kind and view."""

    now: int
    certificate: Certificate


@value
class Judged:
    now: int
    view: int
    ok: bool


@value
class Recalled:
    """The member's record says so; of an own notarize, whether its proposal was taken."""

    artifact: Vote | Certificate | Verdict
    taken: bool = False


@value
class Saw:
    """Anything that happened to one view alone."""

    view: int
    items: tuple


@value
class Looked:
    """The next timeout was asked for."""

    now: int


@value
class Pruned:
    pass


# ---- what can happen to a view, beside all that tools/member knows


@value
class Entered(of_view.Entered):
    moment: int


@value
class Nullified:
    certificate: Certificate


@value
class Sent:
    """The certificate of this kind was handed out, or the record says so."""

    kind: str


@value
class BuiltAt:
    moment: int


@value
class Polled:
    """The timeout was looked at, with the moment at which a nullify from before is due again."""

    again: int


def later(now, timeout):
    """The moment so much later, or the last one that has a number."""
    return min(now + timeout, MOST)


# ---- how far it is


@over(0)
def current(view, here):
    terms = here.setup.terms
    match here.point:
        case Started():
            return max(view, 1)
        case Took(_, certificate) if certificate.kind == NULLIFICATION:
            return max(view, terms.next_start(certificate.view))
        case Took(_, certificate) if certificate.kind == FINALIZATION:
            return max(view, certificate.view + 1)
        case Judged(_, judged, True):
            return max(view, judged + 1)
    return view


@over(0)
def last_finalized(view, here):
    match here.point:
        case Took(_, certificate) if certificate.kind == FINALIZATION:
            return max(view, certificate.view)
    return view


@over((0, True))
def beginning(known, here):
    """The view that the member's record begins behind, and whether it has nothing yet: that of its first entry where it is a
    finalization, or the highest that was named since."""
    view, is_blank = known
    match here.point:
        case Based(named):
            return max(view, named), is_blank
        case Took(_, certificate):
            is_floor = is_blank and certificate.kind == FINALIZATION
            return max(view, certificate.view) if is_floor else view, False
        case Judged():
            return view, False
        case Recalled(Vote(), _):
            return view, False
        case Saw(_, items) if any(isinstance(item, of_view.Voted) for item in items):
            return view, False
    return known


def base(h):
    """The view that the member's record begins behind."""
    return beginning(h)[0]


def floor(h):
    """The least view that is kept."""
    return retention_floor(last_finalized(h), h.setup.retention)


@over(frozenset())
def nullified(known, here):
    """The views of which a nullification was ever taken: what covers is never forgotten."""
    match here.point:
        case Took(_, certificate) if certificate.kind == NULLIFICATION:
            return known | {certificate.view}
    return known


@over({})
def nullifications(known, here):
    """The nullifications that are kept: while their view is, or their term ends above the last finalized view."""
    match here.point:
        case Took(_, certificate) if certificate.kind == NULLIFICATION:
            return {certificate.view: certificate, **known}
        case Pruned():
            low, top, terms = floor(here), last_finalized(here), here.setup.terms
            return {view: it for view, it in known.items() if view >= low or terms.end(view) > top}
    return known


# ---- what happened to each view, as far as it is kept


class Telling:
    """The views as a point finds them, and what it adds."""

    def __init__(self, views, here):
        self.views, self.here, self.setup = dict(views), here, here.setup

    def at(self, view):
        return self.views.get(view, View())

    def add(self, view, *items):
        self.views[view] = self.at(view).then(*items)

    def enter(self, now, view):
        """A view is entered where it lies above the current one: from then on its deadlines run."""
        if view > current(self.here.before):
            s = self.setup
            stall = None if s.stall is None else later(now, s.stall)
            self.add(view, Entered(later(now, s.leader_timeout), later(now, s.certification_timeout), stall, now))

    def take(self, now, certificate):
        if certificate.kind == NULLIFICATION:
            self.enter(now, self.setup.terms.next_start(certificate.view))
            self.add(certificate.view, Nullified(certificate))
            return
        if certificate.kind == FINALIZATION:
            self.enter(now, certificate.view + 1)
        self.add(certificate.view, of_view.Certified(certificate))

    def judge(self, now, view, ok):
        """A true verdict enters the next view, a false one is a reason to give the view up, where that isn't behind."""
        self.add(view, of_view.Judged(ok))
        if ok:
            self.enter(now, view + 1)
        elif view >= current(self.here.before):
            self.add(view, of_view.Latched(now, "FailedCertification"))

    def recall(self, artifact, taken):
        """A vote counts as cast now, a verdict as come, a certificate as handed out. No view is entered."""
        if isinstance(artifact, Certificate):
            self.add(artifact.view, Sent(artifact.kind))
        elif isinstance(artifact, Verdict):
            self.add(artifact.view, of_view.Judged(artifact.ok))
        elif artifact.kind != NOTARIZE:
            self.add(artifact.view, of_view.Voted(artifact.kind, 0))
        else:
            parent = self.at(artifact.on.parent)
            if taken:
                self.add(artifact.view, of_view.Own(artifact.on))
            self.add(artifact.view, of_view.Voted(NOTARIZE, 0, taken))
            if parent.held is not None and not parent.is_direct:
                self.add(artifact.view, of_view.Bound(artifact.on, parent.held.payload))


@over({})
def views(known, here):
    """What happened to each view that is kept."""
    telling = Telling(known, here)
    match here.point:
        case Started(now, _):
            telling.enter(now, 1)
        case Took(now, certificate):
            telling.take(now, certificate)
        case Judged(now, view, ok):
            telling.judge(now, view, ok)
        case Recalled(artifact, taken):
            telling.recall(artifact, taken)
        case Saw(view, items):
            telling.add(view, *items)
        case Looked(now):
            telling.add(current(here), Polled(later(now, here.setup.retry)))
        case Pruned():
            return {view: told for view, told in known.items() if view >= floor(here)}
    return telling.views


def at(h, view):
    return views(h).get(view, View())


# ---- who leads


@over({})
def leaders(known, here):
    """Who leads each view, where that is known. The start names the leader of view 1, a certificate that of the view it leads to, an own
    notarize this member for the next view, where it may lead that by a handoff; others are handed on. Whoever becomes known first
    stays, until the view is dropped."""
    named = {}
    match here.point:
        case Pruned():
            return {view: member for view, member in known.items() if view >= floor(here)}
        case Started():
            named[1] = here.setup.elect(1)
        case Took(_, certificate):
            is_nullification = certificate.kind == NULLIFICATION
            view = here.setup.terms.next_start(certificate.view) if is_nullification else certificate.view + 1
            named[view] = here.setup.elect(view, certificate)
    early = {
        view + 1: here.setup.me
        for view, told in views(here).items()
        if told.has_notarized and of_voter.starts_by_handoff(here.setup, view + 1)
    }
    return of_voter.handed_on(here, {**early, **named, **known})


# ---- all of it


ANSWERED = {
    of_voter.current: current,
    of_voter.last_finalized: last_finalized,
    of_voter.nullified: nullified,
    of_voter.nullifications: nullifications,
    of_voter.views: views,
    of_voter.leaders: leaders,
}


def show(h):
    """What tools/member asks of a history is answered by the questions above, one after the other as they rest on one another."""
    for theirs, ours in ANSWERED.items():
        h.answers[theirs] = ours(h)
    return h


def nothing(setup):
    """Nothing happened yet, and no payload is known to start on."""
    return show(History(replace(setup, genesis=None)))


def behind(h, point):
    """The longer history."""
    setup = replace(h.setup, genesis=point.payload) if isinstance(point, Started) else h.setup
    return show(History(setup, h, point))


def is_tracked(h, view):
    """Something is known of the view."""
    return view in views(h) or view in leaders(h)


# ---- when the current view is given up


def entered_at(told):
    return next((it.moment for it in told.of(Entered)), None)


def started_at(told):
    """When an own proposal was recorded last, or else when the view was entered."""
    built = told.of(BuiltAt)
    return built[-1].moment if built else entered_at(told)


def has_sent(told, kind):
    return Sent(kind) in told


def latch(told):
    """The first reason that came while neither nullify nor finalize was voted, and its moment."""
    for it in told:
        if isinstance(it, of_view.Voted) and it.kind != NOTARIZE:
            return None
        if isinstance(it, of_view.Latched):
            return it.moment, it.reason
    return None


def retry(told):
    """When the nullify is due again: an interval after the first look behind the last one."""
    again = None
    for it in reversed(told):
        if isinstance(it, of_view.Voted) and it.kind == "nullify":
            return again
        if isinstance(it, Polled):
            again = it.again
    return None


def first_timeout(h, told):
    """When and why a view is given up first by itself: for the first reason while terms may be skipped; else at the leader's deadline
    while nothing is held, and at the verdict's while that isn't true."""
    if due.has_budget(h) and latch(told) is not None:
        return latch(told)
    if told.deadlines is None:
        return None
    if told.held is None:
        return told.deadlines.leader_deadline, "LeaderTimeout"
    return None if told.verdict else (told.deadlines.certification_deadline, "CertificationTimeout")


def next_timeout(h, now):
    """When and why the current view is given up next: (moment, reason), or None."""
    told = at(h, current(h))
    if told.finalization or told.has_finalized:
        return None
    if told.has_nullified:
        return None if retry(told) is None else (retry(told), "Retry")
    own, stall = first_timeout(h, told), due.stall_deadline(h)
    if stall is not None and (own is None or stall <= own[0] and now < own[0]):
        return stall, "StallTimeout"
    return own

