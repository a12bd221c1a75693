"""What happens to a node, and what it does: points, one behind the other from an opening on, and questions over them.

A history is never changed: `then` gives the longer one. A question goes over all points, oldest first; what it answered at a
history is kept there, so that it goes over the new points alone.
"""
from functools import wraps

from .values import Certificate, Context, Proposal, Verdict, Vote, value

# ---- the opening


@value
class Opened:
    """The node is opened at this moment."""

    now: int


@value
class Found:
    """The record said this. Of an own notarize: whether its proposal was taken by its view."""

    artifact: Vote | Certificate | Verdict
    taken: bool = False


@value
class Began:
    """The record was gone through."""


# ---- what comes


@value
class Told:
    now: int


@value
class Heard:
    """A vote of another member was accepted."""

    vote: Vote


@value
class Came:
    """A certificate was accepted."""

    certificate: Certificate


@value
class Wanted:
    """A member asked for a view."""

    member: int
    view: int


@value
class Built:
    """The application answered the build of this number; whether the answer took effect."""

    number: int
    handoff: bool
    context: Context
    payload: bytes | None
    took: bool


COUNTS, FALLS, PASSES = "counts", "falls", "passes"


@value
class Checked:
    """It answered the verification of this number: the answer counts, what the proposal was bound to had fallen, or nothing
    changes."""

    number: int
    view: int
    answer: bool | None
    outcome: str


@value
class Judged:
    """It gave a verdict on a view."""

    view: int
    ok: bool


@value
class Rewrote:
    """The record was rewritten: it begins with this finalization now. No act of the node's own: it was asked for."""

    certificate: Certificate


# ---- acts: of the votes of a view


@value
class Leads:
    """The votes of a view learn who leads it."""

    view: int
    member: int


@value
class Forwards:
    """The proposal that they select is handed to the view."""

    view: int
    proposal: Proposal


@value
class Constructs:
    """Votes of a kind were put together: a certificate, or none, and whose votes didn't attest."""

    view: int
    kind: str
    certificate: Certificate | None
    invalid: tuple


# ---- acts: of the view


@value
class Latches:
    """A reason to give a view up counts."""

    view: int
    reason: str


@value
class AsksBuild:
    number: int
    handoff: bool
    context: Context


@value
class AsksVerify:
    number: int
    context: Context
    proposal: Proposal


@value
class AsksCertify:
    proposal: Proposal


@value
class GivesBack:
    """A build is withdrawn, since it is superseded or its handoff is to stop: another may be asked for."""

    number: int
    view: int


@value
class LeavesBehind:
    """A build is withdrawn, since its view is left behind."""

    number: int


@value
class PutsOff:
    """A verdict on a view waits for the view before."""

    view: int


@value
class Asks:
    """Members are asked for a view: for a certificate of a kind, until a floor or a finalization makes it needless. One is
    asked, or all where `to` is None."""

    view: int
    kind: str
    until: str
    to: int | None


@value
class Resolves:
    """What a view's proposal lacks, a certificate of this kind of another view, was asked for."""

    view: int
    kind: str
    lacks: int


@value
class Votes:
    """An own vote."""

    vote: Vote


@value
class Repeats:
    """The recorded nullify once more, with the best certificate to enter its view by."""

    vote: Vote
    best: Certificate | None


# ---- histories


class History:
    """A point behind a history; the first history has none."""

    __slots__ = ("setup", "before", "point", "answers")

    def __init__(self, setup, before=None, point=None):
        self.setup, self.before, self.point, self.answers = setup, before, point, {}

    def then(self, point):
        return History(self.setup, self, point)

    def points(self):
        """All points, oldest first."""
        points, here = [], self
        while here.before is not None:
            points.append(here.point)
            here = here.before
        return points[::-1]


def over(start):
    """Makes a question of a history: `start` is the answer where nothing happened, and the function below says what a point
    makes of the answer so far. It is given the history that ends with the point."""

    def make(carry_on):
        @wraps(carry_on)
        def question(h):
            new = []
            while question not in h.answers and h.before is not None:
                new.append(h)
                h = h.before
            answer = h.answers.get(question, start)
            for here in reversed(new):
                answer = here.answers[question] = carry_on(answer, here)
            return answer

        return question

    return make


def kept(question):
    """What a question of a history and further values answers is kept at the history."""

    @wraps(question)
    def asked(h, *values):
        name = (question, *values)
        if name not in h.answers:
            h.answers[name] = question(h, *values)
        return h.answers[name]

    return asked


@over(0)
def latest(moment, here):
    """The latest moment."""
    return here.point.now if isinstance(here.point, (Opened, Told)) else moment


@over(0)
def opened_at(moment, here):
    """The moment of the opening."""
    return here.point.now if isinstance(here.point, Opened) else moment


@over(False)
def has_begun(begun, here):
    """The record was gone through."""
    return begun or isinstance(here.point, Began)
