"""Where a view stands: terms, what a nullification covers, which views are listened to and spoken of."""
from dataclasses import dataclass

MOST = 2**64 - 1


@dataclass(frozen=True)
class Terms:
    """Terms of `length` views each, from view 1 on; view 0 is a term by itself. At most `optimistic` views of a term may be
    taken up before the views before them are certified."""

    length: int
    optimistic: int

    def index(self, view):
        """The number of the view's term, from 1 on; 0 for view 0."""
        return (view - 1) // self.length + 1 if view else 0

    def start(self, view):
        return (self.index(view) - 1) * self.length + 1 if view else 0

    def end(self, view):
        return self.index(view) * self.length

    def next_start(self, view):
        return self.end(view) + 1

    def is_start(self, view):
        return view == self.start(view)

    def has_room(self, view):
        """Two more terms behind the view's own have numbers."""
        return self.next_start(view) + 2 * self.length + 1 <= MOST

    def covers(self, nullified, view):
        """A nullification covers its view and the later ones of that view's term."""
        return self.start(view) <= nullified <= view

    def is_near(self, current, view):
        """A later view of the current term that is listened to."""
        return current < view <= min(current + 2 * self.optimistic + 1, self.end(current))

    def admits(self, current, view):
        """A view is listened to: it is behind, near, among the first of the next term, or one of the first two of the term
        after that."""
        following = self.next_start(current)
        later = following + self.length
        early = min(max(self.optimistic, 1), self.length)
        return view <= current or self.is_near(current, view) or following <= view < following + early or view in (later, later + 1)

    def admits_outbound(self, current, view):
        """A view may be spoken of: it is behind, at most the optimistic views ahead in the current term, or the start of the
        next term where that is reached by them."""
        end = self.end(current)
        return view <= current or view <= min(current + self.optimistic, end) or (view == end + 1 and end <= current + self.optimistic)

    def issuance_floor(self, view):
        """The first view that a view's issuance window reaches back to; none without optimism or at a term's start."""
        return None if self.optimistic == 0 or self.is_start(view) else max(view - (self.optimistic + 1), 0)


def retention_floor(finalized, retention):
    """The least view that is kept."""
    return max(finalized - retention, 0)


def is_retained(finalized, retention, view):
    return view >= 1 and view >= retention_floor(finalized, retention)


def faults(members):
    """How many members may lie."""
    return (members - 1) // 3


def quorum(members):
    return members - faults(members)
