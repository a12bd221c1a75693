"""What a page shows of a committee: for each member a lane of views, and the chain of what is final.

All of it is read off what members said and reported; no node is asked, since a node has no other outlet than its actions.
"""
from collections import deque
from dataclasses import dataclass, field
from time import monotonic, strftime

from member.positions import Terms
from member.values import (
    FINALIZATION, NOTARIZATION, NOTARIZE, NULLIFY, Block, Certificate, Certified, Evidence, Finalized, Proposal, Report,
)

from .host import Said

# How many views a lane keeps, for pages that scroll back, and how many of a page's lists are shown.
KEPT, BLOCKS, LINES = 2000, 8, 200
# What may be marked at a view: it was entered, notarize was voted, the proposal was certified, nullify was voted, the view was
# nullified, its proposal is final, somebody lied there
ENTERED, VOTED, CERTIFIED, GAVE_UP, NULLIFIED, FINAL, BLAMED = "evcgnfb"


@dataclass
class Lane:
    """One member, as it was seen from outside."""

    terms: Terms
    # what any member said of a view's proposal: a member that missed views has them as final too, as ancestors
    known: dict[int, Proposal]
    view: int = 1
    final: int = 0
    state: str = "starting"
    marks: dict[int, set[str]] = field(default_factory=lambda: {1: {ENTERED}})
    own: dict[int, Proposal] = field(default_factory=dict)
    blocked: set[int] = field(default_factory=set)
    # views whose marks changed since the pages were told
    news: set[int] = field(default_factory=lambda: {1})

    def mark(self, view: int, what: str) -> None:
        """Marks a view, unless it is one of those far below that are forgotten."""
        if view > self.view - KEPT:
            self.marks.setdefault(view, set()).add(what)
            self.news.add(view)

    def enter(self, view: int) -> None:
        if view > self.view:
            self.view = view
            self.mark(view, ENTERED)
            for marked in (self.marks, self.own, self.known):
                for old in [it for it in marked if it <= view - KEPT]:
                    del marked[old]

    def learn(self, proposal: Proposal) -> None:
        self.own[proposal.view] = proposal
        self.known.setdefault(proposal.view, proposal)

    def hear(self, activity: object) -> None:
        """A report. What it says of the view that the member stands at follows from the protocol's rules of entry."""
        match activity:
            case Certificate(kind, on) if kind == NOTARIZATION:
                self.learn(on)
            case Certified(notarization):
                self.learn(notarization.on)
                self.mark(notarization.view, CERTIFIED)
                self.enter(notarization.view + 1)
            case Certificate(kind, on) if kind == FINALIZATION:
                self.learn(on)
                self.enter(on.view + 1)
            case Certificate(_, on):
                behind = self.terms.next_start(on.view)
                for covered in range(on.view, behind):
                    self.mark(covered, NULLIFIED)
                self.enter(behind)
            case Evidence(_, first, _):
                self.mark(first.view, BLAMED)

    def finalize(self, proposal: Proposal) -> list[Proposal]:
        """It and all its ancestors are final: those that weren't before, the newest first."""
        self.final = max(self.final, proposal.view)
        self.learn(proposal)
        found, view = [], proposal.view
        while (one := self.own.get(view) or self.known.get(view)) and FINAL not in self.marks.get(view, ()):
            found.append(one)
            self.mark(view, FINAL)
            if FINAL not in self.marks.get(view, ()):
                break  # too far behind to be shown
            view = one.parent
        return found

    def say(self, said: Said) -> None:
        kind = said.vote.kind
        if kind in (NOTARIZE, NULLIFY):
            self.mark(said.vote.view, VOTED if kind == NOTARIZE else GAVE_UP)


class Board:
    """All lanes, the chain, and what happened."""

    def __init__(self, count: int, terms: Terms) -> None:
        known: dict[int, Proposal] = {}
        self.lanes = [Lane(terms, known) for _ in range(count)]
        self.chain: dict[int, dict[bytes, set[int]]] = {}
        self.lines: deque[str] = deque(maxlen=LINES)
        # lines that the pages weren't told yet
        self.news: deque[str] = deque(maxlen=LINES)
        self.changed = True
        # the highest final view, and when it came: moments of the host's clock
        self.final, self.final_at = 0, monotonic()

    def tell(self, line: str) -> None:
        for lines in (self.lines, self.news):
            lines.append(f"{strftime('%H:%M:%S')} {line}")
        self.changed = True

    def watch(self, member: int, what: object) -> None:
        """Something that a member handed out."""
        lane, self.changed = self.lanes[member], True
        match what:
            case Said():
                lane.say(what)
            case Report(Evidence(kind, first, _) as evidence):
                lane.hear(evidence)
                self.tell(f"member {member} has evidence against member {first.signer}: {kind} in view {first.view}")
            case Report(activity):
                lane.hear(activity)
            case Block(liar):
                lane.blocked.add(liar)
                self.tell(f"member {member} blocks member {liar}")
            case Finalized(proposal):
                for one in lane.finalize(proposal):
                    self.chain.setdefault(one.view, {}).setdefault(one.payload, set()).add(member)
                if proposal.view > self.final:
                    self.final, self.final_at = proposal.view, monotonic()
                for old in sorted(self.chain)[: -KEPT * 4]:
                    del self.chain[old]

    @property
    def highest(self) -> int:
        """The highest view that somebody stands at."""
        return max(lane.view for lane in self.lanes)

    def disagreements(self) -> list[int]:
        """Views in which members have different proposals as final. There must be none, whatever happens to up to f of them."""
        return [view for view, payloads in self.chain.items() if len(payloads) > 1]
