"""A node that does what is due in the order of the product's node (crates/node_due). Another order would be as right: by this one its
answers are those of the product, byte by byte, whatever the scheme."""
from itertools import islice

from .acts import (
    asked_builds, asked_verifications, certifies, constructions, latches, own_votes, repetitions, tellings, while_numbers_last, withdrawals,
)
from .asked import is_out, pending
from .due import missing, wanted_certificates
from .history import Asks, Forwards, Leads, PutsOff, Repeats, Resolves, Votes
from .player import Player
from .repair import ANCESTRY, BACKFILL, outstanding
from .values import NOTARIZATION, NULLIFICATION
from .voter import INACTIVITY, INVALID, LEADER_NULLIFY, leader


def signed(h):
    """How often this life's key signed: a nullify that is sent once more is signed anew, and left as it was recorded."""
    return sum(isinstance(it, (Votes, Repeats)) for it in h.points())


def asked(h, sought):
    """Of what is sought what didn't go out for now."""
    return (Asks(*ask) for ask in sought if not is_out(h, *ask))


def on_proposals(h):
    """By views: verifications, and what a proposal lacks for its own."""
    found = [(it.context.view, it) for it in asked_verifications(h)]
    for view, kind, lacks in while_numbers_last(h, missing(h)):
        found += [(view, it) for it in asked(h, [(lacks, kind, ANCESTRY, leader(h, view))])]
    return (it for _, it in sorted(found, key=lambda it: it[0]))


def by_votes(h, told):
    """By views: the proposal that votes select, and what they make."""
    found = [*(it for it in told if isinstance(it, Forwards)), *constructions(h)]
    return sorted(found, key=lambda it: it.view)


def acts(h, sign):
    """All that is due, what comes first before the others."""
    told, reasons = list(tellings(h)), list(latches(h))
    yield from (it for it in told if isinstance(it, (PutsOff, Resolves)))
    yield from asked(h, ((view, NOTARIZATION, ANCESTRY, None) for view in wanted_certificates(h)))
    yield from certifies(h)
    yield from on_proposals(h)
    yield from (it for it in reasons if it.reason == INVALID)
    yield from (it for it in told if isinstance(it, Leads))
    yield from by_votes(h, told)
    yield from (it for it in reasons if it.reason == LEADER_NULLIFY)
    yield from withdrawals(h)
    yield from asked_builds(h)
    yield from asked(h, ((view, NULLIFICATION, BACKFILL, None) for view in islice(outstanding(h), h.setup.window)))
    yield from asked(h, pending(h))
    yield from (it for it in reasons if it.reason == INACTIVITY)
    yield from own_votes(h, sign)
    yield from repetitions(h)


class InOrder(Player):
    def due(self, h):
        self.counter = signed(h)
        return list(islice(acts(h, self.sign), 1))
