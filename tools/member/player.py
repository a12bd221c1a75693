"""A node that does what is due, in a fixed order or in one that a seed picks. It is no node to use: it goes over all that
happened for each answer."""
from .acts import (
    asked_builds, asked_verifications, asks, certifies, constructions, latches, own_votes, point_of, repetitions, tellings,
    withdrawals,
)
from .deeds import deeds
from .member import read_record, wake
from .record import kept_record
from .refusals import handed_out, refusal_of
from .values import Reply, Wake


class Player:
    """`order` is a random.Random, or None for the fixed order; signatures are salted from `counter` on."""

    def __init__(self, setup, order=None, counter=0):
        self.setup, self.order, self.counter, self.h = setup, order, counter, None

    def sign(self, kind, on):
        self.counter += 1
        return [self.setup.scheme.sign(kind, on, self.setup.me, self.counter - 1)]

    def due(self, h):
        """The acts that may come next: at once what parts tell one another, then those that hand something out, then the others."""
        told = list(tellings(h))
        if told and not (self.order and self.order.random() < 0.2):
            return told[:1]
        sources = (constructions, certifies, asked_builds, asked_verifications, asks, lambda it: own_votes(it, self.sign), repetitions)
        found = [act for source in sources for act in source(h)]
        quiet = [*told, *latches(h), *withdrawals(h)]
        return found + quiet if self.order else (list(withdrawals(h)) or found or quiet)

    def rest(self, h, handed):
        """Acts until none is due; then the wake."""
        while acts := self.due(h):
            h = h.then(self.order.choice(acts) if self.order else acts[0])
            handed = [*handed, *deeds(h)]
        self.h = h
        moment = wake(h)
        return tuple(handed if moment is None else [*handed, Wake(moment)])

    def open(self, now, found):
        return self.rest(*read_record(self.setup, now, found))

    def step(self, event):
        number = refusal_of(self.h, event)
        if number:
            return Reply(number, tuple(handed_out(self.h, event, number)))
        here = self.h.then(point_of(self.h, event))
        return Reply(0, self.rest(here, deeds(here)))

    def crash(self, event, pick):
        """The node crashes somewhere in a step: what its record holds then."""
        here = self.h if refusal_of(self.h, event) or pick.random() < 0.2 else self.h.then(point_of(self.h, event))
        return self.cut_off(here, pick)

    def crash_in_opening(self, now, found, pick):
        """It crashes somewhere in an opening, maybe before the floor that it brings is recorded: what its record holds then."""
        return found if pick.random() < 0.3 else self.cut_off(read_record(self.setup, now, found)[0], pick)

    def cut_off(self, here, pick):
        """Some of the acts that are due are done: what the record holds then."""
        while pick.random() < 0.7 and (acts := self.due(here)):
            here = here.then(pick.choice(acts))
        return kept_record(here)
