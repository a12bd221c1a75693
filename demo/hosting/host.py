"""One member: the host of one node over one record.

It is the loop of docs/HOSTING.md. Events wait in one queue, from peers, the application and the clock; the node answers one before
it gets the next; the actions of each reply are carried out in their order.
"""
import asyncio
import hashlib
from collections.abc import Awaitable, Callable, Iterable, Mapping
from dataclasses import dataclass, field
from functools import cached_property
from pathlib import Path

from member.codec import Reader, certificate_bytes, vote_bytes, whole
from member.scheme import PlainScheme
from member.setup import Setup
from member.values import (
    CERTIFICATE_CHANNEL, FINALIZATION, NOTARIZATION, NOTARIZE, NULLIFY, VOTE_CHANNEL, Block, Build, BuiltAnswer, Certificate,
    Certified, Certify, CheckedAnswer, Context, Finalized, Forward, Moment, Packet, Proposal, Reply, Report, Send, VerdictAnswer, Verify,
    Vote, Wake,
)

from . import settings
from .application import Application, said_in
from .links import Links
from .node import Ended, Node
from .pace import Clock, Pace
from .reports import ReportLog
from .wire import CONTENTS, Frame

# Events that wait for the node; a packet that finds no room is lost.
ROOM = 4096
SETTLING = 1.0
# A life in which no view was entered for so many seconds ends: behind an opening a node asks for all that it lacks, and its host tells all
# again what its record has. So long at first and at most: it doubles while it doesn't help.
STUCK, LONGEST_STUCK = 30.0, 600.0


@dataclass
class Place:
    """What a member needs to be run, and keeps from life to life."""

    me: int
    count: int
    program: Path
    folder: Path
    pace: float
    keys: Mapping[int, bytes]
    # the ports of all members that can be reached, the cut pairs, and whom to tell what the member said and learned
    ports: dict[int, int]
    cuts: set[frozenset[int]]
    watch: Callable[[int, object], None]
    tell: Callable[[str], None]
    # how its node is set up, beside what is its own
    settings: Mapping[str, object] = field(default_factory=dict)
    blocked: set[int] = field(default_factory=set)
    # the highest view that was entered, and how long a life without a new one lasts
    entered: int = 0
    patience: float = STUCK

    def __post_init__(self) -> None:
        self.pace_of_time = Pace(self.count)

    @property
    def record(self) -> Path:
        return self.folder / "record"

    def log(self) -> ReportLog:
        return ReportLog(self.folder / "reports", self.scheme.signature_size, self.count)

    @cached_property
    def setup(self) -> Setup:
        return settings.setup(self.settings, self.me, self.count)

    @property
    def scheme(self) -> PlainScheme:
        return self.setup.scheme


class Stuck(Exception):
    """No view was entered for long: the record is to be opened again."""


@dataclass(frozen=True)
class Said:
    """An own vote that left."""

    vote: Vote


class Host:
    """One life of a member, from the opening of its record to the end of its node. A member that is started again is a new one:
    nothing but the record and the log of reports goes on. So no answer that was asked for by a node reaches the next, whose
    numbers of requests count from 0 again, as does the time."""

    def __init__(self, place: Place) -> None:
        self.place, self.me = place, place.me
        self.inbox: asyncio.Queue[object] = asyncio.Queue(ROOM)
        self.application = Application(place.me, place.pace)
        self.links = Links(place.me, place.keys, place.ports.get, self.hear)
        self.log = place.log()
        self.blocked = place.blocked
        self.pace = place.pace_of_time
        self.wake: int | None = None
        self.lies = 0
        self.node: Node | None = None
        self.tasks: asyncio.TaskGroup | None = None

    async def live(self) -> str:
        """Runs until the node ends, and answers how it ended, or nothing where it was stuck. All that the host had under way ends with it."""
        told = ""
        try:
            self.place.ports[self.me] = await self.links.listen()
            async with asyncio.TaskGroup() as self.tasks:
                self.links.dial(self.tasks)
                await self.links.settle(SETTLING)
                await self.serve()
        except* Ended as group:
            told = str(group.exceptions[0])
        except* Stuck:
            pass
        finally:
            self.place.ports.pop(self.me, None)
            self.links.close()
            if self.node:
                await self.node.close()
            self.log.close()
        return told

    async def serve(self) -> None:
        self.node = await Node.open(self.place.program, self.place.record, self.me, self.place.count, self.place.settings)
        self.loop = asyncio.get_running_loop()
        self.clock = Clock(self.loop.time(), self.pace.slowness)
        self.entered = self.loop.time()
        first = await self.node.reply()
        self.carry_out(first)
        self.tell_record(first)
        while True:
            event = await self.next_event()
            # Deadlines are counted from the last moment that was told: with none beside what comes they come early.
            await self.step(Moment(self.now()))
            if event is not None:
                await self.step(event)

    async def step(self, event: object) -> None:
        self.carry_out(await self.node.answer(event))

    def now(self) -> int:
        """Milliseconds since the opening, which the program takes for moment 0, as the node is told them. They never fall."""
        return self.clock.moment(self.loop.time())

    async def next_event(self) -> object | None:
        """What comes next, or None where the node wants to be told the time before anything comes."""
        now = self.loop.time()
        stuck = self.entered + min(self.place.patience * self.pace.slowness, LONGEST_STUCK) - now
        if stuck <= 0:
            raise Stuck
        seconds = stuck if self.wake is None else min(stuck, self.clock.seconds_until(self.wake, now))
        try:
            async with asyncio.timeout(seconds):
                return await self.inbox.get()
        except TimeoutError:
            return None

    # ---- what comes in

    def hear(self, peer: int, frame: Frame) -> None:
        """A frame on a connection whose dialer proved to be this peer."""
        if peer in self.blocked or frozenset((self.me, peer)) in self.place.cuts:
            return
        if frame.channel == CONTENTS:
            self.application.keep(frame.data)
        elif not self.inbox.full():
            self.inbox.put_nowait(Packet(peer, frame.channel, frame.data))

    def answer_later(self, answer: Awaitable[object]) -> None:
        """The application takes its time; its answer is an event like others."""

        async def wait() -> None:
            await self.inbox.put(await answer)

        self.tasks.create_task(wait())

    async def build(self, number: int, context: Context) -> BuiltAnswer:
        return BuiltAnswer(number, await self.application.build(context))

    async def check(self, number: int, context: Context, proposal: Proposal) -> CheckedAnswer:
        return CheckedAnswer(number, await self.application.check(context, proposal))

    async def judge(self, proposal: Proposal) -> VerdictAnswer:
        return VerdictAnswer(proposal.view, self.application.accept(proposal))

    # ---- what the node hands out

    def carry_out(self, reply: Reply) -> None:
        """The actions of a reply, in order. None has to wait for another: all that they rest on is on the disk."""
        if not reply.refused:
            self.wake = None
        for action in reply.actions:
            match action:
                case Send(to, channel, data):
                    self.send([to] if to is not None else self.place.keys, Frame(channel, data))
                case Block(member):
                    self.blocked.add(member)
                case Build(number, _, context):
                    self.answer_later(self.build(number, context))
                case Verify(number, context, proposal):
                    self.answer_later(self.check(number, context, proposal))
                case Certify(proposal):
                    self.answer_later(self.judge(proposal))
                case Forward(payload, plan, _, recipients):
                    self.forward(payload, plan, recipients)
                case Finalized(proposal):
                    if self.pace.finalized(self.term_of(proposal.view)):
                        self.tell_pace("faster")
                case Report(activity):
                    self.log.append(activity)
                    self.look_for_entry(activity)
                case Wake(moment):
                    self.wake = moment
            if isinstance(action, (Block, Finalized, Report)):
                self.place.watch(self.me, action)

    def term_of(self, view: int) -> int:
        return self.place.setup.terms.index(view)

    def look_for_entry(self, activity: object) -> None:
        """A true verdict, a nullification or a finalization leads to a view, unless it is told anew behind an opening."""
        match activity:
            case Certified(Certificate(_, on)):
                view = on.view
            case Certificate(kind, on) if kind != NOTARIZATION:
                view = on.view
            case _:
                return
        if view > self.place.entered:
            self.place.entered, self.entered, self.place.patience = view, self.loop.time(), STUCK

    def tell_pace(self, direction: str) -> None:
        """From now on the node is told the time at another pace."""
        self.clock.go_on(self.loop.time(), self.pace.slowness)
        self.place.tell(f"member {self.me} is told the time {direction}: {self.pace.slowness} times slower than it goes")

    def tell_record(self, first: Reply) -> None:
        """What the record has goes to all again: a node hands it out once, and may have ended before it arrived."""
        told = [it.activity for it in first.actions if isinstance(it, Report)]
        final = max((it.view for it in told if isinstance(it, Certificate) and it.kind == FINALIZATION), default=0)
        for it in told:
            if isinstance(it, Certificate) and (it.view, it.kind == FINALIZATION) >= (final, True):
                self.put(self.place.keys, Frame(CERTIFICATE_CHANNEL, certificate_bytes(it)))
            elif isinstance(it, Vote) and it.signer == self.me and it.view > final:
                self.put(self.place.keys, Frame(VOTE_CHANNEL, vote_bytes(it)))

    def keep(self, frame: Frame) -> None:
        """What went to all a peer that was away is told again, while it is current."""
        if frame.channel == CONTENTS:
            self.links.current.add(said_in(frame.data)["view"], frame)
        elif reads := {VOTE_CHANNEL: Reader.vote, CERTIFICATE_CHANNEL: Reader.certificate}.get(frame.channel):
            said = whole(frame.data, self.place.scheme.signature_size, self.place.count, reads)
            self.links.current.add(said.view, frame, said.kind == FINALIZATION)

    def put(self, peers: Iterable[int], frame: Frame) -> None:
        if peers is self.place.keys:
            self.keep(frame)
        for peer in peers:
            if frozenset((self.me, peer)) not in self.place.cuts:
                self.links.send(peer, frame)

    def send(self, peers: Iterable[int], frame: Frame) -> None:
        self.put(peers, frame)
        if frame.channel == VOTE_CHANNEL:
            self.look_at(whole(frame.data, self.place.scheme.signature_size, self.place.count, Reader.vote))

    def forward(self, payload: bytes, plan: str, recipients: Iterable[int]) -> None:
        """The content of a payload: to those who may lack it, or, of one that was built here, at a handoff too, to all, who will be asked
        to check it."""
        content = self.application.contents.get(payload)
        if content is not None:
            self.send(recipients if plan == "forward" else self.place.keys, Frame(CONTENTS, content))

    # ---- what a liar does

    def look_at(self, vote: Vote) -> None:
        """An own vote leaves. If the member is to lie, a second one goes behind its next notarize, for another payload in that view."""
        self.place.watch(self.me, Said(vote))
        if vote.kind == NULLIFY and self.pace.gave_up(self.term_of(vote.view)):
            self.tell_pace("slower")
        if self.lies and vote.kind == NOTARIZE:
            self.lies -= 1
            on = vote.on
            other = Proposal(on.epoch, on.view, on.parent, hashlib.sha256(b"another" + on.payload).digest())
            # The plain scheme has no secret, so a host can sign what its node never would.
            lie = self.place.scheme.sign(NOTARIZE, other, self.me)
            self.send(self.place.keys, Frame(VOTE_CHANNEL, vote_bytes(lie)))
