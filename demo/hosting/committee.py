"""All members of a committee, and what the page's buttons do to them."""
import asyncio
import json
import re
import secrets
import traceback
from collections.abc import Mapping
from dataclasses import dataclass
from itertools import combinations
from pathlib import Path
from time import monotonic
from types import MappingProxyType

from member.positions import quorum

from . import settings
from .host import LONGEST_STUCK, Host, Place
from .lanes import BLOCKS, Board, Lane

# Behind so many seconds without a final view a page says so, and why.
SLOW = 6


@dataclass(frozen=True)
class Programs:
    """What is run: `simplex` audits, `simplex_tool` runs the nodes."""

    simplex: Path
    tool: Path


class Unwanted(Exception):
    """What a page asked for can't be done; the message says why."""


class Committee:
    """Hosts of so many members, each with a folder of its own."""

    def __init__(
        self, count: int, programs: Programs, said: str, folder: Path, pace: float, set_up: Mapping[str, object] = MappingProxyType({})
    ) -> None:
        """`said` is what is known of the program that runs nodes, for the page; `set_up` how these are, beside what is each member's own."""
        self.count, self.programs, self.said = count, programs, said
        self.setup = settings.setup(set_up, 0, count)
        self.board = Board(count, self.setup.terms)
        self.cuts: set[frozenset[int]] = set()
        self.audit_said: dict | None = None
        self.auditing, self.audits = False, 0
        self.begun, self.still = monotonic(), ""
        ports: dict[int, int] = {}
        pairs = {frozenset(pair): secrets.token_bytes(32) for pair in combinations(range(count), 2)}
        self.places = []
        for me in range(count):
            own = folder / f"member-{me}"
            own.mkdir(parents=True, exist_ok=True)
            keys = {peer: pairs[frozenset((me, peer))] for peer in range(count) if peer != me}
            self.places.append(
                Place(me, count, programs.tool, own, pace, keys, ports, self.cuts, self.board.watch, self.board.tell, set_up)
            )
        self.hosts: dict[int, Host] = {}
        self.lives: dict[int, asyncio.Task] = {}

    # ---- lives

    def start(self, me: int) -> None:
        """A new life of a member, over what its record and its log of reports hold."""
        lane = self.board.lanes[me]
        lane.state = "running"
        lane.blocked.clear()
        self.places[me].blocked.clear()
        self.hosts[me] = Host(self.places[me])
        self.lives[me] = asyncio.create_task(self.live(me))

    async def live(self, me: int) -> None:
        """One life after the other, as long as each ends since no view was entered for long."""
        place = self.places[me]
        try:
            while not (told := await self.hosts[me].live()):
                self.board.tell(f"member {me} entered no view for long: its record is opened again")
                place.patience = min(place.patience * 2, LONGEST_STUCK)
                lies, self.hosts[me] = self.hosts[me].lies, Host(place)
                self.hosts[me].lies = lies
        except Exception as error:  # a host that fails must not look like one that runs
            traceback.print_exception(error)
            told = f"its host failed, {type(error).__name__}"
        self.board.lanes[me].state = told
        self.board.tell(f"member {me}: its node ended, {told}")

    async def stop(self) -> None:
        """Ends all lives, each of which ends its node."""
        for life in self.lives.values():
            life.cancel()
        await asyncio.gather(*self.lives.values(), return_exceptions=True)

    def is_running(self, me: int) -> bool:
        return me in self.lives and not self.lives[me].done()

    def running(self, me: int) -> Host:
        if not self.is_running(me):
            raise Unwanted(f"member {me} isn't running")
        return self.hosts[me]

    # ---- buttons

    def kill(self, me: int) -> None:
        node = self.running(me).node
        if node is None:
            raise Unwanted(f"member {me} is just being started")
        self.board.tell(f"kill -9 {node.child.pid}, the node of member {me}")
        node.kill()

    def restart(self, me: int) -> None:
        if self.is_running(me):
            raise Unwanted(f"member {me} runs: a second process on its record could vote against the first")
        self.board.tell(f"member {me} is started on the record that it left")
        self.start(me)

    def equivocate(self, me: int) -> None:
        self.running(me).lies += 1
        self.board.tell(f"member {me} will vote twice in one view, for two proposals")

    def cut(self, one: int, other: int) -> None:
        self.cuts.add(frozenset((one, other)))
        self.board.tell(f"the link between {one} and {other} is cut")

    def mend(self, one: int, other: int) -> None:
        self.cuts.discard(frozenset((one, other)))
        self.tell_again(one, other)
        self.board.tell(f"the link between {one} and {other} is mended")

    def isolate(self, me: int) -> None:
        self.cuts |= {frozenset((me, other)) for other in range(self.count) if other != me}
        self.board.tell(f"member {me} is isolated: all its links are cut")

    def rejoin(self, me: int) -> None:
        self.cuts -= {pair for pair in self.cuts if me in pair}
        for other in self.hosts:
            self.tell_again(me, other)
        self.board.tell(f"all links of member {me} are mended")

    def tell_again(self, one: int, other: int) -> None:
        """Behind a mended link each end tells the other what is current: what was sent over the cut is lost."""
        for me, peer in ((one, other), (other, one)):
            if me != peer and self.is_running(me):
                self.hosts[me].links.outgoing[peer].tell_again()

    async def audit(self) -> None:
        """`simplex audit` over the reports of all members."""
        if self.auditing:
            raise Unwanted("an audit is under way")
        self.auditing = self.board.changed = True
        try:
            said = await self.said_by_audit()
            self.audits += 1
            self.audit_said = {"number": self.audits, **said}
            named = ", ".join(map(str, said["named"])) or "nobody"
            self.board.tell(f"the audit names {named}")
        finally:
            self.auditing = False

    async def said_by_audit(self) -> dict:
        """Telling a report twice changes no name, so each is told once."""
        reports = await asyncio.to_thread(lambda: list(dict.fromkeys(it for host in self.hosts.values() for it in host.log)))
        begun, pipe = monotonic(), asyncio.subprocess.PIPE
        child = await asyncio.create_subprocess_exec(
            self.programs.simplex, "audit", str(self.count), stdin=pipe, stdout=pipe, stderr=pipe, start_new_session=True
        )
        try:
            output, error = await child.communicate(b"".join(reports))
        finally:
            if child.returncode is None:
                child.kill()
        lines = output.decode().splitlines()
        named = sorted({int(it[1]) for line in lines if (it := re.search(r" signer (\d+) ", line))})
        return {
            "named": named, "lines": lines, "reports": len(reports), "seconds": round(monotonic() - begun, 1),
            "status": child.returncode, "error": error.decode(),
        }

    # ---- what the page shows

    def standstill(self) -> str:
        """Why nothing becomes final, or nothing where something does."""
        needed, running = quorum(self.count), [me for me in range(self.count) if self.is_running(me)]
        if len(running) < needed:
            return f"{len(running)} of {self.count} members run, and a quorum is {needed}. Restart some."
        speaking = [me for me in running if not self.is_blocked(me, running)]
        if len(speaking) < needed:
            return f"{len(running) - len(speaking)} of {len(running)} that run are blocked for lies; {needed} have to be heard."
        most = max(sum(me == it or frozenset((me, it)) not in self.cuts for it in speaking) for me in speaking)
        if most < needed:
            return f"nobody is linked with more than {most - 1} others, and a quorum is {needed} with oneself. Mend links."
        seconds = monotonic() - self.board.final_at
        if seconds < SLOW:
            return ""
        view = self.board.highest
        leader = self.setup.elect(view)
        why = "is down" if leader not in running else "is blocked" if leader not in speaking else "may be cut off, or just late"
        return f"nothing became final for {seconds:.0f} s. View {view} is led by member {leader}, which {why}: the others give its term up."

    def is_blocked(self, me: int, running: list[int]) -> bool:
        """Whether so many block the member that no quorum hears it."""
        deaf = sum(me in self.board.lanes[other].blocked for other in running if other != me)
        return len(running) - deaf < quorum(self.count)

    def shown(self, whole: bool) -> str | None:
        """All that a page shows, as JSON, or what became of it since this was last asked for, or nothing where nothing did."""
        board, still = self.board, self.standstill()
        if not whole and not board.changed and still == self.still:
            return None
        news = set().union(*(lane.marks if whole else lane.news for lane in board.lanes))
        said = {
            "whole": whole, "count": self.count, "program": self.said, "quorum": quorum(self.count), "last": board.highest,
            "final": board.final, "seconds": monotonic() - self.begun, "standstill": still,
            "members": [self.shown_lane(me, lane, whole) for me, lane in enumerate(board.lanes)],
            "leaders": {view: self.setup.elect(view) for view in news},
            "cuts": sorted(sorted(pair) for pair in self.cuts),
            "chain": [self.shown_block(view) for view in sorted(board.chain)[-BLOCKS:]],
            "disagreements": board.disagreements(), "lines": list(board.lines if whole else board.news),
            "audit": self.audit_said, "auditing": self.auditing,
        }
        if not whole:
            board.changed, self.still = False, still
            board.news.clear()
            for lane in board.lanes:
                lane.news.clear()
        return json.dumps(said)

    def shown_lane(self, me: int, lane: Lane, whole: bool) -> dict:
        views = lane.marks if whole else lane.news
        return {
            "state": lane.state, "running": self.is_running(me), "view": lane.view, "final": lane.final,
            "blocked": sorted(lane.blocked),
            "marks": {view: "".join(sorted(lane.marks.get(view, ()))) for view in views},
        }

    def shown_block(self, view: int) -> dict:
        payloads = self.board.chain[view]
        payload = next(iter(payloads))
        texts = (host.application.text(payload) for host in self.hosts.values())
        return {
            "view": view, "payload": payload.hex()[:12], "members": sorted(payloads[payload]),
            "text": next(filter(None, texts), ""),
        }
