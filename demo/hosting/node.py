"""The program `simplex_tool member FILE` as a child of its host: one event goes in, its reply comes out, then the next.

`member_program.Member` of tools/ does the same for trials, and blocks; here many nodes share one loop.
"""
import asyncio
import contextlib
from collections.abc import Callable, Mapping
from pathlib import Path
from types import MappingProxyType
from typing import TypeVar

from member.codec import Reader, Unreadable, event_bytes
from member.values import Reply

from . import settings

T = TypeVar("T")
# Behind the end of its input a node rewrites its record and ends; one that doesn't is killed.
PATIENCE = 10.0
REFUSALS = range(17)


class Ended(Exception):
    """The program ended, or was killed. The message is its status and the line that it told."""


class Node:
    """A node over a record, from its opening to its end."""

    def __init__(self, child: asyncio.subprocess.Process, me: int, count: int) -> None:
        scheme = settings.setup({}, me, count).scheme
        self.child, self.reader = child, Reader(b"", scheme.signature_size, scheme.members)

    @classmethod
    async def open(cls, program: Path, record: Path, me: int, count: int, said: Mapping[str, object] = MappingProxyType({})) -> "Node":
        """Starts the program by a file of these settings, which is written beside the record. The first reply that it writes is that of the
        opening, behind no event."""
        pipe = asyncio.subprocess.PIPE
        child = await asyncio.create_subprocess_exec(
            program, "member", settings.write(said, record, me, count), stdin=pipe, stdout=pipe, stderr=pipe,
            start_new_session=True,  # Ctrl-C is for the host, which then ends its nodes
        )
        return cls(child, me, count)

    async def answer(self, event: object) -> Reply:
        """Hands an event in, and waits for its reply: until it is read nothing says that the event was taken."""
        try:
            self.child.stdin.write(event_bytes(event))
            await self.child.stdin.drain()
        except OSError:
            pass  # it ended, which reading tells
        return await self.reply()

    async def reply(self) -> Reply:
        """The next reply, read action by action, so that a long one isn't read anew with each piece that comes."""
        refused = await self.read(lambda: self.reader.one_of(REFUSALS))
        count = await self.read(self.reader.varint)
        return Reply(refused, tuple([await self.read(self.reader.action) for _ in range(count)]))

    async def read(self, what: Callable[[], T]) -> T:
        """Reads one value, and waits for more bytes where they end inside it."""
        while True:
            place = self.reader.place
            try:
                return what()
            except Unreadable:
                piece = await self.child.stdout.read(1 << 16)
            if not piece:
                raise Ended(await self.last_words())
            self.reader.data, self.reader.place = self.reader.data[place:] + piece, 0

    async def last_words(self) -> str:
        told = (await self.child.stderr.read()).decode(errors="replace").strip()
        status = await self.child.wait()
        return f"killed by signal {-status}" if status < 0 else f"status {status} {told}".strip()

    def kill(self) -> None:
        """As `kill -9`: it can do nothing about it."""
        if self.child.returncode is None:
            self.child.kill()

    async def close(self) -> None:
        """Ends its input, at which it ends, and leaves none behind. What it still says is dropped: else it might wait for a reader."""
        self.child.stdin.close()
        with contextlib.suppress(OSError):
            await self.child.stdin.wait_closed()
        try:
            async with asyncio.timeout(PATIENCE):
                await self.child.communicate()
        except TimeoutError:
            self.kill()
            await self.child.wait()
