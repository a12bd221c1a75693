"""The connections of one member to its peers, over TCP on the loopback.

Each member dials each other one and sends on that connection alone; what it hears comes on connections that its peers dialed.
So a name is proved once a direction, and an end that falls takes only its own with it. Packets to a peer that isn't connected,
or whose queue is full, are lost, as on any network. A node hands each out once: so a peer that comes back is told what is current.
"""
import asyncio
from collections import deque
from collections.abc import Callable, Mapping

from . import wire
from .wire import Frame

LOOPBACK = "127.0.0.1"
REDIAL = 0.2
# Frames that wait for a slow peer: some seconds of a committee at work.
ROOM = 1024
# The most frames that are told again: those of some views.
CURRENT = 128

TROUBLES = (OSError, EOFError, TimeoutError, wire.Refused)


class Current:
    """What a peer that comes back has to hear: the last finalization, and what went to all of views above it."""

    def __init__(self) -> None:
        self.frames: deque[tuple[int, Frame]] = deque(maxlen=CURRENT)

    def add(self, view: int, frame: Frame, is_final: bool = False) -> None:
        if is_final:
            self.frames = deque((it for it in self.frames if it[0] > view), CURRENT)
            self.frames.appendleft((view, frame))
        else:
            self.frames.append((view, frame))


class Outgoing:
    """What goes to one peer."""

    def __init__(self, me: int, peer: int, key: bytes, current: Current) -> None:
        self.me, self.peer, self.key, self.current = me, peer, key, current
        self.queue: asyncio.Queue[Frame] = asyncio.Queue(ROOM)
        self.connected = asyncio.Event()

    def send(self, frame: Frame) -> None:
        if self.connected.is_set() and not self.queue.full():
            self.queue.put_nowait(frame)

    def tell_again(self) -> None:
        """What is current: the node of a peer that has it refuses it as a repetition."""
        for _, frame in self.current.frames:
            self.send(frame)

    async def run(self, port_of: Callable[[int], int | None]) -> None:
        """Dials, sends, and dials again when the connection falls."""
        while True:
            port = port_of(self.peer)
            if port is not None:
                try:
                    await self.carry(port)
                except TROUBLES:
                    pass
                finally:
                    self.connected.clear()
                    self.forget()
            await asyncio.sleep(REDIAL)

    def forget(self) -> None:
        """What waited for a connection that fell is lost with it."""
        while not self.queue.empty():
            self.queue.get_nowait()

    async def carry(self, port: int) -> None:
        reader, writer = await asyncio.open_connection(LOOPBACK, port)
        try:
            await wire.introduce(reader, writer, self.me, self.peer, self.key)
            self.connected.set()
            self.tell_again()
            async with asyncio.TaskGroup() as both:
                both.create_task(self.pump(writer))
                both.create_task(until_closed(reader))
        except* TROUBLES:
            pass
        finally:
            writer.close()

    async def pump(self, writer: asyncio.StreamWriter) -> None:
        while True:
            writer.write(wire.frame_bytes(await self.queue.get()))
            await writer.drain()


async def until_closed(reader: asyncio.StreamReader) -> None:
    """A peer says nothing on a connection that it didn't dial: whatever comes is its end."""
    await reader.read(1)
    raise EOFError


class Links:
    """The network as one member sees it."""

    def __init__(
        self, me: int, keys: Mapping[int, bytes], port_of: Callable[[int], int | None],
        hear: Callable[[int, Frame], None],
    ) -> None:
        self.me, self.keys, self.port_of, self.hear = me, keys, port_of, hear
        self.current = Current()
        self.outgoing = {peer: Outgoing(me, peer, key, self.current) for peer, key in keys.items()}
        self.incoming: dict[asyncio.StreamWriter, int] = {}
        self.server: asyncio.Server | None = None

    async def listen(self, port: int = 0) -> int:
        """The port at which this member is reached: this one, or any that is free."""
        self.server = await asyncio.start_server(self.accept, LOOPBACK, port)
        return self.server.sockets[0].getsockname()[1]

    def dial(self, tasks: asyncio.TaskGroup) -> None:
        for link in self.outgoing.values():
            tasks.create_task(link.run(self.port_of))

    async def settle(self, seconds: float) -> None:
        """Waits until all peers are reached, or so long: what a node says first should not be lost if it needn't be."""
        try:
            async with asyncio.timeout(seconds):
                for link in self.outgoing.values():
                    await link.connected.wait()
        except TimeoutError:
            pass

    async def accept(self, reader: asyncio.StreamReader, writer: asyncio.StreamWriter) -> None:
        """Each frame of a connection is handed on as that of the peer who proved its name at the beginning."""
        try:
            peer = await wire.welcome(reader, writer, self.me, self.keys)
            self.incoming[writer] = peer
            while True:
                self.hear(peer, await wire.read_frame(reader))
        except TROUBLES:
            pass
        finally:
            self.incoming.pop(writer, None)
            writer.close()

    def send(self, peer: int, frame: Frame) -> None:
        self.outgoing[peer].send(frame)

    def close(self) -> None:
        """Nobody reaches this member any more."""
        if self.server:
            self.server.close()
        for writer in list(self.incoming):
            writer.transport.abort()
