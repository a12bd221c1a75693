"""The page, what it is told, and what its buttons ask for: HTTP on the loopback alone, by nothing but Python.

    GET /         the page
    GET /watch    what changes, as server-sent events: first all that there is, then what became of it
    POST /do      what a button asks for, as JSON
"""
import asyncio
import contextlib
import json
from collections.abc import Callable
from dataclasses import dataclass
from pathlib import Path
from time import monotonic

from .committee import Committee, Unwanted
from .links import LOOPBACK

PAGE = Path(__file__).resolve().parent / "page.html"
# How often a page is told what changed: faster than one sees.
BEAT = 0.2
# The longest wish and head of a request, in bytes; how long one may take to come, and a page to read what it was told, in seconds.
LONGEST_WISH, LONGEST_HEAD, PATIENCE = 1 << 10, 1 << 14, 5
# A page that has more bytes than this to read yet is told nothing more, and later all anew.
WAITING = 1 << 18
# What this machine is called by itself, and by no name that another may give it.
NAMES = (LOOPBACK, "localhost")
# A page loads nothing from elsewhere, and is shown in no other page.
POLICY = "default-src 'none'; script-src 'unsafe-inline'; style-src 'unsafe-inline'; connect-src 'self'; frame-ancestors 'none'"


@dataclass(frozen=True)
class Request:
    method: str
    path: str
    headers: dict[str, str]
    body: bytes


class Page:
    """A page that is open."""

    def __init__(self, writer: asyncio.StreamWriter) -> None:
        self.writer, self.is_whole, self.slow_since = writer, False, None

    def tell(self, data: str) -> None:
        self.writer.write(f"data: {data}\n\n".encode())

    def is_slow(self) -> bool:
        """Whether it has much to read yet. One that doesn't read for long is sent away, and takes no farewell."""
        if self.writer.transport.get_write_buffer_size() <= WAITING:
            self.slow_since = None
            return False
        self.slow_since = self.slow_since or monotonic()
        if monotonic() - self.slow_since > PATIENCE:
            self.writer.transport.abort()
        return True


class Server:
    """Shows one committee to any number of pages."""

    def __init__(self, committee: Committee) -> None:
        self.committee = committee
        self.pages: set[Page] = set()
        self.audits: set[asyncio.Task] = set()
        self.server: asyncio.Server | None = None

    async def start(self, port: int) -> int:
        """The port at which the page is."""
        self.server = await asyncio.start_server(self.accept, LOOPBACK, port, limit=LONGEST_HEAD)
        return self.server.sockets[0].getsockname()[1]

    async def close(self) -> None:
        """Sends all pages away, and waits until they are gone."""
        if self.server:
            self.server.close()
        for page in list(self.pages):
            page.writer.transport.abort()
        while self.pages:
            await asyncio.sleep(0.01)

    # ---- requests

    async def accept(self, reader: asyncio.StreamReader, writer: asyncio.StreamWriter) -> None:
        """One request a connection."""
        try:
            async with asyncio.timeout(PATIENCE):
                request = await read_request(reader)
            await self.answer(request, reader, writer)
        except (OSError, EOFError, TimeoutError, ValueError, asyncio.LimitOverrunError):
            pass  # it didn't keep to the form, or went away
        finally:
            writer.close()

    async def answer(self, request: Request, reader: asyncio.StreamReader, writer: asyncio.StreamWriter) -> None:
        if not is_from_here(request):
            respond(writer, "403 Forbidden")
        elif (request.method, request.path) == ("GET", "/"):
            respond(writer, "200 OK", PAGE.read_bytes(), "text/html; charset=utf-8")
        elif (request.method, request.path) == ("POST", "/do"):
            self.obey(request.body)
            respond(writer, "204 No Content")
        elif (request.method, request.path) == ("GET", "/watch"):
            await self.watch(reader, writer)
        else:
            respond(writer, "404 Not Found")
        await writer.drain()

    async def watch(self, reader: asyncio.StreamReader, writer: asyncio.StreamWriter) -> None:
        """Tells a page until it goes away."""
        writer.write(head("200 OK", "text/event-stream"))
        page = Page(writer)
        page.tell(self.committee.shown(whole=True))
        page.is_whole = True
        self.pages.add(page)
        try:
            await reader.read()
        finally:
            self.pages.discard(page)

    async def tell(self) -> None:
        """Tells all pages what changed, for ever."""
        while True:
            await asyncio.sleep(BEAT)
            changed = self.committee.shown(whole=False) if self.pages else None
            if changed is None:
                continue
            whole = None
            for page in list(self.pages):
                if page.is_slow():
                    page.is_whole = False
                elif page.is_whole:
                    page.tell(changed)
                else:
                    whole = whole or self.committee.shown(whole=True)
                    page.tell(whole)
                    page.is_whole = True

    # ---- wishes

    def obey(self, wish: bytes) -> None:
        """Does what a button asks for, or tells why not."""
        try:
            said = json.loads(wish)
            name, members = said["do"], [self.member(it) for it in said.get("members", [])]
            if len(set(members)) < len(members):
                raise ValueError(members)
            self.button(name, len(members))(*members)
        except Unwanted as error:
            self.committee.board.tell(str(error))
        except (ValueError, TypeError, KeyError, AttributeError, RecursionError):
            self.committee.board.tell("a page asked for something that no button asks for")

    def member(self, index: object) -> int:
        if type(index) is not int or not 0 <= index < self.committee.count:
            raise ValueError(index)
        return index

    def button(self, name: object, members: int) -> Callable[..., None]:
        committee = self.committee
        return {
            ("kill", 1): committee.kill, ("restart", 1): committee.restart, ("equivocate", 1): committee.equivocate,
            ("isolate", 1): committee.isolate, ("rejoin", 1): committee.rejoin,
            ("cut", 2): committee.cut, ("mend", 2): committee.mend, ("audit", 0): self.audit,
        }[name, members]

    def audit(self) -> None:
        """An audit takes some seconds, in which the pages go on."""
        task = asyncio.create_task(self.one_audit())
        self.audits.add(task)
        task.add_done_callback(self.audits.discard)

    async def one_audit(self) -> None:
        try:
            await self.committee.audit()
        except Unwanted as error:
            self.committee.board.tell(str(error))


async def read_request(reader: asyncio.StreamReader) -> Request:
    """A request with its body. What is longer than a page's own requests is refused by an error."""
    first, *lines = (await reader.readuntil(b"\r\n\r\n")).decode("latin-1").split("\r\n")
    method, path, _ = first.split(" ", 2)
    headers = {name.strip().lower(): value.strip() for name, _, value in (line.partition(":") for line in lines if line)}
    size = int(headers.get("content-length", "0"))
    if not 0 <= size <= LONGEST_WISH:
        raise ValueError(size)
    return Request(method, path, headers, await reader.readexactly(size))


def is_from_here(request: Request) -> bool:
    """Pages of other origins may dial the loopback too, by its name or by one that leads there: they are sent away. A wish comes with
    its page's origin."""
    host, origin = request.headers.get("host", ""), request.headers.get("origin")
    if host.partition(":")[0] not in NAMES or request.headers.get("sec-fetch-site", "none") not in ("none", "same-origin"):
        return False
    return origin == f"http://{host}" if request.method != "GET" or origin else True


def head(status: str, kind: str, size: int | None = None) -> bytes:
    lines = [
        f"HTTP/1.1 {status}", f"Content-Type: {kind}", f"Content-Security-Policy: {POLICY}", "X-Content-Type-Options: nosniff",
        "Cache-Control: no-store", "Connection: close",
    ]
    lines += [] if size is None else [f"Content-Length: {size}"]
    return "\r\n".join([*lines, "", ""]).encode()


def respond(writer: asyncio.StreamWriter, status: str, body: bytes = b"", kind: str = "text/plain") -> None:
    with contextlib.suppress(OSError):
        writer.write(head(status, kind, len(body)) + body)
