"""The application of one member. A node orders payloads, digests of 32 bytes; what they are digests of it never sees.

Here a content is a line of JSON that names its view and the payload it builds on. All correct members have to judge it alike,
so a check looks at the content and the context alone, at nothing that differs from member to member.
"""
import asyncio
import hashlib
import json

from member.values import Context, Proposal

LONGEST_CONTENT = 1 << 12
KEPT = 2000
# How long a check waits for a content that is still on its way.
PATIENCE = 0.5


def payload_of(content: bytes) -> bytes:
    return hashlib.sha256(content).digest()


class Application:
    """Contents that one member built or was given, by their payloads."""

    def __init__(self, me: int, pace: float) -> None:
        self.me, self.pace, self.built = me, pace, 0
        self.contents: dict[bytes, bytes] = {}
        self.awaited: dict[bytes, asyncio.Event] = {}

    def keep(self, content: bytes) -> None:
        """Takes a content in, and forgets the oldest: whoever sends many doesn't fill the memory."""
        if len(content) > LONGEST_CONTENT:
            return
        payload = payload_of(content)
        self.contents[payload] = content
        if len(self.contents) > KEPT:
            del self.contents[next(iter(self.contents))]
        if waiting := self.awaited.get(payload):
            waiting.set()

    async def build(self, context: Context) -> bytes:
        """A payload on the context's parent. The pause is the demo's pace: without it views pass faster than one can watch."""
        await asyncio.sleep(self.pace)
        self.built += 1
        said = {"view": context.view, "on": context.parent_payload.hex(), "text": f"no. {self.built} of member {self.me}"}
        content = json.dumps(said).encode()
        self.keep(content)
        return payload_of(content)

    async def check(self, context: Context, proposal: Proposal) -> bool | None:
        """Whether the proposal is good, or None where its content didn't come: then nobody can say."""
        content = await self.content(proposal.payload)
        return None if content is None else is_good(content, context)

    async def content(self, payload: bytes) -> bytes | None:
        if payload not in self.contents:
            waiting = self.awaited.setdefault(payload, asyncio.Event())
            try:
                async with asyncio.timeout(PATIENCE):
                    await waiting.wait()
            except TimeoutError:
                pass
            finally:
                self.awaited.pop(payload, None)
        return self.contents.get(payload)

    @staticmethod
    def accept(proposal: Proposal) -> bool:
        """The verdict on a notarized proposal. A quorum voted for it, so a correct member checked it, and the checks of all
        correct members agree: it may stand."""
        return True

    def text(self, payload: bytes) -> str | None:
        """What a page shows of a payload, if this member has its content."""
        said = said_in(self.contents.get(payload, b""))
        return str(said.get("text"))[:40] if said else None


def said_in(content: bytes) -> dict | None:
    """What a content says, if it is one: it may come from a liar."""
    try:
        said = json.loads(content)
    except (ValueError, RecursionError):
        return None
    return said if isinstance(said, dict) else None


def is_good(content: bytes, context: Context) -> bool:
    said = said_in(content)
    return said is not None and said.get("view") == context.view and said.get("on") == context.parent_payload.hex()
