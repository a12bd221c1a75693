"""Frames on a connection, and the handshake that fixes whose frames they are.

A node trusts its host for one thing about a packet: who sent it. So a name is never read from a frame. A connection begins with
a proof that its dialer holds the key that it shares with the listener, and from then on each frame of that connection is that
peer's. On the loopback any process may dial, which is why an index that is merely said would not do.
"""
import asyncio
import hashlib
import hmac
import secrets
import struct
from collections.abc import Mapping
from typing import NamedTuple

from member.values import CHANNELS

HEADER = struct.Struct(">BI")
NAME = struct.Struct(">H")
NONCE, PROOF = 16, 32
# A frame of a node is a vote, a certificate or a number: far shorter than this, for any committee of the demo.
LONGEST_FRAME = 1 << 16
PATIENCE = 2.0
# The host's own channel beside the node's: the contents whose digests are the payloads.
CONTENTS = "contents"
NAMES = (*CHANNELS, CONTENTS)


class Refused(Exception):
    """The other end isn't who it says, or doesn't keep to the form."""


class Frame(NamedTuple):
    channel: str
    data: bytes


def frame_bytes(frame: Frame) -> bytes:
    return HEADER.pack(NAMES.index(frame.channel), len(frame.data)) + frame.data


async def read_frame(reader: asyncio.StreamReader) -> Frame:
    channel, size = HEADER.unpack(await reader.readexactly(HEADER.size))
    if channel >= len(NAMES) or size > LONGEST_FRAME:
        raise Refused
    return Frame(NAMES[channel], await reader.readexactly(size))


def proof(key: bytes, nonce: bytes, dialer: int, listener: int) -> bytes:
    """That the dialer holds the key, for this connection alone: both names are in it, so it can't be turned around."""
    return hmac.digest(key, nonce + NAME.pack(dialer) + NAME.pack(listener), hashlib.sha256)


async def introduce(
    reader: asyncio.StreamReader, writer: asyncio.StreamWriter, me: int, peer: int, key: bytes
) -> None:
    """The dialer's part."""
    async with asyncio.timeout(PATIENCE):
        nonce = await reader.readexactly(NONCE)
        writer.write(NAME.pack(me) + proof(key, nonce, me, peer))
        await writer.drain()


async def welcome(
    reader: asyncio.StreamReader, writer: asyncio.StreamWriter, me: int, keys: Mapping[int, bytes]
) -> int:
    """The listener's part: the peer whose frames come on this connection."""
    nonce = secrets.token_bytes(NONCE)
    async with asyncio.timeout(PATIENCE):
        writer.write(nonce)
        await writer.drain()
        (peer,) = NAME.unpack(await reader.readexactly(NAME.size))
        given = await reader.readexactly(PROOF)
    key = keys.get(peer)
    if key is None or not hmac.compare_digest(given, proof(key, nonce, peer, me)):
        raise Refused
    return peer
