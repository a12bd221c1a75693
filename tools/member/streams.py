"""Generated streams of calls on a node: a setup that a seed picks, an opening over an empty record, events of peers, of an
application and of a clock, and openings anew."""
import random

from . import judging
from .history import latest
from .peers import Peers, spelled
from .player import Player
from .record import record
from .scheme import SCHEMES
from .setup import FORWARDS, Setup
from .values import Reply, Wake


def setup_of(pick, handoffs):
    members = pick.choices((1, 2, 3, 4, 5, 6, 7), (2, 1, 1, 6, 2, 1, 2))[0]
    length, optimistic, stall = pick.choice((1, 1, 2, 3, 4, 5)), pick.choice((0, 0, 1, 2, 3)), pick.choice((4000, 7000, 10_000))
    if length == 1 and pick.random() < 0.7:
        optimistic, stall = 0, None
    retry = pick.choice((1500, 5000))
    skip = pick.choice((None, 5001, 6000, 8000))
    return Setup(
        SCHEMES[pick.choice(("plain", "plain", "salted"))](members), pick.randrange(members), pick.choice((0, 0, 0, 3)), length, optimistic,
        stall, pick.choice((1, 2, 3, 10)), pick.choice((500, 1000)), 2000, retry, skip,
        None if skip is None else pick.choice((None, None, 1, 2)), pick.choice(FORWARDS), pick.random() < 0.5, handoffs,
    )


def stream(pick, setup, count, order, crashes):
    """The calls of a stream, each with what the model answers."""
    player = Player(setup, order)
    yield judging.reset_line(setup), "ok"
    actions = player.open(pick.choice((0, 0, 1234)), ())
    yield f"open {latest(player.h)}", Reply(0, actions)
    peers, left, wake = Peers(pick, player), count, last_wake(actions)
    reopens = pick.random() < 0.4
    while left > 0:
        for event in peers.next(wake):
            reply = player.step(event)
            wake = wake if reply.refused else last_wake(reply.actions)
            left -= 1
            yield f"event {spelled(event)}", reply
        if reopens and pick.random() < 0.03:
            now, found = latest(player.h) + pick.choice((0, 5, 2500)), record(player.h)
            if crashes:
                event = peers.next(wake)[0]
                found = player.crash(event, pick)
                yield f"event {spelled(event)}", "crash"
                yield f"found {judging.spelled(found)}", "ok"
            actions = player.open(now, found)
            wake, left = last_wake(actions), left - 1
            yield f"open {now}", Reply(0, actions)
    yield "record", judging.spelled(record(player.h))


def last_wake(actions):
    return actions[-1].moment if actions and isinstance(actions[-1], Wake) else None


def calls(seed, number, count, crashes):
    """The calls of a stream of this number as the node's driver reads them. A node that crashed is one whose disk is replaced by one
    that holds what the crash left; and the bytes of the disk stand for its record."""
    pick = random.Random(f"{seed} {number}")
    setup = setup_of(pick, True)
    for call, answer in stream(pick, setup, count, None, crashes):
        name, _, rest = call.partition(" ")
        if name == "found":
            yield f"disk {judging.bytes_of(judging.artifacts_of(rest, setup.scheme)).hex()}"
        elif answer != "crash":
            yield "bytes" if name == "record" else call
