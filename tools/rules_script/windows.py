"""Which views are listened to, spoken of and kept, by the rules on each view."""

import random

from rules_script.common import LAST, script, term_end
from script_rows import listed


def in_admission_window(length, optimistic, current, view):
    return current < view <= min(current + 2 * optimistic + 1, term_end(length, current))


def admits(length, optimistic, current, view):
    start = term_end(length, current) + 1
    later = start + length
    return (
        view <= current
        or in_admission_window(length, optimistic, current, view)
        or start <= view < start + min(max(optimistic, 1), length)
        or view in (later, later + 1)
    )


def admits_outbound(length, optimistic, current, view):
    end = term_end(length, current)
    furthest = current + optimistic
    return view <= current or view <= min(furthest, end) or (view == end + 1 and end <= furthest)


WINDOWS = {
    "in_admission_window": in_admission_window,
    "admits": admits,
    "admits_outbound": admits_outbound,
}


def window(asked, length, optimistic, current, first, last, taken=None):
    """Which views between the two are in the window. `taken` is worked by hand: those above the current one."""
    found = [it for it in range(first, last + 1) if WINDOWS[asked](length, optimistic, current, it)]
    if taken is not None:
        assert [it for it in found if it > current] == list(taken), (asked, length, optimistic, current)
    script.ask(f"lookahead {asked} {length} {optimistic} {current} {first} {last}", listed(found))


def has_room(length, view):
    return term_end(length, view) + 1 + 2 * length + 1 <= LAST


def admission_limit(length, current):
    return term_end(length, current) + 1 + length + 1


def issuance_floor(length, optimistic, view):
    starts = view == 0 or (view - 1) % length == 0
    return "-" if optimistic == 0 or starts else max(0, view - (optimistic + 1))


def worked_windows():
    script.note(
        "worked by hand: of a term's length, the optimistic views and the current view the views "
        "after it, up to 40, that are listened to, and that may be spoken of"
    )
    for length, optimistic, current, heard, spoken in (
        (5, 1, 2, [3, 4, 5, 6, 11, 12], [3]),
        (1, 0, 1, [2, 3, 4], [2]),
        (5, 0, 2, [3, 6, 11, 12], []),
        (5, 1, 5, [6, 11, 12], [6]),
        (5, 1, 4, [5, 6, 11, 12], [5, 6]),
        (3, 7, 2, [3, 4, 5, 6, 7, 8], [3, 4]),
        (5, 2, 0, [1, 2, 6, 7], [1]),
    ):
        window("admits", length, optimistic, current, 0, 40, heard)
        window("admits_outbound", length, optimistic, current, 0, 40, spoken)
    script.note("worked by hand: the admission window ends with the term")
    for optimistic, current, taken in (
        (0, 1, [2]), (1, 1, [2, 3, 4]), (2, 1, [2, 3, 4, 5]), (2, 4, [5]), (2, 5, []), (2, 0, []),
    ):
        window("in_admission_window", 5, optimistic, current, 0, 19, taken)
    script.note("worked by hand: the admission limit is the last view that is listened to")
    for length, current, limit in ((5, 2, 12), (1, 1, 4), (5, 0, 7), (3, 4, 11)):
        assert limit == admission_limit(length, current)
        script.ask(f"lookahead admission_limit {length} 1 {current}", limit)
        window("admits", length, 1, current, limit, limit + 1, [limit])
    script.note("worked by hand: a nullification leads to the next term")
    for length, view, following in ((5, 1, 6), (5, 3, 6), (5, 5, 6), (5, 6, 11), (1, 7, 8), (3, 0, 1)):
        assert following == term_end(length, view) + 1
        script.ask(f"lookahead after_nullification {length} 1 {view}", following)
    script.note("worked by hand: the issuance floor stops at 0, and a term's start has none")
    for length, optimistic, view, floor in (
        (5, 1, 2, 0), (5, 1, 3, 1), (5, LAST, 3, 0),
        (5, 1, 6, "-"), (5, 1, 0, "-"), (1, 1, 3, "-"), (5, 0, 3, "-"),
    ):
        assert floor == issuance_floor(length, optimistic, view)
        script.ask(f"lookahead issuance_floor {length} {optimistic} {view}", floor)
    script.note(
        "worked by hand: windows reach the end of the numbers, which ends a term of each of these "
        "lengths"
    )
    for length, optimistic in ((2**32 - 1, 0), (2**32 - 1, LAST), (5, 1)):
        window("in_admission_window", length, optimistic, LAST - 1, LAST, LAST, [LAST])
        window("in_admission_window", length, optimistic, LAST, LAST, LAST, [])
        window("admits", length, optimistic, LAST - 1, LAST, LAST, [LAST])
        window("admits", length, optimistic, LAST, LAST - 1, LAST - 1, [])
        window("admits_outbound", length, optimistic, LAST, LAST - 1, LAST - 1, [])
        window("admits_outbound", length, optimistic, LAST - 1, LAST, LAST, [LAST] if optimistic else [])
        window("admits", length, optimistic, 1, LAST, LAST, [])
    script.note("worked by hand: it starts a term of two views, which ends past the numbers")
    window("admits", 2, 0, LAST - 1, LAST, LAST, [LAST])
    window("admits_outbound", 2, 0, LAST - 1, LAST, LAST, [LAST])
    window("in_admission_window", 2, 0, LAST - 1, LAST, LAST, [])
    window("admits_outbound", 2, 0, LAST, LAST, LAST)
    window("in_admission_window", 2, 0, LAST, 0, 0, [])
    script.note("worked by hand: the greatest optimism ends with the next term")
    window("admits_outbound", 2, LAST, 1, 3, 4, [3])
    window("admits", 2, LAST, 1, 6, 7, [6])
    script.note("worked by hand: callers owe room for a limit and for the next term")
    script.ask(f"lookahead admission_limit 5 1 {LAST}", "condition")
    script.ask(f"lookahead after_nullification 5 1 {LAST}", "condition")
    script.note("worked by hand: what isn't a call")
    for line in (
        "lookahead", "lookahead admits 5 1 2 0", "lookahead admits 0 1 2 0 1", "lookahead admits 5 1 2 1 0",
        "lookahead admits 5 1 2 0 1000", "lookahead listens 5 1 2 0 1", "lookahead issuance_floor 5 1 2 1",
    ):
        script.ask(line, "unreadable")


def generated_windows():
    script.note("generated: windows")
    chance = random.Random(2)
    for _ in range(250):
        length = chance.choice([1, 2, 3, 5, 8, 2**32 - 1])
        optimistic = chance.choice([0, 1, 2, 3, 7, 2**32, 2**63, LAST])
        current = chance.choice([0, chance.randrange(1, 40), chance.randrange(2**32), LAST - chance.randrange(40)])
        end = term_end(length, current)
        around = chance.choice([
            current, end, end + 1, end + 1 + length, current + optimistic, current + 2 * optimistic,
        ])
        first = min(max(around - 15, 0), LAST - 30)
        window(chance.choice(list(WINDOWS)), length, optimistic, current, first, first + chance.randrange(31))
        room = has_room(length, current)
        limit = admission_limit(length, current) if room else "condition"
        script.ask(f"lookahead admission_limit {length} {optimistic} {current}", limit)
        following = end + 1 if room else "condition"
        script.ask(f"lookahead after_nullification {length} {optimistic} {current}", following)
        floor = issuance_floor(length, optimistic, current)
        script.ask(f"lookahead issuance_floor {length} {optimistic} {current}", floor)


def floor_of(finalized, retention):
    return max(0, finalized - retention)


def first_reaching(finalized, retention, length):
    """The first view below the floor whose term ends above the finalized one, or the floor.

    Ends of terms ascend, so few views have to be looked at.
    """
    floor = floor_of(finalized, retention)
    nearest = max(0, min(floor, finalized - length))
    return next(it for it in range(nearest, floor + 1) if it == floor or term_end(length, it) > finalized)


def viewport(asked, finalized, retention, answer, current=12, length=5, optimistic=1):
    script.ask(f"viewport {asked} {finalized} {current} {retention} {length} {optimistic}", answer)


def kept(asked, finalized, retention, first, last, taken=None, current=12, length=5, optimistic=1):
    found = []
    for view in range(first, last + 1):
        is_kept = view >= 1 and view >= floor_of(finalized, retention)
        if is_kept and (asked != "admits_vote" or admits(length, optimistic, current, view)):
            found.append(view)
    assert taken is None or found == list(taken), (asked, finalized, retention, found)
    call = f"viewport {asked} {finalized} {current} {retention} {length} {optimistic} {first} {last}"
    script.ask(call, listed(found))


KEPT = ("retains", "admits_vote", "admits_certificate")


def worked_viewports():
    script.note("worked by hand: the floor stops at 0")
    for finalized, retention, floor in (
        (10, 3, 7), (10, 0, 10), (10, 10, 0), (10, 11, 0), (0, LAST, 0), (LAST, 1, LAST - 1),
    ):
        assert floor == floor_of(finalized, retention)
        viewport("floor", finalized, retention, floor)
    script.note(
        "worked by hand: the first view below the floor whose term ends above the last finalized "
        "view, or the floor"
    )
    for finalized, retention, first in (
        (12, 0, 11), (13, 1, 11), (13, 3, 10), (15, 0, 15), (15, 2, 13), (10, 3, 7), (0, 0, 0),
        (LAST - 1, 0, LAST - 4),
    ):
        assert first == first_reaching(finalized, retention, 5)
        viewport("first_reaching", finalized, retention, first)
    script.note("worked by hand: view 0 is not kept")
    for asked in KEPT:
        kept(asked, 2, 10, 0, 1, [1])
    script.note("worked by hand: nothing below the floor is taken")
    for asked in KEPT:
        kept(asked, 10, 3, 6, 12, range(7, 13))
    script.note("worked by hand: certificates are taken further ahead than votes")
    kept("admits_vote", 10, 3, 13, 40, [13, 14, 15, 16, 21, 22])
    kept("admits_certificate", 10, 3, 13, 40, range(13, 41))
    kept("admits_vote", 10, 3, LAST, LAST, [])
    kept("admits_certificate", 10, 3, LAST, LAST, [LAST])
    for line in (
        "viewport", "viewport floor 10 12 3 5 1 0", "viewport retains 10 12 3 5 1 0",
        "viewport keeps 10 12 3 5 1",
    ):
        script.ask(line, "unreadable")


def generated_viewports():
    script.note("generated: what is kept")
    chance = random.Random(3)
    for _ in range(150):
        length = chance.choice([1, 2, 3, 5, 8, 100])
        finalized = chance.choice([
            0, chance.randrange(40), chance.randrange(2**32), LAST - 1 - chance.randrange(40),
        ])
        retention = chance.choice([0, 1, 2, 3, 10, 50, LAST])
        current = min(LAST, finalized + chance.randrange(1, 30))
        optimistic = chance.choice([0, 1, 2, 7, LAST])
        floor, reaching = floor_of(finalized, retention), first_reaching(finalized, retention, length)
        where = (current, length, optimistic)
        viewport("floor", finalized, retention, floor, *where)
        viewport("first_reaching", finalized, retention, reaching, *where)
        around = chance.choice([floor, current, term_end(length, current) + length])
        first = min(max(around - 12, 0), LAST - 24)
        kept(chance.choice(KEPT), finalized, retention, first, first + 24, None, *where)


def worked():
    worked_windows()
    worked_viewports()


def generated():
    generated_windows()
    generated_viewports()
