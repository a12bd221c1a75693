"""A host for the program `simplex_tool member FILE`: it carries packets, plays the application, keeps the wakes and the reports.

It stands outside the proved core: nothing here is proved, and nothing of the core rests on it. docs/HOSTING.md says what a host
has to keep true, by the functions of these modules. Read them in this order:

    wire          frames on a connection, and how a peer's name is made sure of
    links         the connections of one member to its peers
    settings      how nodes are set up
    node          the program `simplex_tool member FILE` as a child, one event and one reply at a time
    application   what is built, checked and accepted
    reports       the log of a member's reports
    pace          the time as a node is told it
    host          one member: carries out what its node hands out
    lanes         what of that a page shows
    committee     all members, and what the page's buttons do to them
    server        the page, and what it is told, on the loopback
    packages      Debian's packages that the test wants

Which program is run `tools/launcher` finds, or builds.

What is spelled as bytes is read and written by `tools/member`, the model of a member, which the trials of the program use too.
"""
import sys
from pathlib import Path

TOP = Path(__file__).resolve().parent.parent.parent
sys.path.append(str(TOP / "tools"))
