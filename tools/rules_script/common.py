"""What all parts of the script of crates/run_rules share."""

from script_rows import Script

LAST = 2**64 - 1
ROUND_3 = ("round", 0, 3)
script = Script()


def term_index(length, view):
    return 0 if view == 0 else (view - 1) // length + 1


def term_end(length, view):
    return term_index(length, view) * length


def quorum(members):
    return members - (members - 1) // 3
