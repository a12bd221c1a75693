"""What ends a command: one line on standard error, and no traceback."""


class Trouble(Exception):
    """What is missing or went wrong, and what to do about it, in one line."""


# Of words that are no command, as for the programs themselves.
NO_COMMAND = 2
