"""The edits of host/broken/NAME.edit: which tests of the host each breaks, and what it makes of the host's files."""
import re
import tempfile
from pathlib import Path

import wrong_bodies

HOST = Path(__file__).resolve().parent.parent / "host"
EDITS = HOST / "broken"


def breaks(edit):
    """The tests that an edit is to break."""
    return re.findall(r"(?m)^breaks: (\w+)$", edit.read_text())


def apply(edit, workspace=HOST):
    """What the edit makes of the workspace's files, as `wrong_bodies.apply` tells it; `wrong_bodies.Unfit` where it doesn't fit."""
    rest = re.sub(r"(?m)^breaks: .*\n", "", edit.read_text())
    with tempfile.NamedTemporaryFile("w+", suffix=".edit") as given:
        given.write(rest)
        given.flush()
        return wrong_bodies.apply(Path(given.name), workspace)


if __name__ == "__main__":
    print(__doc__)
