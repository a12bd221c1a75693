"""How the nodes of a committee are set up: the keys of a file of settings, as `simplex_tool member FILE` reads it.

docs/FORMATS.md has the keys, demo/member.toml all of them with comments. What is each member's own the host adds: `members`, `member` and
`record`. What no node can be opened with the program tells.
"""
import json
import os
import subprocess
import tomllib
from collections.abc import Mapping
from dataclasses import replace
from pathlib import Path

from launcher.trouble import Trouble
from member.setup import Setup
from node_program import setup_of

OWN = ("members", "member", "record")
# The audit and the liar sign over the base of `simplex audit`, and the page tells who leads by their order.
FIXED = {"base": "simplex", "seed": None}


def read(path: Path | None) -> dict[str, object]:
    """What a file says beside what is each member's own; nothing where there is none."""
    if path is None:
        return {}
    try:
        said = tomllib.loads(path.read_text())
    except (tomllib.TOMLDecodeError, UnicodeDecodeError) as why:
        raise Trouble(f"{path}: {why}") from why
    for key, value in FIXED.items():
        if said.get(key, value) != value:
            raise Trouble(f"{path}: {key} can't be chosen here")
    for key, value in said.items():
        if not isinstance(value, (bool, int, str)):
            raise Trouble(f"{path}: {key} is no number, truth value or text")
    return {key: value for key, value in said.items() if key not in OWN}


def setup(settings: Mapping[str, object], me: int, count: int) -> Setup:
    """The member as the model has it, as far as a host asks it: its scheme, the terms, who leads."""
    usual = setup_of(me, count)
    said = {"epoch": "epoch", "length": "term-length", "optimistic": "optimistic-views"}
    return replace(usual, **{field: settings[key] for field, key in said.items() if key in settings})


def text(settings: Mapping[str, object], record: Path, me: int, count: int) -> str:
    """The file of settings of this member."""
    own = {"members": count, "member": me, "record": str(record)}
    lines = (f"{key} = {json.dumps(value, ensure_ascii=False)}" for key, value in {**own, **settings}.items())
    return "\n".join(["# Written by the host at each start.", *lines, ""])


def write(settings: Mapping[str, object], record: Path, me: int, count: int) -> Path:
    """Puts that file beside the record, the old one or the whole new one, and answers its path."""
    path = Path(f"{record}.toml")
    beside = path.with_suffix(".new")
    beside.write_text(text(settings, record, me, count))
    os.replace(beside, path)
    return path


def check(tool: Path, settings: Mapping[str, object], folder: Path, count: int) -> None:
    """Whether a node can be opened with these, by the program."""
    folder.mkdir(parents=True, exist_ok=True)
    path = write(settings, folder / "tried", 0, count)
    said = subprocess.run([tool, "settings", path], stdin=subprocess.DEVNULL, capture_output=True, text=True)
    path.unlink()
    if said.returncode:
        raise Trouble(f"no node can be opened so: {said.stderr.strip()}")
