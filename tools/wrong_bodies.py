"""The edits of wrong-bodies/CRATE/NAME.edit: what one says, and what it makes of the files of its crate."""
from dataclasses import dataclass
from pathlib import Path

TOP = Path(__file__).resolve().parent.parent
EDITS = TOP / "wrong-bodies"


class Unfit(Exception):
    """An edit that can't be applied, and why."""


@dataclass
class Edited:
    """A file of the crate as an edit leaves it, and the numbers of the lines that it changed, from 0."""

    text: str
    lines: list


def apply(edit, crate, texts=None):
    """What the edit makes of the crate's files: an `Edited` for each path that it names. Each `old:` text must stand once in its
    file, after the pairs above it were applied. A file that `texts` has is read there."""
    path, old, made, pairs = None, None, {}, 0
    for line in edit.read_text().split("\n"):
        if line.startswith("file: "):
            path = line.removeprefix("file: ").strip()
            if not (crate / path).is_file():
                raise Unfit(f"there is no file {path}")
            if path not in made:
                made[path] = Edited((texts or {}).get(path) or (crate / path).read_text(), [])
        elif line.startswith("old: "):
            old = line.removeprefix("old: ")
        elif line.startswith("new:"):
            if path is None or old is None:
                raise Unfit("a 'new:' stands before its 'file:' or 'old:'")
            replace(made[path], path, old, line.removeprefix("new:").removeprefix(" "))
            old, pairs = None, pairs + 1
        elif line.strip():
            raise Unfit(f"a line that is none of an edit: {line[:60]}")
    if not pairs:
        raise Unfit("it has no pair of 'old:' and 'new:'")
    return made


def replace(file, path, old, new):
    found = file.text.count(old)
    if found != 1:
        raise Unfit(f"an 'old:' stands {found} times in {path}")
    file.lines.append(file.text[: file.text.index(old)].count("\n"))
    file.text = file.text.replace(old, new)


if __name__ == "__main__":
    print(__doc__)
