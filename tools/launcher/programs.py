"""Which program is run, and what is known of it: a proved one before an unproved one, one that is there before one that is built."""
from pathlib import Path

from . import TOP, dist, sources
from .building import CRATES, built, kept
from .trouble import Trouble


def program(name: str, given: str | None = None) -> tuple[Path, str]:
    """The program's path, and what to say of it in a line."""
    if given:
        if not Path(given).is_file():
            raise Trouble(f"there is no program {given}")
        return Path(given).resolve(), "the program that was named: whether it is proved isn't known here"
    if found := dist.fitting(name):
        return found
    made = CRATES / name / "out" / name
    if made.exists() and dist.is_newer(made, name):
        return made, f"proved, as rt left it in {made.parent.relative_to(TOP)}/"
    place = TOP / "dist/unproved" / name
    entry = dist.read(place.parent).get("files", {}).get(name, {})
    if place.exists() and entry.get("code") == sources.code(name) and entry.get("sha256") == dist.sum_of(place):
        return place, "UNPROVED, from this code (dist/unproved/)"
    return built(name), "UNPROVED, from this code, as rt try built it"


def is_there(name: str) -> bool:
    """Whether it can be run with nothing built."""
    return bool(dist.fitting(name)) or (CRATES / name / "out" / name).exists() or kept(name).exists()
