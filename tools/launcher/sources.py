"""The sources that a program is built from, their checksums, and the kit that builds them."""
import functools
import hashlib
import shutil
import subprocess

from . import TOP
from .trouble import Trouble

CRATES = TOP / "crates"


@functools.cache
def lines() -> dict[str, str]:
    """The line of each crate in crates.txt, by the crate's name."""
    rows = (row.partition("#")[0].strip() for row in (TOP / "crates.txt").read_text().splitlines())
    return {row.partition(":")[0].split()[0]: row for row in rows if row}


def below(crate: str) -> list[str]:
    """The crate and all crates of this repository that it stands on, in the alphabet's order."""
    found, waiting = set(), [crate]
    while waiting:
        name = waiting.pop()
        if name in found or name not in lines():
            continue
        found.add(name)
        waiting += lines()[name].partition(":")[2].split()
    if not found:
        raise Trouble(f"crates.txt has no crate {crate}")
    return sorted(found)


def checksum(crate: str, folders: tuple[str, ...]) -> str:
    """The checksum of these folders of the crate and of all below it, with their lines of crates.txt."""
    found = hashlib.sha256()
    for name in below(crate):
        found.update(f"{lines()[name]}\n".encode())
        files = (file for folder in folders for file in (CRATES / name / folder).rglob("*") if file.is_file())
        for file in sorted(files):
            found.update(f"{file.relative_to(TOP)} {hashlib.sha256(file.read_bytes()).hexdigest()}\n".encode())
    return found.hexdigest()


@functools.cache
def code(crate: str) -> str:
    """The checksum of what the program is compiled from."""
    return checksum(crate, ("src",))


def changed(crate: str) -> bool:
    """Whether the code is another one than when this program first looked: then nothing is known of what was made of it since."""
    return checksum(crate, ("src",)) != code(crate)


@functools.cache
def whole(crate: str) -> str:
    """The checksum of what its proof rests on: code, definitions and proofs."""
    return checksum(crate, ("src", "specs", "proofs"))


@functools.cache
def kit() -> str:
    """The kit's line, as `rt version` prints it."""
    if not shutil.which("rt"):
        raise Trouble("no rt on the path: programs are built by the Rattle kit; put its folder bin on the path (README, Try it)")
    told = subprocess.run(["rt", "version"], capture_output=True, text=True)
    if told.returncode or not told.stdout.strip():
        raise Trouble(f"rt version failed: {(told.stderr or told.stdout).strip()[:200] or told.returncode}")
    return told.stdout.strip().splitlines()[0]


def commit() -> str:
    """The commit that is checked out, marked where files differ from it."""
    told = subprocess.run(["git", "describe", "--always", "--dirty", "--abbrev=12", "--exclude=*"], cwd=TOP, capture_output=True, text=True)
    return told.stdout.strip() or "no commit"
