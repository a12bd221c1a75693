"""Programs and the archive for C and Rust, laid out to be run at once, with a manifest that says what they are.

    dist/x86_64-linux/      as the proofs' build made them; git has these
    dist/unproved/          as `rt try` made them; git has none of it
    dist/page/              docs/play.html with the module of its nodes; git has none of it, but the module beside the page in docs/

A manifest has the sums of the files, the kit, the commit, and for each file the checksums of the sources that it was made from, and
whether rt had noted beside it that it came of a proved build. So whoever runs one knows whether it fits the tree.
"""
import hashlib
import json
import os
import shutil
import subprocess
from pathlib import Path

from . import TOP, page, sources
from .building import CRATES, TRIALS, built
from .children import child, say
from .progress import Progress
from .trouble import Trouble

PROVED, UNPROVED, PAGE = TOP / "dist/x86_64-linux", TOP / "dist/unproved", TOP / "dist/page"
MANIFEST = "manifest.json"
PROGRAMS = tuple(TRIALS)
ARCHIVE, ARCHIVE_CRATE = "libsimplex_c.a", "simplex_c"


def read(folder: Path) -> dict:
    """The manifest of a folder, or nothing where there is none that can be read."""
    try:
        found = json.loads((folder / MANIFEST).read_text())
    except (OSError, ValueError):
        return {}
    return found if isinstance(found, dict) else {}


def sum_of(file: Path) -> str:
    return hashlib.sha256(file.read_bytes()).hexdigest()


def fitting(name: str, crate: str | None = None) -> tuple[Path, str] | None:
    """The proved program of `dist/`, or the archive of this crate, and what is known of it, if it was made from this tree's code."""
    file, manifest, crate = PROVED / name, read(PROVED), crate or name
    entry = manifest.get("files", {}).get(name, {})
    if not file.exists() or entry.get("sha256") != sum_of(file) or entry.get("code") != sources.code(crate):
        return None
    commit = manifest.get("commit", "?")
    if entry.get("sources") == sources.whole(crate):
        return file, f"proved, from these sources (dist/, commit {commit})"
    return file, f"proved at commit {commit} from this code; its contracts or proofs have changed since"


def lay(folder: Path, made: dict[str, tuple[Path, str]], proved: bool) -> None:
    """Puts these files, each with the crate that it comes from, into a folder beside a manifest."""
    folder.mkdir(parents=True, exist_ok=True)
    files = {}
    for name, (source, crate) in made.items():
        place = folder / f"{name}.new"
        shutil.copyfile(source, place)
        strip(place, name)
        place.chmod(0o644 if name == ARCHIVE else 0o755)
        os.replace(place, folder / name)
        size = (folder / name).stat().st_size
        files[name] = {
            "sha256": sum_of(folder / name), "bytes": size, "code": sources.code(crate), "sources": sources.whole(crate),
            "noted": bool(note_of(source)),
        }
    manifest = {"proved": proved, "kit": sources.kit(), "commit": sources.commit(), "files": files}
    (folder / MANIFEST).write_text(json.dumps(manifest, indent=1) + "\n")


def strip(file: Path, name: str) -> None:
    """Takes out what only a debugger reads, the same way each time; where there is no strip it stays in."""
    words = ["--strip-debug"] if name == ARCHIVE else ["--strip-all"]
    if not shutil.which("strip"):
        return say("there is no strip (binutils): names for a debugger stay in")
    ran = subprocess.run(["strip", "--enable-deterministic-archives", *words, file], capture_output=True, text=True)
    if ran.returncode:
        raise Trouble(f"strip refuses {name}: {ran.stderr.strip()[:200]}")


def build_unproved() -> Path:
    lay(UNPROVED, {name: (built(name), name) for name in PROGRAMS}, proved=False)
    say(f"{ARCHIVE} is left out: rt builds an archive by its proofs alone (./voumlis build --proved)")
    return UNPROVED


def build_proved(as_is: bool) -> Path:
    """What `rt run` and `rt lib` prove and build. With `as_is` what they left in crates/*/out is taken and rt isn't asked."""
    made = {}
    for name in PROGRAMS:
        made[name] = (left(name, name, ["rt", "run", "--", *arguments(name)], as_is), name)
    made[ARCHIVE] = (left(ARCHIVE_CRATE, ARCHIVE, ["rt", "lib"], as_is), ARCHIVE_CRATE)
    lay(PROVED, made, proved=True)
    if as_is or not page.can_build():
        say("the page's module is left out: ./voumlis build --page makes it")
        return PROVED
    prove(page.CRATE, ["rt", "lib"])
    page.build(PAGE)
    return PROVED


def arguments(name: str) -> list[str]:
    file = CRATES / name / "args"
    return file.read_text().split() if file.exists() else []


def left(crate: str, name: str, words: list[str], as_is: bool) -> Path:
    """What rt left of a crate, after this call of it."""
    file = CRATES / crate / "out" / name
    if not as_is:
        sources.kit()
        prove(crate, words)
    if not file.exists():
        raise Trouble(f"there is no {file.relative_to(TOP)}: {' '.join(words[:2])} in crates/{crate} makes it")
    if not is_newer(file, crate):
        raise Trouble(f"{file.relative_to(TOP)} is older than its sources: {' '.join(words[:2])} in crates/{crate} makes it anew")
    noted = note_of(file)
    if noted and not noted.endswith(sum_of(file)):
        raise Trouble(f"{file.relative_to(TOP)} isn't what rt proved there: {' '.join(words[:2])} in crates/{crate} makes it anew")
    if as_is and not noted:
        say(f"{file.relative_to(TOP)}: taken as it lies there; rt left no note of a proved build beside it")
    return file


def note_of(file: Path) -> str:
    """What rt noted beside a program whose build it proved, which ends with the program's sum. It notes nothing where it was told by which
    compiler to build, as the gate does, nor beside an archive."""
    stamp = file.with_name(f"{file.name}.stamp")
    return stamp.read_text() if stamp.exists() else ""


def is_newer(file: Path, crate: str) -> bool:
    """Whether the file was made behind the last change of the code below its crate."""
    code = (it for name in sources.below(crate) for it in (CRATES / name / "src").rglob("*.rt"))
    return file.stat().st_mtime >= max(it.stat().st_mtime for it in code)


def prove(crate: str, words: list[str]) -> None:
    """rt's own word on whether it proves. A program's status is its own affair: only what it leaves counts."""
    progress, stamp = Progress(f"proving {crate}", 7200), CRATES / crate / "out" / f"{crate}.stamp"
    given = CRATES / crate / "stdin"
    with given.open("rb") if given.exists() else open(os.devnull, "rb") as events, child(
        words, cwd=CRATES / crate, stdin=events, stdout=subprocess.DEVNULL, stderr=subprocess.DEVNULL
    ) as started:
        while started.poll() is None:
            progress.say()
            try:
                started.wait(1)
            except subprocess.TimeoutExpired:
                continue
    failed = started.returncode if crate in (ARCHIVE_CRATE, page.CRATE) else not stamp.exists()
    progress.end("not proved" if failed else "proved", keep=not failed)
    if failed:
        raise Trouble(f"{' '.join(words[:2])} in crates/{crate} proved nothing: run it there to see why")
