"""The commands of `./voumlis`."""
import argparse
import re
import select
import subprocess
import sys
from collections import defaultdict
from pathlib import Path

from . import TOP, dist, page, rows, sources, worlds
from .children import Ended, child, end_on_signals, hand_over, say, status_of
from .programs import program
from .progress import APART, Progress
from .trouble import NO_COMMAND, Trouble
from .words import meaning

HELP = """\
Voumlis: a consensus node whose every function is proved against its contract.

  ./voumlis demo [N]             N members (4) on sockets, and a page to kill, cut off, corrupt and audit them
  ./voumlis world [NAME|FILE]    a scenario in one process, in words, and a page that draws it (liars; or split)
  ./voumlis audit FILE COUNT     who of COUNT members signed two votes that contradict each other
  ./voumlis node RECORD I COUNT  member I of COUNT over its record: events on standard input, replies on output
  ./voumlis test [NAME ..]       the rows of every driver, unproved, in minutes
  ./voumlis prove [NAME ..]      the whole gate, rt ci: hours on four processors
  ./voumlis build [--proved]     the programs into dist/, with their sums, the commit, and whether they are proved
  ./voumlis help                 this

A program is taken from dist/ where it fits these sources, else built by the Rattle kit, and kept: the second start builds
nothing. Each command says whether what it runs is proved. COMMAND --help has the options.
"""


class Parser(argparse.ArgumentParser):
    """Words that are no command end in one line."""

    def error(self, message: str) -> None:
        raise Trouble(f"{message} (./voumlis help)")


def parser() -> Parser:
    found = Parser(prog="./voumlis", add_help=False)
    commands = found.add_subparsers(dest="command", required=True, parser_class=Parser, metavar="COMMAND")
    with_program = Parser(add_help=False)
    with_program.add_argument("--program", help="the program to run, in place of the one that is found or built")
    of = {}
    for name, (_, line) in COMMANDS.items():
        parents = [with_program] if name in ("world", "audit", "node") else []
        of[name] = commands.add_parser(name, help=line, description=line, parents=parents, add_help=name != "demo")
    of["world"].add_argument("scenario", nargs="?", default="liars", metavar="NAME|FILE", help="liars, split, hundred, long, or a file")
    of["world"].add_argument("--text", action="store_true", help="write the run's lines on standard output, and draw nothing")
    of["audit"].add_argument("file", metavar="FILE", help="reports as docs/FORMATS.md spells them, or - for standard input")
    of["audit"].add_argument("count", metavar="COUNT", help="the committee's size")
    of["audit"].add_argument("--lines", action="store_true", help="the program's own lines, one for each contradiction")
    of["node"].add_argument("record", metavar="RECORD")
    of["node"].add_argument("index", metavar="INDEX")
    of["node"].add_argument("count", metavar="COUNT")
    of["node"].add_argument("--cut", action="store_true", help="cut what no crash leaves behind the record's last whole entry, and open it")
    of["test"].add_argument("names", nargs="*", metavar="NAME", help="a driver or a program of crates.txt (all)")
    of["test"].add_argument("--jobs", type=int, help="how many builds at once (as many as processors and memory allow)")
    of["prove"].add_argument("names", nargs="*", metavar="NAME", help="crates (all)")
    of["build"].add_argument("--proved", action="store_true", help="prove first: hours, unless rt has kept the proofs")
    of["build"].add_argument("--page", action="store_true", help="the page of docs/play.html alone, its library proved over what rt kept")
    of["build"].add_argument("--as-is", action="store_true", help="with --proved: take what lies in crates/*/out, and don't ask rt")
    return found


def demo(words: list[str]) -> int:
    return hand_over([sys.executable, TOP / "demo/run", *words])


def world(given: argparse.Namespace) -> int:
    file = worlds.scenario(given.scenario)
    path, known = program("simplex_world", given.program)
    say(f"simplex_world: {known}")
    if given.text:
        with file.open("rb") as scenario, child([path], stdin=scenario) as started:
            return status_of(started.wait())
    lines, status = worlds.play(path, file, file.stem)
    print("\n".join(worlds.told(lines)))
    page = worlds.drawn(lines)
    print(f"lines: {lines.relative_to(TOP)}")
    print(f"picture: {page.relative_to(TOP)}, to be opened in a browser" if page else "picture: none, since these are too many lines")
    if page:
        worlds.show(page)
    return status


KINDS = {
    "conflicting-notarize": "voted to notarize two proposals", "conflicting-finalize": "voted to finalize two proposals",
    "nullify-finalize": "voted to give the view up and to finalize in it",
}


def audit(given: argparse.Namespace) -> int:
    try:
        data = sys.stdin.buffer.read() if given.file == "-" else Path(given.file).read_bytes()
    except OSError as error:
        raise Trouble(f"{given.file} can't be read: {error.strerror}") from error
    path, known = program("simplex", given.program)
    say(f"simplex: {known}")
    ended = subprocess.run([path, "audit", given.count], input=data, capture_output=True)
    lines, errors = ended.stdout.decode().splitlines(), ended.stderr.decode().splitlines()
    if given.lines:
        print("\n".join(lines))
    found = stories(lines)
    print("\n".join(found), end="\n" if found else "")
    if not found and ended.returncode == 0:
        print("nobody is named: no two votes here contradict each other")
    explain([*errors, *(it for it in lines if it.startswith("fault "))], given.file)
    return ended.returncode


def stories(lines: list[str]) -> list[str]:
    """What an audit's lines say, a line for each member that they name."""
    found = defaultdict(list)
    for line in lines:
        if it := re.fullmatch(r"(\S+) epoch (\d+) view (\d+) signer (\d+) .*", line):
            found[int(it[4])].append((it[1], it[3]))
    told = []
    for member, lies in sorted(found.items()):
        kind, view = lies[0]
        more = f", and {len(lies) - 1} more" if len(lies) > 1 else ""
        told.append(f"member {member} lied: in view {view} it {KINDS.get(kind, kind)}{more}")
    return told


def node(given: argparse.Namespace) -> int:
    path, known = program("simplex", given.program)
    say(f"simplex: {known}")
    words = [path, "node", given.record, given.index, given.count, *(["--cut"] if given.cut else [])]
    with child(words, stderr=subprocess.PIPE, text=True) as started:
        for line in started.stderr:
            explain([line], given.record)
        return status_of(started.wait())


def explain(lines: list[str], record: str | None) -> None:
    """The program's own error lines, each with what it means."""
    for line in lines:
        say(line.rstrip("\n"))
        if words := meaning(line, record):
            say(f"    {words}")


def test(given: argparse.Namespace) -> int:
    return rows.test(given.names, given.jobs)


def prove(given: argparse.Namespace) -> int:
    """The gate's own lines, with one of progress where it is silent."""
    say(f"{sources.kit()}; rt ci proves what it hasn't kept on this machine, and says what it did")
    progress = Progress("rt ci", 3 * 3600, f"rt ci {' '.join(given.names)}".strip())
    with child(["rt", "ci", *given.names], cwd=TOP, stdout=subprocess.PIPE, stderr=subprocess.STDOUT) as started:
        while True:
            ready, _, _ = select.select([started.stdout], [], [], 1 if progress.live else APART)
            line = started.stdout.readline() if ready else b""
            if ready and not line:
                break
            if line:
                print(line.decode(errors="replace"), end="", flush=True)
            else:
                progress.say()
        status = status_of(started.wait())
    progress.end("passed" if status == 0 else f"status {status}", keep=status == 0)
    return status


def build(given: argparse.Namespace) -> int:
    if given.page:
        place = page.build(dist.PAGE)
        print(f"{place.relative_to(TOP)}/play.html: to be opened in a browser")
        return 0
    folder = dist.build_proved(given.as_is) if given.proved else dist.build_unproved()
    manifest = dist.read(folder)
    print(f"{folder.relative_to(TOP)}: {'PROVED' if manifest['proved'] else 'UNPROVED'}, commit {manifest['commit']}, {manifest['kit']}")
    for name, entry in manifest["files"].items():
        print(f"{entry['sha256']}  {entry['bytes']:>9}  {name}")
    return 0


COMMANDS = {
    "demo": (demo, "members on sockets, and a page that shows them"),
    "world": (world, "a scenario in one process, in words and as a page"),
    "audit": (audit, "who signed two votes that contradict each other"),
    "node": (node, "a member over its record"),
    "test": (test, "the rows of every driver, unproved"),
    "prove": (prove, "the whole gate"),
    "build": (build, "the programs into dist/"),
}


def run(words: list[str]) -> int:
    if not words or words[0] in ("help", "-h", "--help"):
        print(HELP, end="")
        return 0
    if words[0] == "demo":
        return demo(words[1:])
    given = parser().parse_args(words)
    return COMMANDS[given.command][0](given)


def main(words: list[str]) -> int:
    end_on_signals()
    try:
        return run(words)
    except Trouble as trouble:
        say(f"voumlis: {trouble}")
        return NO_COMMAND
    except Ended as ended:
        say("\nended, and all that was started with it")
        return 128 + ended.number
    except OSError as error:
        say(f"voumlis: {error.strerror or error}{': ' + str(error.filename) if error.filename else ''}")
        return 1
