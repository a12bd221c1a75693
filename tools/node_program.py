"""The program `simplex node` for scripts that try it: how its node is set up, its events and replies, and one that runs.

A node that runs is fed by `Running`: its answers are read behind each event, so that what was acknowledged is known when it is
killed.
"""
import os
import subprocess
import sys
from pathlib import Path

from member.codec import Reader, Unreadable, artifact_bytes, event_bytes
from member.record import bodies, finalizes, floor_of
from member.scheme import PlainScheme
from member.setup import Setup
from member.values import FINALIZE, NULLIFICATION, NULLIFY, VOTE_CHANNEL, Certificate, Certified, Report, Send, Verdict, Vote

TOP = Path(__file__).resolve().parent.parent
PROGRAM = TOP / "crates" / "simplex" / "out" / "simplex"
USAGE = "usage: simplex audit COUNT | simplex node RECORD INDEX COUNT\n"
# what a file begins with that holds a generation of a record, and how many bytes stand in front of that
GENERATION, HEAD = b"\2\xff\xff\xff\xff", 9


def faulty_in(folder):
    """The library in which calls fail, built there: tools/faulty.c."""
    library = Path(folder, "faulty.so")
    subprocess.run(["cc", "-shared", "-fPIC", "-o", library, TOP / "tools" / "faulty.c", "-ldl"], check=True)
    return library


def setup_of(index, count):
    """How the program's node is set up, as docs/FORMATS.md has it."""
    return Setup(PlainScheme(count), index, 0, 4, 2, 10_000, 10, 1000, 2000, 5000, 8000, None, "disabled", True, True)


def program_at(path):
    """The program's path, or the end of the script where there is none."""
    if not os.path.exists(path):
        sys.exit(f"no {path}: rt run in crates/simplex builds the program")
    return os.path.abspath(path)


def replies_of(setup, output):
    """The replies that stand whole in the output, each with its bytes, and what is left behind them."""
    reader, replies = Reader(output, setup.scheme.signature_size, setup.scheme.members), []
    place = 0
    while place < len(output):
        try:
            reply = reader.reply()
        except Unreadable:
            break
        replies.append((reply, output[place : reader.place]))
        place = reader.place
    return replies, output[place:]


def files_of(path):
    """The two files of a record."""
    return Path(path), Path(f"{path}.2")


def remove(path):
    """Removes both files of a record."""
    for file in files_of(path):
        file.unlink(missing_ok=True)


def parted(data):
    """The generation that a file holds, 0 for none, and its record."""
    number = int.from_bytes(data[len(GENERATION):HEAD], "big") if data.startswith(GENERATION) and len(data) > HEAD else 0
    return number, data[HEAD:] if number else data


def held_in(path):
    """What the two files of a record hold: the generation of the one that is read, its record, and that of the other."""
    first, second = (parted(it.read_bytes() if it.exists() else b"") for it in files_of(path))
    read, other = (first, second) if first[0] >= second[0] else (second, first)
    return *read, other[1]


def reach(setup, artifact):
    """Up to which view an artifact reaches: a nullification to the end of its term."""
    is_nullification = isinstance(artifact, Certificate) and artifact.kind == NULLIFICATION
    return setup.terms.next_start(artifact.view) - 1 if is_nullification else artifact.view


def kept(setup, artifacts):
    """What a rewrite keeps of a record: the finalization of the last finalized view, and what reaches above that."""
    last = max([0, *map(finalizes, artifacts)])
    if last == floor_of(artifacts):
        return artifacts
    final = next(it for it in artifacts if finalizes(it) == last)
    return [final, *(it for it in artifacts if reach(setup, it) > last)]


def artifacts_in(setup, data):
    """The artifacts of a record's bytes."""
    found = []
    for place, body in bodies(data):
        reader = Reader(body, setup.scheme.signature_size, 65_535)
        found.append(reader.artifact())
        reader.end()
    return found


def faults_in(told):
    """The error lines of a run, without what it says of the record that it looked at, each on a line of its own."""
    return "".join(line for line in told.decode().splitlines(keepends=True) if not line.startswith("record: "))


def run(program, words, given, folder, **how):
    """The status, the output and the error lines of a run that is given these bytes."""
    ended = subprocess.run([program, *words], input=given, stdout=subprocess.PIPE, stderr=subprocess.PIPE, cwd=folder, **how)
    return ended.returncode, ended.stdout, faults_in(ended.stderr)


def acknowledged(setup, replies):
    """The artifacts that replies told: own votes, certificates and true verdicts, each as its bytes."""
    told = []
    for reply in replies:
        for action in reply.actions:
            match action:
                case Report(Vote(signer=signer)) if signer != setup.me:
                    pass
                case Report(Vote() | Certificate()):
                    told.append(artifact_bytes(action.activity))
                case Report(Certified(notarization)):
                    told.append(artifact_bytes(Verdict(notarization.on.round, True)))
    return told


class Sent:
    """All own votes that ever left."""

    def __init__(self, setup):
        self.setup, self.votes = setup, {}

    def add(self, replies):
        """What is wrong with the votes of these replies."""
        sends = (it for reply in replies for it in reply.actions if isinstance(it, Send) and it.channel == VOTE_CHANNEL)
        return [trouble for it in sends for trouble in self.hear(Reader(it.data, self.setup.scheme.signature_size, 65_535).vote())]

    def hear(self, vote):
        if vote.signer != self.setup.me:
            return [f"a vote of {vote.signer} left"]
        before = self.votes.setdefault((vote.view, vote.kind), vote)
        other = {NULLIFY: FINALIZE, FINALIZE: NULLIFY}.get(vote.kind)
        if before != vote or (vote.view, other) in self.votes:
            return [f"{vote.kind} of view {vote.view} contradicts what left before"]
        return []


class Ended(Exception):
    """The program ended, or was killed."""


class Running:
    """A node that runs over a record, event by event."""

    def __init__(self, program, record, setup, folder, **how):
        self.setup, self.output, self.read = setup, bytearray(), 0
        words = [program, "node", record, str(setup.me), str(setup.scheme.members)]
        self.child = subprocess.Popen(words, stdin=subprocess.PIPE, stdout=subprocess.PIPE, stderr=subprocess.PIPE, cwd=folder, **how)

    def give(self, event):
        """Hands an event in."""
        try:
            self.child.stdin.write(event_bytes(event))
            self.child.stdin.flush()
        except (BrokenPipeError, ValueError) as error:
            raise Ended from error

    def reply(self):
        """The next reply."""
        while True:
            reader = Reader(bytes(self.output[self.read :]), self.setup.scheme.signature_size, self.setup.scheme.members)
            try:
                reply = reader.reply()
                self.read += reader.place
                return reply
            except Unreadable:
                piece = self.child.stdout.read1(1 << 16)
            if not piece:
                raise Ended
            self.output += piece

    def end(self):
        """Ends its input, and answers the status and the error lines."""
        try:
            self.child.stdin.close()
        except BrokenPipeError:
            pass
        told = faults_in(self.child.stderr.read())
        self.child.stdout.close()
        self.child.stderr.close()
        return self.child.wait(), told
