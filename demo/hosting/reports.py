"""The log of a member's reports: a stream of them in a file, one behind the other, as `simplex audit` reads it."""
from collections.abc import Iterator
from pathlib import Path

from member.codec import Reader, Unreadable, report_bytes
from member.values import Evidence


class ReportLog:
    """What a node tells anew isn't written again: of its record when it is opened again, and evidence each time that a liar repeats
    itself."""

    def __init__(self, path: Path, signature: int, members: int) -> None:
        self.path, self.signature, self.members = path, signature, members
        path.touch()
        reports = list(self)
        self.found = set(reports)
        # A host that died inside a write left a part: an audit would stop there.
        with path.open("r+b") as file:
            file.truncate(sum(map(len, reports)))
        self.file = path.open("ab", buffering=0)

    def __iter__(self) -> Iterator[bytes]:
        """The whole reports of the file."""
        data = self.path.read_bytes()
        reader = Reader(data, self.signature, self.members)
        place = 0
        while place < len(data):
            try:
                reader.report()
            except Unreadable:
                return
            yield data[place : reader.place]
            place = reader.place

    def append(self, report: object) -> None:
        spelled = report_bytes(report)
        if spelled in self.found:
            return
        self.file.write(spelled)
        # Anything else a node reports once in a life.
        if isinstance(report, Evidence):
            self.found.add(spelled)

    def close(self) -> None:
        self.file.close()
