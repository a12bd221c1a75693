"""A member that runs by a file of settings, for scripts that try it: a process `simplex_tool member FILE`, fed event by event."""
import contextlib
import os
import subprocess
import sys
from pathlib import Path

from member.codec import Reader, Unreadable, event_bytes
from node_program import TOP

BUILT = TOP / "crates/simplex_tool/out/simplex_tool"
SIGNATURE = 32


class Otherwise(Exception):
    """What isn't as it has to be."""


def text_of(settings):
    return "".join(f"{key} = {value}\n" for key, value in settings.items())


def tool_at(path):
    """The program's path, or the end of the script where there is none."""
    if not os.path.exists(path):
        sys.exit(f"no {path}: rt run in crates/simplex_tool builds the program")
    return os.path.abspath(path)


class Member:
    """A member's process, and what it told. Its record is the file INDEX.record of the folder."""

    def __init__(self, program, folder, index, settings):
        Path(folder, f"{index}.toml").write_text(text_of({**settings, "member": str(index), "record": f'"{index}.record"'}))
        self.told = Path(folder, f"{index}.told").open("wb+")
        words = [program, "member", f"{index}.toml"]
        self.child = subprocess.Popen(words, cwd=folder, stdin=subprocess.PIPE, stdout=subprocess.PIPE, stderr=self.told)
        self.output = b""

    def reply(self):
        """The next reply."""
        while True:
            reader = Reader(self.output, SIGNATURE, 65_535)
            try:
                reply = reader.reply()
            except Unreadable:
                piece = os.read(self.child.stdout.fileno(), 1 << 16)
                if not piece:
                    raise Otherwise("a member ended with status {}: {}".format(*self.end())) from None
                self.output += piece
                continue
            self.output = self.output[reader.place :]
            return reply

    def step(self, event):
        with contextlib.suppress(BrokenPipeError):
            self.child.stdin.write(event_bytes(event))
            self.child.stdin.flush()
        return self.reply()

    def end(self):
        """Its status, and what it told."""
        with contextlib.suppress(BrokenPipeError):
            self.child.stdin.close()
        status = self.child.wait()
        self.told.seek(0)
        return status, self.told.read().decode()

    def kill(self):
        self.child.kill()
        self.child.wait()
