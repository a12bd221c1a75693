"""A script of calls with their answers: what `stdin` and `stdout` of a driver are."""

import importlib.machinery
import importlib.util
from pathlib import Path

TOP = Path(__file__).resolve().parent.parent


def script_beside(name):
    """A script beside this one, which has no ending to import it by."""
    loader = importlib.machinery.SourceFileLoader(name.replace("-", "_"), str(TOP / "tools" / name))
    made = importlib.util.module_from_spec(importlib.util.spec_from_loader(loader.name, loader))
    loader.exec_module(made)
    return made


class Script:
    def __init__(self):
        self.calls = []
        self.answers = []

    def note(self, text):
        """A comment, which is echoed."""
        self.calls.append("# " + text)
        self.answers.append("# " + text)

    def ask(self, call, answer):
        self.calls.append(call)
        self.answers.append(str(answer))

    def put(self, rows):
        """Calls with their answers."""
        for call, answer in rows:
            self.ask(call, answer)

    def reset(self):
        self.ask("reset", "ok")

    def write(self, crate):
        self.write_to(TOP / "crates" / crate)

    def write_to(self, folder):
        for name, lines in (("stdin", self.calls), ("stdout", self.answers)):
            text = "".join(line + "\n" for line in lines)
            (folder / name).write_text(text, encoding="utf-8")
            print(f"{folder.name}/{name}: {len(lines)} lines, {len(text)} bytes")


def listed(numbers):
    """Numbers as a word."""
    return ",".join(map(str, numbers)) or "-"


def digits(data):
    """Bytes as a word."""
    return data.hex() or "-"


def truth(is_so):
    return "true" if is_so else "false"


def sum_of(data, before=0):
    """The sum by which long bytes are told."""
    for byte in data:
        before = (before * 31 + byte) % 65521
    return before


def quoted(text):
    """A text on one line, or the length and the sum of a long one."""
    data = text.encode()
    if len(data) > 1000:
        return f"{len(data)} {sum_of(data)}"
    return '"' + text.replace("\n", "\\n") + '"'
