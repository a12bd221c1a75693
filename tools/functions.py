"""The functions of a crate as its text shows them: which lines each stands in, how the prover names it, and which ones it may call."""
import re
from dataclasses import dataclass
from pathlib import Path

FUNCTION = re.compile(r"\s*(?:pub(?:\([^)]*\))? )?(?:final )?(?:const )?fn (\w+)")
BLOCK = re.compile(r"(?:pub )?(?:impl|trait)\b")
IMPL = re.compile(r"impl(?:<.*?>)? (?:([\w:]+)(?:<.*>)? for )?&?([\w:]+)")
TRAIT = re.compile(r"(?:pub )?trait (\w+)")

# How a text names a function: behind its type or module, alone, or of a value, which may be `self` or a part of it.
BEHIND = re.compile(r"(\w+)(?:::<[^()]*?>)?::(\w+)")
ALONE = re.compile(r"(?<![.\w:])([a-z_]\w*)\b")
OF_VALUE = re.compile(r"(?:\bself((?:\.\w+)*)|[^\s.])\s*\.(\w+)(?:::<[^()]*?>)?\(")
# What it calls with no name, and the functions that this stands for.
UNNAMED = {
    r"\?|\binto\(": {"from"},
    r"[!=]=": {"eq"},
    r" [<>]=? |\b(?:min|max|sort\w*)\(": {"cmp", "partial_cmp", "lt"},
    r"\bfor ": {"next", "into_iter"},
    r"\w!\(|to_string\(": {"fmt"},
}


@dataclass(frozen=True)
class Function:
    """A function: its file, its lines from 0, the type and the trait that it stands at, its own name, and its text."""

    path: str
    first: int
    last: int
    type: str
    trait: str
    own_name: str
    text: str

    def name(self):
        """How the prover names it: behind its type followed by its trait, or behind its file's module."""
        owner = self.type + self.trait or self.module()
        return f"{owner}::{self.own_name}" if owner else self.own_name

    def module(self):
        module = Path(self.path).stem
        return "" if module in ("lib", "main") else module

    def has(self, path, line):
        return path == self.path and self.first <= line <= self.last

    def may_call(self, other):
        """Whether the text may call the other one, as far as names tell."""
        if other.own_name not in self.text:
            return False
        owners = {other.type, other.trait} - {""} or {other.module(), "crate", "super", "self"}
        for owner, named in BEHIND.findall(self.text):
            if named == other.own_name and (owner in owners or owner == "Self" or len(owner) == 1):
                return True
        if not other.type and not other.trait:
            return other.own_name in ALONE.findall(self.text)
        for it in OF_VALUE.finditer(self.text):
            is_own = None if it[1] is None else not it[1]
            if it[2] == other.own_name and is_own in (None, other.type in ("", self.type)):
                return True
        return any(other.own_name in names and re.search(sign, self.text) for sign, names in UNNAMED.items())


def functions_in(crate):
    """The functions of the crate's files."""
    found = []
    for file in sorted((crate / "src").rglob("*.rt")):
        path, lines = str(file.relative_to(crate)), file.read_text().split("\n")
        for first, line in enumerate(lines):
            if named := FUNCTION.match(line):
                last = end_of(lines, first)
                text = "\n".join(it.partition("//")[0] for it in lines[first : last + 1])
                found.append(Function(path, first, last, *owner_of(lines[: first + 1]), named[1], text))
    return found


def end_of(lines, first):
    """The last line of the function that begins there: its body's brace, or the end of what has no body."""
    margin = re.match(r" *", lines[first])[0]
    is_open = False
    for at in range(first, len(lines)):
        is_deeper = lines[at].startswith(margin + " ")
        if not is_deeper and re.match(rf"{margin}(\}}|.*\{{.*\}}$)", lines[at]) or not is_open and lines[at].endswith(";"):
            return at
        is_open = is_open or not is_deeper and lines[at].endswith("{")
    return len(lines) - 1


def owner_of(lines):
    """The type and the trait that the last line's function stands at."""
    if lines[-1].startswith(" "):
        block = next((it for it in reversed(lines) if BLOCK.match(it)), "")
        if types := IMPL.match(block):
            return types[2].split("::")[-1], (types[1] or "").split("::")[-1]
        if named := TRAIT.match(block):
            return "", named[1]
    return "", ""


def reach(functions):
    """For each function those that it may call, and that they may call in turn."""
    called = {it: [other for other in functions if it != other and it.may_call(other)] for it in functions}
    reached = {}
    for function in functions:
        found, left = set(), [function]
        while left:
            for it in called[left.pop()]:
                if it not in found:
                    found.add(it)
                    left.append(it)
        reached[function] = found
    return reached
