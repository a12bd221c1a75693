"""Every number on the pages, and what holds it: tools/check-pages asks here.

A figure is a run of digits, or a number word from three on: one, two, first, second, both, half and twice are words. Each is held by

- a form: the number of an item, one more than the last one's; a name with digits (`u64`, Ed25519, SHA-256), which stands in the tree;
  a formula of the protocol (f+1, n-2f, (n-1)/3);
- tools/make-pages, where it makes a part of a page;
- a quotation: lines of a code block that stand so in the tree, a row of a driver's script, an example as bench/vectors.py spells it;
- a rule, which computes it: RULES of tools/figure_rules.py, or a line `PHRASE <- FILE: TEXT` of the register, whose TEXT has to stand in
  the FILE, and to have each figure of the phrase in it, as a number, whatever its spelling and unit;
- the register, tools/figures.txt, word for word: a phrase, or the sum of a table, under whose figures they are.

So a figure that is turned is told by whatever held it. A rule that finds nothing to hold, and a phrase that stands on its page never, or
not as often as the register says, is an error as well.
"""
import functools
import hashlib
import re
from dataclasses import dataclass, field
from pathlib import Path

TOP = Path(__file__).resolve().parent.parent
REGISTER = TOP / "tools/figures.txt"

ONES = "zero one two three four five six seven eight nine ten eleven twelve thirteen fourteen fifteen sixteen seventeen eighteen nineteen".split()
TENS = "twenty thirty forty fifty sixty seventy eighty ninety".split()
NUMBER_WORDS = {word: at for at, word in enumerate(ONES)} | {word: 10 * at for at, word in enumerate(TENS, 2)}
NUMBER_WORDS |= {"hundred": 100, "thousand": 1000, "million": 10**6}
ORDINALS = "third fourth fifth sixth seventh eighth ninth tenth twelfth hundredth thousandth quarter".split()
WORDS = "|".join(it for it in [*NUMBER_WORDS, *ORDINALS] if it not in ("zero", "one", "two"))
FIGURE = re.compile(rf"\d+(?:[.,·]\d+)*|\b(?:{WORDS})s?\b", re.IGNORECASE)
NAME = re.compile(r"\b[A-Za-z_]\w*-\d+\b|\b(?=\w*\d)[A-Za-z_]\w*\b")
LINK = re.compile(r"\]\([^)\s]+\)")
FORMULA = re.compile(r"\bf\+1\b|\bn-2f\b|\(n-1\)/3(?!\d)")
UNITS = {
    "KiB": (2**10,), "MiB": (2**20,), "GiB": (2**30,), "kB": (1000,), "MB": (10**6,), "GB": (10**9,), "s": (1, 1000), "seconds": (1, 1000),
    "minutes": (1, 60, 60_000), "ms": (1,), "%": (1,),
}
NUMBER = re.compile(
    rf"(?P<power>\d+) ?(?:\^|\*\*) ?(?P<of>\d+)(?:-(?P<less>\d+))?|(?P<base>\d+) << (?P<shift>\d+)|0x(?P<hex>[0-9a-f_]+)|0o(?P<octal>\d+)"
    rf"|(?P<digits>\d[\d_]*(?:,\d{{3}})*(?:\.\d+)?)|\b(?P<word>{WORDS}|one|two)s?\b",
    re.IGNORECASE,
)


@dataclass
class Block:
    """A paragraph, an item, a row of a table, a heading or a code block, its blanks made one; and the spans of it that something holds."""

    kind: str
    line: int
    text: str
    table: int = 0
    held: list[tuple[int, int, str]] = field(default_factory=list)

    def hold(self, span, by):
        self.held.append((*span, by))

    def holder(self, span):
        return next((by for first, last, by in self.held if first <= span[0] and span[1] <= last), None)


def blocks_of(text):
    """A page in blocks."""
    blocks, gathered, kind, line, table = [], [], "", 0, 0

    def flush():
        rows = [" ".join(it.split()) for it in gathered if it.strip()]
        if rows:
            blocks.append(Block(kind, line, ("\n" if kind == "code" else " ").join(rows), table if kind == "row" else 0))
        gathered.clear()

    for number, raw in enumerate(text.split("\n"), 1):
        if not raw.strip():
            if kind != "code":
                flush()
                kind = ""
            continue
        found = "code" if raw.startswith("    ") and kind != "prose" else "row" if raw.startswith("|") else "heading" if raw[0] == "#" else "prose"
        if found != kind or found in ("row", "heading") or found == "prose" and re.match(r" {0,3}(?:- |\d+\. )", raw):
            flush()
            table += found == "row" and kind != "row"
            kind, line = found, number
        gathered.append(raw)
    flush()
    return blocks


def numbers_in(text):
    """The numbers that a text has, each with the span and the values that it may stand for, by its unit."""
    for it in NUMBER.finditer(text):
        if it["power"]:
            value = int(it["power"]) ** int(it["of"]) - int(it["less"] or 0) if int(it["of"]) < 100 else 0
        elif it["shift"]:
            value = int(it["base"]) << int(it["shift"])
        elif it["hex"]:
            value = int(it["hex"].replace("_", "") or "0", 16)
        elif it["octal"]:
            value = int(it["octal"])
        elif it["digits"]:
            plain = it["digits"].replace("_", "").replace(",", "").rstrip(".")
            value = float(plain) if "." in plain else int(plain)
        else:
            value = NUMBER_WORDS.get(it["word"].lower(), -1)  # a third is no three
        unit = re.match(r"\W{0,3}(?:to [\d.,]+ ?)?([A-Za-z]+|%)", text[it.end():])
        yield it.span(), {value * scale for scale in UNITS.get(unit[1] if unit else "", (1,))} | {value}


def value_of(text):
    """What one figure, or number word, says."""
    return next((max(values) if len(values) == 1 else min(values) for _, values in numbers_in(text)), None)


# ---- what stands in the tree


@functools.cache
def read(path):
    return (TOP / path).read_text(errors="replace")


def flat(text):
    return "\n".join(filter(None, (" ".join(it.split()) for it in text.split("\n"))))


CODE = [
    "crates/*/src/**/*.rt", "crates/*/specs/*.antt", "crates/embedding/stdout", "demo/hosting/*.py", "demo/*", "host/crates/**/*.rs",
    "bindings/**/*.rs", "bindings/c/*.h",
]
NAMED = [
    *CODE, "crates.txt", "voumlis", "tools/*", "tools/launcher/*.py", "tools/member/*.py", "bench/*", "bench/baseline/*.rs", "host/*", "host/bench/*",
    "host/examples/*", "dist/*/manifest.json", "docs/vectors.json",
]


@functools.cache
def texts(kinds):
    files = sorted({path for it in kinds for path in TOP.glob(it) if path.is_file() and path != REGISTER})
    return [path.read_text(errors="replace") for path in files]


@functools.cache
def sources():
    """The code that pages quote, file after file, its blanks made one."""
    return "\n\f\n".join(["", *(flat(it) for it in texts(tuple(CODE))), ""])


@functools.cache
def names():
    """The words with digits of the tree."""
    return {word for text in texts(tuple(NAMED)) for word in NAME.findall(text)}


# ---- what holds figures


def hold_forms(blocks):
    last = 0
    for block in blocks:
        item = re.match(r"(\d+)\. ", block.text) if block.kind == "prose" else None
        if item and int(item[1]) == last + 1:
            block.hold(item.span(1), "a form")
        if item or block.kind == "heading" or block.kind == "prose" and not re.match("- ", block.text) and last and not item:
            last = int(item[1]) if item else 0
        for it in NAME.finditer(block.text):
            if it[0] in names():
                block.hold(it.span(), "a form")
        for it in [*FORMULA.finditer(block.text), *LINK.finditer(block.text)]:
            block.hold(it.span(), "a form")


def hold_made(page, text, blocks):
    """What tools/make-pages makes of a page."""
    from scripts import load

    made = load("make-pages").MADE.get(page)
    part = load("make-pages").PART.search(text) if made else None
    if part and part[2].strip() == made().strip():
        first, last = (text.count("\n", 0, it) + 1 for it in part.span(2))
        for block in blocks:
            if first <= block.line <= last:
                block.hold((0, len(block.text)), "a rule")
    elif made:
        yield f"{page}: stale: run tools/make-pages"


def hold_quotations(blocks):
    """Code blocks, or two lines of one and more, that stand in the tree."""
    for block in (it for it in blocks if it.kind == "code" and FIGURE.search(it.text)):
        lines = block.text.split("\n")
        starts = [sum(len(it) + 1 for it in lines[:at]) for at in range(len(lines))]
        first = 0
        while first < len(lines):
            past = next((at for at in range(first, len(lines)) if lines[at] not in quotable()), len(lines))
            while past > first + 1 and f"\n{chr(10).join(lines[first:past])}\n" not in sources():
                past -= 1
            if past > first + 1:
                block.hold((starts[first], starts[past - 1] + len(lines[past - 1])), "a quotation")
            first = max(past, first + 1)


@functools.cache
def quotable():
    return set(sources().split("\n"))


@dataclass(frozen=True)
class Entry:
    """A line of the register."""

    page: str
    source: str
    times: int
    phrase: str
    file: str = ""
    anchor: str = ""
    table: str = ""


@functools.cache
def register():
    entries, troubles, page, source = [], [], "", ""
    for number, line in enumerate(REGISTER.read_text().split("\n"), 1):
        line = line.strip()
        if not line or line[0] == "#":
            continue
        if line[0] == "[":
            page, source = line.strip("[]"), ""
        elif line.startswith("= "):
            source = line[2:]
        elif found := re.match(r"table (\w{12}) (.*)", line):
            entries.append(Entry(page, source, 1, found[2], table=found[1]))
        else:
            times, phrase, file, anchor = re.fullmatch(r"(?:\((\d+)\) )?(.*?)(?: <- (\S+): (.*))?", line).groups()
            entries.append(Entry(page, source, int(times or 1), phrase, file or "", anchor or ""))
            if not FIGURE.search(phrase):
                troubles.append(f"tools/figures.txt:{number}: no figure in {phrase!r}")
        if not source and line[0] not in "[" and not entries[-1].file:
            troubles.append(f"tools/figures.txt:{number}: whose figure is {line!r}?")
    return entries, troubles


def sum_of(rows):
    return hashlib.sha256("\n".join(rows).encode()).hexdigest()[:12]


def hold_registered(page, blocks):
    tables = {}
    for block in blocks:
        if block.table:
            tables.setdefault(block.table, []).append(block)
    for entry in (it for it in register()[0] if it.page == page):
        if entry.table:
            sums = {sum_of([it.text for it in rows]): rows for rows in tables.values() if rows[0].text == entry.phrase}
            if entry.table not in sums:
                yield f"{page}: no table {entry.phrase!r} has the sum {entry.table} of tools/figures.txt, but {' or '.join(sums) or 'there is none'}"
            for block in sums.get(entry.table, ()):
                block.hold((0, len(block.text)), "the register")
            continue
        met = 0
        for block in blocks:
            at = block.text.find(entry.phrase)
            while at >= 0:
                end = at + len(entry.phrase)
                before, after = block.text[at - 1:at], block.text[end:end + 2]
                if not (entry.phrase[0].isdigit() and re.match(r"[\d.,]", before)) and not (entry.phrase[-1].isdigit() and re.match(r"\d|[.,]\d", after)):
                    met += 1
                    block.hold((at, end), "a rule" if entry.file else "the register")
                at = block.text.find(entry.phrase, at + 1)
        if met != entry.times:
            yield f"{page}: {entry.phrase!r} stands there {met} times, in tools/figures.txt {entry.times}"
        if entry.file:
            yield from anchored(entry)


@functools.cache
def anchored(entry):
    """Whether the tree has a phrase's figures where the register says."""
    if not (TOP / entry.file).is_file() or entry.anchor not in flat(read(entry.file)):
        return [f"{entry.page}: {entry.phrase!r}: {entry.file} doesn't have {entry.anchor!r}"]
    there = set().union(*(values for _, values in numbers_in(entry.anchor)), ())
    spans = [it.span() for it in [*NAME.finditer(entry.phrase), *FORMULA.finditer(entry.phrase)]]
    missed = [entry.phrase[a:b] for (a, b), values in numbers_in(entry.phrase)
              if not values & there and FIGURE.search(entry.phrase[a:b]) and not any(c <= a and b <= d for c, d in spans)]
    return [f"{entry.page}: {entry.phrase!r}: {it} isn't in {entry.file}: {entry.anchor}" for it in missed]


def hold_ruled(page, blocks):
    """What rules compute. Each names a page, what stands there, and what its groups have to say."""
    from figure_rules import RULES

    for rule in RULES:
        if rule.page != page:
            continue
        met = 0
        for block in blocks:
            for it in re.finditer(rule.pattern, block.text):
                met += 1
                values = rule.values(it)
                for group, value in enumerate(values if isinstance(values, tuple) else (values,), 1):
                    if value is None:
                        continue
                    block.hold(it.span(group), "a rule")
                    if not (it[group] == value if isinstance(value, str) else value_of(it[group]) == value):
                        yield f"{page}:{block.line}: {it[group]} in {it[0]!r}, but the tree says {value}"
        if not met:
            yield f"{page}: no place for the rule {rule.pattern}"


def unheld(page, blocks):
    """Figures that nothing holds, each with the words around it."""
    for block in blocks:
        for it in FIGURE.finditer(block.text):
            by = block.holder(it.span())
            if not by:
                around = block.text[max(0, it.start() - 30):it.end() + 25].replace("\n", " / ")
                yield f"{page}:{block.line}: nothing holds {it[0]!r} in {around!r} (see tools/figures.py)"


def to_register(page, text):
    """Lines for the register: of each figure that nothing holds the words around it, those that stand side by side as one phrase; of a
    table with one its sum."""
    blocks = blocks_of(text)
    hold_forms(blocks)
    hold_quotations(blocks)
    for _ in (*hold_made(page, text, blocks), *hold_ruled(page, blocks), *hold_registered(page, blocks)):
        pass
    phrases, tables = {}, {}
    for block in blocks:
        figures = [it.span() for it in FIGURE.finditer(block.text) if not block.holder(it.span())]
        if figures and block.table:
            tables[block.table] = [it.text for it in blocks if it.table == block.table]
            continue
        words, last = [it.span() for it in re.finditer(r"\S+", block.text)], None
        for first, end in figures:
            near = [at for at, (a, b) in enumerate(words) if a < end and first < b]
            row = [at for at in (near[0] - 1, *near, near[-1] + 1) if 0 <= at < len(words) and "\n" not in block.text[min(words[at][0], first):max(words[at][1], end)]]
            while row[0] and re.match(r"=|#|\[|\(\d+\) |table ", block.text[words[row[0]][0]:]):
                row.insert(0, row[0] - 1)
            last = (last[0], row[-1]) if last and row[0] <= last[1] + 1 else (row[0], row[-1])
            phrases[block.line, last[0]] = block.text[words[last[0]][0]:words[last[1]][1]].rstrip(".,;:")
    yield from (f"table {sum_of(rows)} {rows[0]}" for rows in tables.values())
    for phrase in dict.fromkeys(phrases.values()):
        times = sum(it.text.count(phrase) for it in blocks)
        yield f"({times}) {phrase}" if times > 1 else phrase


def check(pages, count=None, whole=True):
    """What is wrong with the figures of these pages (texts by their names), which are all there are if whole; and how many each way holds."""
    troubles, held = list(register()[1]), {}
    for page, text in pages.items():
        blocks = blocks_of(text)
        hold_forms(blocks)
        hold_quotations(blocks)
        troubles += [*hold_made(page, text, blocks), *hold_ruled(page, blocks), *hold_registered(page, blocks), *unheld(page, blocks)]
        for block in blocks:
            for it in FIGURE.finditer(block.text):
                by = block.holder(it.span()) or "nothing"
                held[by] = held.get(by, 0) + 1
    troubles += [f"tools/figures.txt: there is no page {it}" for it in sorted({it.page for it in register()[0]} - set(pages)) if whole]
    if count is not None:
        count.update(held)
    return troubles
