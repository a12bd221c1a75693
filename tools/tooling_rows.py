"""What crates/run_cli is asked of the program of tools, with the answers: rows that make-cli-script puts behind its own.

The answers come from this file, which is written from docs/FORMATS.md ("simplex_tool"), over audited.py for evidence,
bench/vectors.py for what is read, and the rules in make-record-script for the first refused entry. It never runs the
driver. Inputs are those of docs/vectors.json, and some that are made up here.
"""

import json
import random

import audited
from artifact_bytes import artifact_of, certificate, certification, proposal, round_of, vote
from script_rows import TOP, digits, quoted, script_beside, sum_of

HELP = """usage: simplex_tool [--json] COMMAND, under the plain scheme over the base simplex
  evidence COUNT              the evidence that simplex audit finds in reports on standard input, as reports
  dump reports COUNT          reports on standard input, a line each
  dump record RECORD          the record in a file, a line for each entry
  check INDEX COUNT RECORD    the first entry that a lawful record of this member refuses
  --help, --version
"""
VERSION = "simplex_tool: version 1 of the formats\n"
TERM = 4


journal, rules = script_beside("make-journal-script"), script_beside("make-record-script")


def line(is_json, kind, fields):
    """A kind, and names with values."""
    if is_json:
        told = json.dumps({"kind": kind} | {name: str(value) for name, value in fields}, separators=(",", ":"))
        assert len(json.loads(told)) == 1 + len(fields), told
        return told + "\n"
    return " ".join([kind] + [f"{name} {value}" for name, value in fields]) + "\n"


def place_line(is_json, word, place):
    return line(True, word, [("byte", place)]) if is_json else f"{word} at byte {place}\n"


# ---- messages as fields, from what bench/vectors.py reads


def round_fields(round_):
    return [("epoch", round_[1]), ("view", round_[2])]


def on_fields(on):
    return round_fields(on) if on[0] == "round" else round_fields(on[1]) + [("parent", on[2]), ("payload", on[3].hex())]


def signed_fields(attestation):
    return [("signer", attestation[1]), ("signature", attestation[2].hex())]


def other_fields(second):
    _, (_, _, parent, payload), attestation = second
    return [("other-parent", parent), ("other-payload", payload.hex()), ("other-signature", attestation[2].hex())]


def message_line(is_json, message):
    kind, *items = message
    if kind == "certified":
        return line(is_json, kind, certificate_fields(items[0]))
    if kind == "certification":
        return line(is_json, kind, round_fields(items[0]) + [("verdict", str(items[1]).lower())])
    if len(items) == 2 and items[1][0] == "attestation":
        return line(is_json, kind, on_fields(items[0]) + signed_fields(items[1]))
    if len(items) == 2 and items[1][0] == "list":
        return line(is_json, kind, certificate_fields(message))
    first, second = items
    return line(is_json, kind, on_fields(first[1]) + signed_fields(first[2]) + other_fields(second))


def certificate_fields(message):
    _, on, listed = message
    return on_fields(on) + [(f"signature-{it[1]}", it[2].hex()) for it in listed[1:]]


# ---- answers


def evidence(count, data):
    found, fault = audited.audit(audited.Plain, count, data)
    return b"".join(map(audited.report, found)), fault


def reports(is_json, count, data):
    messages, fault = audited.messages_of(audited.Plain, count, data)
    lines = "".join(message_line(is_json, it) for it in messages)
    return lines + (place_line(is_json, "fault", fault) if fault is not None else ""), fault


def entries(data):
    """The bodies of a record's artifacts, or the place of a foreign one."""
    found, _ = journal.reading(data)
    for place, body in found:
        if artifact_of(body, 65535) is None:
            return None, place
    return [body for _, body in found], None


def record(is_json, data):
    bodies, foreign = entries(data)
    if bodies is None:
        return place_line(is_json, "foreign", foreign), foreign
    read = [audited.vectors.read("Artifact", body, 65535)[0] for body in bodies]
    return "".join(message_line(is_json, it) for it in read), None


def check(is_json, index, count, data):
    bodies, foreign = entries(data)
    if bodies is None:
        return place_line(is_json, "foreign", foreign), foreign
    kept = rules.Record(count, TERM, index, 0)
    kept.list = [rules.artifact_of_bytes(body, 65535) for body in bodies]
    first = kept.first_refused()
    if first == "-":
        return line(is_json, "lawful", [("entries", len(bodies))]), None
    return line(is_json, "refused", [("entry", first)]), int(first)


def number(word, least, most):
    if not word.isascii() or not word.isdecimal() or str(int(word)) != word or not least <= int(word) <= most:
        raise ValueError(word)
    return int(word)


def answer(words, data):
    """The output and what is named, or nothing where the words are no call."""
    is_json = words[:1] == ["--json"]
    words = words[1:] if is_json else words
    try:
        match words:
            case ["--help"] if not is_json:
                return HELP.encode(), None
            case ["--version"] if not is_json:
                return VERSION.encode(), None
            case ["evidence", count] if not is_json:
                return evidence(number(count, 1, 65535), data)
            case ["dump", "reports", count]:
                text, named = reports(is_json, number(count, 1, 65535), data)
            case ["dump", "record", _]:
                text, named = record(is_json, data)
            case ["check", index, count, _]:
                count = number(count, 1, 65535)
                text, named = check(is_json, number(index, 0, count - 1), count, data)
            case _:
                return None
    except ValueError:
        return None
    return text.encode(), named


def told(data):
    """Bytes as an answer tells them."""
    try:
        return quoted(data.decode())
    except UnicodeDecodeError:
        return digits(data) if len(data) <= 1000 else f"{len(data)} {sum_of(data)}"


def needs_input(words):
    return not {"--help", "--version"} & set(words)


def given(script, data, fails, room):
    """The streams: an input, of which each read may fail, and how many bytes the output takes."""
    script.reset()
    if data:
        script.ask(f"append 1 {digits(data)}", len(data))
    if fails:
        script.ask("reader - - other 0", "ok")
    if room is not None:
        script.ask(f"output - {room} never", "ok")


def run(script, words, data=b"", fails=False, room=None):
    """The program with these words, over such streams; what is left of the input stands behind the status."""
    given(script, data, fails, room)
    call = "tool" + "".join(f" {it or '-'}" for it in words)
    got = answer(words, data)
    if got is None:
        return script.ask(call, f"2 {len(data)} {told(b'')} {told(HELP.encode())}")
    if fails and needs_input(words):
        return script.ask(call, f"1 {len(data)} {told(b'')} {told(b'error: device' + bytes([10]))}")
    output, named = got
    left = 0 if needs_input(words) else len(data)
    if room is not None and room < len(output):
        return script.ask(call, f"1 {left} {told(output[:room])} {told(b'error: write' + bytes([10]))}")
    return script.ask(call, f"{0 if named is None else 3} {left} {told(output)} {told(b'')}")


# ---- rows


def entry(body):
    return b"\x01" + len(body).to_bytes(4, "big") + body


def written(bodies):
    return b"".join(map(entry, bodies)) + b"\0"


def words_of_calls(script):
    script.note("which words are a call")
    for words in (
        [], [""], ["--help"], ["--version"], ["--json"], ["--json", "--help"], ["--json", "--version"], ["--help", "4"], ["help"],
        ["evidence"], ["evidence", "4"], ["evidence", "0"], ["evidence", "65535"], ["evidence", "65536"], ["evidence", "04"],
        ["evidence", "4", "4"], ["--json", "evidence", "4"], ["dump"], ["dump", "4"], ["dump", "reports"], ["dump", "reports", "4"],
        ["dump", "reports", "0"], ["dump", "reports", "+4"], ["dump", "record"], ["dump", "record", "r"], ["dump", "record", ""],
        ["dump", "records", "r"], ["dump", "record", "r", "4"], ["--json", "dump", "reports", "4"], ["--json", "dump", "record", "r"],
        ["dump", "--json", "record", "r"], ["--json", "--json", "dump", "record", "r"], ["check", "0", "4", "r"], ["check", "3", "4", "r"],
        ["check", "4", "4", "r"], ["check", "0", "0", "r"], ["check", "0", "4"], ["check", "0", "4", "r", "s"], ["check", "-1", "4", "r"],
        ["--json", "check", "0", "1", "r"], ["checks", "0", "4", "r"], ["audit", "4"],
    ):
        run(script, words)


def streams(script):
    script.note("reads that fail, outputs that take too little")
    data = bytes.fromhex(VECTORS["audits"][1]["bytes"])
    one = written([certification(0, 3, True)])
    for words, given in ((["evidence", "4"], data), (["dump", "reports", "4"], data), (["dump", "record", "r"], one), (["check", "0", "4", "r"], one), (["--help"], b"")):
        run(script, words, given, fails=True)
        for room in (0, 1, 20, 10000):
            run(script, words, given, room=room)


VECTORS = json.loads((TOP / "docs/vectors.json").read_text(encoding="ascii"))


def of_vectors(script):
    script.note("the audits of docs/vectors.json")
    for row in VECTORS["audits"]:
        data = bytes.fromhex(row["bytes"])
        assert evidence(row["members"], data) == (bytes.fromhex("".join(row["evidence"])), row["fault"])
        for words in (["evidence"], ["dump", "reports"], ["--json", "dump", "reports"]):
            run(script, [*words, str(row["members"])], data)
        found = bytes.fromhex("".join(row["evidence"]))
        assert evidence(row["members"], found) == (found, None)
        for words in (["evidence"], ["dump", "reports"]):
            run(script, [*words, str(row["members"])], found)
    script.note("its reports, each alone")
    for row in VECTORS["read"]:
        if row["type"] == "report" and row["scheme"] == "plain":
            for words in (["dump", "reports"], ["--json", "dump", "reports"]):
                run(script, [*words, str(row["members"])], bytes.fromhex(row["bytes"]))
    script.note("its artifacts, each the only one of a record")
    for row in VECTORS["read"]:
        if row["type"] == "artifact" and row["scheme"] == "plain":
            for words in (["dump", "record", "r"], ["--json", "dump", "record", "r"]):
                run(script, words, written([bytes.fromhex(row["bytes"])]))
    script.note("its records")
    for row in VECTORS["records"]:
        for words in (["dump", "record", "r"], ["--json", "dump", "record", "r"], ["check", "1", "4", "r"], ["--json", "check", "1", "4", "r"]):
            run(script, words, bytes.fromhex(row["disk"]))


def records(script, chance):
    script.note("records: two views that are finalized, and what may not stand there")
    first, second = proposal(0, 1, 0, 0xAA), proposal(0, 2, 1, 0xBB)
    lawful = [
        vote("notarize", first, 1), certificate("notarization", first, (0, 1, 2)), certification(0, 1, True),
        vote("finalize", first, 1), certificate("finalization", first, (0, 1, 3)), vote("notarize", second, 1),
        vote("nullify", round_of(0, 2), 1), certificate("nullification", round_of(0, 2), (0, 1, 2)),
    ]
    strange = [
        vote("notarize", first, 2), vote("finalize", second, 1), certificate("notarization", second, (0, 1)), certification(0, 5, True),
        vote("nullify", round_of(0, 9), 1), certificate("nullification", round_of(1, 2), (0, 1, 2)), vote("notarize", proposal(0, 4, 2, 0xAA), 1),
    ]
    for size in range(len(lawful) + 1):
        run(script, ["check", "1", "4", "r"], written(lawful[:size]))
    for owner, count in ((0, 4), (2, 4), (1, 3), (1, 5), (1, 7)):
        run(script, ["check", str(owner), str(count), "r"], written(lawful))
    for it in strange:
        for place in range(len(lawful) + 1):
            run(script, [*chance.choice([[], ["--json"]]), "check", "1", "4", "r"], written(lawful[:place] + [it] + lawful[place:]))
    script.note("made up: entries in any order")
    for _ in range(60):
        run(script, ["check", "1", "4", "r"], written(chance.choices(lawful + strange, k=chance.randrange(1, 9))))


def made_up(script, chance):
    script.note("made up: reports of every kind, some of liars, some broken")
    shapes = script_of_reports(chance)
    for data in shapes:
        for words in (["evidence", "3"], ["dump", "reports", "3"]):
            run(script, words, data)


def script_of_reports(chance):
    import check_baseline

    return [check_baseline.some_input(random.Random(chance.randrange(10**6))) for _ in range(60)]


def sizes(script):
    script.note("the messages of docs/vectors.json: whole, with a byte behind, a byte short, and what is refused")
    kinds = ("vote", "certificate", "artifact", "report")
    for row in VECTORS["read"]:
        if row["type"] in kinds and row["scheme"] == "plain":
            call, data = f"size {row['type']} {row['members']}", bytes.fromhex(row["bytes"])
            for given, answer in ((data, len(data)), (data + b"\xff", len(data)), (data[:-1], "End")):
                script.ask(f"{call} {digits(given)}", answer)
    for row in VECTORS["refused"]:
        if row["type"] in kinds and row["scheme"] == "plain":
            script.ask(f"size {row['type']} {row['members']} {row['bytes'] or '-'}", row["trouble"])


def tooling_rows(script):
    """All of them."""
    chance = random.Random(54)
    sizes(script)
    words_of_calls(script)
    streams(script)
    of_vectors(script)
    records(script, chance)
    made_up(script, chance)
