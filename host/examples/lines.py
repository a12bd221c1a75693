#!/usr/bin/env python3
"""host/examples/lines.py PORT [MEMBER]: lines in one order, agreed on by a committee: an application in another language.

`voumlisd` asks it over HTTP on this port of 127.0.0.1, as host/crates/voumlisd/src/remote.rs says. MEMBER is the member's own address of
HTTP (127.0.0.1:7104), which is told where there is a line to propose; without it the member asks at its own pace. For clients:

    curl --data-binary 'a line' http://127.0.0.1:8000/lines      answers when it is final
    curl http://127.0.0.1:8000/lines                             the final lines, in their order

It keeps nothing on a disk: where it is started anew, its member tells it the state again.
"""
import http.client
import json
import secrets
import sys
import threading
from http.server import BaseHTTPRequestHandler, ThreadingHTTPServer

BEGIN = {"view": 0, "payload": "00" * 32}
MOST, PATIENCE = 1000, 30


class Refused(Exception):
    """A status, and why."""


class Lines:
    """The state behind the last final block, and what waits for a block. A line has a number that nobody else draws."""

    def __init__(self):
        self.applied, self.final = BEGIN, {}
        self.waiting = {}
        self.changed = threading.Condition()

    def read(self, contents):
        """The lines of a block; None where it is none."""
        try:
            lines = json.loads(bytes.fromhex(contents))
        except (ValueError, RecursionError):
            return None
        good = isinstance(lines, dict) and all(isinstance(line, str) for line in lines.values())
        return lines if good else None

    def known(self, asked):
        """What stands before a block: the final lines and those of its ancestors."""
        before = set(self.final)
        for block in asked["ancestors"]:
            before.update(self.read(block["contents"]) or {})
        return before

    def build(self, asked):
        before = self.known(asked)
        fresh = [(number, line) for number, line in self.waiting.items() if number not in before]
        return {"contents": json.dumps(dict(fresh[:MOST])).encode().hex(), "more": len(fresh) > MOST}

    def verify(self, asked):
        lines = self.read(asked["contents"])
        return {"good": lines is not None and len(lines) <= MOST and not self.known(asked) & set(lines)}

    def certify(self, asked):
        return {"good": self.read(asked["block"]["contents"]) is not None}

    def finalized(self, asked):
        block = asked["block"]
        for number, line in (self.read(block["contents"]) or {}).items():
            self.final[number] = line
            self.waiting.pop(number, None)
        self.applied = {"view": block["view"], "payload": block["payload"]}
        return {}

    def snapshot(self, _):
        return {"snapshot": json.dumps(self.final).encode().hex()}

    def restore(self, asked):
        final = {} if asked["snapshot"] is None else self.read(asked["snapshot"])
        if final is None:
            raise Refused(422, {"why": "these are no lines"})
        self.applied, self.final = asked["at"], final
        return {}

    def ask(self, call, asked):
        """What the member asks: always of the state that it thinks, or of none."""
        with self.changed:
            if call != "restore" and asked["applied"] != self.applied:
                raise Refused(409, {"applied": self.applied})
            answer = getattr(self, call)(asked)
            self.changed.notify_all()
            return answer

    def add(self, line, wake):
        """Waits until the line is final, and answers its place; None where that takes too long."""
        number = secrets.token_hex(16)
        with self.changed:
            self.waiting[number] = line
        wake()
        with self.changed:
            if not self.changed.wait_for(lambda: number in self.final, PATIENCE):
                return None
            return list(self.final).index(number)


CALLS = ["build", "verify", "certify", "finalized", "snapshot", "restore"]


class Handler(BaseHTTPRequestHandler):
    protocol_version = "HTTP/1.1"
    lines, member = Lines(), None

    def wake(self):
        if self.member:
            try:
                connection = http.client.HTTPConnection(self.member, timeout=5)
                connection.request("POST", "/wake")
                connection.getresponse().read()
            except OSError:
                pass  # The member asks by itself, only later.

    def answer(self, status, said):
        body = (json.dumps(said) + "\n").encode()
        self.send_response(status)
        self.send_header("Content-Type", "application/json")
        self.send_header("Content-Length", str(len(body)))
        self.end_headers()
        self.wfile.write(body)

    def do_GET(self):
        if self.path != "/lines":
            return self.answer(404, {})
        with self.lines.changed:
            return self.answer(200, list(self.lines.final.values()))

    def do_POST(self):
        body = self.rfile.read(int(self.headers.get("Content-Length", 0)))
        if self.path == "/lines":
            place = self.lines.add(body.decode(errors="replace"), self.wake)
            return self.answer(504 if place is None else 200, {"place": place})
        if self.path[1:] not in CALLS:
            return self.answer(404, {})
        try:
            return self.answer(200, self.lines.ask(self.path[1:], json.loads(body)))
        except Refused as refused:
            return self.answer(*refused.args)

    def log_message(self, *_):
        pass


def main():
    if len(sys.argv) not in (2, 3) or not sys.argv[1].isdigit():
        sys.exit(__doc__)
    Handler.member = sys.argv[2] if len(sys.argv) == 3 else None
    ThreadingHTTPServer(("127.0.0.1", int(sys.argv[1])), Handler).serve_forever()


main()
