"""Cases as text, and what the model says of them.

A case begins with a `reset` line; each line is a call and, behind `=>`, what the node answered. Events, replies and artifacts
stand as words (see words.py) or as the hexadecimal digits of their spelling.

    reset node SCHEME N ME EPOCH L K STALL RETENTION LEADER CERTIFICATION RETRY SKIP BUDGET FORWARD TRACK HANDOFFS => ok
    reset node .. HANDOFFS AGAIN WINDOW => ok
    reset node .. HANDOFFS AGAIN WINDOW ANSWERS => ok
    reset pair ..                 => ok      as `reset node ..`, over two disks
        SCHEME is plain or salted, of N members with the base `simplex`; ME the own index, - for none. Terms have L views,
        K of them optimistic; members take turns, a term each. Times are milliseconds: STALL of a term (- for none), LEADER,
        CERTIFICATION, RETRY, SKIP (- where no leader's silence counts). RETENTION views are kept below the last finalized
        one. BUDGET is how many terms may be skipped, - for the number of members. FORWARD is disabled, silent-voters or
        silent-leader. TRACK is 1 where votes are kept in full for good, HANDOFFS where a view may be built before the last
        view of the term before it is decided. Payloads have 32 bytes; view 0 stands for 32 bytes 00. AGAIN is once, as where
        nothing is said, or with-nullify: asks that nothing settled go again with a repeated nullify. WINDOW is how many views to
        leave behind are asked for at once, - for all. ANSWERS is for how long a certificate isn't served to the same member again,
        - where it is each time, as where nothing is said
    floor genesis K               => ok      for 32 bytes of value K from the next opening on
    floor FINALIZATION            => ok      or each opening brings this finalization, and view 0 has no payload
    found ARTIFACT , ARTIFACT ..  => ok      the disk holds these (- for none)
    disk HEX                      => ok      the disk holds these bytes
    disk HEX HEX                  => ok      so do two disks, which are opened both
    open NOW                      => REPLY, fault NUMBER, fault NUMBER PLACE, or crash
    event EVENT                   => REPLY, fault NUMBER, or crash
    stream HEX                    => HEX, and behind it bad PLACE or fault NUMBER where that ends early: the replies to the
                                     events that the bytes spell, one behind the other
    live NOW HEX NOW HEX ..       => of each opening, with ` , ` between two: HEX, its first actions and the replies to the events that
                                     the bytes behind NOW spell, and behind it fault NUMBER where a step failed; or as behind open
    rewrite                       => NUMBER, the view that the record begins behind then; - where nothing is rewritten: there is one
                                     disk, or the last generation, nothing is final, or the record begins so; fault NUMBER, or crash
    current_view, last_finalized  => NUMBER
    record                        => the artifacts, as behind found
    bytes                         => HEX     closes the node that is open: the disk holds these bytes; HEX HEX: each of two
    is_failed                     => false, or true behind a fault of a step
    fuse K, fail_at K             => ok      calls of the disk fail from now on, which says nothing of a node
    fuse DISK K, fail_at DISK K   => ok      so do those of the first of two, or of the second

Before the first `open` of a case the disk is empty, unless a line tells what it holds. A later `open` finds what the node
recorded; behind a fault or crash a line has to tell what the disk holds (found, disk, or what record answers), and that is
judged too. What asks for a node where none is open is answered by `condition`. A line that begins with `not` holds an answer
that isn't allowed; the node stays where it was. One that begins with `times N` stands for so many. One that begins with `#`
says something to readers.
"""
from . import words
from .acts import point_of
from .codec import ARTIFACT_TAGS, FINALIZATION, Reader, Unreadable, artifact_bytes, event_bytes, reply_bytes, whole
from .disks import Disks, bytes_of_word
from .member import Disagreement, may_be_left, opening, read_record, rewriting, step
from .record import bodies, first_refused, kept_record, spelled_record
from .refusals import refusal_of
from .scheme import SCHEMES
from .setup import AGAINS, FORWARDS, MOST_OPTIMISTIC, Setup
from .values import Certificate, Certified, Report, Verdict, Vote
from .voter import current, last_finalized

NO_KEY, CONFIG, MOMENT_TOO_LATE, FOREIGN, CONTRADICTION, DEVICE, MEMORY, TOO_MANY_OPTIMISTIC = range(1, 9)
STEP_MEMORY, STEP_DEVICE, STEP_FAILED = 1, 2, 3


class BadCase(Exception):
    """A line that is no line of a case."""


def maybe(word):
    return None if word == "-" else int(word)


def setup_of(text):
    """The setup that the words behind `reset` tell."""
    try:
        said = text.split()
        place = next((place for place, word in enumerate(said) if word in AGAINS), len(said))
        again, window, answers = [*said[place:], *(AGAINS[0], "-", "-")[len(said) - place :]]
        node, scheme, n, me, epoch, *numbers, forward, track, handoffs = said[:place]
        length, optimistic, stall, retention, leader, certification, retry, skip, budget = map(maybe, numbers)
        if node not in ("node", "pair") or forward not in FORWARDS:
            raise ValueError
        return Setup(
            SCHEMES[scheme](int(n)), maybe(me), int(epoch), length, optimistic, stall, retention, leader, certification, retry,
            skip, budget, forward, track == "1", handoffs == "1", goes_again=again == AGAINS[1], window=maybe(window), answers=maybe(answers),
        )
    except (ValueError, KeyError, IndexError) as trouble:
        raise BadCase(f"no setup: {text}") from trouble


def reset_line(setup):
    """The `reset` line of a setup."""
    of = [
        setup.scheme.name, setup.scheme.members, setup.me, setup.epoch, setup.length, setup.optimistic, setup.stall,
        setup.retention, setup.leader_timeout, setup.certification_timeout, setup.retry, setup.skip, setup.fixed_budget,
        setup.forward, int(setup.tracks), int(setup.handoffs),
    ]
    if setup.goes_again or setup.window is not None or setup.answers is not None:
        of += [AGAINS[setup.goes_again], setup.window, *([] if setup.answers is None else [setup.answers])]
    return "reset node " + " ".join("-" if it is None else str(it) for it in of)


def artifacts_of(text, scheme):
    if text == "-":
        return ()
    parts = text.split(" , ") if " " in text else text.split(",")
    return tuple(words.artifact_of(part.strip(), scheme) for part in parts)


class Case:
    """A node as far as its answers tell. Behind a call that was cut off: what the disk may hold, and what a rewrite was to leave."""

    def __init__(self, setup, disks=Disks(b"")):
        self.setup, self.disks, self.found, self.foreign = setup, disks, (), None
        self.h, self.has_failed, self.may_hold, self.rewrites = None, False, None, None

    @staticmethod
    def of(text):
        """The case that the words behind `reset` begin."""
        return Case(setup_of(text), Disks(b"", b"") if text.startswith("pair ") else Disks(b""))

    # ---- what the disk holds

    def hold(self, artifacts):
        """The disk holds these; behind a crash only what may be left."""
        if self.may_hold is not None and not self.may_hold(artifacts):
            raise Disagreement("the disk may not be left so")
        self.found, self.foreign, self.may_hold, self.h, self.has_failed = artifacts, None, None, None, False
        self.disks, self.rewrites = self.disks.hold(bytes_of(artifacts)), None

    def read(self, data):
        """The artifacts of a disk's bytes, and the place of the first entry that is none, if one isn't."""
        artifacts = []
        for place, body in bodies(data):
            try:
                artifacts.append(whole(body, self.setup.scheme.signature_size, 65_535, Reader.artifact))
            except Unreadable:
                return tuple(artifacts), place
        return tuple(artifacts), None

    def put(self, disks):
        """The disk is this, or the two are."""
        artifacts, foreign = self.read(disks.record)
        self.hold(artifacts)
        self.disks, self.foreign = disks, None if foreign is None else foreign + len(disks.head)

    def close(self):
        """No node is open: the disk holds what it kept."""
        if self.h is not None:
            self.hold(kept_record(self.h))

    def cut(self, may_hold, rewrites=None):
        """A call ends somewhere, and hands nothing out."""
        self.close()
        self.may_hold, self.rewrites = may_hold, rewrites

    # ---- calls

    def fault_of_opening(self, now):
        """The first fault of an opening, but for a device that fails and want of memory."""
        s = self.setup
        if s.me is None:
            return str(NO_KEY)
        if s.fault():
            return f"{CONFIG} {s.fault()}"
        if not s.is_in_time(now):
            return str(MOMENT_TOO_LATE)
        if s.optimistic > MOST_OPTIMISTIC:
            return str(TOO_MANY_OPTIMISTIC)
        if self.foreign is not None:
            return f"{FOREIGN} {self.foreign}"
        position = first_refused(s, self.found)
        return None if position is None else f"{CONTRADICTION} {position}"

    def open(self, text, answer):
        now = int(text)
        self.close()
        if self.may_hold is not None:
            raise BadCase("nothing tells what the disk holds")
        fault = self.fault_of_opening(now)
        if answer == "crash" or answer in (f"fault {DEVICE}", f"fault {MEMORY}"):
            if fault is None:
                setup, found = self.setup, self.found
                self.cut(lambda left: left == found or may_be_left(read_record(setup, now, found)[0], left))
            return
        if fault is not None or answer.startswith("fault"):
            if answer != f"fault {fault}":
                raise Disagreement(f"an opening answers {'a reply' if fault is None else f'fault {fault}'}")
            return
        self.h = opening(self.setup, now, self.found, words.reply_of(answer, self.setup.scheme).actions)
        self.has_failed = False

    def event(self, text, answer):
        event = words.event_of(text, self.setup.scheme)
        if self.h is None:
            self.refuse(answer)
        elif is_cut(answer):
            self.cut_step(event)
        elif answer.startswith("fault"):
            raise Disagreement("no such fault")
        else:
            self.h = step(self.h, event, words.reply_of(answer, self.setup.scheme))

    def refuse(self, answer):
        """What is answered where no node is open."""
        right = f"fault {STEP_FAILED}" if self.has_failed else "condition"
        if answer != right:
            raise Disagreement(f"a node that {'has failed' if self.has_failed else 'is not open'} answers {right}")

    def rewrite(self, answer):
        """The record is rewritten where it may be, onto the other disk."""
        if self.h is None:
            self.refuse(answer)
            return
        behind = rewriting(self.h) if self.disks.may_rewrite() else None
        right = "-" if behind is None else str(kept_record(behind)[0].view)
        if behind is not None and is_cut(answer):
            old, new = kept_record(self.h), kept_record(behind)
            self.cut(lambda left: left in (old, new), new)
            self.has_failed = True
        elif answer != right:
            raise Disagreement(f"a rewrite answers {right}")
        elif behind is not None:
            self.close()
            self.h, self.disks = behind, self.disks.rewritten(bytes_of(kept_record(behind)))

    def begin_at(self, text):
        """What the next openings begin at: a payload of view 0, or a finalization that they bring."""
        word, _, payload = text.partition(" ")
        if word == "genesis":
            self.setup = self.setup.on_genesis(words.payload_of(payload))
        elif word == "spelled":
            scheme, tagged = self.setup.scheme, bytes([ARTIFACT_TAGS.index(FINALIZATION)]) + bytes.fromhex(payload)
            self.setup = self.setup.on_floor(whole(tagged, scheme.signature_size, scheme.members, Reader.artifact))
        else:
            self.setup = self.setup.on_floor(words.artifact_of(text, self.setup.scheme))

    def stream(self, text, answer):
        """Each of the events is answered, until a step fails or no event stands at a place."""
        if self.h is None and not self.has_failed:
            if answer != "condition":
                raise Disagreement("no node is open")
            return
        spelled_replies, _, told = answer.partition(" ")
        size, members = self.setup.scheme.signature_size, self.setup.scheme.members
        events, replies = (Reader(bytes.fromhex(it.replace("-", "")), size, members) for it in (text, spelled_replies))
        right = ""
        while events.place < len(events.data):
            place = events.place
            try:
                events.event()
            except Unreadable:
                right = f"bad {place}"
                break
            event, first = events.data[place : events.place].hex(), replies.place
            if first == len(replies.data):
                self.event(event, told)
                return
            replies.reply()
            self.event(event, replies.data[first : replies.place].hex())
        if replies.place < len(replies.data) or told != right:
            raise Disagreement(f"it ends behind {replies.place} bytes{right and ' with ' + right}")

    def live(self, text, answer):
        """Openings, one behind the other, each with its events: what each answers is what it would alone."""
        given, told = text.split(), [] if answer == "-" else answer.split(" , ")
        if len(given) % 2 or len(told) * 2 != len(given):
            raise Disagreement(f"{len(told)} answers to {len(given) // 2} openings")
        for now, events, life in zip(given[::2], given[1::2], told):
            self.life(now, bytes.fromhex(events.replace("-", "")), life)
        self.close()
        self.has_failed = False

    def life(self, now, data, answer):
        if answer.startswith("fault"):
            self.open(now, answer)
            return
        spelled, _, fault = answer.partition(" ")
        size, members = self.setup.scheme.signature_size, self.setup.scheme.members
        events, replies = Reader(data, size, members), Reader(bytes.fromhex(spelled), size, members)

        def next_of(reader, read):
            place = reader.place
            read()
            return reader.data[place : reader.place].hex()

        first = next_of(replies, replies.reply)
        if self.may_hold is not None:
            self.hold(self.told_by(first))
        self.open(now, first)
        while replies.place < len(replies.data):
            self.event(next_of(events, events.event), next_of(replies, replies.reply))
        if fault:
            self.event(next_of(events, events.event), fault)
        elif events.place < len(events.data):
            raise Disagreement(f"it ends behind {events.place} bytes of events")

    def told_by(self, answer):
        """What an opening finds, by the reports of its first actions: all but verdicts that are bad. A vote of a view is another's where
        it names another."""
        found = []
        for action in words.reply_of(answer, self.setup.scheme).actions:
            match action:
                case Report(Vote(signer=signer)) if signer != self.setup.me:
                    pass
                case Report(Vote() | Certificate()):
                    found.append(action.activity)
                case Report(Certified(notarization)):
                    found.append(Verdict(notarization.on.round, True))
        return tuple(found)

    def cut_step(self, event):
        h = self.h
        begun = h if refusal_of(h, event) else h.then(point_of(h, event))
        self.cut(lambda left: left == kept_record(h) or may_be_left(begun, left))
        self.has_failed = True

    def answer(self, call, answer):
        """Judges an answer; a disagreement leaves the node where it was."""
        name, _, rest = call.partition(" ")
        if name == "found":
            self.hold(artifacts_of(rest, self.setup.scheme))
        elif name == "disk":
            self.put(disks_of(rest))
        elif name == "floor":
            self.begin_at(rest)
        elif name == "open":
            self.open(rest, answer)
        elif name == "event":
            self.event(rest, answer)
        elif name == "stream":
            self.stream(rest, answer)
        elif name == "live":
            self.live(rest, answer)
        elif name == "rewrite":
            self.rewrite(answer)
        elif name in ("current_view", "last_finalized") and self.h is not None:
            right = {"current_view": current, "last_finalized": last_finalized}[name](self.h)
            if answer != str(right):
                raise Disagreement(f"it is {right}")
        elif name == "record":
            self.tell_record(artifacts_of(answer, self.setup.scheme))
        elif name == "bytes":
            self.tell_bytes(disks_of(answer))
        elif name == "is_failed":
            self.tell_whether_failed(answer)
        elif name in ("fuse", "fail_at"):
            list(map(int, rest.split()))
        else:
            raise BadCase(f"no call: {call}")

    def tell_record(self, artifacts):
        if self.may_hold is not None:
            self.hold(artifacts)
        right = self.found if self.h is None else kept_record(self.h)
        if artifacts != right:
            raise Disagreement("it holds " + (" , ".join(words.message(it, self.setup.scheme) for it in right) or "-"))

    def tell_bytes(self, told):
        """Of a node at rest the bytes are those of its record; else they read as what the disk holds, or may hold. A disk that isn't
        written is as it was."""
        if self.h is not None:
            self.close()
            if told != self.disks:
                raise Disagreement(f"it holds {self.disks}")
            return
        if not self.disks.may_be_left(told, self.rewrites is not None):
            raise Disagreement("a disk that isn't written is another, or which of both is read")
        read = self.read(told.record)
        if told.place != self.disks.place and read != (self.rewrites, None):
            raise Disagreement("the other disk is read, and holds another record than the rewrite was to leave")
        if self.may_hold is not None:
            self.put(told)
        elif read != (self.found, None if self.foreign is None else self.foreign - len(told.head)):
            raise Disagreement("it holds something else")

    def tell_whether_failed(self, answer):
        right = "true" if self.has_failed else "false" if self.h is not None else "condition"
        if answer != right:
            raise Disagreement(f"it is {right}")

    def told_as(self, call, answer, event_as, reply_as, artifacts_as):
        """A line with its event, reply and artifacts written so, where they can be read."""
        name, _, rest = call.partition(" ")
        try:
            if name == "event":
                call = f"event {event_as(words.event_of(rest, self.setup.scheme))}"
            elif name == "found":
                call = f"found {artifacts_as(artifacts_of(rest, self.setup.scheme))}"
            if name in ("event", "open"):
                answer = reply_as(words.reply_of(answer, self.setup.scheme))
            elif name == "record":
                answer = artifacts_as(artifacts_of(answer, self.setup.scheme))
        except (Unreadable, words.Unclear, ValueError):
            pass
        return f"{call} => {answer}"

    def in_words(self, call, answer):
        scheme = self.setup.scheme

        def in_a_row(artifacts):
            return " , ".join(words.message(it, scheme) for it in artifacts) or "-"

        return self.told_as(call, answer, lambda it: words.event(it, scheme), lambda it: words.reply(it, scheme), in_a_row)

    def in_bytes(self, call, answer):
        return self.told_as(call, answer, lambda it: event_bytes(it).hex(), lambda it: reply_bytes(it).hex(), spelled)


def is_cut(answer):
    """Of a call that ended somewhere: it crashed, the device failed, or memory was wanted."""
    return answer in ("crash", f"fault {STEP_MEMORY}", f"fault {STEP_DEVICE}")


def disks_of(text):
    return Disks(*map(bytes_of_word, text.split()))


def spelled(artifacts):
    """Artifacts as a word of bytes."""
    return ",".join(artifact_bytes(it).hex() for it in artifacts) or "-"


def bytes_of(artifacts):
    """The bytes of a disk at rest whose record is this."""
    return spelled_record([artifact_bytes(it) for it in artifacts])


def lines_of(text, answers=None):
    """The lines of a file of cases, or of a file of calls and one of answers: number, call, answer."""
    lines, found = text.splitlines(), []
    if answers is not None:
        pairs = list(zip(lines, answers.splitlines(), strict=True))
    else:
        pairs = [tuple(part.strip() for part in line.partition("=>")[::2]) for line in lines]
    for number, (call, answer) in enumerate(pairs, 1):
        count = 1
        if call.startswith("times "):
            count, call = int(call.split()[1]), call.split(maxsplit=2)[2]
        if call and not call.startswith("#"):
            found += [(number, call, answer)] * count
    return found


def in_bytes(lines):
    """Lines as a driver reads and answers them: bytes in place of words, without the answers that aren't allowed."""
    case = None
    for _, call, answer in lines:
        if call.startswith("reset "):
            case = Case.of(call.removeprefix("reset "))
        if case is not None and not call.startswith("not "):
            yield case.in_bytes(call, answer)


class Judgement:
    """What came of judging lines: how many cases and lines, and the disagreements."""

    def __init__(self, say=None):
        self.cases, self.lines, self.troubles, self.say = 0, 0, [], say or (lambda *told: None)
        self.case = None

    def trouble(self, number, call, answer, why):
        said = self.case.in_words(call, answer) if self.case else f"{call} => {answer}"
        self.troubles.append((number, said, why))

    def line(self, number, call, answer):
        self.lines += 1
        refuses = call.startswith("not ")
        call = call.removeprefix("not ")
        if call.startswith("reset "):
            self.cases += 1
            self.case = Case.of(call.removeprefix("reset "))
            return
        if self.case is None:
            return
        before = vars(self.case).copy()
        try:
            self.case.answer(call, answer)
            why = "this answer is allowed" if refuses else None
        except (Disagreement, Unreadable) as trouble:
            why = None if refuses else str(trouble) or "the answer can't be read"
        self.say(number, self.case, before["h"], call, answer)
        if refuses:
            vars(self.case).update(before)
        if why:
            self.trouble(number, call, answer, why)
            self.case = None if not refuses else self.case

    def judge(self, lines):
        for number, call, answer in lines:
            try:
                self.line(number, call, answer)
            except (BadCase, words.Unclear, ValueError) as trouble:
                self.trouble(number, call, answer, f"no line of a case: {trouble}")
                self.case = None
        return self
