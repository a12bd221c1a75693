"""Made-up scripts: a life of a voter, its end, and a second one that takes the record of the first in. What comes is picked by
chance, mostly near the current view and mostly so that something may come of it; at times it contradicts what came before."""
from member import due, voter as of_voter
from member.positions import MOST, quorum
from member.values import NOTARIZATION, Proposal

from voter_script import words
from voter_script.history import at, current, floor, is_tracked, last_finalized, leaders, views
from voter_script.voter import Voter

REASONS = (
    "Retry", "Inactivity", "LeaderNullify", "LeaderTimeout", "CertificationTimeout", "StallTimeout", "MissingProposal",
    "IgnoredProposal", "InvalidProposal", "FailedCertification",
)
OF_A_VIEW = (
    "leader_index", "notarization", "nullification", "finalization", "forwardable_proposal", "admits_vote", "admits_certificate",
    "voted_nullify", "scheduled_leader", "is_waiting", "pending_verification", "known", "proposal", "verifying", "certified_proposal",
    "pending_certification", "stall_deadline",
)
OF_A_MOMENT = ("elapsed_since_start", "elapsed_since_entry")
OF_ALL = (
    "epoch", "current_view", "last_finalized", "min_active", "get_best_certificate", "next_notarize", "next_finalize",
    "counts_silence", "genesis",
)


# terms: how many views, how many of them may be optimistic, and when they stall
TERMS = (
    (1, 0, "-"), (1, 0, 2500), (1, 2, 2500), (2, 1, 2500), (3, 0, 4000), (3, 2, 4000), (5, 0, 9000), (5, 1, 2000), (5, 2, 9000),
    (5, 3, 5000),
)


def setup_line(pick, leading, has_key, terms=TERMS):
    """A `reset` line."""
    members = pick.choice((1, 2, 3, 4, 4, 4, 5, 7))
    me = pick.randrange(members) if has_key else "-"
    epoch = pick.choice((0, 0, 1, 3, MOST))
    length, optimistic, stall = pick.choice(terms)
    retention, budget = pick.choice((0, 1, 2, 3, 10)), pick.choice((0, 1, 2, 4, 9))
    line = f"reset voter {members} {me} {epoch} {length} {optimistic} {stall} {retention} 1000 2000 5000 {budget} 1 {leading}"
    return line.rstrip()


class Life:
    """A voter to whom things happen; the lines that say so are put behind those of before."""

    TERMS = TERMS

    def __init__(self, pick, reset, lines, now=0):
        self.pick, self.reset, self.lines, self.now = pick, reset, lines, now
        self.setup = words.setup_of(reset)
        self.voter = Voter(self.setup)
        self.record, self.proposals, self.verdicts = [], {}, {}
        self.builds, self.checks, self.handles = [], [], []
        lines.append((reset, "ok"))

    @property
    def h(self):
        return self.voter.h

    def ask(self, line):
        """Makes the call: its answer, in words."""
        said = words.answer(self.voter, line)
        self.lines.append((line, said))
        return said

    def chance(self, share):
        return self.pick.random() < share

    # ---- what comes

    def near(self):
        """A view from 1 on that is kept, mostly close to the current one."""
        c, terms, low = current(self.h), self.setup.terms, max(floor(self.h), 1)
        known = list(views(self.h)) or [c]
        view = self.pick.choice((
            c, c, c, c, c + 1, c + 1, c + 2, c - 1, c - 1, c - 2, c + self.setup.optimistic, c + self.setup.optimistic + 1,
            terms.next_start(c), terms.start(c), terms.end(c), terms.next_start(c) + self.setup.length, self.pick.choice(known),
            last_finalized(self.h), last_finalized(self.h) + 1, c + self.pick.randrange(3 * self.setup.length + 2),
        ))
        return min(max(view, low), MOST)

    def parent(self, view):
        explicit = [u for u in (0, *views(self.h)) if u < view and of_voter.explicit(self.h, u) is not None]
        if view > 1 and not self.setup.terms.is_start(view) or self.chance(0.3):
            return view - 1 if self.chance(0.93) else self.pick.randrange(max(view - 4, 0), view)
        return max(explicit, default=view - 1) if self.chance(0.85) else self.pick.randrange(max(view - 6, 0), view)

    def proposal(self, view):
        """The proposal that the view's leader makes, or at times another one."""
        made = self.proposals.setdefault(view, [])
        if not made or self.chance(0.07):
            made.append(Proposal(self.setup.epoch, view, self.parent(view), bytes([self.pick.choice((170, 187, 204))]) * 32))
        return made[0] if self.chance(0.9) else self.pick.choice(made)

    def signers(self):
        members = self.setup.scheme.members
        count = self.pick.randint(quorum(members), members)
        return ",".join(map(str, sorted(self.pick.sample(range(members), count))))

    def certificate(self, kind, view):
        """Where a certificate decides who leads, that is this member more often than its turn would be."""
        on = words.proposal(self.proposal(view)) if kind != "nullification" else f"{self.setup.epoch} {view}"
        for _ in range(self.pick.randint(1, 3)):
            certificate = f"{kind} {self.signers()} {on}"
            following = self.setup.terms.next_start(view) if kind == "nullification" else view + 1
            if self.setup.elect(following, words.Call(certificate, self.setup.scheme).taken()) == self.setup.me:
                break
        return certificate

    def take(self, kind, view=None):
        """A certificate comes, mostly of a view that may need it."""
        certificate = self.certificate(kind, view or self.near())
        moment = "" if kind == NOTARIZATION else f"{self.now} "
        if self.ask(f"add_{kind} {moment}{certificate}").startswith("true"):
            self.record.append(certificate)
            if self.chance(0.6):
                self.hand_out(kind, int(certificate.split()[3]))
        if kind == "finalization" and self.chance(0.6):
            self.ask("prune")

    def hand_out(self, kind, view):
        self.ask(f"broadcast_{kind} {view}")

    def forward(self):
        view = self.pick.choice([self.near(), *(v for v in leaders(self.h) if v >= current(self.h))])
        if self.setup.terms.has_room(view):
            self.ask(f"set_proposal {view} {words.proposal(self.proposal(view))}")
        if self.chance(0.7):
            self.verify()

    def notarized(self):
        held = [view for view in views(self.h) if at(self.h, view).held and not at(self.h, view).is_direct]
        self.take(NOTARIZATION, self.pick.choice(held) if held and self.chance(0.6) else None)

    def certified(self):
        """Verdicts are asked for, and some are given, of one view always the same."""
        ready = due.due_certifies(self.h)
        self.ask("certify_candidates")
        for proposal in ready:
            if self.chance(0.9):
                self.handles.append(proposal.view)
                self.ask(f"set_certify_handle {proposal.view} {len(self.lines)}")
        if self.handles and self.chance(0.8):
            self.judge(self.handles.pop(0))
        elif self.chance(0.1):
            self.judge(self.near())

    def judge(self, view):
        ok = self.verdicts.setdefault(view, self.chance(0.8))
        if self.ask(f"certified {self.now} {view} {int(ok)}") != "-":
            self.record.append(f"certification {self.setup.epoch} {view} {int(ok)}")
            if ok and self.chance(0.7):
                self.vote("finalize", view)

    # ---- what the application is asked

    def build(self):
        said = self.ask("try_propose")
        if said != "-":
            self.builds.append(said.split(" ", 1)[1])
        self.builds = [it for it in self.builds if is_tracked(self.h, int(it.split()[1]))]
        if not self.builds:
            return
        context = self.pick.choice(self.builds)
        view = context.split()[1]
        match self.pick.randrange(8):
            case 0:
                self.ask(f"supersede_proposal_request {context}")
            case 1:
                self.ask(f"pending_handoff_abandonment {context}")
            case 2:
                self.ask(f"release_proposal_request {view}")
            case _:
                payload = self.pick.choice((170, 187, 204))
                if self.ask(f"proposed {self.now} {context} {payload}") == "true" and self.chance(0.8):
                    self.vote("notarize", view)

    def verify(self):
        first = self.pick.choice((0, 0, current(self.h), current(self.h) + 1, self.near()))
        said = self.ask(f"try_verify {self.now}" if self.chance(0.7) else f"try_verify_from {self.now} {first}")
        if said.startswith("Ready"):
            self.checks.append(int(said.split()[2]))
        if not self.checks or self.chance(0.2):
            return
        view = self.checks.pop(self.pick.randrange(len(self.checks)))
        if self.chance(0.85):
            if self.ask(f"verified {view}") == "true" and self.chance(0.8):
                self.vote("notarize", view)
        else:
            self.ask(f"verification_failed {self.now} {view} {self.pick.choice(('IgnoredProposal', 'InvalidProposal'))}")

    # ---- own votes and time

    def vote(self, kind, view):
        said = self.ask(f"construct_{kind} {view}")
        if said != "-":
            self.record.append(self.unsummed(said))

    def unsummed(self, vote):
        """A vote as it is read: with how its attestation is made in the place of the sum."""
        kind, signer, _, rest = vote.split(" ", 3)
        return f"{kind} {signer} 0 {rest}"

    def vote_for_what_is_due(self):
        kind, asked = self.pick.choice((("notarize", "next_notarize"), ("finalize", "next_finalize")))
        said = self.ask(asked)
        self.vote(kind, int(said) if said != "-" and self.chance(0.8) else self.near())

    def give_up(self):
        said = self.ask(f"next_timeout {self.now}")
        moment, reason = (int(said.split()[0]), said.split()[1]) if said != "-" else (None, "LeaderTimeout")
        if moment is not None and moment > self.now and self.chance(0.4):
            self.now = moment + self.pick.choice((0, 0, 1))
        if moment is not None and moment <= self.now or self.chance(0.15):
            view = current(self.h) if self.chance(0.9) else self.near()
            said = self.ask(f"construct_nullify {view} {reason}")
            if said.startswith("false"):
                self.record.append(self.unsummed(said.split(" ", 1)[1]))

    def hint(self):
        reason = self.pick.choice(REASONS)
        view = current(self.h) if self.chance(0.6) else self.near()
        self.ask(f"may_latch {view} {reason}")
        if self.chance(0.7):
            self.ask(f"trigger_timeout {self.now} {view} {reason}")

    def wait(self):
        self.now += self.pick.choice((1, 50, 300, 1000, 2500))
        self.ask(f"next_timeout {self.now}")

    # ---- questions

    def question(self):
        kept = [view for view, told in views(self.h).items() if len(told) > 1] or [1]
        anywhere = self.near() if self.chance(0.7) else self.pick.randrange(0, current(self.h) + 3)
        view = self.pick.choice(kept) if self.chance(0.7) else anywhere
        match self.pick.randrange(12):
            case 0:
                self.ask(self.pick.choice(OF_ALL))
            case 1:
                self.ask(f"{self.pick.choice(OF_A_MOMENT)} {self.now} {view}")
            case 2:
                payload = of_voter.explicit(self.h, view) if self.chance(0.7) else None
                self.ask(f"parent_certified {view} {payload[0] if payload else self.pick.choice((0, 170, 187))}")
            case 3:
                self.ask(f"first_uncovered {self.pick.randrange(max(view - 8, 0), view + 1)} {view + self.pick.randrange(4)}")
            case 4:
                asked = at(self.h, view).last_asked if self.chance(0.7) else None
                self.ask(f"is_requested {view} {max(view - self.pick.randrange(1, 4), 0) if asked is None else asked}")
            case 5:
                self.ask(f"broadcast_{self.pick.choice(('notarization', 'nullification', 'finalization'))} {view}")
            case _:
                self.ask(f"{self.pick.choice(OF_A_VIEW)} {view}")

    # ---- a life

    def pick_start(self):
        """A payload, or a finalization, also of one of the last views that have numbers."""
        if self.chance(0.8):
            return str(self.pick.choice((0, 9)))
        far = MOST - self.pick.randrange(3 * self.setup.length + 12, 5 * self.setup.length + 30)
        return self.certificate("finalization", self.pick.choice((3, 7, 7, far)))

    def begin(self, start, is_floor):
        """The start, on a payload by either call."""
        if not start.isdecimal():
            self.ask(f"set_floor {self.now} {start}")
        else:
            self.ask(f"set_floor {self.now} genesis {start}" if is_floor else f"set_genesis {self.now} {start}")

    def recall(self, record):
        """The record of the life before, artifact by artifact: what it says, then its certificate or verdict once more."""
        for artifact in record:
            self.ask(f"replay {artifact}")
            self.record.append(artifact)
            kind, given = artifact.split(" ", 1)
            if kind == "notarization":
                self.ask(f"add_notarization {artifact}")
            elif kind in ("nullification", "finalization"):
                self.ask(f"add_{kind} {self.now} {artifact}")
            elif kind == "certification":
                _, view, ok = given.split()
                self.verdicts[int(view)] = ok == "1"
                self.ask(f"certified {self.now} {view} {ok}")

    STEPS = (
        ("forward", 16), ("notarized", 9), ("finalized", 3), ("nullified", 4), ("certified", 12), ("build", 12), ("verify", 8),
        ("vote_for_what_is_due", 8), ("give_up", 6), ("hint", 2), ("wait", 6), ("question", 40), ("prune", 1),
    )

    def finalized(self):
        self.take("finalization")

    def nullified(self):
        self.take("nullification")

    def prune(self):
        self.ask("prune")

    def live(self, until):
        """What happens until there are so many lines."""
        names, weights = zip(*self.STEPS)
        while len(self.lines) < until:
            getattr(self, self.pick.choices(names, weights)[0])()

    def ask_all(self):
        """Each call that wasn't made in this script yet is made once."""
        context = f"{self.setup.epoch} {current(self.h)} 0 0 0"
        view, now = current(self.h), self.now
        lines = {
            **{name: f"{name} {view}" for name in OF_A_VIEW}, **{name: f"{name} {now} {view}" for name in OF_A_MOMENT},
            **{name: name for name in (*OF_ALL, "try_propose", "certify_candidates", "prune")},
            **{f"broadcast_{kind}": f"broadcast_{kind} {view - 1}" for kind in ("notarization", "nullification", "finalization")},
            **{name: f"{name} {view}" for name in ("verified", "release_proposal_request", "construct_notarize", "construct_finalize")},
            **{name: f"{name} {context}" for name in ("supersede_proposal_request", "pending_handoff_abandonment")},
            "is_me": "is_me 0", "first_uncovered": f"first_uncovered 0 {view}", "is_requested": f"is_requested {view} {view - 1}",
            "parent_certified": f"parent_certified {view - 1} 170", "try_verify": f"try_verify {now}",
            "try_verify_from": f"try_verify_from {now} {view}", "may_latch": f"may_latch {view} Inactivity",
            "trigger_timeout": f"trigger_timeout {now} {view} Inactivity",
            "verification_failed": f"verification_failed {now} {view} InvalidProposal",
            "construct_nullify": f"construct_nullify {view} LeaderTimeout", "next_timeout": f"next_timeout {now}",
            "proposed": f"proposed {now} {context} 170", "set_certify_handle": f"set_certify_handle {view} 1",
            "certified": f"certified {now} {view} 1", "set_proposal": f"set_proposal {view} {words.proposal(self.proposal(view))}",
            "add_notarization": f"add_notarization {self.certificate('notarization', view)}",
            "add_nullification": f"add_nullification {now} {self.certificate('nullification', view)}",
            "add_finalization": f"add_finalization {now} {self.certificate('finalization', view)}",
            "replay": f"replay {self.certificate('nullification', view)}",
        }
        missing = [name for name in lines if name not in {line.split()[0] for line, _ in self.lines}]
        self.pick.shuffle(missing)
        for name in missing:
            self.ask(lines[name])


class Ahead(Life):
    """Views ahead get proposals that can never stand, which is seen at some moment before these views are entered; then the views on
    the way are notarized and judged good, and the timeout is asked for."""

    TERMS = tuple(it for it in TERMS if it[1])
    STEPS = (*Life.STEPS, ("ahead", 20), ("go_on", 16))

    def ahead(self):
        view = current(self.h) + self.pick.randint(1, self.setup.optimistic + 1)
        if self.setup.terms.is_start(view) or not self.setup.terms.has_room(view) or leaders(self.h).get(view) == self.setup.me:
            return
        parent = self.pick.randrange(max(view - 4, 0), view - 1)
        self.ask(f"set_proposal {view} {self.setup.epoch} {view} {parent} {self.pick.choice((170, 187))}")
        self.now += self.pick.choice((0, 1, 50, 300))
        self.ask(f"try_verify {self.now}")
        self.now += self.pick.choice((0, 1, 50, 300))

    def go_on(self):
        """The current view's proposal stands on the view before, is notarized and judged good."""
        view = current(self.h)
        explicit = of_voter.explicit(self.h, view - 1)
        if explicit is None or not self.setup.terms.has_room(view):
            return
        made = self.proposals.setdefault(view, [])
        proposal = Proposal(self.setup.epoch, view, view - 1, bytes([170]) * 32)
        if proposal not in made:
            made.insert(0, proposal)
        certificate = f"notarization {self.signers()} {words.proposal(made[0])}"
        if self.ask(f"add_notarization {certificate}").startswith("true"):
            self.record.append(certificate)
        self.verdicts.setdefault(view, True)
        self.judge(view)
        self.ask(f"next_timeout {self.now}")


class Contradicted(Life):
    """At times a view is judged once more, the other way round: the first verdict stays."""

    STEPS = (*Life.STEPS, ("judge_again", 10))

    def judge_again(self):
        judged = [view for view, told in views(self.h).items() if told.verdict is not None]
        if not judged:
            return
        view = self.pick.choice(judged)
        ok = at(self.h, view).verdict if self.chance(0.3) else not at(self.h, view).verdict
        self.ask(f"certified {self.now} {view} {int(ok)}")
        for question in self.pick.sample(("known", "certified_proposal", "forwardable_proposal", "next_timeout", "current_view"), 2):
            self.ask(question if question == "current_view" else f"{question} {self.now if question == 'next_timeout' else view}")


class Turned(Life):
    """A record's own notarizes come behind a notarization for another proposal, which the members went on with."""

    def recall(self, record):
        turned = []
        for artifact in record:
            kind, *rest = artifact.split(" ")
            if kind == "notarize" and self.chance(0.6):
                _, _, epoch, view, parent, payload = rest
                other = self.pick.choice([it for it in ("170", "187", "204") if it != payload])
                turned.append(f"notarization {self.signers()} {epoch} {view} {parent} {other}")
            turned.append(artifact)
        super().recall(turned)
        for view in {int(it.split()[4]) for it in record if it.startswith("notarize ")}:
            self.ask(f"known {view}")
            self.ask(f"try_verify_from {self.now} {view}")


MANNERS = {"": Life, "ahead": Ahead, "contradicted": Contradicted, "turned": Turned}


def script(pick, leading, has_key, manner="", length=300):
    """The calls of a script, each with its answer."""
    lines, life = [], MANNERS[manner]
    reset = setup_line(pick, leading, has_key, life.TERMS)
    first = life(pick, reset, lines)
    start, is_floor = first.pick_start(), pick.random() < 0.5
    first.begin(start, is_floor)
    first.live(pick.randrange(length // 3, length // 2))
    second = life(pick, reset, lines, first.now + pick.choice((0, 5, 2500)))
    second.proposals = first.proposals
    second.begin(start, not is_floor)
    second.recall(first.record)
    second.live(length)
    second.ask_all()
    if not start.isdecimal():
        life(pick, reset, lines).begin("9", False)
    return lines
