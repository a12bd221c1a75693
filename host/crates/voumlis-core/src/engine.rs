//! The loop of a member: events to its node, and the actions of each reply carried out, in order.
//!
//! One thread has the node. It takes what waits, a batch at a time; tells the node the time and hands each event in; makes sure that the
//! signatures which the replies rest on are on the disk; then carries the replies out. A **life** is the time from an opening of the
//! record to the next: the node's numbers of requests and moments count from 0 in each, and no answer of one reaches another.

use crate::chain::{ChainHandle, Request};
use crate::early::Early;
use crate::envelope::{Opened, Sealer};
use crate::frame::Frame;
use crate::growth::{Growth, REWRITTEN_FROM};
use crate::inbox::{Inbox, Input};
use crate::member::{Member, NodeSettings, NotYet, Open, Rewriting};
use crate::metrics::{Metrics, Status};
use crate::network::{Current, Letter, Network};
use crate::pace::{Clock, Pace, PaceSettings};
use crate::recorded;
use crate::reports::{ReportLog, SignedReport};
use crate::signatures::SignatureFile;
use crate::wire::{
    Action, Channel, Event, LARGEST, Message, On, Proposal, Reply, Report, VoteKind,
};
use anyhow::{Context, Result};
use application::BlockId;
use std::collections::HashSet;
use std::sync::Arc;
use std::time::{Duration, Instant};
use tracing::{debug, info, trace, warn};

/// How many events are handed in before the disk is synced and the replies are carried out.
const BATCH: usize = 32;

/// How many views ahead a node listens at most, in terms of so many views: up to the second one of the term behind the next.
pub fn listens_ahead(term: u64) -> u64 {
    2 * term + 1
}

/// How exactly the time is told, in milliseconds. Each telling costs the node a step.
const BEAT: u64 = 5;

/// How many final views pass between two prunings of signatures.
const PRUNING: u64 = 64;

/// How the loop is set up.
#[derive(Clone, Debug)]
pub struct EngineSettings {
    /// The record is opened again where no view was entered for so long, of the time that the node is told: behind an opening all that it
    /// lacks is asked for, and what it has goes to all again.
    pub reopen_after: Duration,
    /// The longest time before an opening, however often one didn't help and however slow the time is told.
    pub reopen_at_most: Duration,
    /// How slow the time may be told.
    pub pace: PaceSettings,
    /// A record that its node doesn't rewrite of itself is rewritten where it has doubled, and has so many bytes at least.
    pub rewritten_from: u64,
    /// The views of a term, as the node is set up.
    pub term: u64,
}

impl Default for EngineSettings {
    fn default() -> EngineSettings {
        EngineSettings {
            reopen_after: Duration::from_secs(30),
            reopen_at_most: Duration::from_secs(600),
            pace: PaceSettings::default(),
            rewritten_from: REWRITTEN_FROM,
            term: NodeSettings::default().term_length.into(),
        }
    }
}

impl EngineSettings {
    /// The term of a view, from 0 on.
    fn term_of(&self, view: u64) -> u64 {
        view.saturating_sub(1) / self.term
    }
}

/// A member's loop.
pub struct Engine {
    /// The signatures that go behind packets.
    pub sealer: Sealer,
    /// Opens the record.
    pub open: Box<Open>,
    /// What waits for the node.
    pub inbox: Arc<Inbox>,
    /// The application's thread.
    pub chain: ChainHandle,
    /// Links to the peers.
    pub network: Arc<dyn Network>,
    /// What a peer that was away has to hear.
    pub current: Arc<Current>,
    /// The signatures on the disk.
    pub signatures: SignatureFile,
    /// The log of reports.
    pub reports: ReportLog,
    /// What is counted.
    pub metrics: Arc<Metrics>,
    /// What is told.
    pub status: Arc<Status>,
    /// How it is set up.
    pub settings: EngineSettings,
}

/// Why a life ended.
enum Ended {
    /// It is to stop.
    Stopped,
    /// No view was entered for long.
    Stuck,
    /// The record has doubled, and its node rewrites it where it is let go.
    Grown,
}

/// One node, from its opening on.
struct Life {
    number: u64,
    node: Box<dyn Member>,
    clock: Clock,
    pace: Pace,
    /// Whether the opening's own actions are carried out: they tell of what was before.
    has_begun: bool,
    wake: Option<u64>,
    /// The moment that was told last.
    told: u64,
    pruned: u64,
    growth: Growth,
    /// The certificates that the node reported: it would refuse each of them as a repetition.
    recorded: HashSet<(VoteKind, On)>,
    /// The view that the node stands at, by what it reported.
    entered: u64,
    early: Early,
}

impl Life {
    /// Milliseconds since the opening, as the node is told them.
    fn now(&self) -> u64 {
        self.clock.moment(Instant::now())
    }

    /// Whether a packet is a certificate that the node has: all members send it to all. A packet may be lost, so it may be left out.
    fn has_recorded(&self, message: &Message) -> bool {
        match message {
            Message::Certificate(it) => self.recorded.contains(&(it.kind, it.on)),
            Message::Vote(_) | Message::Fetch(_) => false,
        }
    }

    /// Whether it is a vote of a view that is still to come.
    fn may_listen_later(&self, message: &Message) -> bool {
        matches!(message, Message::Vote(_)) && message.view() > self.entered
    }

    /// When the node wants to be told the time, if it does.
    fn rings(&self) -> Option<Instant> {
        self.wake.map(|moment| self.clock.when(moment))
    }

    /// How long no view may be entered: in slower time each takes longer.
    fn patience(&self, patience: Duration, settings: &EngineSettings) -> Duration {
        (patience * self.pace.slowness()).min(settings.reopen_at_most)
    }
}

/// How long is waited before a record is tried again whose lock another has: the node of a process that was killed may just be ending.
/// The first wait, and the longest.
const LOCKED: (Duration, Duration) = (Duration::from_millis(100), Duration::from_secs(5));

impl Engine {
    /// Runs until it is to stop: opens the record, and opens it again where no view was entered for long.
    ///
    /// # Errors
    ///
    /// Where the record isn't opened, the node ends or a file fails. The record has all that was handed out.
    pub fn run(mut self) -> Result<()> {
        let mut patience = self.settings.reopen_after;
        let mut pace = Pace::new(&self.settings.pace, self.sealer.committee.liars());
        let mut early = Early::default();
        for number in 1.. {
            let entered = self.status.get().view;
            let Some(mut life) = self.begin(number, pace, early)? else {
                return Ok(());
            };
            let ended = self.live(&mut life, patience)?;
            let waited = life.patience(patience, &self.settings);
            // What a network takes it goes on taking: the pace isn't the node's. Nor is what the next one may listen to.
            (pace, early) = (life.pace, life.early);
            let helped = self.status.get().view > entered;
            if helped {
                patience = self.settings.reopen_after;
            }
            match ended {
                Ended::Stopped => {
                    self.signatures.sync()?;
                    return life.node.close();
                }
                Ended::Grown => {
                    // A rewrite that fails is a step that fails.
                    life.node.close()?;
                    self.tell_rewritten(self.status.get().finalized.view);
                }
                Ended::Stuck => {
                    self.let_go(life.node, waited);
                    if !helped {
                        patience = (patience * 2).min(self.settings.reopen_at_most);
                    }
                }
            }
        }
        Ok(())
    }

    /// Ends a node that is stuck. The record has all that it handed out, however it ends.
    fn let_go(&self, node: Box<dyn Member>, waited: Duration) {
        if let Err(told) = node.close() {
            warn!(told = %format!("{told:#}"), "the node didn't end well");
        }
        self.metrics.stuck.inc();
        info!(
            life = self.status.get().life,
            ?waited,
            "no view was entered for long: the record is opened again"
        );
    }

    fn tell_rewritten(&self, view: u64) {
        self.metrics.rewrites.inc();
        self.metrics.rewritten.set(view as i64);
        info!(view, "the record had doubled, and was rewritten");
    }

    /// Opens the record, again and again while that may help. `None` where this is to stop.
    fn open_record(&mut self) -> Result<Option<(Box<dyn Member>, Reply)>> {
        let mut wait = LOCKED.0;
        loop {
            match (self.open)() {
                Ok(opened) => return Ok(Some(opened)),
                Err(told) if told.is::<NotYet>() => {
                    warn!(%told, ?wait, "the record isn't opened yet");
                    if self.inbox.stops_within(wait) {
                        return Ok(None);
                    }
                    wait = (wait * 2).min(LOCKED.1);
                }
                Err(told) => return Err(told.context("the record isn't opened")),
            }
        }
    }

    /// A new life, or `None` where this is to stop before there is one.
    fn begin(&mut self, number: u64, pace: Pace, early: Early) -> Result<Option<Life>> {
        let Some((node, first)) = self.open_record()? else {
            return Ok(None);
        };
        self.metrics.openings.inc();
        self.status.change(|state| {
            state.life = number;
            state.entered = Instant::now();
        });
        self.chain.ask(Request::Opened(number))?;
        let bytes = self.record_bytes(&*node)?;
        let mut life = Life {
            number,
            node,
            clock: Clock::new(Instant::now(), pace.slowness()),
            pace,
            has_begun: false,
            wake: None,
            told: 0,
            pruned: 0,
            growth: Growth::new(bytes, self.settings.rewritten_from),
            recorded: HashSet::new(),
            entered: 0,
            early,
        };
        let recorded = recorded::packets(&first.actions, self.sealer.me);
        // With certificates others' signatures leave.
        self.signatures.sync()?;
        self.reports.remember()?;
        self.carry_out(&mut life, first)?;
        life.has_begun = true;
        self.reports.forget();
        for (channel, bytes) in recorded {
            self.send(None, channel, bytes);
        }
        Ok(Some(life))
    }

    fn live(&mut self, life: &mut Life, patience: Duration) -> Result<Ended> {
        loop {
            if self.has_grown(life)? {
                return Ok(Ended::Grown);
            }
            let early = life
                .early
                .due(life.entered, listens_ahead(self.settings.term));
            if !early.is_empty() {
                self.step_all(life, early)?;
                continue;
            }
            let stuck = self.status.get().entered + life.patience(patience, &self.settings);
            let until = life.rings().map_or(stuck, |rings| rings.min(stuck));
            let batch = self.inbox.take(Some(until), BATCH);
            if batch.iter().any(|input| matches!(input, Input::Stop)) {
                return Ok(Ended::Stopped);
            }
            if batch.is_empty() && Instant::now() >= stuck {
                return Ok(Ended::Stuck);
            }
            self.step_all(life, batch)?;
        }
    }

    /// The bytes of the record's files, counted too.
    fn record_bytes(&self, node: &dyn Member) -> Result<[u64; 2]> {
        let bytes = node.record_bytes().context("the record's files")?;
        for (name, bytes) in ["record", "record.2"].into_iter().zip(bytes) {
            let size = self.metrics.file_bytes.with_label_values(&[name]);
            size.set(bytes as i64);
        }
        Ok(bytes)
    }

    /// Has a record rewritten that has doubled. Whether its node does that where it is let go.
    fn has_grown(&self, life: &mut Life) -> Result<bool> {
        if !life.growth.is_due(self.record_bytes(&*life.node)?) {
            return Ok(false);
        }
        match life.node.rewrite().context("the record isn't rewritten")? {
            Rewriting::AtItsEnd => Ok(true),
            Rewriting::OfItself => {
                life.growth.begin(self.record_bytes(&*life.node)?);
                Ok(false)
            }
            Rewriting::Done(view) => {
                life.growth.begin(self.record_bytes(&*life.node)?);
                if let Some(view) = view {
                    self.tell_rewritten(view);
                }
                Ok(false)
            }
        }
    }

    /// Hands the time and a batch in, has what the replies rest on synced, and carries them out.
    fn step_all(&mut self, life: &mut Life, batch: Vec<Input>) -> Result<()> {
        let mut replies = Vec::new();
        // Deadlines are counted from the last moment that was told, so it is told with what comes.
        let now = life.now();
        if batch.is_empty() || now >= life.told + BEAT {
            life.told = now;
            replies.push(self.step(life, &Event::Moment(now))?);
        }
        for input in batch {
            let reply = match input {
                Input::Packet(_, opened) if life.has_recorded(&opened.message) => {
                    self.metrics.repeated.inc();
                    continue;
                }
                Input::Packet(sender, opened) => self.packet(life, sender, opened)?,
                Input::Answer(number, event) if number == life.number => self.step(life, &event)?,
                Input::Answer(..) | Input::Stop => continue,
            };
            replies.push(reply);
        }
        // The record may rest on what came, and a killed process leaves what was written.
        self.signatures.write()?;
        // Own votes are signed anew each time: with certificates alone others' signatures leave.
        let mut actions = replies.iter().flat_map(|reply| &reply.actions);
        let is_shown = actions.any(|action| {
            matches!(
                action,
                Action::Send {
                    channel: Channel::Certificates,
                    ..
                }
            )
        });
        if is_shown && self.signatures.sync()? {
            self.metrics.syncs.with_label_values(&["signatures"]).inc();
        }
        replies
            .into_iter()
            .try_for_each(|reply| self.carry_out(life, reply))
    }

    /// Hands a packet in. One that came before the node listens to its view is kept until it does; of one that the node takes or knows
    /// the signatures are kept, and no others, of which a peer may send any number.
    fn packet(&mut self, life: &mut Life, sender: u32, opened: Opened) -> Result<Reply> {
        let reply = self.step(
            life,
            &Event::Packet {
                sender,
                channel: opened.sealed.channel,
                bytes: opened.sealed.plain.clone(),
            },
        )?;
        if reply.is_about_it() {
            self.keep_signatures(&opened);
        } else if reply.is_of_views_apart() && life.may_listen_later(&opened.message) {
            life.early.keep(sender, opened);
        }
        Ok(reply)
    }

    fn keep_signatures(&mut self, opened: &Opened) {
        let view = opened.message.view();
        let signed = opened.message.attestations().iter();
        for (attestation, signature) in signed.zip(&opened.sealed.signatures) {
            self.signatures
                .keep(&self.sealer.signatures, *attestation, view, *signature);
        }
    }

    fn step(&self, life: &mut Life, event: &Event) -> Result<Reply> {
        let timer = self.metrics.step_seconds.start_timer();
        let reply = life.node.step(event)?;
        timer.observe_duration();
        trace!(%event, "in");
        for action in &reply.actions {
            trace!(%action, "out");
        }
        if let Some(why) = reply.refusal() {
            self.metrics.refusals.with_label_values(&[why]).inc();
            debug!(why, "the node refused an event");
        }
        Ok(reply)
    }

    /// The actions of a reply, in order. All that they rest on is on the disk.
    fn carry_out(&mut self, life: &mut Life, reply: Reply) -> Result<()> {
        if reply.refused == 0 {
            life.wake = None;
        }
        for action in reply.actions {
            match action {
                Action::Send { to, channel, bytes } => self.send(to, channel, bytes),
                Action::Block(member) => self.network.block(member, "its node's packets"),
                Action::Build {
                    request, context, ..
                } => self.chain.ask(Request::Build(request, context))?,
                Action::Verify {
                    request,
                    context,
                    proposal,
                } => self
                    .chain
                    .ask(Request::Verify(request, context, proposal))?,
                Action::Certify(proposal) => self.chain.ask(Request::Certify(proposal))?,
                Action::Forward { payload, plan } => {
                    self.chain.ask(Request::Forward(payload, plan))?;
                }
                Action::Finalized(proposal) => self.finalized(life, proposal)?,
                Action::Report(report) => self.report(life, report)?,
                Action::Wake(moment) => life.wake = Some(moment),
            }
        }
        Ok(())
    }

    fn send(&mut self, to: Option<u32>, channel: Channel, plain: Vec<u8>) {
        let (sealed, message) = match self.sealer.seal(channel, plain) {
            Ok(sealed) => sealed,
            Err(missing) => {
                self.metrics.unsigned.inc();
                debug!(?missing, "a packet isn't sent: a signature isn't kept");
                return;
            }
        };
        let mut letter = Letter::new(&Frame::Packet(sealed));
        match to {
            Some(peer) => self.network.send(peer, letter),
            None => {
                if channel != Channel::Fetches {
                    letter.view = Some(message.view());
                    self.current.add(&message, &letter);
                }
                self.network.send_to_all(letter);
            }
        }
    }

    fn finalized(&mut self, life: &mut Life, proposal: Proposal) -> Result<()> {
        let view = proposal.round.view;
        let id = BlockId {
            view,
            payload: proposal.payload,
        };
        self.status
            .change(|state| state.finalized = state.finalized.max(id));
        self.metrics.finalized.set(view as i64);
        self.network.finalized(view);
        if life.has_begun && life.pace.finalized(self.settings.term_of(view)) {
            self.tell_pace(life, "faster", "views are final");
        }
        if view >= life.pruned + PRUNING {
            life.pruned = view;
            life.recorded.retain(|(_, on)| on.round().view >= view);
            self.signatures.prune(&self.sealer.signatures, view)?;
        }
        self.chain.ask(Request::Finalized(proposal))
    }

    fn report(&mut self, life: &mut Life, plain: Vec<u8>) -> Result<()> {
        let report = Report::read(LARGEST, &plain).context("a node hands out reports")?;
        if let Report::Certificate(certificate) = &report {
            life.recorded.insert((certificate.kind, certificate.on));
        }
        self.enter(life, &report);
        let term = self.settings.term_of(report.view());
        if life.has_begun && self.is_given_up(&report) && life.pace.gave_up(term) {
            self.tell_pace(life, "slower", "views were given up again and again");
        }
        if self.reports.has(&plain, &report) {
            return Ok(());
        }
        if let Report::Evidence(first, _) = &report {
            let (signer, view) = (first.attestation.signer, report.view());
            warn!(signer, view, "evidence: two votes that contradict");
            self.status.change(|state| state.evidence += 1);
        }
        match self.sealer.seal_report(&report) {
            Ok(signatures) => {
                self.reports.append(&SignedReport {
                    plain,
                    report,
                    signatures,
                })?;
                let size = self.metrics.file_bytes.with_label_values(&["reports"]);
                size.set(self.reports.size as i64);
            }
            Err(_) => self.metrics.unsigned.inc(),
        }
        Ok(())
    }

    /// Whether a report is this member's own vote to give a view up.
    fn is_given_up(&self, report: &Report) -> bool {
        match report {
            Report::Vote(vote) => {
                vote.kind == VoteKind::Nullify && vote.attestation.signer == self.sealer.me
            }
            Report::Certificate(_) | Report::Certified(_) | Report::Evidence(..) => false,
        }
    }

    /// From now on the node is told the time at another pace.
    fn tell_pace(&self, life: &mut Life, direction: &str, why: &str) {
        let slowness = life.pace.slowness();
        life.clock.go_on(Instant::now(), slowness);
        self.metrics.slowness.set(i64::from(slowness));
        self.metrics.paces.with_label_values(&[direction]).inc();
        self.status.change(|state| state.slowness = slowness);
        info!(slowness, why, "the time is told {direction}");
    }

    /// What a report says of the view that the node stands at: a true verdict and a finalization lead to the next one, a nullification
    /// past its term.
    fn enter(&self, life: &mut Life, report: &Report) {
        let view = report.view();
        let entered = match report {
            Report::Certified(_) => view.saturating_add(1),
            Report::Certificate(certificate) => match certificate.kind {
                VoteKind::Finalize => view.saturating_add(1),
                VoteKind::Nullify => {
                    let terms = self.settings.term_of(view).saturating_add(1);
                    terms.saturating_mul(self.settings.term).saturating_add(1)
                }
                VoteKind::Notarize => return,
            },
            Report::Vote(_) | Report::Evidence(..) => return,
        };
        life.entered = life.entered.max(entered);
        self.status.change(|state| {
            if entered > state.view {
                let passed = state.entered.elapsed().as_secs_f64();
                self.metrics.view_seconds.observe(passed);
                self.metrics.view.set(entered as i64);
                state.view = entered;
                state.entered = Instant::now();
            }
        });
    }
}
