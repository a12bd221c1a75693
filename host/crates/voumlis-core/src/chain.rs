//! The application's side of a member: which blocks are here, and what the application says of them.
//!
//! One thread has the application, the blocks and the snapshot. The loop hands it what the node asks for; it answers into the inbox, as
//! soon as the blocks that the answer rests on are here. Blocks that are lacking it asks peers for, by their hashes.

use crate::allowance::Allowance;
use crate::blocks::{BlockFile, Pool, block, payload_of};
use crate::committee::Committee;
use crate::frame::{Frame, Offer};
use crate::inbox::Inbox;
use crate::metrics::{Metrics, Status};
use crate::network::{Letter, Network};
use crate::snapshots::{Joining, Next, Snapshot, SnapshotFile};
use crate::wire::{self, Event, Payload, Plan, Proposal};
use anyhow::{Context as _, Result, anyhow, ensure};
use application::{Application, Block, BlockId, Context, Gossip, LONGEST_MESSAGE, Wake};
use std::collections::HashMap;
use std::path::Path;
use std::sync::atomic::{AtomicBool, Ordering};
use std::sync::mpsc::{Receiver, RecvTimeoutError, SyncSender, sync_channel};
use std::sync::{Arc, Mutex};
use std::thread::{self, JoinHandle};
use std::time::{Duration, Instant};
use tracing::{debug, error, info, warn};

/// What comes to the application's thread.
#[derive(Debug)]
pub enum Request {
    /// A node of this life was opened: what was asked for before is asked no more.
    Opened(u64),
    /// Have a block built.
    Build(u64, wire::Context),
    /// Have a proposal checked.
    Verify(u64, wire::Context, Proposal),
    /// Have a notarized proposal judged.
    Certify(Proposal),
    /// Give a block on.
    Forward(Payload, Plan),
    /// This proposal is final, and all its ancestors.
    Finalized(Proposal),
    /// What a peer's host sent: the peer, the frame, and how many bytes it has.
    Frame(u32, Frame, usize),
    /// The application may have something to propose.
    Wake,
    /// End.
    Stop,
}

/// Where requests are put.
#[derive(Clone)]
pub struct ChainHandle {
    requests: SyncSender<Request>,
    waiting: Arc<Waiting>,
}

/// What waits of others than the node.
#[derive(Default)]
struct Waiting {
    /// How many frames of each peer, and how many bytes they have.
    frames: Mutex<HashMap<u32, (usize, usize)>>,
    /// Whether the application asked to be looked at.
    wake: AtomicBool,
}

impl Waiting {
    /// Takes room for a frame of so many bytes, if this peer has it.
    fn take(&self, peer: u32, size: usize) -> bool {
        let mut frames = self.frames.lock().expect("no thread failed with it");
        let (count, bytes) = frames.entry(peer).or_default();
        let has_room = *count < SHARE.0 && (*count == 0 || *bytes + size <= SHARE.1);
        if has_room {
            *count += 1;
            *bytes += size;
        }
        has_room
    }

    fn give_back(&self, peer: u32, size: usize) {
        let mut frames = self.frames.lock().expect("no thread failed with it");
        if let Some((count, bytes)) = frames.get_mut(&peer) {
            *count -= 1;
            *bytes -= size;
        }
    }
}

/// How many requests of the node may wait. It has few open at a time.
const ROOM: usize = 4096;

/// How many frames of one peer may wait beside, and how many bytes of them if there are more than one: so who sends much takes no room
/// from the node or from other peers.
const SHARE: (usize, usize) = (256, 8 << 20);

impl ChainHandle {
    /// Where requests are put, and where they are taken, of a member of so many.
    pub fn new(members: u32) -> (ChainHandle, Receiver<Request>) {
        let (requests, receiver) = sync_channel(ROOM + SHARE.0 * members as usize);
        let waiting = Arc::default();
        (ChainHandle { requests, waiting }, receiver)
    }

    /// Puts a request in, and waits for room.
    ///
    /// # Errors
    ///
    /// Where the application's thread has ended.
    pub fn ask(&self, request: Request) -> Result<()> {
        let sent = self.requests.send(request);
        sent.ok().context("the application's thread has ended")
    }

    /// Puts in what a peer's host sent, if there is room for more of this peer's, and answers whether there was.
    pub fn hear(&self, peer: u32, frame: Frame, size: usize) -> bool {
        let has_room = self.waiting.take(peer, size);
        let is_in = has_room
            && self
                .requests
                .try_send(Request::Frame(peer, frame, size))
                .is_ok();
        if has_room && !is_in {
            self.waiting.give_back(peer, size);
        }
        is_in
    }

    /// What an application calls where it has something to propose.
    pub fn wake(&self) -> Wake {
        let handle = self.clone();
        Wake::new(move || {
            let waits = handle.waiting.wake.swap(true, Ordering::SeqCst);
            if !waits && handle.requests.try_send(Request::Wake).is_err() {
                // There is no room, so it looks soon anyway.
                handle.waiting.wake.store(false, Ordering::SeqCst);
            }
        })
    }
}

/// How the application's thread is set up.
#[derive(Clone, Debug)]
pub struct ChainSettings {
    /// How long a leader waits for work before it has an empty block built.
    pub idle: Duration,
    /// How long a check or build waits for blocks that are on their way, of the time that the node is told.
    pub patience: Duration,
    /// The most bytes of a block's contents. The same for all members.
    pub longest_contents: usize,
    /// A snapshot is taken with the first final block of each run of so many views. The same for all members.
    pub snapshot_views: u64,
}

impl Default for ChainSettings {
    fn default() -> ChainSettings {
        ChainSettings {
            idle: Duration::from_millis(200),
            patience: Duration::from_millis(1500),
            longest_contents: 1 << 20,
            snapshot_views: 256,
        }
    }
}

/// What the application's thread works with.
pub struct Surroundings {
    /// The members.
    pub committee: Arc<Committee>,
    /// This member's index.
    pub me: u32,
    /// Where answers go.
    pub inbox: Arc<Inbox>,
    /// Where blocks go.
    pub network: Arc<dyn Network>,
    /// What is counted.
    pub metrics: Arc<Metrics>,
    /// What is told.
    pub status: Arc<Status>,
}

/// What is said where a member stops whose application is out of reach.
const LOST: &str = "stopped while the application was asked: it is told again behind a restart";

/// How many requests are taken before it is looked what can be done.
const BATCH: usize = 64;

/// How often what waits is looked at where nothing comes.
const BEAT: Duration = Duration::from_millis(20);

/// Blocks that nobody asked for: so many bytes of each peer's.
const POOL: usize = 8 << 20;

/// The most blocks, and about how many bytes, of one answer to a peer.
const ANSWER: (usize, usize) = (64, 1 << 20);

/// What a peer may have sent to it: bytes at once, and bytes a second.
const ANSWERS: (f64, f64) = (16e6, 4e6);

/// How long before a block that is lacking is asked for: it may be on its way. Then, how long between two asks.
const ASKING: (Duration, Duration) = (Duration::from_millis(15), Duration::from_millis(150));

/// A block that is lacking.
struct Wanted {
    since: Instant,
    next: Instant,
    asked: u32,
    first: Option<u32>,
}

/// What the node asked for, and isn't answered yet.
struct Pending<T> {
    asked: T,
    since: Instant,
}

/// Whether the blocks below a block are here.
enum Walk {
    /// The blocks that aren't carried out yet, oldest first.
    Here(Vec<Block>),
    /// This one is lacking.
    Lacks(Payload),
    /// The chain that is final doesn't lead there.
    Elsewhere,
}

/// The application's thread.
pub struct Chain {
    settings: ChainSettings,
    around: Surroundings,
    waiting: Arc<Waiting>,
    application: Box<dyn Application>,
    blocks: BlockFile,
    pool: Pool,
    snapshots: SnapshotFile,
    snapshot: Option<Snapshot>,
    /// The snapshot that is being written.
    writing: Option<JoinHandle<Result<Snapshot>>>,
    joining: Option<Joining>,
    /// How often that began.
    joins: usize,
    applied: BlockId,
    target: BlockId,
    /// The last final block that contradicts one that was carried out: it is told of once.
    contradiction: Option<BlockId>,
    life: u64,
    builds: Vec<Pending<(u64, wire::Context)>>,
    checks: Vec<Pending<(u64, wire::Context, Proposal)>>,
    verdicts: Vec<Pending<Proposal>>,
    wanted: HashMap<Payload, Wanted>,
    answers: HashMap<u32, Allowance>,
}

/// For so many views what an application tells is kept for a peer that isn't reached, if there is little room.
const NEWS: u64 = 16;

/// What applications tell each other goes to all peers, and is superseded soon.
fn gossip(around: &Surroundings) -> Gossip {
    let (network, status) = (around.network.clone(), around.status.clone());
    Gossip::new(move |message| {
        let frame = Frame::Told(message.to_vec());
        let finalized = status.change(|state| state.finalized.view);
        network.send_to_all(Letter {
            view: Some(finalized + NEWS),
            ..Letter::new(&frame)
        });
    })
}

fn parent_of(context: &wire::Context) -> BlockId {
    BlockId {
        view: context.parent,
        payload: context.parent_payload,
    }
}

fn context_of(context: &wire::Context) -> Context {
    Context {
        view: context.round.view,
        leader: context.leader,
        parent: parent_of(context),
    }
}

fn id_of(proposal: &Proposal) -> BlockId {
    BlockId {
        view: proposal.round.view,
        payload: proposal.payload,
    }
}

impl Chain {
    /// Opens what is kept of blocks and state in this folder, and gives the application the last snapshot.
    ///
    /// # Errors
    ///
    /// Where a file can't be read, or the snapshot is none of the application's.
    pub fn open(
        folder: &Path,
        settings: ChainSettings,
        around: Surroundings,
        mut application: Box<dyn Application>,
        handle: &ChainHandle,
    ) -> Result<Chain> {
        let snapshots = SnapshotFile::new(&folder.join("snapshot"));
        let snapshot = snapshots.read()?;
        let mut applied = BlockId::GENESIS;
        application.attach(handle.wake());
        application.introduce(gossip(&around));
        if let Some(snapshot) = &snapshot {
            application.restore(&snapshot.at(), snapshot.bytes())?;
            applied = snapshot.at();
        }
        around.status.change(|state| state.applied = applied);
        Ok(Chain {
            settings,
            around,
            waiting: handle.waiting.clone(),
            application,
            blocks: BlockFile::open(&folder.join("blocks"))?,
            pool: Pool::new(POOL),
            snapshots,
            snapshot,
            writing: None,
            joining: None,
            joins: 0,
            applied,
            target: applied,
            contradiction: None,
            life: 0,
            builds: Vec::new(),
            checks: Vec::new(),
            verdicts: Vec::new(),
            wanted: HashMap::new(),
            answers: HashMap::new(),
        })
    }

    /// Works until it is to stop.
    ///
    /// # Errors
    ///
    /// Where a file fails: this member can't vote any more.
    pub fn run(mut self, requests: &Receiver<Request>) -> Result<()> {
        loop {
            let first = match requests.recv_timeout(BEAT) {
                Ok(request) => Some(request),
                Err(RecvTimeoutError::Timeout) => None,
                Err(RecvTimeoutError::Disconnected) => return self.finish_snapshot(true),
            };
            // What waits is taken at once, as far as it goes.
            for request in first.into_iter().chain(requests.try_iter().take(BATCH)) {
                if matches!(request, Request::Stop) {
                    return self.finish_snapshot(true);
                }
                self.take(request)?;
            }
            self.go_on()?;
        }
    }

    fn take(&mut self, request: Request) -> Result<()> {
        let since = Instant::now();
        match request {
            Request::Opened(life) => {
                self.life = life;
                self.builds.clear();
                self.checks.clear();
                self.verdicts.clear();
            }
            Request::Build(number, context) => self.builds.push(Pending {
                asked: (number, context),
                since,
            }),
            Request::Verify(number, context, proposal) => self.checks.push(Pending {
                asked: (number, context, proposal),
                since,
            }),
            Request::Certify(proposal) => self.verdicts.push(Pending {
                asked: proposal,
                since,
            }),
            Request::Forward(payload, plan) => self.forward(&payload, &plan),
            Request::Finalized(proposal) => {
                let id = id_of(&proposal);
                if id.view > self.target.view {
                    self.target = id;
                }
            }
            Request::Frame(sender, frame, size) => {
                self.waiting.give_back(sender, size);
                self.hear(sender, frame)?;
            }
            Request::Wake => self.waiting.wake.store(false, Ordering::SeqCst),
            Request::Stop => {}
        }
        Ok(())
    }

    /// Does all that can be done with the blocks that are here, and asks for those that are lacking.
    fn go_on(&mut self) -> Result<()> {
        self.finish_snapshot(false)?;
        self.advance()?;
        for pending in std::mem::take(&mut self.verdicts) {
            if !self.judge(&pending.asked)? {
                self.verdicts.push(pending);
            }
        }
        for pending in std::mem::take(&mut self.checks) {
            if !self.check(&pending)? {
                self.checks.push(pending);
            }
        }
        for pending in std::mem::take(&mut self.builds) {
            if !self.build(&pending)? {
                self.builds.push(pending);
            }
        }
        self.ask();
        Ok(())
    }

    fn answer(&self, event: Event) {
        self.around.inbox.answer(self.life, event);
    }

    fn sync(&mut self) -> Result<()> {
        if self.blocks.sync()? {
            let metrics = &self.around.metrics;
            metrics.syncs.with_label_values(&["blocks"]).inc();
            let size = metrics.file_bytes.with_label_values(&["blocks"]);
            size.set(self.blocks.size() as i64);
        }
        Ok(())
    }

    // ---- which blocks are here

    /// Keeps the block of this payload if a peer sent it unasked: something names it now.
    fn keep_from_pool(&mut self, payload: &Payload) -> Result<()> {
        if self.blocks.get(payload).is_none()
            && let Some(block) = self.pool.take(payload)
        {
            self.blocks.keep(block)?;
        }
        Ok(())
    }

    /// The blocks from the last one carried out up to this one.
    fn walk(&mut self, end: BlockId) -> Result<Walk> {
        let mut passed = Vec::new();
        let mut at = end;
        while at != self.applied {
            if at.view <= self.applied.view {
                return Ok(Walk::Elsewhere);
            }
            self.keep_from_pool(&at.payload)?;
            let Some(block) = self.blocks.get(&at.payload) else {
                return Ok(Walk::Lacks(at.payload));
            };
            if block.id != at || block.parent.view >= at.view {
                return Ok(Walk::Elsewhere);
            }
            passed.push(at.payload);
            at = block.parent;
        }
        let found = passed.iter().rev();
        let blocks = found.filter_map(|payload| self.blocks.get(payload).cloned());
        Ok(Walk::Here(blocks.collect()))
    }

    fn want(&mut self, payload: Payload, first: Option<u32>) {
        let since = Instant::now();
        self.wanted.entry(payload).or_insert(Wanted {
            since,
            next: since + ASKING.0,
            asked: 0,
            first,
        });
    }

    /// Asks a peer for each block that is lacking, another one each time.
    fn ask(&mut self) {
        let now = Instant::now();
        let (me, size) = (self.around.me, self.around.committee.size());
        let above = self.applied.view;
        let forgotten = now.checked_sub(Duration::from_secs(20));
        self.wanted
            .retain(|_, wanted| forgotten.is_none_or(|at| wanted.since > at));
        for (payload, wanted) in &mut self.wanted {
            if now < wanted.next || size == 1 {
                continue;
            }
            let others = (1..size).map(|step| (me + step) % size);
            let mut order = wanted.first.into_iter().chain(others).cycle();
            let Some(peer) = order.nth(wanted.asked as usize % size as usize) else {
                continue;
            };
            wanted.asked += 1;
            wanted.next = now + ASKING.1;
            let payload = *payload;
            let frame = Frame::AskBlocks { payload, above };
            self.around.network.send(peer, Letter::new(&frame));
        }
        if let Some(joining) = &self.joining
            && joining.is_stuck(now)
        {
            self.join();
        }
    }

    // ---- what the node asks for

    /// Carries out the blocks up to the last final one, as far as they are here.
    fn advance(&mut self) -> Result<()> {
        match self.walk(self.target)? {
            Walk::Here(blocks) => {
                self.joining = None;
                blocks.iter().try_for_each(|block| self.apply(block))
            }
            Walk::Lacks(payload) => {
                self.want(payload, None);
                Ok(())
            }
            Walk::Elsewhere => {
                let is_told = self.contradiction.replace(self.target) == Some(self.target);
                if self.target.view > self.applied.view && !is_told {
                    error!(target = %self.target, applied = %self.applied, "final blocks that contradict each other");
                }
                Ok(())
            }
        }
    }

    fn apply(&mut self, block: &Block) -> Result<()> {
        self.application.finalized(block);
        ensure!(!self.application.is_lost(), LOST);
        self.applied = block.id;
        self.around.status.change(|state| state.applied = block.id);
        self.around.metrics.applied.set(block.id.view as i64);
        self.around.metrics.blocks.inc();
        let run = |view: u64| view / self.settings.snapshot_views;
        if run(block.id.view) > run(block.parent.view) {
            self.take_snapshot()?;
        }
        Ok(())
    }

    /// Has the state behind the last block written, beside this thread: a large one takes seconds, and votes don't wait for it. Where the
    /// one before is being written yet, the disk is slow, and the next one will do.
    fn take_snapshot(&mut self) -> Result<()> {
        if self.writing.is_some() {
            return Ok(());
        }
        self.sync()?;
        let begun = Instant::now();
        let (at, bytes) = (self.applied, self.application.snapshot());
        ensure!(!self.application.is_lost(), LOST);
        let (size, took) = (bytes.len(), begun.elapsed());
        debug!(%at, size, ?took, "a snapshot is taken");
        let file = self.snapshots.clone();
        let builder = thread::Builder::new().name("snapshot".to_owned());
        self.writing = Some(builder.spawn(move || {
            let snapshot = Snapshot::new(at, bytes);
            file.write(&snapshot)?;
            debug!(%at, took = ?begun.elapsed(), "it is written");
            Ok(snapshot)
        })?);
        Ok(())
    }

    /// Keeps the snapshot that was being written, if it is written or is to be waited for.
    fn finish_snapshot(&mut self, waits: bool) -> Result<()> {
        let is_over = |writing: &JoinHandle<_>| waits || writing.is_finished();
        match self.writing.take_if(|writing| is_over(writing)) {
            Some(writing) => {
                let written = writing.join();
                self.keep_snapshot(written.map_err(|_| anyhow!("writing a snapshot failed"))??)
            }
            None => Ok(()),
        }
    }

    /// Has this snapshot, which is on the disk, in place of the one before, and forgets the blocks before that: who lags may want those
    /// between.
    fn keep_snapshot(&mut self, snapshot: Snapshot) -> Result<()> {
        let before = self.snapshot.replace(snapshot);
        let below = before.map_or(0, |before| before.at().view);
        self.blocks.prune(below)?;
        self.pool.prune(self.applied.view);
        let size = self
            .around
            .metrics
            .file_bytes
            .with_label_values(&["blocks"]);
        size.set(self.blocks.size() as i64);
        let syncs = &self.around.metrics.syncs;
        syncs.with_label_values(&["snapshot"]).inc();
        syncs.with_label_values(&["blocks"]).inc();
        Ok(())
    }

    /// Answers whether a notarized proposal may stand, once it and its ancestors are here. Until then it says nothing: where they don't
    /// come, the node gives the view up by itself.
    fn judge(&mut self, proposal: &Proposal) -> Result<bool> {
        let id = id_of(proposal);
        let good = match self.walk(id)? {
            Walk::Here(blocks) => match blocks.last() {
                Some(block) => {
                    let block = block.clone();
                    self.sync()?;
                    self.application.certify(&block)
                }
                None => true, // it is final
            },
            Walk::Lacks(payload) => {
                self.want(payload, None);
                return Ok(false);
            }
            // At or below what is final: nothing rests on it any more.
            Walk::Elsewhere => true,
        };
        let view = id.view;
        self.answer(Event::Verdict { view, good });
        Ok(true)
    }

    /// How long blocks are waited for: a node that is told the time slower gives their view up later.
    fn patience(&self) -> Duration {
        self.settings.patience * self.around.status.get().slowness
    }

    /// Answers whether a proposal is good, or nothing where the blocks that it takes to say don't come.
    fn check(&mut self, pending: &Pending<(u64, wire::Context, Proposal)>) -> Result<bool> {
        let (request, context, proposal) = pending.asked;
        let answer = match self.checked(&context, &proposal)? {
            Some(answer) => answer,
            None if pending.since.elapsed() < self.patience() => return Ok(false),
            None => None,
        };
        self.answer(Event::Checked { request, answer });
        Ok(true)
    }

    /// The answer, or nothing where it takes blocks that aren't here.
    fn checked(
        &mut self,
        context: &wire::Context,
        proposal: &Proposal,
    ) -> Result<Option<Option<bool>>> {
        self.keep_from_pool(&proposal.payload)?;
        let Some(block) = self.blocks.get(&proposal.payload).cloned() else {
            self.want(proposal.payload, Some(context.leader));
            return Ok(None);
        };
        let parent = parent_of(context);
        let is_as_said = block.id == id_of(proposal) && block.parent == parent;
        if !is_as_said || block.contents.len() > self.settings.longest_contents {
            return Ok(Some(Some(false)));
        }
        let good = match self.walk(parent)? {
            Walk::Here(ancestors) => {
                let context = context_of(context);
                self.application
                    .verify(&context, &ancestors, &block.contents)
            }
            Walk::Lacks(payload) => {
                self.want(payload, Some(context.leader));
                return Ok(None);
            }
            Walk::Elsewhere => return Ok(Some(None)),
        };
        if good {
            // A vote says that the contents are here: they have to be, behind a crash too.
            self.sync()?;
        }
        Ok(Some(Some(good)))
    }

    /// Has a block built, once its ancestors are here and there is work, or it was waited long enough for it.
    fn build(&mut self, pending: &Pending<(u64, wire::Context)>) -> Result<bool> {
        let (request, context) = &pending.asked;
        let waited = pending.since.elapsed();
        let contents = match self.walk(parent_of(context))? {
            Walk::Here(ancestors) => {
                if !self.application.has_work() && waited < self.settings.idle {
                    return Ok(false);
                }
                self.application.build(&context_of(context), &ancestors)
            }
            Walk::Lacks(payload) if waited < self.patience() => {
                self.want(payload, None);
                return Ok(false);
            }
            Walk::Lacks(_) | Walk::Elsewhere => None,
        };
        let payload = match contents {
            Some(contents) if contents.len() <= self.settings.longest_contents => {
                let built = block(context.round.view, parent_of(context), contents);
                let payload = built.id.payload;
                self.blocks.keep(built)?;
                self.sync()?;
                Some(payload)
            }
            Some(contents) => {
                error!(bytes = contents.len(), "the application built too much");
                None
            }
            None => None,
        };
        let request = *request;
        self.answer(Event::Built { request, payload });
        Ok(true)
    }

    /// Gives a block on: one that was built here to all, who will be asked to check it; another to those that the plan names.
    fn forward(&mut self, payload: &Payload, plan: &Plan) {
        let Some(block) = self.blocks.get(payload) else {
            return;
        };
        let bytes = Block::bytes(block.id.view, block.parent, &block.contents);
        let mut letter = Letter::new(&Frame::Block(bytes));
        match plan {
            Plan::Forward(_, members) => {
                let network = &self.around.network;
                members
                    .iter()
                    .for_each(|to| network.send(*to, letter.clone()));
            }
            Plan::Prepare(_) | Plan::Propose(_) => {
                letter.view = Some(block.id.view);
                self.around.network.send_to_all(letter);
            }
        }
    }

    // ---- what peers' hosts send

    fn hear(&mut self, sender: u32, frame: Frame) -> Result<()> {
        match frame {
            Frame::Block(bytes) => self.hear_block(sender, &bytes)?,
            Frame::AskBlocks { payload, above } => self.give_blocks(sender, payload, above),
            Frame::Lacks(payload) => {
                if self.wanted.contains_key(&payload) && self.joining.is_none() {
                    self.join();
                }
            }
            Frame::AskSnapshot => {
                if let Some(snapshot) = &self.snapshot {
                    let offer = Frame::Offer(snapshot.offer());
                    self.give(sender, &offer);
                }
            }
            Frame::AskPiece { digest, from } => self.give_piece(sender, digest, from),
            Frame::Offer(offer) => self.hear_offer(sender, offer)?,
            Frame::Piece {
                digest,
                from,
                bytes,
            } => {
                if let Some(joining) = &mut self.joining {
                    let next = joining.piece(Instant::now(), sender, digest, from, &bytes);
                    self.go_on_joining(next)?;
                }
            }
            Frame::Told(message) => {
                if message.len() <= LONGEST_MESSAGE {
                    self.application.hear(sender, &message);
                }
            }
            Frame::Packet(_) => {}
        }
        Ok(())
    }

    fn hear_block(&mut self, sender: u32, bytes: &[u8]) -> Result<()> {
        let payload = payload_of(bytes);
        let Some(block) = Block::read(payload, bytes) else {
            return Ok(());
        };
        if self.wanted.remove(&payload).is_some() {
            self.blocks.keep(block)
        } else {
            if block.id.view > self.applied.view && self.blocks.get(&payload).is_none() {
                self.pool.insert(sender, block);
            }
            Ok(())
        }
    }

    /// Sends a peer what it asked for, as long as it asks for no more than it may.
    fn give(&mut self, to: u32, frame: &Frame) -> bool {
        let letter = Letter::new(frame);
        let allowance = self
            .answers
            .entry(to)
            .or_insert_with(|| Allowance::new(ANSWERS.0, ANSWERS.1));
        let may = allowance.take(Instant::now(), letter.bytes.len() as f64);
        if may {
            self.around.network.send(to, letter);
        } else {
            let dropped = &self.around.metrics.dropped;
            dropped.with_label_values(&["answers"]).inc();
        }
        may
    }

    fn give_blocks(&mut self, sender: u32, payload: Payload, above: u64) {
        if self.blocks.get(&payload).is_none() {
            self.give(sender, &Frame::Lacks(payload));
            return;
        }
        let (mut at, mut bytes, mut count) = (payload, 0, 0);
        while let Some(block) = self.blocks.get(&at)
            && block.id.view > above
            && bytes < ANSWER.1
            && count < ANSWER.0
        {
            let parent = block.parent.payload;
            let spelled = Block::bytes(block.id.view, block.parent, &block.contents);
            bytes += spelled.len();
            count += 1;
            if !self.give(sender, &Frame::Block(spelled)) {
                return;
            }
            at = parent;
        }
    }

    fn give_piece(&mut self, sender: u32, digest: [u8; 32], from: u64) {
        let Some(snapshot) = &self.snapshot else {
            return;
        };
        if snapshot.offer().digest != digest {
            return;
        }
        if let Some(bytes) = snapshot.piece(from).map(<[u8]>::to_vec) {
            let piece = Frame::Piece {
                digest,
                from,
                bytes,
            };
            self.give(sender, &piece);
        }
    }

    // ---- joining late

    /// Asks all for their snapshots, since blocks that are lacking are kept no more.
    fn join(&mut self) {
        self.joining = Some(Joining::new(Instant::now(), self.joins));
        self.joins += 1;
        let letter = Letter::new(&Frame::AskSnapshot);
        self.around.network.send_to_all(letter);
    }

    fn hear_offer(&mut self, sender: u32, offer: Offer) -> Result<()> {
        let is_ahead = offer.at.view > self.applied.view && offer.at.view <= self.target.view;
        if let Some(joining) = &mut self.joining
            && is_ahead
        {
            let next = joining.offered(&self.around.committee, sender, offer);
            self.go_on_joining(next)?;
        }
        Ok(())
    }

    fn go_on_joining(&mut self, next: Next) -> Result<()> {
        match next {
            Next::Wait => {}
            Next::Ask(holder, digest, from) => {
                let ask = Frame::AskPiece { digest, from };
                self.around.network.send(holder, Letter::new(&ask));
            }
            Next::Done(snapshot) => {
                self.joining = None;
                match (self.application).restore(&snapshot.at(), snapshot.bytes()) {
                    Ok(()) => {
                        info!(at = %snapshot.at(), "a snapshot was taken from others");
                        self.applied = snapshot.at();
                        let applied = self.applied;
                        self.around.status.change(|state| state.applied = applied);
                        self.around.metrics.applied.set(applied.view as i64);
                        self.wanted.clear();
                        self.finish_snapshot(true)?;
                        self.snapshots.write(&snapshot)?;
                        self.keep_snapshot(snapshot)?;
                    }
                    Err(told) => warn!(%told, "f+1 members offer a snapshot that is none"),
                }
            }
        }
        Ok(())
    }
}
