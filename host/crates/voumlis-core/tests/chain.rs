//! The application's side of a member: what it answers, and when.

mod common;

use application::{Application, Block, BlockId, Context, RestoreError};
use common::{Remembered, patience, sealers, until};
use std::path::Path;
use std::process::Command;
use std::sync::{Arc, Mutex};
use std::thread::{self, JoinHandle};
use std::time::{Duration, Instant};
use tempfile::TempDir;
use voumlis_core::blocks::block;
use voumlis_core::chain::{Chain, ChainHandle, ChainSettings, Request, Surroundings};
use voumlis_core::frame::Frame;
use voumlis_core::inbox::{Inbox, Input};
use voumlis_core::metrics::{Metrics, Status};
use voumlis_core::wire::{self, Event, Plan, Proposal, Round};

/// What the application was told, in order.
type Told = Arc<Mutex<Vec<String>>>;

/// An application that finds good what begins with its ancestors' number, and remembers what is final.
struct Remembering {
    told: Told,
    blocks: u64,
}

impl Application for Remembering {
    fn build(&mut self, _: &Context, ancestors: &[Block]) -> Option<Vec<u8>> {
        Some(vec![ancestors.len() as u8])
    }

    fn verify(&mut self, _: &Context, ancestors: &[Block], contents: &[u8]) -> bool {
        contents.first() == Some(&(ancestors.len() as u8))
    }

    fn finalized(&mut self, block: &Block) {
        self.blocks += 1;
        self.told.lock().unwrap().push(format!("{}", block.id.view));
    }

    fn snapshot(&self) -> Vec<u8> {
        self.blocks.to_be_bytes().to_vec()
    }

    fn restore(&mut self, at: &BlockId, snapshot: &[u8]) -> Result<(), RestoreError> {
        let bytes = snapshot.try_into();
        self.blocks = u64::from_be_bytes(bytes.map_err(|_| RestoreError("cut".into()))?);
        self.told.lock().unwrap().push(format!("at {}", at.view));
        Ok(())
    }
}

/// The application's thread of member 0 of four.
struct Member {
    handle: ChainHandle,
    inbox: Arc<Inbox>,
    network: Arc<Remembered>,
    told: Told,
    metrics: Arc<Metrics>,
    thread: JoinHandle<()>,
}

impl Member {
    fn open(folder: &Path) -> Member {
        Member::waiting(folder, patience())
    }

    /// The same, that waits so long for blocks before it answers nothing.
    fn waiting(folder: &Path, patience: Duration) -> Member {
        let (handle, requests) = ChainHandle::new(4);
        let network = Arc::new(Remembered::default());
        let inbox = Arc::new(Inbox::new(4));
        let metrics = Arc::new(Metrics::new().unwrap());
        let around = Surroundings {
            committee: sealers()[0].committee.clone(),
            me: 0,
            inbox: inbox.clone(),
            network: network.clone(),
            metrics: metrics.clone(),
            status: Arc::new(Status::default()),
        };
        let settings = ChainSettings {
            patience,
            snapshot_views: 4,
            ..ChainSettings::default()
        };
        let told = Told::default();
        let application = Box::new(Remembering {
            told: told.clone(),
            blocks: 0,
        });
        let chain = Chain::open(folder, settings, around, application, &handle).unwrap();
        let thread = thread::spawn(move || chain.run(&requests).unwrap());
        handle.ask(Request::Opened(1)).unwrap();
        Member {
            handle,
            inbox,
            network,
            told,
            metrics,
            thread,
        }
    }

    /// How often blocks were made to survive a crash.
    fn syncs(&self) -> u64 {
        self.metrics.syncs.with_label_values(&["blocks"]).get()
    }

    fn ask(&self, request: Request) {
        self.handle.ask(request).unwrap();
    }

    /// Member 1 sends a block.
    fn hear(&self, block: &Block) {
        let bytes = Block::bytes(block.id.view, block.parent, &block.contents);
        let size = bytes.len();
        assert!(self.handle.hear(1, Frame::Block(bytes), size));
    }

    fn answer(&self) -> Event {
        let end = Instant::now() + patience();
        match self.inbox.take(Some(end), 1).pop() {
            Some(Input::Answer(1, event)) => event,
            other => panic!("no answer, but {other:?}"),
        }
    }

    fn final_views(&self, count: usize) -> Vec<String> {
        until("blocks are carried out", || {
            let told = self.told.lock().unwrap();
            (told.len() >= count).then(|| told.clone())
        })
    }

    fn close(self) {
        self.ask(Request::Stop);
        self.thread.join().unwrap();
    }
}

/// Shorter than tests wait.
const SHORT: Duration = Duration::from_millis(300);

/// A chain of blocks whose contents are good behind the blocks up to `carried_out`.
fn blocks(count: u64) -> Vec<Block> {
    let mut parent = BlockId::GENESIS;
    (1..=count)
        .map(|view| {
            let next = block(view, parent, vec![view as u8 - 1]);
            parent = next.id;
            next
        })
        .collect()
}

fn context(block: &Block) -> wire::Context {
    wire::Context {
        round: Round {
            epoch: 0,
            view: block.id.view,
        },
        leader: 1,
        parent: block.parent.view,
        parent_payload: block.parent.payload,
    }
}

fn proposal(block: &Block) -> Proposal {
    Proposal {
        round: context(block).round,
        parent: block.parent.view,
        payload: block.id.payload,
    }
}

fn verify(number: u64, block: &Block) -> Request {
    Request::Verify(number, context(block), proposal(block))
}

#[test]
fn a_check_waits_for_blocks_that_are_asked_for_by_hash() {
    let folder = tempfile::tempdir().unwrap();
    let member = Member::open(folder.path());
    let chain = blocks(2);
    member.ask(verify(7, &chain[1]));
    let wanted = until("the leader is asked", || member.network.taken().pop());
    let ask = Frame::AskBlocks {
        payload: chain[1].id.payload,
        above: 0,
    };
    assert_eq!(wanted, (Some(1), ask));
    member.hear(&chain[1]);
    let wanted = until("its parent is asked for", || {
        let mut all = member.network.taken().into_iter();
        all.find(|(_, frame)| matches!(frame, Frame::AskBlocks { payload, .. } if *payload == chain[0].id.payload))
    });
    assert!(wanted.0.is_some());
    member.hear(&chain[0]);
    let (request, answer) = (7, Some(true));
    assert_eq!(member.answer(), Event::Checked { request, answer });
    member.close();
}

#[test]
fn no_answer_is_given_where_blocks_do_not_come_and_no_to_what_is_not_as_it_was_said() {
    let folder = tempfile::tempdir().unwrap();
    let member = Member::waiting(folder.path(), SHORT);
    let chain = blocks(2);
    member.ask(verify(1, &chain[0]));
    let answer = None;
    assert_eq!(member.answer(), Event::Checked { request: 1, answer });
    // Behind another parent than the proposal says.
    let elsewhere = block(2, chain[0].id, vec![0]);
    member.hear(&elsewhere);
    let mut said = context(&elsewhere);
    (said.parent, said.parent_payload) = (0, [0; 32]);
    member.ask(Request::Verify(2, said, proposal(&elsewhere)));
    let answer = Some(false);
    assert_eq!(member.answer(), Event::Checked { request: 2, answer });
    // What the application finds bad.
    let bad = block(1, BlockId::GENESIS, vec![9]);
    member.hear(&bad);
    member.ask(verify(3, &bad));
    assert_eq!(member.answer(), Event::Checked { request: 3, answer });
    // More than a block may hold.
    let long = block(1, BlockId::GENESIS, vec![0; (1 << 20) + 1]);
    member.hear(&long);
    member.ask(verify(4, &long));
    assert_eq!(member.answer(), Event::Checked { request: 4, answer });
    member.close();
}

#[test]
fn a_verdict_waits_for_the_block_however_long_it_takes() {
    let folder = tempfile::tempdir().unwrap();
    let member = Member::waiting(folder.path(), SHORT);
    let chain = blocks(1);
    member.ask(Request::Certify(proposal(&chain[0])));
    thread::sleep(Duration::from_millis(400));
    assert!(member.inbox.take(Some(Instant::now()), 1).is_empty());
    member.hear(&chain[0]);
    let (view, good) = (1, true);
    assert_eq!(member.answer(), Event::Verdict { view, good });
    member.close();
}

#[test]
fn what_an_earlier_node_asked_is_answered_no_more() {
    let folder = tempfile::tempdir().unwrap();
    let member = Member::open(folder.path());
    let chain = blocks(1);
    member.ask(verify(1, &chain[0]));
    member.ask(Request::Opened(2));
    member.hear(&chain[0]);
    member.ask(verify(2, &chain[0]));
    let answer = member.inbox.take(None, 9);
    let [Input::Answer(2, Event::Checked { request: 2, .. })] = &answer[..] else {
        panic!("{answer:?}");
    };
    member.close();
}

fn finalize(folder: &TempDir, chain: &[Block], order: &[usize]) -> Vec<String> {
    let member = Member::open(folder.path());
    let last = chain.last().unwrap();
    member.ask(Request::Finalized(proposal(last)));
    for place in order {
        // Each is asked for once the one behind it is here.
        let payload = chain[*place].id.payload;
        until("it is asked for", || {
            let mut all = member.network.taken().into_iter();
            all.find(|(_, frame)| matches!(frame, Frame::AskBlocks { payload: asked, .. } if *asked == payload))
        });
        member.hear(&chain[*place]);
    }
    let told = member.final_views(chain.len());
    member.close();
    told
}

#[test]
fn final_blocks_are_carried_out_once_each_ancestors_first_and_again_behind_a_snapshot() {
    let folder = tempfile::tempdir().unwrap();
    let chain = blocks(6);
    let told = finalize(&folder, &chain, &[5, 4, 3, 2, 1, 0]);
    assert_eq!(told, ["1", "2", "3", "4", "5", "6"]);
    // A new process: from the snapshot behind view 4 on, by the blocks on the disk alone.
    let member = Member::open(folder.path());
    member.ask(Request::Finalized(proposal(&chain[5])));
    assert_eq!(member.final_views(3), ["at 4", "5", "6"]);
    // It is told once more, and of one before: nothing is carried out twice.
    member.ask(Request::Finalized(proposal(&chain[5])));
    member.ask(Request::Finalized(proposal(&chain[2])));
    let next = block(7, chain[5].id, vec![0]);
    member.hear(&next);
    member.ask(Request::Finalized(proposal(&next)));
    assert_eq!(member.final_views(4), ["at 4", "5", "6", "7"]);
    member.close();
}

#[test]
fn votes_do_not_wait_for_a_snapshot_that_is_being_written() {
    let folder = tempfile::tempdir().unwrap();
    // Whoever opens this to write waits until somebody opens it to read, and nobody does.
    let made = Command::new("mkfifo")
        .arg(folder.path().join("snapshot.new"))
        .status();
    assert!(made.unwrap().success());
    let chain = blocks(6);
    let member = Member::open(folder.path());
    chain.iter().for_each(|block| member.hear(block));
    member.ask(Request::Finalized(proposal(&chain[4])));
    assert_eq!(member.final_views(5), ["1", "2", "3", "4", "5"]);
    member.ask(Request::Certify(proposal(&chain[5])));
    let (view, good) = (6, true);
    assert_eq!(member.answer(), Event::Verdict { view, good });
}

#[test]
fn a_block_is_on_the_disk_before_it_is_voted_for() {
    let folder = tempfile::tempdir().unwrap();
    let member = Member::open(folder.path());
    let chain = blocks(1);
    member.hear(&chain[0]);
    member.ask(verify(1, &chain[0]));
    let answer = Some(true);
    assert_eq!(member.answer(), Event::Checked { request: 1, answer });
    let file = std::fs::read(folder.path().join("blocks")).unwrap();
    let bytes = Block::bytes(1, chain[0].parent, &chain[0].contents);
    assert!(file.windows(bytes.len()).any(|part| part == bytes));
    assert_eq!(member.syncs(), 1);
    // Its own as well.
    member.ask(Request::Build(
        2,
        context(&block(2, chain[0].id, Vec::new())),
    ));
    let Event::Built { payload, .. } = member.answer() else {
        panic!("it builds");
    };
    let file = std::fs::read(folder.path().join("blocks")).unwrap();
    let payload = payload.unwrap();
    assert!(file.windows(32).any(|part| part == payload));
    assert_eq!(member.syncs(), 2);
    member.close();
}

#[test]
fn a_peer_that_floods_takes_no_room_of_the_node_or_of_another() {
    let (handle, requests) = ChainHandle::new(4);
    let lacks = || Frame::Lacks([0; 32]);
    let flood = (0..100_000).filter(|_| handle.hear(1, lacks(), 33));
    let small = flood.count();
    // Of long ones still fewer, but one always.
    let flood = (0..100).filter(|_| handle.hear(2, lacks(), 4 << 20));
    let long = flood.count();
    assert!(
        (2..10).contains(&long) && long < small && small < 1000,
        "{long} {small}"
    );
    assert!(handle.hear(3, lacks(), 33 << 20));
    (0..4000).for_each(|_| handle.ask(Request::Wake).unwrap());
    // What asks to be looked at again and again waits once.
    let wake = handle.wake();
    (0..100_000).for_each(|_| wake.wake());
    assert_eq!(requests.try_iter().count(), small + long + 1 + 4000 + 1);
}

#[test]
fn what_was_built_goes_to_all_and_what_is_forwarded_to_those_of_its_plan() {
    let folder = tempfile::tempdir().unwrap();
    let member = Member::open(folder.path());
    let context = context(&blocks(1)[0]);
    member.ask(Request::Build(1, context));
    let Event::Built { payload, .. } = member.answer() else {
        panic!("it builds");
    };
    let (payload, round) = (payload.unwrap(), context.round);
    let built = blocks(1).remove(0);
    let frame = Frame::Block(Block::bytes(1, built.parent, &built.contents));
    assert_eq!(payload, built.id.payload);
    for (plan, to) in [
        (Plan::Prepare(round), vec![None]),
        (Plan::Propose(round), vec![None]),
        (Plan::Forward(round, vec![2, 3]), vec![Some(2), Some(3)]),
    ] {
        member.ask(Request::Forward(payload, plan));
        let mut sent = Vec::new();
        until("it is sent", || {
            sent.append(&mut member.network.taken());
            (sent.len() >= to.len()).then_some(())
        });
        let wanted: Vec<_> = to.into_iter().map(|to| (to, frame.clone())).collect();
        assert_eq!(sent, wanted);
    }
    member.close();
}
