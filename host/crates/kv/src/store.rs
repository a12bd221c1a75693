//! The store of one member: its application on one side, its clients on the other.

use crate::batch;
use crate::command::{Key, Request, RequestId, Value};
use crate::machine::{Answer, Forgotten, History, Limits, Machine};
use crate::pool::Pool;
pub use crate::pool::Refused;
use crate::snapshot;
use application::{Application, Block, BlockId, Context, Gossip, RestoreError, Wake};
use serde::Serialize;
use std::collections::{HashSet, VecDeque};
use std::sync::{Arc, Mutex, MutexGuard, OnceLock, PoisonError};
use std::time::{Duration, Instant};
use tokio::sync::watch;
use tokio::time::timeout;

/// Blocks of which the chain's hash is told.
const CHAIN_KEPT: usize = 4_096;

/// What both sides share.
#[derive(Debug)]
struct Shared {
    state: Mutex<State>,
    view: watch::Sender<u64>,
    wake: OnceLock<Wake>,
    gossip: OnceLock<Gossip>,
}

#[derive(Debug)]
struct State {
    machine: Machine,
    pool: Pool,
    chain: VecDeque<Link>,
    malformed: u64,
}

/// A block's place in the chain.
#[derive(Clone, Debug, PartialEq, Eq, Serialize)]
pub struct Link {
    /// The view of a block that is final.
    pub view: u64,
    /// Its payload in hexadecimal digits.
    pub payload: String,
    /// [`Machine::chain`] behind it, in hexadecimal digits.
    pub chain: String,
}

/// The store in figures.
#[derive(Clone, Debug, PartialEq, Eq, Serialize)]
pub struct Summary {
    /// The view of the last block that was carried out.
    pub view: u64,
    /// [`Machine::chain`] behind it, in hexadecimal digits.
    pub chain: String,
    /// Keys that have a history.
    pub keys: usize,
    /// Bytes of keys and values, counted as for [`Limits::bytes`].
    pub bytes: usize,
    /// Requests that wait for a block.
    pub pending: usize,
    /// Final blocks whose contents were no batch: only more liars than the committee bears bring one.
    pub malformed: u64,
}

/// A value in the state that this member has: the last of an earlier view perhaps.
#[derive(Clone, Debug, PartialEq, Eq)]
pub struct Local {
    /// The view of the last block that was carried out here.
    pub view: u64,
    /// The value behind it, or none.
    pub value: Option<Value>,
}

/// Why a request has no answer.
#[derive(Clone, Copy, Debug, PartialEq, Eq)]
pub enum NoAnswer {
    /// It wasn't taken, and isn't carried out for having been sent here.
    Refused(Refused),
    /// No answer came in time. It may have been carried out, or may be yet.
    Unknown,
}

impl Shared {
    /// A thread that panicked holding the lock has left whole values: each change is made in one call.
    fn state(&self) -> MutexGuard<'_, State> {
        self.state.lock().unwrap_or_else(PoisonError::into_inner)
    }
}

/// The application: blocks in.
#[derive(Debug)]
pub struct Store {
    shared: Arc<Shared>,
}

/// The clients' side: requests in. Copies are of the same store.
#[derive(Clone, Debug)]
pub struct Clients {
    shared: Arc<Shared>,
}

impl Store {
    /// An empty store.
    pub fn new(limits: Limits) -> Store {
        let state = State {
            machine: Machine::new(limits),
            pool: Pool::default(),
            chain: VecDeque::new(),
            malformed: 0,
        };
        let (view, _) = watch::channel(0);
        Store {
            shared: Arc::new(Shared {
                state: Mutex::new(state),
                view,
                wake: OnceLock::new(),
                gossip: OnceLock::new(),
            }),
        }
    }

    /// Its clients' side.
    pub fn clients(&self) -> Clients {
        Clients {
            shared: Arc::clone(&self.shared),
        }
    }
}

impl Application for Store {
    fn build(&mut self, _context: &Context, ancestors: &[Block]) -> Option<Vec<u8>> {
        let taken: HashSet<RequestId> = ancestors
            .iter()
            .filter_map(|block| batch::read(&block.contents).ok())
            .flatten()
            .map(|request| request.id)
            .collect();
        let mut state = self.shared.state();
        state.pool.forget_old(Instant::now());
        let chosen = state.pool.batch(&taken);
        let contents = batch::spell(chosen.iter().copied());
        let ids: Vec<RequestId> = chosen.iter().map(|request| request.id).collect();
        state.pool.place(&ids);
        Some(contents)
    }

    fn verify(&mut self, _context: &Context, _ancestors: &[Block], contents: &[u8]) -> bool {
        // A request that an ancestor has already is no fault: it is carried out once.
        let Ok(requests) = batch::read(contents) else {
            return false;
        };
        let ids = requests.iter().map(|request| &request.id);
        self.shared.state().pool.place(ids);
        true
    }

    fn certify(&mut self, block: &Block) -> bool {
        batch::read(&block.contents).is_ok()
    }

    fn finalized(&mut self, block: &Block) {
        let mut guard = self.shared.state();
        let state = &mut *guard;
        let requests = batch::read(&block.contents).unwrap_or_else(|_| {
            state.malformed += 1;
            Vec::new()
        });
        let answers = state.machine.apply(block.id, &requests);
        for (request, answer) in requests.iter().zip(&answers) {
            state.pool.answer(request, answer);
        }
        // What waits under the name of another command will never be carried out: it is told so.
        let ids: Vec<RequestId> = requests.iter().map(|request| request.id).collect();
        state
            .pool
            .settle_known(&ids, |request| state.machine.known(request));
        if state.chain.len() == CHAIN_KEPT {
            state.chain.pop_front();
        }
        state.chain.push_back(Link {
            view: block.id.view,
            payload: hex::encode(block.id.payload),
            chain: hex::encode(state.machine.chain()),
        });
        drop(guard);
        self.shared.view.send_replace(block.id.view);
    }

    fn snapshot(&self) -> Vec<u8> {
        snapshot::spell(&self.shared.state().machine)
    }

    fn restore(&mut self, at: &BlockId, bytes: &[u8]) -> Result<(), RestoreError> {
        let mut guard = self.shared.state();
        let state = &mut *guard;
        let machine = snapshot::read(*state.machine.limits(), bytes)
            .map_err(|malformed| RestoreError(malformed.to_string()))?;
        if machine.at() != *at {
            return Err(RestoreError(format!(
                "it is of block {}, not of {at}",
                machine.at()
            )));
        }
        state.machine = machine;
        state.chain.clear();
        let ids = state.pool.ids();
        state
            .pool
            .settle_known(&ids, |request| state.machine.known(request));
        drop(guard);
        self.shared.view.send_replace(at.view);
        Ok(())
    }

    fn attach(&mut self, wake: Wake) {
        // It is handed over once: a second one would be the same host's.
        let _ = self.shared.wake.set(wake);
    }

    fn introduce(&mut self, gossip: Gossip) {
        let _ = self.shared.gossip.set(gossip);
    }

    fn hear(&mut self, from: u32, message: &[u8]) {
        // Whatever else it may be, it is dropped: whoever leads then lacks a request, nothing more.
        if let Ok(request) = Request::of_bytes(message) {
            let mut state = self.shared.state();
            if state.machine.known(&request).is_none() {
                state.pool.insert_passed_on(from, request, Instant::now());
            }
        }
    }

    fn has_work(&self) -> bool {
        self.shared.state().pool.has_unplaced()
    }
}

impl Clients {
    /// Brings a request, and waits until it is carried out: in the state of the block that has it, or as
    /// long as `patience`. A get is linearizable: its block was built behind this call.
    ///
    /// # Errors
    ///
    /// Where there is no answer, see [`NoAnswer`].
    pub async fn submit(&self, request: Request, patience: Duration) -> Result<Answer, NoAnswer> {
        let id = request.id;
        let mut spelled = Vec::new();
        request.append_to(&mut spelled);
        let (is_new, (waiter, receiver)) = {
            let mut state = self.shared.state();
            if let Some(answer) = state.machine.known(&request) {
                return Ok(answer);
            }
            let is_new = state.pool.insert(request).map_err(NoAnswer::Refused)?;
            (is_new, state.pool.wait(id).ok_or(NoAnswer::Unknown)?)
        };
        let _waiting = Waiting {
            shared: &self.shared,
            id,
            waiter,
        };
        if let Some(wake) = self.shared.wake.get() {
            wake.wake();
        }
        // Whoever leads builds it: else it would wait until this member does.
        if let Some(gossip) = self.shared.gossip.get()
            && is_new
        {
            gossip.tell(&spelled);
        }
        match timeout(patience, receiver).await {
            Ok(Ok(answer)) => Ok(answer),
            _ => Err(NoAnswer::Unknown),
        }
    }

    /// Waits until the block of this view, or a later one, was carried out here: the view that was
    /// reached, or none where that took longer than `patience`.
    pub async fn reached(&self, view: u64, patience: Duration) -> Option<u64> {
        let mut views = self.shared.view.subscribe();
        let waiting = async {
            loop {
                let reached = *views.borrow_and_update();
                if reached >= view {
                    return Some(reached);
                }
                views.changed().await.ok()?;
            }
        };
        timeout(patience, waiting).await.ok().flatten()
    }

    /// What a key has in the state that this member has: **stale** perhaps, since the others may be ahead.
    pub fn local(&self, key: &Key) -> Local {
        let state = self.shared.state();
        Local {
            view: state.machine.at().view,
            value: state.machine.value(key).cloned(),
        }
    }

    /// What a key had behind the last block of at most this view, in the state that this member has.
    ///
    /// # Errors
    ///
    /// Where so old a history isn't kept.
    pub fn local_as_of(&self, key: &Key, view: u64) -> Result<Local, Forgotten> {
        let state = self.shared.state();
        let value = state.machine.value_as_of(key, view)?.cloned();
        Ok(Local {
            view: state.machine.at().view,
            value,
        })
    }

    /// The view of the last block that was carried out here, and the key's history behind it.
    pub fn history(&self, key: &Key) -> (u64, Option<History>) {
        let state = self.shared.state();
        (state.machine.at().view, state.machine.history(key).cloned())
    }

    /// The last blocks that were carried out here, oldest first, of those behind the view `after`.
    pub fn chain(&self, after: u64) -> Vec<Link> {
        let state = self.shared.state();
        state
            .chain
            .iter()
            .filter(|link| link.view > after)
            .cloned()
            .collect()
    }

    /// The store in figures.
    pub fn summary(&self) -> Summary {
        let state = self.shared.state();
        Summary {
            view: state.machine.at().view,
            chain: hex::encode(state.machine.chain()),
            keys: state.machine.keys(),
            bytes: state.machine.bytes(),
            pending: state.pool.len(),
            malformed: state.malformed,
        }
    }
}

/// Someone who waits for an answer, until this is dropped: also where a client's connection ends.
struct Waiting<'a> {
    shared: &'a Shared,
    id: RequestId,
    waiter: u64,
}

impl Drop for Waiting<'_> {
    fn drop(&mut self) {
        self.shared.state().pool.leave(self.id, self.waiter);
    }
}

#[cfg(test)]
mod tests {
    use super::*;
    use crate::command::Command;
    use crate::command::tests::{key, put, request, value};
    use crate::machine::Outcome;
    use std::sync::atomic::{AtomicUsize, Ordering};

    const PATIENCE: Duration = Duration::from_secs(5);

    fn context(view: u64, parent: BlockId) -> Context {
        Context {
            view,
            leader: 0,
            parent,
        }
    }

    /// Blocks of one member alone, each final at once.
    struct Chain {
        store: Store,
        parent: BlockId,
    }

    impl Chain {
        fn new() -> Chain {
            Chain {
                store: Store::new(Limits::default()),
                parent: BlockId::GENESIS,
            }
        }

        fn build(&mut self, ancestors: &[Block]) -> Block {
            let context = context(self.parent.view + 1, self.parent);
            let contents = self.store.build(&context, ancestors).unwrap();
            assert!(self.store.verify(&context, ancestors, &contents));
            let id = BlockId {
                view: context.view,
                payload: [context.view as u8; 32],
            };
            Block {
                id,
                parent: self.parent,
                contents,
            }
        }

        fn step(&mut self) -> usize {
            let block = self.build(&[]);
            self.finalize(&block);
            batch::read(&block.contents).unwrap().len()
        }

        fn finalize(&mut self, block: &Block) {
            assert!(self.store.certify(block));
            self.store.finalized(block);
            self.parent = block.id;
        }

        /// Waits until so many requests wait.
        async fn pending(&self, count: usize) {
            while self.store.clients().summary().pending != count {
                tokio::task::yield_now().await;
            }
        }
    }

    #[tokio::test]
    async fn a_put_is_answered_by_the_block_that_has_it() {
        let mut chain = Chain::new();
        let clients = chain.store.clients();
        assert!(!chain.store.has_work());
        chain.step();
        let task =
            tokio::spawn(
                async move { clients.submit(request(1, 1, put("a", "1")), PATIENCE).await },
            );
        chain.pending(1).await;
        assert!(chain.store.has_work());
        assert_eq!(chain.step(), 1);
        assert_eq!(
            task.await.unwrap(),
            Ok(Answer {
                view: 2,
                outcome: Outcome::Written
            })
        );
        assert!(!chain.store.has_work());
        let local = chain.store.clients().local(&key("a"));
        assert_eq!(
            local,
            Local {
                view: 2,
                value: Some(value("1"))
            }
        );
    }

    #[tokio::test]
    async fn a_repetition_needs_no_block() {
        let mut chain = Chain::new();
        let clients = chain.store.clients();
        let one = request(1, 1, put("a", "1"));
        let task = tokio::spawn({
            let (clients, one) = (clients.clone(), one.clone());
            async move { clients.submit(one, PATIENCE).await }
        });
        chain.pending(1).await;
        chain.step();
        assert_eq!(clients.submit(one, PATIENCE).await, task.await.unwrap());
        assert_eq!(chain.step(), 0);
    }

    #[tokio::test]
    async fn what_an_ancestor_has_is_not_built_again() {
        let mut chain = Chain::new();
        let clients = chain.store.clients();
        tokio::spawn(async move { clients.submit(request(1, 1, put("a", "1")), PATIENCE).await });
        chain.pending(1).await;
        let first = chain.build(&[]);
        assert_eq!(batch::read(&first.contents).unwrap().len(), 1);
        let second = chain.build(std::slice::from_ref(&first));
        assert_eq!(batch::read(&second.contents).unwrap().len(), 0);
    }

    #[tokio::test]
    async fn no_block_leaves_the_outcome_unknown_and_the_request_is_dropped() {
        let chain = Chain::new();
        let clients = chain.store.clients();
        let patience = Duration::from_millis(10);
        let answer = clients.submit(request(1, 1, put("a", "1")), patience).await;
        assert_eq!(answer, Err(NoAnswer::Unknown));
        assert_eq!(clients.summary().pending, 0);
    }

    #[tokio::test]
    async fn a_command_that_another_took_the_number_of_is_told_so() {
        let mut chain = Chain::new();
        let clients = chain.store.clients();
        let task = tokio::spawn(async move {
            clients
                .submit(request(1, 1, put("a", "mine")), PATIENCE)
                .await
        });
        chain.pending(1).await;
        let forged = request(1, 1, put("a", "forged"));
        let block = Block {
            contents: batch::spell([forged].iter()),
            ..chain.build(&[])
        };
        chain.finalize(&block);
        assert_eq!(task.await.unwrap().unwrap().outcome, Outcome::Conflict);
    }

    #[tokio::test]
    async fn a_forged_get_answers_nobody() {
        let mut chain = Chain::new();
        let clients = chain.store.clients();
        let get = |name: &str| request(1, 1, Command::Get { key: key(name) });
        let mine = get("a");
        let task = tokio::spawn(async move { clients.submit(mine, PATIENCE).await });
        chain.pending(1).await;
        let block = Block {
            contents: batch::spell([get("b")].iter()),
            ..chain.build(&[])
        };
        chain.finalize(&block);
        chain.pending(1).await;
        chain.step();
        let answer = Answer {
            view: 2,
            outcome: Outcome::Read(None),
        };
        assert_eq!(task.await.unwrap(), Ok(answer));
    }

    #[tokio::test]
    async fn one_can_wait_for_a_view() {
        let mut chain = Chain::new();
        let clients = chain.store.clients();
        assert_eq!(clients.reached(2, Duration::from_millis(10)).await, None);
        let task = tokio::spawn(async move { clients.reached(2, PATIENCE).await });
        chain.step();
        tokio::task::yield_now().await;
        assert!(!task.is_finished());
        chain.step();
        assert_eq!(task.await.unwrap(), Some(2));
    }

    #[tokio::test]
    async fn a_snapshot_brings_state_and_answers_what_it_knows() {
        let mut chain = Chain::new();
        let clients = chain.store.clients();
        let one = request(1, 1, put("a", "1"));
        let given = one.clone();
        let task = tokio::spawn(async move { clients.submit(given, PATIENCE).await });
        chain.pending(1).await;
        chain.step();
        task.await.unwrap().unwrap();
        let bytes = chain.store.snapshot();

        let mut late = Chain::new();
        let clients = late.store.clients();
        let task = tokio::spawn(async move { clients.submit(one, PATIENCE).await });
        late.pending(1).await;
        late.store.restore(&chain.parent, &bytes).unwrap();
        assert_eq!(
            task.await.unwrap(),
            Ok(Answer {
                view: 1,
                outcome: Outcome::Written
            })
        );
        assert_eq!(late.store.snapshot(), bytes);
        assert_eq!(
            late.store.clients().local(&key("a")).value,
            Some(value("1"))
        );
    }

    #[test]
    fn what_is_no_snapshot_of_this_block_changes_nothing() {
        let mut chain = Chain::new();
        chain.step();
        let bytes = chain.store.snapshot();
        let other = BlockId {
            view: 1,
            payload: [7; 32],
        };
        assert!(chain.store.restore(&other, &bytes).is_err());
        assert!(chain.store.restore(&chain.parent, &bytes[1..]).is_err());
        assert_eq!(chain.store.snapshot(), bytes);
    }

    #[test]
    fn bad_contents_are_refused_and_counted_where_they_are_final() {
        let mut chain = Chain::new();
        let bad = Block {
            contents: vec![9],
            ..chain.build(&[])
        };
        assert!(
            !chain
                .store
                .verify(&context(1, BlockId::GENESIS), &[], &bad.contents)
        );
        assert!(!chain.store.certify(&bad));
        chain.store.finalized(&bad);
        let summary = chain.store.clients().summary();
        assert_eq!((summary.malformed, summary.view), (1, 1));
    }

    #[tokio::test]
    async fn a_request_is_passed_on_and_built_by_another_member() {
        let (mut one, mut other) = (Chain::new(), Chain::new());
        let told = Arc::new(Mutex::new(Vec::new()));
        let messages = Arc::clone(&told);
        one.store.introduce(Gossip::new(move |message| {
            messages.lock().unwrap().push(message.to_vec());
        }));
        let clients = one.store.clients();
        let task =
            tokio::spawn(
                async move { clients.submit(request(1, 1, put("a", "1")), PATIENCE).await },
            );
        one.pending(1).await;
        while told.lock().unwrap().is_empty() {
            tokio::task::yield_now().await;
        }
        let message = told.lock().unwrap().pop().unwrap();
        other.store.hear(0, &message[1..]);
        assert!(!other.store.has_work());
        other.store.hear(0, &message);
        assert!(other.store.has_work());
        let block = other.build(&[]);
        other.finalize(&block);
        one.finalize(&block);
        let answer = task.await.unwrap().unwrap();
        assert_eq!(answer.outcome, Outcome::Written);
        assert!(!other.store.has_work());
        other.store.hear(0, &message);
        assert!(!other.store.has_work());
    }

    #[tokio::test]
    async fn a_request_wakes_the_host() {
        let mut chain = Chain::new();
        let woken = Arc::new(AtomicUsize::new(0));
        let count = Arc::clone(&woken);
        chain.store.attach(Wake::new(move || {
            count.fetch_add(1, Ordering::SeqCst);
        }));
        let clients = chain.store.clients();
        let _ = clients
            .submit(request(1, 1, put("a", "1")), Duration::from_millis(1))
            .await;
        assert_eq!(woken.load(Ordering::SeqCst), 1);
    }
}
