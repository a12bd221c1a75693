//! Requests that wait for a block, in the order in which they came.

use crate::batch::Room;
use crate::command::{Request, RequestId};
use crate::machine::Answer;
use std::collections::{BTreeMap, HashMap, HashSet};
use std::time::{Duration, Instant};
use tokio::sync::oneshot;

/// Requests that may wait.
const MOST_PENDING: usize = 16_384;
/// Bytes that may wait.
const MOST_BYTES: usize = 64 << 20;
/// Of these, for each member that passes requests on.
const MOST_OF_A_PEER: usize = 2_048;
const MOST_BYTES_OF_A_PEER: usize = 8 << 20;
/// How long a request waits that another member passed on.
const LIFE_OF_PASSED_ON: Duration = Duration::from_secs(15);

/// Why a request wasn't taken. It isn't carried out for having been sent here.
#[derive(Clone, Copy, Debug, PartialEq, Eq)]
pub enum Refused {
    /// Too many wait already.
    Crowded,
    /// Another command of this client and number waits.
    Busy,
}

#[derive(Debug)]
struct Pending {
    request: Request,
    digest: [u8; 32],
    length: usize,
    place: u64,
    waiters: HashMap<u64, oneshot::Sender<Answer>>,
    /// Who passed it on, and when, if a member did.
    from: Option<(u32, Instant)>,
    /// Whether a block was seen that has it.
    is_placed: bool,
}

/// What waits of one member's.
#[derive(Debug, Default)]
struct OfPeer {
    count: usize,
    bytes: usize,
}

/// The requests that wait, and who waits for their answers.
#[derive(Debug, Default)]
pub(crate) struct Pool {
    pending: HashMap<RequestId, Pending>,
    order: BTreeMap<u64, RequestId>,
    bytes: usize,
    /// How many no block was seen of.
    unplaced: usize,
    count: u64,
    of_peers: HashMap<u32, OfPeer>,
}

impl Pool {
    pub(crate) fn len(&self) -> usize {
        self.pending.len()
    }

    /// Whether a request waits that no block has that was seen. Another that isn't in the chain in the end is built into a later block.
    pub(crate) fn has_unplaced(&self) -> bool {
        self.unplaced > 0
    }

    /// A block was seen that has these.
    pub(crate) fn place<'a>(&mut self, ids: impl IntoIterator<Item = &'a RequestId>) {
        for id in ids {
            if let Some(pending) = self.pending.get_mut(id)
                && !pending.is_placed
            {
                pending.is_placed = true;
                self.unplaced -= 1;
            }
        }
    }

    /// Takes a request of a client in: whether it is new here. One that waits already is passed over.
    pub(crate) fn insert(&mut self, request: Request) -> Result<bool, Refused> {
        let (digest, length) = (request.digest(), request.length());
        if let Some(pending) = self.pending.get(&request.id) {
            let is_same = pending.digest == digest;
            return if is_same {
                Ok(false)
            } else {
                Err(Refused::Busy)
            };
        }
        if self.pending.len() >= MOST_PENDING || self.bytes + length > MOST_BYTES {
            return Err(Refused::Crowded);
        }
        self.push(request, digest, length, None);
        Ok(true)
    }

    /// Takes a request in that another member passed on, if there is room for it.
    pub(crate) fn insert_passed_on(&mut self, from: u32, request: Request, now: Instant) -> bool {
        let (digest, length) = (request.digest(), request.length());
        let of_peer = self.of_peers.entry(from).or_default();
        let is_full =
            of_peer.count >= MOST_OF_A_PEER || of_peer.bytes + length > MOST_BYTES_OF_A_PEER;
        if is_full || self.pending.contains_key(&request.id) {
            return false;
        }
        of_peer.count += 1;
        of_peer.bytes += length;
        self.push(request, digest, length, Some((from, now)));
        true
    }

    fn push(
        &mut self,
        request: Request,
        digest: [u8; 32],
        length: usize,
        from: Option<(u32, Instant)>,
    ) {
        self.count += 1;
        let place = self.count;
        self.bytes += length;
        self.order.insert(place, request.id);
        let waiters = HashMap::new();
        let pending = Pending {
            request,
            digest,
            length,
            place,
            waiters,
            from,
            is_placed: false,
        };
        self.unplaced += 1;
        self.pending.insert(pending.request.id, pending);
    }

    /// Drops what was passed on long ago and got into no block, and for which nobody waits here.
    pub(crate) fn forget_old(&mut self, now: Instant) {
        let is_old = |pending: &Pending| {
            let since = pending.from.map(|(_, since)| now.duration_since(since));
            pending.waiters.is_empty() && since.is_some_and(|since| since > LIFE_OF_PASSED_ON)
        };
        let old = self.pending.values().filter(|pending| is_old(pending));
        let old: Vec<RequestId> = old.map(|pending| pending.request.id).collect();
        for id in old {
            self.remove(id);
        }
    }

    /// Has an answer sent here, and gives the number to stop waiting by. The request has to wait.
    pub(crate) fn wait(&mut self, id: RequestId) -> Option<(u64, oneshot::Receiver<Answer>)> {
        let pending = self.pending.get_mut(&id)?;
        self.count += 1;
        let (sender, receiver) = oneshot::channel();
        pending.waiters.insert(self.count, sender);
        Some((self.count, receiver))
    }

    /// Nobody waits under this number any more. A request for which nobody waits is dropped.
    pub(crate) fn leave(&mut self, id: RequestId, waiter: u64) {
        let Some(pending) = self.pending.get_mut(&id) else {
            return;
        };
        if pending.waiters.remove(&waiter).is_some() && pending.waiters.is_empty() {
            self.remove(id);
        }
    }

    /// The answer to a request that was carried out; one under the same name that isn't the same stays.
    pub(crate) fn answer(&mut self, request: &Request, answer: &Answer) {
        if self
            .pending
            .get(&request.id)
            .is_some_and(|pending| pending.digest == request.digest())
        {
            self.settle(request.id, answer);
        }
    }

    /// Answers those of which `known` can tell what became of them.
    pub(crate) fn settle_known(
        &mut self,
        ids: &[RequestId],
        known: impl Fn(&Request) -> Option<Answer>,
    ) {
        for id in ids {
            let answer = self
                .pending
                .get(id)
                .and_then(|pending| known(&pending.request));
            if let Some(answer) = answer {
                self.settle(*id, &answer);
            }
        }
    }

    /// The names of all that wait.
    pub(crate) fn ids(&self) -> Vec<RequestId> {
        self.order.values().copied().collect()
    }

    fn settle(&mut self, id: RequestId, answer: &Answer) {
        if let Some(pending) = self.remove(id) {
            for waiter in pending.waiters.into_values() {
                // Whoever stopped waiting needs no answer.
                let _ = waiter.send(answer.clone());
            }
        }
    }

    fn remove(&mut self, id: RequestId) -> Option<Pending> {
        let pending = self.pending.remove(&id)?;
        self.order.remove(&pending.place);
        self.bytes -= pending.length;
        self.unplaced -= usize::from(!pending.is_placed);
        if let Some((from, _)) = pending.from
            && let Some(of_peer) = self.of_peers.get_mut(&from)
        {
            of_peer.count -= 1;
            of_peer.bytes -= pending.length;
        }
        Some(pending)
    }

    /// The oldest that fit into one batch, without those that are `taken`.
    pub(crate) fn batch(&self, taken: &HashSet<RequestId>) -> Vec<&Request> {
        let mut room = Room::new();
        self.order
            .values()
            .filter(|id| !taken.contains(id))
            .map(|id| &self.pending[id])
            .take_while(|pending| room.take(pending.length))
            .map(|pending| &pending.request)
            .collect()
    }
}

#[cfg(test)]
mod tests {
    use super::*;
    use crate::batch::{self, MOST_REQUESTS};
    use crate::command::tests::{put, request};
    use crate::machine::Outcome;

    fn written() -> Answer {
        Answer {
            view: 3,
            outcome: Outcome::Written,
        }
    }

    #[test]
    fn a_request_waits_once_and_is_answered_to_all_who_wait() {
        let mut pool = Pool::default();
        let one = request(1, 1, put("a", "1"));
        assert_eq!(pool.insert(one.clone()), Ok(true));
        assert_eq!(pool.insert(one.clone()), Ok(false));
        assert_eq!(
            pool.insert(request(1, 1, put("a", "2"))),
            Err(Refused::Busy)
        );
        let (_, mut first) = pool.wait(one.id).unwrap();
        let (_, mut second) = pool.wait(one.id).unwrap();
        pool.answer(&request(1, 1, put("a", "2")), &written());
        assert!(first.try_recv().is_err());
        pool.answer(&one, &written());
        assert_eq!(first.try_recv(), Ok(written()));
        assert_eq!(second.try_recv(), Ok(written()));
        assert_eq!(pool.len(), 0);
    }

    #[test]
    fn a_request_goes_when_the_last_who_waited_leaves() {
        let mut pool = Pool::default();
        let one = request(1, 1, put("a", "1"));
        pool.insert(one.clone()).unwrap();
        let (first, _one) = pool.wait(one.id).unwrap();
        let (second, _other) = pool.wait(one.id).unwrap();
        pool.leave(one.id, first);
        pool.leave(one.id, first);
        assert_eq!(pool.len(), 1);
        pool.leave(one.id, second);
        assert_eq!(pool.len(), 0);
        assert!(pool.wait(one.id).is_none());
    }

    #[test]
    fn what_a_block_has_is_no_work_any_more_until_more_comes() {
        let mut pool = Pool::default();
        let [one, two, three] = [1, 2, 3].map(|number| request(1, number, put("a", "1")));
        assert!(!pool.has_unplaced());
        pool.insert(one.clone()).unwrap();
        pool.insert(two.clone()).unwrap();
        pool.place([&one.id, &one.id, &three.id]);
        assert!(pool.has_unplaced());
        pool.place([&two.id]);
        assert!(!pool.has_unplaced());
        // They wait until they are carried out, and are in the next block if they weren't in this one.
        assert_eq!(pool.batch(&HashSet::new()), [&one, &two]);
        pool.insert(three.clone()).unwrap();
        assert!(pool.has_unplaced());
        pool.answer(&one, &written());
        pool.answer(&three, &written());
        assert!(!pool.has_unplaced());
        pool.answer(&two, &written());
        assert!(!pool.has_unplaced());
    }

    #[test]
    fn a_batch_has_the_oldest_that_fit_and_none_that_are_taken() {
        let mut pool = Pool::default();
        for number in 1..=MOST_REQUESTS as u64 + 5 {
            pool.insert(request(1, number, put("a", "1"))).unwrap();
        }
        let taken = [1, 3]
            .map(|number| request(1, number, put("a", "")).id)
            .into_iter()
            .collect();
        let chosen: Vec<_> = pool.batch(&taken).into_iter().cloned().collect();
        assert_eq!(chosen.len(), MOST_REQUESTS);
        assert_eq!(chosen[0].id.number, 2);
        assert_eq!(chosen[1].id.number, 4);
        assert!(batch::read(&batch::spell(chosen.iter())).is_ok());
    }

    #[test]
    fn long_requests_fill_a_batch_to_its_bytes() {
        let mut pool = Pool::default();
        let text = "x".repeat(60_000);
        for number in 1..=20 {
            pool.insert(request(1, number, put("a", &text))).unwrap();
        }
        let none = HashSet::new();
        let chosen: Vec<_> = pool.batch(&none).into_iter().cloned().collect();
        assert_eq!(chosen.len(), 17);
        assert_eq!(batch::read(&batch::spell(chosen.iter())), Ok(chosen));
    }

    #[test]
    fn what_a_member_passes_on_has_bounds_and_an_end() {
        let mut pool = Pool::default();
        let start = Instant::now();
        let passed = |number| request(1, number, put("a", "1"));
        for number in 1..=MOST_OF_A_PEER as u64 {
            assert!(pool.insert_passed_on(2, passed(number), start));
        }
        let next = passed(MOST_OF_A_PEER as u64 + 1);
        assert!(!pool.insert_passed_on(2, next.clone(), start));
        assert!(pool.insert_passed_on(3, next.clone(), start));
        pool.answer(&passed(1), &written());
        assert!(pool.insert_passed_on(2, passed(1), start));
        // Whoever waits for one keeps it.
        assert_eq!(pool.insert(next.clone()), Ok(false));
        let _waiting = pool.wait(next.id).unwrap();
        pool.forget_old(start + LIFE_OF_PASSED_ON);
        assert_eq!(pool.len(), MOST_OF_A_PEER + 1);
        pool.forget_old(start + LIFE_OF_PASSED_ON * 2);
        assert_eq!(pool.ids(), [next.id]);
        assert!(pool.insert_passed_on(2, passed(1), start));
    }

    #[test]
    fn a_crowded_pool_takes_no_more() {
        let mut pool = Pool::default();
        for number in 1..=MOST_PENDING as u64 {
            pool.insert(request(1, number, put("a", ""))).unwrap();
        }
        let next = request(2, 1, put("a", ""));
        assert_eq!(pool.insert(next.clone()), Err(Refused::Crowded));
        pool.answer(&request(1, 7, put("a", "")), &written());
        assert_eq!(pool.insert(next), Ok(true));
    }
}
