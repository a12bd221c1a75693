//! The state that the blocks lead to. It is a function of the chain alone, the same at every member.

use crate::command::{ClientId, Command, Key, Request, RequestId, Value};
use application::BlockId;
use ring::digest::{Context, SHA256};
use std::collections::{BTreeMap, BTreeSet, VecDeque};

/// What the state may grow to. All members of a committee have to have the same.
#[derive(Clone, Copy, Debug, PartialEq, Eq)]
pub struct Limits {
    /// Keys, those included whose history is kept behind a delete.
    pub keys: usize,
    /// Bytes of keys and of the values kept, with 64 more for each key and 32 for each value.
    pub bytes: usize,
    /// Versions of a key that are kept.
    pub versions: usize,
    /// Clients whose last request is known: so many that had one request, and so many that had more. So
    /// the many that come once don't push out those that stay.
    pub clients: usize,
    /// For how many views the history of a deleted key is kept.
    pub deleted_views: u64,
}

impl Default for Limits {
    fn default() -> Limits {
        Limits {
            keys: 1 << 20,
            bytes: 256 << 20,
            versions: 32,
            clients: 1 << 16,
            deleted_views: 100_000,
        }
    }
}

/// What a key had from a place of the order on.
#[derive(Clone, Debug, PartialEq, Eq)]
pub struct Version {
    /// The view of the block that wrote it.
    pub view: u64,
    /// Which request of that block did, counted from 0.
    pub position: u16,
    /// The value, or none for a delete.
    pub value: Option<Value>,
}

impl Version {
    fn cost(&self) -> usize {
        32 + self.value.as_ref().map_or(0, |value| value.bytes().len())
    }
}

/// The versions of a key that are kept: at least one, oldest first.
#[derive(Clone, Debug, PartialEq, Eq, Default)]
pub struct History {
    /// Whether there were older ones.
    pub forgotten: bool,
    /// Those that are kept.
    pub versions: VecDeque<Version>,
}

/// What became of a request.
#[derive(Clone, Debug, PartialEq, Eq)]
pub enum Outcome {
    /// A get: the value at its place of the order.
    Read(Option<Value>),
    /// It was carried out.
    Written,
    /// What the key had wasn't expected: nothing changed.
    Mismatch,
    /// There is no room: nothing changed.
    Full,
    /// A later request of this client was carried out before. This one won't be any more; whether it
    /// was, earlier, is no longer known.
    Superseded,
    /// Another command was carried out under this client and number; this one wasn't and won't be.
    Conflict,
    /// The first request of a client that isn't known has to have number 1: nothing changed.
    UnknownClient,
}

/// An outcome, and the view of the block in which the request was carried out.
#[derive(Clone, Debug, PartialEq, Eq)]
pub struct Answer {
    /// The view; for a repetition that in which it was carried out first.
    pub view: u64,
    /// What became of it.
    pub outcome: Outcome,
}

/// What is remembered of a client's last request that could change something.
#[derive(Clone, Debug, PartialEq, Eq)]
pub(crate) struct Session {
    pub(crate) number: u64,
    pub(crate) digest: [u8; 32],
    pub(crate) view: u64,
    pub(crate) outcome: Recorded,
    /// Greater than that of every client whose last request came before.
    pub(crate) used: u64,
}

impl Session {
    /// Its place in [`Machine::recency`].
    fn class(&self) -> usize {
        usize::from(self.number > 1)
    }
}

/// The outcomes that are remembered.
#[derive(Clone, Copy, Debug, PartialEq, Eq)]
pub(crate) enum Recorded {
    Written,
    Mismatch,
    Full,
}

impl From<Recorded> for Outcome {
    fn from(recorded: Recorded) -> Outcome {
        match recorded {
            Recorded::Written => Outcome::Written,
            Recorded::Mismatch => Outcome::Mismatch,
            Recorded::Full => Outcome::Full,
        }
    }
}

/// The history as of some view is no longer kept.
#[derive(Clone, Copy, Debug, PartialEq, Eq)]
pub struct Forgotten;

/// Keys with their histories, and each client's last request.
#[derive(Clone, Debug)]
pub struct Machine {
    limits: Limits,
    pub(crate) at: BlockId,
    pub(crate) chain: [u8; 32],
    pub(crate) keys: BTreeMap<Key, History>,
    pub(crate) clients: BTreeMap<ClientId, Session>,
    /// Deletes by view. One that was overwritten since is passed over when its time comes.
    deleted: BTreeSet<(u64, Key)>,
    /// Clients that had one request, and those that had more, each the longest silent first.
    recency: [BTreeMap<u64, ClientId>; 2],
    uses: u64,
    bytes: usize,
}

impl Machine {
    /// The state before the first block.
    pub fn new(limits: Limits) -> Machine {
        Machine {
            limits,
            at: BlockId::GENESIS,
            chain: [0; 32],
            keys: BTreeMap::new(),
            clients: BTreeMap::new(),
            deleted: BTreeSet::new(),
            recency: Default::default(),
            uses: 0,
            bytes: 0,
        }
    }

    /// What it may grow to.
    pub fn limits(&self) -> &Limits {
        &self.limits
    }

    /// The last block that was carried out.
    pub fn at(&self) -> BlockId {
        self.at
    }

    /// A hash over the names of all blocks of the chain: of the one before, the view in 8 bytes and the
    /// payload. Members that have the same carried out the same blocks.
    pub fn chain(&self) -> [u8; 32] {
        self.chain
    }

    /// How many keys have a history.
    pub fn keys(&self) -> usize {
        self.keys.len()
    }

    /// What is counted against [`Limits::bytes`].
    pub fn bytes(&self) -> usize {
        self.bytes
    }

    /// What the key has now.
    pub fn value(&self, key: &Key) -> Option<&Value> {
        self.keys.get(key)?.versions.back()?.value.as_ref()
    }

    /// What the key had behind the last block of at most this view.
    ///
    /// # Errors
    ///
    /// Where what is kept doesn't tell.
    pub fn value_as_of(&self, key: &Key, view: u64) -> Result<Option<&Value>, Forgotten> {
        let Some(history) = self.keys.get(key) else {
            let kept_from = self.at.view.saturating_sub(self.limits.deleted_views);
            return if view < kept_from {
                Err(Forgotten)
            } else {
                Ok(None)
            };
        };
        match history
            .versions
            .iter()
            .rev()
            .find(|version| version.view <= view)
        {
            Some(version) => Ok(version.value.as_ref()),
            None if history.forgotten => Err(Forgotten),
            None => Ok(None),
        }
    }

    /// The versions of a key, if it has any.
    pub fn history(&self, key: &Key) -> Option<&History> {
        self.keys.get(key)
    }

    /// What is known already of a request: that it, or one of a higher number, was carried out.
    pub fn known(&self, request: &Request) -> Option<Answer> {
        if request.command.only_reads() {
            return None;
        }
        let session = self.clients.get(&request.id.client)?;
        let outcome = match request.id.number.cmp(&session.number) {
            std::cmp::Ordering::Greater => return None,
            std::cmp::Ordering::Less => Outcome::Superseded,
            std::cmp::Ordering::Equal if session.digest == request.digest() => {
                session.outcome.into()
            }
            std::cmp::Ordering::Equal => Outcome::Conflict,
        };
        Some(Answer {
            view: session.view,
            outcome,
        })
    }

    /// Carries out a block: the answer to each request, in their order.
    pub fn apply(&mut self, block: BlockId, requests: &[Request]) -> Vec<Answer> {
        self.at = block;
        self.chain = {
            let mut hash = Context::new(&SHA256);
            hash.update(&self.chain);
            hash.update(&block.view.to_be_bytes());
            hash.update(&block.payload);
            let mut chain = [0; 32];
            chain.copy_from_slice(hash.finish().as_ref());
            chain
        };
        self.forget_deleted();
        (0u16..)
            .zip(requests)
            .map(|(position, request)| self.carry_out(position, request))
            .collect()
    }

    fn carry_out(&mut self, position: u16, request: &Request) -> Answer {
        let view = self.at.view;
        if let Command::Get { key } = &request.command {
            return Answer {
                view,
                outcome: Outcome::Read(self.value(key).cloned()),
            };
        }
        if let Some(answer) = self.known(request) {
            return answer;
        }
        let RequestId { client, number } = request.id;
        if number > 1 && !self.clients.contains_key(&client) {
            return Answer {
                view,
                outcome: Outcome::UnknownClient,
            };
        }
        let outcome = self.change(position, &request.command);
        self.remember(client, number, request.digest(), outcome);
        Answer {
            view,
            outcome: outcome.into(),
        }
    }

    fn change(&mut self, position: u16, command: &Command) -> Recorded {
        match command {
            Command::Get { .. } => unreachable!("a get changes nothing"),
            Command::Put { key, value } => self.write(position, key, Some(value.clone())),
            Command::Delete { key } => self.write(position, key, None),
            Command::CompareAndSet { key, expected, new } => {
                if self.value(key) != expected.as_ref() {
                    return Recorded::Mismatch;
                }
                self.write(position, key, new.clone())
            }
        }
    }

    fn write(&mut self, position: u16, key: &Key, value: Option<Value>) -> Recorded {
        if value.is_none() && self.value(key).is_none() {
            return Recorded::Written;
        }
        let version = Version {
            view: self.at.view,
            position,
            value,
        };
        let before = self.keys.get(key);
        let added = version.cost() + if before.is_none() { key_cost(key) } else { 0 };
        let forgettable = before.map_or(0, |history| history_cost(key, history) - key_cost(key));
        let is_full = (before.is_none() && self.keys.len() >= self.limits.keys)
            || self.bytes + added - forgettable > self.limits.bytes;
        // A delete finds room always: it is how room is made, and there is at most one behind each put.
        if version.value.is_some() && is_full {
            return Recorded::Full;
        }
        if version.value.is_none() {
            self.deleted.insert((version.view, key.clone()));
        }
        self.bytes += added;
        let history = self.keys.entry(key.clone()).or_default();
        history.versions.push_back(version);
        // Older versions of a key make room for its new one.
        while history.versions.len() > self.limits.versions
            || (self.bytes > self.limits.bytes && history.versions.len() > 1)
        {
            self.bytes -= history
                .versions
                .pop_front()
                .map_or(0, |version| version.cost());
            history.forgotten = true;
        }
        Recorded::Written
    }

    /// Forgets the keys that were deleted long ago and not put again.
    fn forget_deleted(&mut self) {
        let before = self.at.view.saturating_sub(self.limits.deleted_views);
        while self.deleted.first().is_some_and(|(view, _)| *view < before) {
            let Some((view, key)) = self.deleted.pop_first() else {
                return;
            };
            let is_last = |version: &Version| version.value.is_none() && version.view == view;
            if self
                .keys
                .get(&key)
                .and_then(|h| h.versions.back())
                .is_some_and(is_last)
                && let Some(history) = self.keys.remove(&key)
            {
                self.bytes -= history_cost(&key, &history);
            }
        }
    }

    fn remember(&mut self, client: ClientId, number: u64, digest: [u8; 32], outcome: Recorded) {
        self.uses += 1;
        let session = Session {
            number,
            digest,
            view: self.at.view,
            outcome,
            used: self.uses,
        };
        let class = session.class();
        if let Some(before) = self.clients.insert(client, session) {
            self.recency[before.class()].remove(&before.used);
        }
        self.recency[class].insert(self.uses, client);
        while self.recency[class].len() > self.limits.clients {
            let Some((_, oldest)) = self.recency[class].pop_first() else {
                return;
            };
            self.clients.remove(&oldest);
        }
    }

    /// The clients: those that had one request, then those that had more, each the longest silent first.
    pub(crate) fn clients_by_recency(&self) -> impl Iterator<Item = (&ClientId, &Session)> {
        let clients = self.recency.iter().flat_map(BTreeMap::values);
        clients.map(|client| (client, &self.clients[client]))
    }

    /// The state of these parts: no client twice, and `used` by recency.
    pub(crate) fn of_parts(
        limits: Limits,
        at: BlockId,
        chain: [u8; 32],
        keys: BTreeMap<Key, History>,
        clients: Vec<(ClientId, Session)>,
    ) -> Machine {
        let last_is_delete = |history: &History| {
            history
                .versions
                .back()
                .filter(|version| version.value.is_none())
                .map(|version| version.view)
        };
        let deleted = keys
            .iter()
            .filter_map(|(key, history)| Some((last_is_delete(history)?, key.clone())))
            .collect();
        let bytes = keys
            .iter()
            .map(|(key, history)| history_cost(key, history))
            .sum();
        let mut recency = [BTreeMap::new(), BTreeMap::new()];
        for (client, session) in &clients {
            recency[session.class()].insert(session.used, *client);
        }
        let uses = clients.last().map_or(0, |(_, session)| session.used);
        let clients = clients.into_iter().collect();
        Machine {
            limits,
            at,
            chain,
            keys,
            clients,
            deleted,
            recency,
            uses,
            bytes,
        }
    }
}

fn key_cost(key: &Key) -> usize {
    64 + key.bytes().len()
}

fn history_cost(key: &Key, history: &History) -> usize {
    key_cost(key) + history.versions.iter().map(Version::cost).sum::<usize>()
}

#[cfg(test)]
pub(crate) mod tests {
    use super::*;
    use crate::command::tests::{key, put, request, value};

    pub(crate) fn block(view: u64) -> BlockId {
        BlockId {
            view,
            payload: [view as u8; 32],
        }
    }

    pub(crate) fn small() -> Limits {
        Limits {
            keys: 3,
            bytes: 1_000,
            versions: 3,
            clients: 2,
            deleted_views: 10,
        }
    }

    fn get(name: &str) -> Command {
        Command::Get { key: key(name) }
    }

    fn delete(name: &str) -> Command {
        Command::Delete { key: key(name) }
    }

    fn cas(name: &str, expected: Option<&str>, new: Option<&str>) -> Command {
        Command::CompareAndSet {
            key: key(name),
            expected: expected.map(value),
            new: new.map(value),
        }
    }

    /// Carries out one block of these, and tells the outcomes.
    fn outcomes(machine: &mut Machine, view: u64, requests: &[Request]) -> Vec<Outcome> {
        machine
            .apply(block(view), requests)
            .into_iter()
            .map(|answer| answer.outcome)
            .collect()
    }

    #[test]
    fn commands_do_what_they_say_in_their_order() {
        let mut machine = Machine::new(Limits::default());
        let requests: Vec<_> = [
            get("a"),
            put("a", "1"),
            get("a"),
            cas("a", Some("2"), Some("3")),
            cas("a", Some("1"), Some("3")),
            get("a"),
            delete("a"),
            get("a"),
            cas("a", None, Some("4")),
            cas("a", Some("4"), None),
            get("a"),
        ]
        .into_iter()
        .zip(1..)
        .map(|(command, number)| request(1, number, command))
        .collect();
        let mut requests = requests;
        // The first that could change something has number 1: a get may come before.
        requests[0].id.number = 9;
        for (at, request) in requests.iter_mut().enumerate().skip(1) {
            request.id.number = at as u64;
        }
        use Outcome::{Mismatch, Read, Written};
        assert_eq!(
            outcomes(&mut machine, 1, &requests),
            [
                Read(None),
                Written,
                Read(Some(value("1"))),
                Mismatch,
                Written,
                Read(Some(value("3"))),
                Written,
                Read(None),
                Written,
                Written,
                Read(None),
            ]
        );
    }

    #[test]
    fn a_repetition_is_carried_out_once_and_answered_as_before() {
        let mut machine = Machine::new(Limits::default());
        let first = request(1, 1, put("a", "1"));
        let other = request(2, 1, put("a", "2"));
        assert_eq!(
            machine.apply(block(1), &[first.clone(), other]),
            vec![
                Answer {
                    view: 1,
                    outcome: Outcome::Written
                };
                2
            ]
        );
        assert_eq!(
            machine.apply(block(5), std::slice::from_ref(&first)),
            [Answer {
                view: 1,
                outcome: Outcome::Written
            }]
        );
        assert_eq!(machine.value(&key("a")), Some(&value("2")));
        assert_eq!(machine.history(&key("a")).unwrap().versions.len(), 2);
        assert_eq!(
            machine.known(&first),
            Some(Answer {
                view: 1,
                outcome: Outcome::Written
            })
        );
    }

    #[test]
    fn a_mismatch_is_answered_as_before_though_it_would_match_now() {
        let mut machine = Machine::new(Limits::default());
        let swap = request(1, 1, cas("a", Some("1"), Some("2")));
        assert_eq!(
            outcomes(&mut machine, 1, std::slice::from_ref(&swap)),
            [Outcome::Mismatch]
        );
        outcomes(&mut machine, 2, &[request(2, 1, put("a", "1"))]);
        assert_eq!(outcomes(&mut machine, 3, &[swap]), [Outcome::Mismatch]);
        assert_eq!(machine.value(&key("a")), Some(&value("1")));
    }

    #[test]
    fn another_command_under_a_number_conflicts_and_a_lower_number_is_superseded() {
        let mut machine = Machine::new(Limits::default());
        outcomes(&mut machine, 1, &[request(1, 1, put("a", "1"))]);
        assert_eq!(
            outcomes(&mut machine, 2, &[request(1, 1, put("a", "2"))]),
            [Outcome::Conflict]
        );
        outcomes(&mut machine, 3, &[request(1, 4, put("a", "4"))]);
        assert_eq!(
            outcomes(&mut machine, 4, &[request(1, 3, put("a", "3"))]),
            [Outcome::Superseded]
        );
        assert_eq!(machine.value(&key("a")), Some(&value("4")));
    }

    #[test]
    fn a_client_begins_with_number_one() {
        let mut machine = Machine::new(Limits::default());
        assert_eq!(
            outcomes(&mut machine, 1, &[request(1, 2, put("a", "1"))]),
            [Outcome::UnknownClient]
        );
        assert_eq!(machine.value(&key("a")), None);
        assert_eq!(
            outcomes(&mut machine, 2, &[request(1, 1, put("a", "1"))]),
            [Outcome::Written]
        );
    }

    #[test]
    fn the_client_that_was_longest_silent_is_forgotten_and_cannot_repeat() {
        let mut machine = Machine::new(small());
        for client in 1..=3 {
            let requests = [1, 2].map(|number| request(client, number, put("a", "1")));
            outcomes(&mut machine, client.into(), &requests);
        }
        assert_eq!(machine.clients.len(), 2);
        assert!(machine.known(&request(2, 2, put("a", "1"))).is_some());
        assert_eq!(
            outcomes(&mut machine, 4, &[request(1, 2, put("a", "1"))]),
            [Outcome::UnknownClient]
        );
    }

    #[test]
    fn clients_that_come_once_push_out_none_that_stay() {
        let mut machine = Machine::new(small());
        let stays = [1, 2].map(|number| request(1, number, put("a", "1")));
        outcomes(&mut machine, 1, &stays);
        for client in 10..20 {
            outcomes(
                &mut machine,
                client.into(),
                &[request(client, 1, put("a", "2"))],
            );
        }
        assert_eq!(machine.clients.len(), 3);
        assert_eq!(
            outcomes(&mut machine, 30, &[request(1, 3, put("a", "3"))]),
            [Outcome::Written]
        );
    }

    #[test]
    fn history_is_by_view_and_its_oldest_are_forgotten() {
        let mut machine = Machine::new(small());
        for view in 1..=4 {
            outcomes(
                &mut machine,
                view * 10,
                &[request(1, view, put("a", &view.to_string()))],
            );
        }
        let history = machine.history(&key("a")).unwrap();
        assert!(history.forgotten);
        let views: Vec<_> = history
            .versions
            .iter()
            .map(|version| version.view)
            .collect();
        assert_eq!(views, [20, 30, 40]);
        assert_eq!(machine.value_as_of(&key("a"), 35), Ok(Some(&value("3"))));
        assert_eq!(machine.value_as_of(&key("a"), 30), Ok(Some(&value("3"))));
        assert_eq!(machine.value_as_of(&key("a"), 19), Err(Forgotten));
        assert_eq!(machine.value_as_of(&key("b"), 40), Ok(None));
        assert_eq!(machine.value_as_of(&key("b"), 29), Err(Forgotten));
    }

    #[test]
    fn a_full_store_says_so_and_a_delete_makes_room_later() {
        let mut machine = Machine::new(small());
        let puts: Vec<_> = ["a", "b", "c", "d"]
            .into_iter()
            .zip(1..)
            .map(|(name, number)| request(1, number, put(name, "v")))
            .collect();
        use Outcome::{Full, Written};
        assert_eq!(
            outcomes(&mut machine, 1, &puts),
            [Written, Written, Written, Full]
        );
        assert_eq!(
            outcomes(&mut machine, 2, &[request(1, 5, delete("a"))]),
            [Written]
        );
        assert_eq!(
            outcomes(&mut machine, 3, &[request(1, 6, put("d", "v"))]),
            [Full]
        );
        assert_eq!(
            outcomes(&mut machine, 13, &[request(1, 7, put("d", "v"))]),
            [Written]
        );
        assert!(machine.history(&key("a")).is_none());
    }

    #[test]
    fn a_key_that_was_put_again_is_not_forgotten() {
        let mut machine = Machine::new(small());
        outcomes(
            &mut machine,
            1,
            &[request(1, 1, put("a", "1")), request(1, 2, delete("a"))],
        );
        outcomes(&mut machine, 2, &[request(1, 3, put("a", "2"))]);
        outcomes(&mut machine, 50, &[]);
        assert_eq!(machine.value(&key("a")), Some(&value("2")));
        assert_eq!(machine.history(&key("a")).unwrap().versions.len(), 3);
    }

    #[test]
    fn bytes_are_what_is_kept() {
        let mut machine = Machine::new(Limits {
            bytes: 250,
            ..small()
        });
        assert_eq!(
            outcomes(
                &mut machine,
                1,
                &[request(1, 1, put("a", &"x".repeat(100)))]
            ),
            [Outcome::Written]
        );
        assert_eq!(machine.bytes(), 64 + 1 + 32 + 100);
        let too_long = request(1, 2, put("a", &"y".repeat(200)));
        assert_eq!(outcomes(&mut machine, 2, &[too_long]), [Outcome::Full]);
        assert_eq!(
            outcomes(
                &mut machine,
                2,
                &[request(2, 1, put("b", &"z".repeat(100)))]
            ),
            [Outcome::Full]
        );
        // Its old version makes room for this one.
        assert_eq!(
            outcomes(
                &mut machine,
                2,
                &[request(2, 2, put("a", &"y".repeat(100)))]
            ),
            [Outcome::Written]
        );
        assert_eq!(machine.bytes(), 64 + 1 + 32 + 100);
        for number in 3..9 {
            outcomes(&mut machine, number, &[request(1, number, put("a", ""))]);
        }
        assert_eq!(machine.bytes(), 64 + 1 + 32 * 3);
        outcomes(&mut machine, 20, &[request(1, 20, delete("a"))]);
        outcomes(&mut machine, 31, &[]);
        assert_eq!(machine.bytes(), 0);
    }

    #[test]
    fn the_chain_tells_blocks_apart() {
        let mut one = Machine::new(Limits::default());
        let mut other = one.clone();
        one.apply(block(1), &[]);
        other.apply(block(2), &[]);
        assert_ne!(one.chain(), other.chain());
        let mut same = Machine::new(Limits::default());
        same.apply(block(1), &[]);
        assert_eq!(one.chain(), same.chain());
    }
}
