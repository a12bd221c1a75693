//! Whether there is one order of a key's calls that explains all that was told, in which each call
//! stands between its start and its end.
//!
//! The search is that of Wing and Gong with the memory of Lowe: it goes through the starts and ends in
//! their order and takes calls into the order while none has ended outside it; a set of taken calls with
//! the value that they lead to is looked at once. A call with an unknown end may stand anywhere behind
//! its start, or nowhere.

use crate::history::{Call, Operation, Told};
use std::collections::HashSet;

/// What the search found.
#[derive(Clone, Debug, PartialEq, Eq)]
pub enum Verdict {
    /// There is such an order.
    Linearizable,
    /// There is none. Of the calls, by their place, those that were taken in the longest try, and the one
    /// that then ended outside the order.
    Not {
        /// In the order of the try.
        taken: Vec<usize>,
        /// Which couldn't be explained behind them.
        stuck: usize,
    },
    /// The search was given up: more than `budget` sets were looked at.
    Undecided,
}

/// The sets that are looked at before a search is given up: some 2 GB of memory for long histories.
pub const BUDGET: usize = 10_000_000;

/// A value of the key, `None` for none.
type State<'a> = Option<&'a str>;

/// What the call makes of a value, or none where the value contradicts what was told. Of a call with an
/// unknown end only that it changes the value is of interest: else it may stand nowhere.
fn step<'a>(state: State<'a>, call: &'a Call) -> Option<State<'a>> {
    let told = call.end.as_ref().map(|end| &end.told);
    match (&call.operation, told) {
        (Operation::Get, Some(Told::Read(value))) => (value.as_deref() == state).then_some(state),
        (Operation::Put(value), Some(Told::Written) | None) => Some(Some(value)),
        (Operation::Delete, Some(Told::Written)) => Some(None),
        (Operation::Delete, None) => state.is_some().then_some(None),
        (Operation::CompareAndSet(expected, new), Some(Told::Written) | None) => {
            (expected.as_deref() == state).then_some(new.as_deref())
        }
        (Operation::CompareAndSet(expected, _), Some(Told::Mismatch)) => {
            (expected.as_deref() != state).then_some(state)
        }
        // A get that nobody saw explains nothing; anything else that was told fits no operation.
        _ => None,
    }
}

/// A set of calls, a bit each.
#[derive(Clone, PartialEq, Eq, Hash)]
struct Taken(Box<[u64]>);

impl Taken {
    fn none(calls: usize) -> Taken {
        Taken(vec![0; calls.div_ceil(64)].into())
    }

    fn flip(&mut self, call: usize) {
        self.0[call / 64] ^= 1 << (call % 64);
    }
}

#[derive(Clone, Copy)]
enum Mark {
    Start(usize),
    End(usize),
}

/// Starts and ends in their order, as a list from which calls can be taken out and put back. Place 0
/// stands before the first.
struct Marks {
    marks: Vec<Mark>,
    next: Vec<usize>,
    previous: Vec<usize>,
    /// Of each call the place of its end; 0 where it is unknown: such an end stands nowhere.
    end_of: Vec<usize>,
}

impl Marks {
    fn new(calls: &[Call]) -> Marks {
        let mut order: Vec<(usize, Mark)> = Vec::new();
        for (at, call) in calls.iter().enumerate() {
            order.push((call.invoked, Mark::Start(at)));
            order.extend(call.end.as_ref().map(|end| (end.at, Mark::End(at))));
        }
        order.sort_by_key(|(place, _)| *place);
        let count = order.len() + 1;
        let mut end_of = vec![0; calls.len()];
        let mut marks = vec![Mark::End(usize::MAX)];
        for (_, mark) in order {
            if let Mark::End(call) = mark {
                end_of[call] = marks.len();
            }
            marks.push(mark);
        }
        let next = (1..=count).collect();
        let previous = (0..count).map(|at| at.saturating_sub(1)).collect();
        Marks {
            marks,
            next,
            previous,
            end_of,
        }
    }

    /// The place behind this one, if there is one.
    fn behind(&self, place: usize) -> Option<usize> {
        Some(self.next[place]).filter(|next| *next < self.marks.len())
    }

    fn unlink(&mut self, place: usize) {
        let (before, behind) = (self.previous[place], self.next[place]);
        self.next[before] = behind;
        if behind < self.marks.len() {
            self.previous[behind] = before;
        }
    }

    fn relink(&mut self, place: usize) {
        let (before, behind) = (self.previous[place], self.next[place]);
        self.next[before] = place;
        if behind < self.marks.len() {
            self.previous[behind] = place;
        }
    }

    fn take_out(&mut self, start: usize, call: usize) {
        self.unlink(start);
        if self.end_of[call] != 0 {
            self.unlink(self.end_of[call]);
        }
    }

    fn put_back(&mut self, start: usize, call: usize) {
        if self.end_of[call] != 0 {
            self.relink(self.end_of[call]);
        }
        self.relink(start);
    }
}

/// A call that was taken, the place of its start, and the value before it.
struct Step<'a> {
    call: usize,
    start: usize,
    before: State<'a>,
}

/// A search under way.
struct Search<'a> {
    calls: &'a [Call],
    marks: Marks,
    taken: Taken,
    /// How many calls with a known end aren't taken.
    missing: usize,
    state: State<'a>,
    seen: HashSet<(Taken, State<'a>)>,
    tried: Vec<Step<'a>>,
    longest: Option<(Vec<usize>, usize)>,
}

impl<'a> Search<'a> {
    fn new(calls: &'a [Call]) -> Search<'a> {
        Search {
            calls,
            marks: Marks::new(calls),
            taken: Taken::none(calls.len()),
            missing: calls.iter().filter(|call| call.end.is_some()).count(),
            state: None,
            seen: HashSet::new(),
            tried: Vec::new(),
            longest: None,
        }
    }

    /// Takes a call next, if it is explained there and what it leads to wasn't looked at.
    fn take(&mut self, call: usize, start: usize) -> bool {
        let Some(becomes) = step(self.state, &self.calls[call]) else {
            return false;
        };
        self.taken.flip(call);
        if !self.seen.insert((self.taken.clone(), becomes)) {
            self.taken.flip(call);
            return false;
        }
        let before = std::mem::replace(&mut self.state, becomes);
        self.tried.push(Step {
            call,
            start,
            before,
        });
        self.missing -= usize::from(self.calls[call].end.is_some());
        self.marks.take_out(start, call);
        true
    }

    /// Puts the last call back, since `stuck` ended outside the order: the place of its start.
    fn put_back(&mut self, stuck: usize) -> Option<usize> {
        let length = self.tried.len();
        if self
            .longest
            .as_ref()
            .is_none_or(|(longest, _)| longest.len() < length)
        {
            let tried = self.tried.iter().map(|step| step.call);
            self.longest = Some((tried.collect(), stuck));
        }
        let Step {
            call,
            start,
            before,
        } = self.tried.pop()?;
        self.marks.put_back(start, call);
        self.missing += usize::from(self.calls[call].end.is_some());
        self.taken.flip(call);
        self.state = before;
        Some(start)
    }

    fn run(mut self, budget: usize) -> Verdict {
        let mut place = self.marks.behind(0);
        while self.missing > 0 {
            // Behind the last mark stand only starts of unknown ends: then all others were taken.
            let Some(at) = place else {
                return Verdict::Linearizable;
            };
            let mark = self.marks.marks[at];
            place = match mark {
                Mark::Start(call) if self.take(call, at) => self.marks.behind(0),
                Mark::Start(_) => self.marks.behind(at),
                Mark::End(stuck) => match self.put_back(stuck) {
                    Some(start) => self.marks.behind(start),
                    None => {
                        let (taken, stuck) = self.longest.unwrap_or_default();
                        return Verdict::Not { taken, stuck };
                    }
                },
            };
            if self.seen.len() > budget {
                return Verdict::Undecided;
            }
        }
        Verdict::Linearizable
    }
}

/// The value that a call leaves behind, if it leaves one of its own.
fn leaves(call: &Call) -> Option<State<'_>> {
    match &call.operation {
        Operation::Get => None,
        Operation::Put(value) => Some(Some(value)),
        Operation::Delete => Some(None),
        Operation::CompareAndSet(_, new) => Some(new.as_deref()),
    }
}

/// The calls without those whose end is unknown and whose value no other call rests on.
fn without_unseen(calls: &[Call]) -> Vec<Call> {
    let mut kept: Vec<bool> = calls.iter().map(|call| call.end.is_some()).collect();
    loop {
        let needed: HashSet<State<'_>> = calls
            .iter()
            .zip(&kept)
            .filter(|(_, kept)| **kept)
            .filter_map(|(call, _)| {
                match (&call.operation, call.end.as_ref().map(|end| &end.told)) {
                    (Operation::Get, Some(Told::Read(value))) => Some(value.as_deref()),
                    (Operation::CompareAndSet(expected, _), Some(Told::Written) | None) => {
                        Some(expected.as_deref())
                    }
                    _ => None,
                }
            })
            .collect();
        let is_needed = |call: &Call| leaves(call).is_some_and(|value| needed.contains(&value));
        let next: Vec<bool> = calls
            .iter()
            .zip(&kept)
            .map(|(call, kept)| *kept || is_needed(call))
            .collect();
        if next == kept {
            let kept = calls.iter().zip(kept).filter(|(_, kept)| *kept);
            return kept.map(|(call, _)| call.clone()).collect();
        }
        kept = next;
    }
}

/// Looks for an order of the calls of one key, which has no value before them.
pub fn check(calls: &[Call], budget: usize) -> Verdict {
    // A call with an unknown end may stand nowhere. So an order without those that nobody saw explains all as well, and there are fewer
    // to try; where there is none, a mismatch may yet be explained by one of them.
    let seen = without_unseen(calls);
    if seen.len() < calls.len() && Search::new(&seen).run(budget) == Verdict::Linearizable {
        return Verdict::Linearizable;
    }
    Search::new(calls).run(budget)
}

#[cfg(test)]
mod tests {
    use super::*;
    use crate::history::End;

    fn call(operation: Operation, invoked: usize, end: Option<(usize, Told)>) -> Call {
        let end = end.map(|(at, told)| End { at, told, view: 0 });
        Call {
            process: 0,
            operation,
            invoked,
            end,
        }
    }

    fn put(value: &str, from: usize, to: usize) -> Call {
        call(
            Operation::Put(value.to_owned()),
            from,
            Some((to, Told::Written)),
        )
    }

    fn lost_put(value: &str, from: usize) -> Call {
        call(Operation::Put(value.to_owned()), from, None)
    }

    fn get(value: Option<&str>, from: usize, to: usize) -> Call {
        call(
            Operation::Get,
            from,
            Some((to, Told::Read(value.map(str::to_owned)))),
        )
    }

    fn delete(from: usize, to: usize) -> Call {
        call(Operation::Delete, from, Some((to, Told::Written)))
    }

    fn swap(
        expected: Option<&str>,
        new: Option<&str>,
        from: usize,
        end: Option<(usize, Told)>,
    ) -> Call {
        let [expected, new] = [expected, new].map(|value| value.map(str::to_owned));
        call(Operation::CompareAndSet(expected, new), from, end)
    }

    fn holds(calls: &[Call]) -> bool {
        match check(calls, BUDGET) {
            Verdict::Linearizable => true,
            Verdict::Not { .. } => false,
            Verdict::Undecided => panic!("undecided"),
        }
    }

    #[test]
    fn one_behind_another() {
        assert!(holds(&[]));
        assert!(holds(&[get(None, 0, 1)]));
        assert!(holds(&[put("a", 0, 1), get(Some("a"), 2, 3)]));
        assert!(!holds(&[put("a", 0, 1), get(None, 2, 3)]));
        assert!(!holds(&[put("a", 0, 1), get(Some("b"), 2, 3)]));
        assert!(!holds(&[
            put("a", 0, 1),
            put("b", 2, 3),
            get(Some("a"), 4, 5)
        ]));
        assert!(holds(&[put("a", 0, 1), delete(2, 3), get(None, 4, 5)]));
        assert!(!holds(&[
            put("a", 0, 1),
            delete(2, 3),
            get(Some("a"), 4, 5)
        ]));
    }

    #[test]
    fn overlapping_calls_may_stand_in_any_order_that_all_see_alike() {
        let writes = [put("a", 0, 4), put("b", 1, 5)];
        for (first, second) in [("a", "b"), ("b", "a"), ("a", "a"), ("b", "b")] {
            let reads = [get(Some(first), 6, 7), get(Some(second), 8, 9)];
            assert_eq!(holds(&[&writes[..], &reads].concat()), first == second);
        }
        let during = [
            put("a", 0, 9),
            get(None, 1, 2),
            get(Some("a"), 3, 4),
            get(Some("a"), 5, 6),
        ];
        assert!(holds(&during));
        let back = [put("a", 0, 9), get(Some("a"), 1, 2), get(None, 3, 4)];
        assert!(!holds(&back));
    }

    #[test]
    fn a_compare_and_set_holds_for_what_it_was_told() {
        let written = |at| Some((at, Told::Written));
        let mismatch = |at| Some((at, Told::Mismatch));
        assert!(holds(&[
            put("a", 0, 1),
            swap(Some("a"), Some("b"), 2, written(3)),
            get(Some("b"), 4, 5)
        ]));
        assert!(!holds(&[
            put("a", 0, 1),
            swap(Some("c"), Some("b"), 2, written(3))
        ]));
        assert!(!holds(&[
            put("a", 0, 1),
            swap(Some("a"), Some("b"), 2, mismatch(3))
        ]));
        assert!(holds(&[
            put("a", 0, 1),
            swap(None, Some("b"), 2, mismatch(3)),
            get(Some("a"), 4, 5)
        ]));
        // Of two that expect the same one alone can be carried out.
        let both = |second| {
            [
                put("a", 0, 1),
                swap(Some("a"), Some("b"), 2, written(6)),
                swap(Some("a"), Some("c"), 3, second),
            ]
        };
        assert!(!holds(&both(written(7))));
        assert!(holds(&both(mismatch(7))));
    }

    #[test]
    fn an_unknown_end_stands_anywhere_behind_its_start_or_nowhere() {
        assert!(holds(&[
            lost_put("a", 0),
            get(None, 1, 2),
            get(Some("a"), 3, 4)
        ]));
        assert!(holds(&[lost_put("a", 0), get(None, 1, 2), get(None, 3, 4)]));
        assert!(!holds(&[
            lost_put("a", 0),
            get(Some("a"), 1, 2),
            get(None, 3, 4)
        ]));
        assert!(!holds(&[get(Some("a"), 0, 1), lost_put("a", 2)]));
        // It stands once: seen, overwritten, seen again is too much.
        let twice = [
            lost_put("a", 0),
            get(Some("a"), 1, 2),
            put("b", 3, 4),
            get(Some("a"), 5, 6),
        ];
        assert!(!holds(&twice));
        let swapped = [
            put("a", 0, 1),
            swap(Some("a"), Some("b"), 2, None),
            get(Some("a"), 3, 4),
            get(Some("b"), 5, 6),
        ];
        assert!(holds(&swapped));
        let unknown_delete = [
            put("a", 0, 1),
            call(Operation::Delete, 2, None),
            get(None, 3, 4),
        ];
        assert!(holds(&unknown_delete));
    }

    #[test]
    fn a_mismatch_can_be_explained_by_an_unknown_write_alone() {
        let calls = [
            put("a", 0, 1),
            lost_put("b", 2),
            swap(Some("a"), Some("c"), 3, Some((4, Told::Mismatch))),
        ];
        assert!(holds(&calls));
        assert!(!holds(&[calls[0].clone(), calls[2].clone()]));
    }

    #[test]
    fn writes_that_nobody_saw_cost_nothing() {
        let mut calls: Vec<_> = (0..40).map(|at| lost_put(&at.to_string(), at)).collect();
        calls.push(get(None, 50, 51));
        calls.push(get(Some("7"), 52, 53));
        assert_eq!(check(&calls, 1_000), Verdict::Linearizable);
        // One that was seen by way of another is needed.
        let chain = [
            lost_put("a", 0),
            swap(Some("a"), Some("b"), 1, None),
            get(Some("b"), 2, 3),
        ];
        assert_eq!(without_unseen(&chain), chain);
        assert!(holds(&chain));
    }

    #[test]
    fn the_stuck_call_is_named() {
        let calls = [put("a", 0, 1), put("b", 2, 3), get(Some("a"), 4, 5)];
        assert_eq!(
            check(&calls, BUDGET),
            Verdict::Not {
                taken: vec![0, 1],
                stuck: 2
            }
        );
    }

    #[test]
    fn a_search_that_takes_too_long_is_given_up() {
        let mut calls: Vec<_> = (0..20).map(|at| lost_put(&at.to_string(), at)).collect();
        calls.push(get(Some("x"), 30, 31));
        assert_eq!(check(&calls, 1_000), Verdict::Undecided);
        assert_eq!(check(&calls[..20], 0), Verdict::Linearizable);
    }

    /// All orders, tried one by one: slow, and plainly right.
    fn holds_by_force(calls: &[Call], taken: &mut Vec<usize>, state: State<'_>) -> bool {
        let is_free = |at: &usize| !taken.contains(at);
        let free: Vec<usize> = (0..calls.len()).filter(is_free).collect();
        if free.iter().all(|at| calls[*at].end.is_none()) {
            return true;
        }
        let ends = |at: &usize| calls[*at].end.as_ref().map(|end| end.at);
        let first_end = free.iter().filter_map(ends).min().unwrap();
        for at in free {
            if calls[at].invoked < first_end
                && let Some(becomes) = step(state, &calls[at])
            {
                taken.push(at);
                if holds_by_force(calls, taken, becomes) {
                    return true;
                }
                taken.pop();
            }
        }
        false
    }

    fn random_calls(random: &mut crate::random::Random) -> Vec<Call> {
        let values = ["a", "b"];
        let some = |random: &mut crate::random::Random| {
            random.percent(70).then(|| (*random.of(&values)).to_owned())
        };
        let mut places: Vec<usize> = (0..14).collect();
        for at in (1..places.len()).rev() {
            places.swap(at, random.below(at as u64 + 1) as usize);
        }
        let mut calls: Vec<Call> = places
            .chunks(2)
            .map(|pair| {
                let (from, to) = (pair[0].min(pair[1]), pair[0].max(pair[1]));
                let is_known = random.percent(80);
                let (operation, told) = match random.below(5) {
                    0 => (
                        Operation::Put((*random.of(&values)).to_owned()),
                        Told::Written,
                    ),
                    1 => (Operation::Delete, Told::Written),
                    2 => {
                        let told = if random.percent(50) {
                            Told::Written
                        } else {
                            Told::Mismatch
                        };
                        (Operation::CompareAndSet(some(random), some(random)), told)
                    }
                    _ => (Operation::Get, Told::Read(some(random))),
                };
                call(operation, from, is_known.then_some((to, told)))
            })
            .collect();
        calls.sort_by_key(|call| call.invoked);
        calls
    }

    #[test]
    fn it_finds_what_trying_all_orders_finds() {
        let mut random = crate::random::Random::new(1);
        let mut held = 0;
        for round in 0..4_000 {
            let calls = random_calls(&mut random);
            let expected = holds_by_force(&calls, &mut Vec::new(), None);
            assert_eq!(holds(&calls), expected, "round {round}: {calls:#?}");
            held += usize::from(expected);
        }
        assert!(
            (300..3_700).contains(&held),
            "{held} of 4000 held: both kinds have to come"
        );
    }
}
