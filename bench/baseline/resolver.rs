//! What a member still has to fetch, by the same rules, in plain Rust: what the resolver is measured against.
//!
//! Takes the words `SHAPE HELD CALLS` of `../resolver/main.rt.txt`, and prints the same count and sum, and its own nanoseconds.
//! It keeps where the last scan ended, walks from there term by term, and asks of each term whether it is covered.

use std::collections::{BTreeMap, BTreeSet};
use std::process::ExitCode;
use std::time::Instant;

const SIGNERS: u8 = 67;
const NOTARIZATION: u8 = 0;
const NULLIFICATION: u8 = 1;
const FINALIZATION: u8 = 2;

/// A certificate: its kind, its view, what it is for and who signed it.
#[derive(Clone)]
struct Certificate {
    kind: u8,
    view: u64,
    payload: [u8; 32],
    attestations: Vec<(u32, [u8; 32])>,
}

impl Certificate {
    fn new(kind: u8, view: u64) -> Self {
        let attestations = (0..SIGNERS).map(|signer| (u32::from(signer), [signer; 32]));
        Certificate {
            kind,
            view,
            payload: [7; 32],
            attestations: attestations.collect(),
        }
    }

    /// Its bytes, as the library spells them.
    fn spelled(&self) -> Vec<u8> {
        let mut bytes = vec![self.kind, 0];
        number(&mut bytes, self.view);
        if self.kind != NULLIFICATION {
            bytes.push(0);
            bytes.extend_from_slice(&self.payload);
        }
        number(&mut bytes, self.attestations.len() as u64);
        for (signer, signature) in &self.attestations {
            number(&mut bytes, u64::from(*signer));
            bytes.extend_from_slice(signature);
        }
        bytes
    }
}

fn number(bytes: &mut Vec<u8>, number: u64) {
    let mut rest = number;
    while rest >= 128 {
        bytes.push((rest & 0x7f) as u8 | 0x80);
        rest >>= 7;
    }
    bytes.push(rest as u8);
}

enum Effect {
    /// Of these views the first, and each later one that starts a term.
    Fetch { first: u64, last: u64 },
    Settled { end: u64 },
    Finalized(u64),
    Raised(u64),
}

/// What is known, what is served, and how far was looked.
struct State {
    views: u64,
    current: u64,
    floor: u64,
    looked: u64,
    finalization: Option<(u64, Vec<u8>)>,
    nullifications: BTreeMap<u64, Vec<u8>>,
    waiting: BTreeSet<u64>,
    certified: BTreeMap<u64, Vec<u8>>,
    failed: BTreeSet<u64>,
}

impl State {
    fn new(views: u64) -> Self {
        State {
            views,
            current: 0,
            floor: 0,
            looked: 0,
            finalization: None,
            nullifications: BTreeMap::new(),
            waiting: BTreeSet::new(),
            certified: BTreeMap::new(),
            failed: BTreeSet::new(),
        }
    }

    fn last_finalized(&self) -> u64 {
        self.finalization.as_ref().map_or(0, |(view, _)| *view)
    }

    fn term_start(&self, view: u64) -> u64 {
        view.saturating_sub(1) / self.views * self.views + 1
    }

    fn term_end(&self, view: u64) -> u64 {
        view.div_ceil(self.views) * self.views
    }

    fn covering(&self, view: u64) -> Option<&Vec<u8>> {
        let mut range = self.nullifications.range(self.term_start(view)..=view);
        range.next_back().map(|(_, bytes)| bytes)
    }

    fn updated(&mut self, certificate: &Certificate) -> Vec<Effect> {
        let (view, mut effects) = (certificate.view, Vec::new());
        self.current = self.current.max(view);
        match certificate.kind {
            NOTARIZATION => self.notarized(view, &mut effects),
            NULLIFICATION => self.nullified(certificate, &mut effects),
            _ => self.finalized(certificate, &mut effects),
        }
        self.scan(&mut effects);
        effects
    }

    fn notarized(&mut self, view: u64, effects: &mut Vec<Effect>) {
        if view > self.last_finalized() && !self.failed.contains(&view) {
            if !self.certified.contains_key(&view) {
                self.waiting.insert(view);
            }
            effects.push(Effect::Settled { end: view });
        }
    }

    fn nullified(&mut self, certificate: &Certificate, effects: &mut Vec<Effect>) {
        let end = self.term_end(certificate.view);
        if end > self.last_finalized() {
            let spelled = || certificate.spelled();
            self.nullifications.entry(certificate.view).or_insert_with(spelled);
            effects.push(Effect::Settled { end });
        }
    }

    fn finalized(&mut self, certificate: &Certificate, effects: &mut Vec<Effect>) {
        if certificate.view > self.last_finalized() {
            self.finalization = Some((certificate.view, certificate.spelled()));
        }
        let (last, views) = (self.last_finalized(), self.views);
        self.nullifications.retain(|view, _| view.div_ceil(views) * views > last);
        self.waiting.retain(|view| *view > last);
        self.certified.retain(|view, _| *view > last);
        self.failed.retain(|view| *view > last);
        effects.push(Effect::Finalized(last));
        self.raise(certificate.view, effects);
    }

    fn judged(&mut self, notarization: Certificate, success: bool) -> Vec<Effect> {
        let view = notarization.view;
        let mut effects = vec![Effect::Settled { end: view }];
        self.waiting.remove(&view);
        if success {
            if view > self.last_finalized() {
                self.certified.insert(view, notarization.spelled());
            }
            self.raise(view, &mut effects);
            self.scan(&mut effects);
            return effects;
        }
        if view > self.last_finalized() {
            self.failed.insert(view);
        }
        if view > self.floor && self.covering(view).is_none() {
            let (first, last) = (view, view);
            effects.push(Effect::Fetch { first, last });
        }
        effects
    }

    fn raise(&mut self, view: u64, effects: &mut Vec<Effect>) {
        if view > self.floor {
            self.floor = view;
            if self.term_start(view + 1) != view + 1 {
                self.looked = self.looked.min(view + 1);
            }
            effects.push(Effect::Raised(view));
        }
    }

    fn scan(&mut self, effects: &mut Vec<Effect>) {
        let mut view = self.looked.max(self.floor + 1);
        while view < self.current {
            let mut last = view;
            if self.covering(view).is_none() {
                let next = self.nullifications.range(view + 1..self.current).next();
                last = next.map_or(self.current, |(view, _)| *view) - 1;
                effects.push(Effect::Fetch { first: view, last });
            }
            view = self.term_end(last) + 1;
        }
        self.looked = view;
    }

    fn is_settled(&self, view: u64, is_nullification: bool) -> bool {
        view <= self.last_finalized()
            || if is_nullification {
                self.covering(view).is_some()
            } else {
                self.waiting.contains(&view)
                    || self.certified.contains_key(&view)
                    || self.failed.contains(&view)
            }
    }

    fn served(&self, view: u64) -> Option<&Vec<u8>> {
        match &self.finalization {
            Some((last, bytes)) if view <= *last => return Some(bytes),
            _ => {}
        }
        let exact = self.certified.get(&view).or_else(|| self.covering(view));
        exact.or_else(|| self.certified.get(&self.floor).filter(|_| view <= self.floor))
    }
}

#[derive(Default)]
struct Given {
    count: u64,
    sum: u64,
}

impl Given {
    fn add(&mut self, number: u64) {
        self.count += 1;
        self.sum = self.sum.wrapping_mul(31).wrapping_add(number);
    }

    fn effects(&mut self, effects: &[Effect]) {
        for effect in effects {
            match effect {
                Effect::Fetch { first, last } => {
                    self.add(*first);
                    self.add(*last);
                }
                Effect::Settled { end } => self.add(*end),
                Effect::Finalized(view) | Effect::Raised(view) => self.add(*view),
            }
        }
    }
}

type Call = (Certificate, Option<bool>);

/// The calls that a shape makes at this place.
fn calls_at(shape: &str, place: u64) -> Vec<Call> {
    let anchor = (5 * place).saturating_sub(4);
    let notarization = |view| Certificate::new(NOTARIZATION, view);
    match shape {
        "row" => vec![(Certificate::new(NULLIFICATION, place), None)],
        "gaps" => vec![(Certificate::new(NULLIFICATION, 2 * place), None)],
        "terms" => vec![(Certificate::new(NULLIFICATION, anchor), None)],
        "raises" => vec![(notarization(anchor + 2), Some(true))],
        "verdicts" => vec![(notarization(place), None), (notarization(place), Some(false))],
        _ => vec![(Certificate::new(FINALIZATION, 2 * place), None)],
    }
}

fn make(state: &mut State, calls: Vec<Call>, given: &mut Given) {
    for (certificate, verdict) in calls {
        given.effects(&match verdict {
            None => state.updated(&certificate),
            Some(success) => state.judged(certificate, success),
        });
    }
}

fn ask(state: &State, is_served: bool, last: u64, count: u64, given: &mut Given) {
    for place in 0..count {
        let view = place * 7919 % last + 1;
        if is_served {
            given.add(state.served(view).map_or(0, |bytes| bytes.len() as u64));
        } else {
            given.add(u64::from(state.is_settled(view, true)));
            given.add(u64::from(state.is_settled(view, false)));
        }
    }
}

fn main() -> ExitCode {
    let words: Vec<String> = std::env::args().skip(1).collect();
    let [shape, held, count] = words.iter().map(String::as_str).collect::<Vec<_>>()[..] else {
        return ExitCode::FAILURE;
    };
    let (Ok(held), Ok(count)) = (held.parse::<u64>(), count.parse::<u64>()) else {
        return ExitCode::FAILURE;
    };
    let (kept, behind, views) = match shape {
        "raises" => ("terms", held + count, 5),
        "produce" | "settled" | "finalized" => ("gaps", held, 1),
        _ => (shape, held, 1),
    };
    let mut state = State::new(views);
    for place in 1..=behind {
        make(&mut state, calls_at(kept, place), &mut Given::default());
    }
    let mut given = Given::default();
    let (first, last) = match shape {
        "raises" => (1, count),
        "finalized" => (held, held),
        "produce" | "settled" => (1, 0),
        _ => (held + 1, held + count),
    };
    let calls = (first..=last).flat_map(|place| calls_at(shape, place)).collect();
    let start = Instant::now();
    if first > last {
        ask(&state, shape == "produce", 2 * held, count, &mut given);
    } else {
        make(&mut state, calls, &mut given);
    }
    println!("{} {} {}", given.count, given.sum, start.elapsed().as_nanos());
    ExitCode::SUCCESS
}
