//! What a node serves and has to fetch: the rules of `resolver.rs`, with the set of outstanding views.

use std::collections::{BTreeMap, BTreeSet};

use crate::node_votes::Made;
use crate::voter_round::View;
use crate::voter_state::Kind;

pub struct Repair {
    length: u64,
    current: View,
    floor: View,
    looked: View,
    finalization: Option<(View, Vec<u8>)>,
    nullifications: BTreeMap<View, Vec<u8>>,
    certified: BTreeMap<View, Vec<u8>>,
    /// The views with a notarization or a verdict, and those whose verdict is false.
    known: BTreeSet<View>,
    failed: BTreeSet<View>,
    pub outstanding: BTreeSet<View>,
}

fn drop_below(views: &mut BTreeSet<View>, floor: View) {
    while views.first().is_some_and(|view| *view < floor) {
        views.pop_first();
    }
}

fn drop_entries_below(entries: &mut BTreeMap<View, Vec<u8>>, floor: View) {
    while let Some(entry) = entries.first_entry().filter(|entry| *entry.key() < floor) {
        entry.remove();
    }
}

impl Repair {
    pub fn new(length: u64) -> Self {
        Repair {
            length,
            current: 0,
            floor: 0,
            looked: 0,
            finalization: None,
            nullifications: BTreeMap::new(),
            certified: BTreeMap::new(),
            known: BTreeSet::new(),
            failed: BTreeSet::new(),
            outstanding: BTreeSet::new(),
        }
    }

    fn last_finalized(&self) -> View {
        self.finalization.as_ref().map_or(0, |(view, _)| *view)
    }

    fn term_start(&self, view: View) -> View {
        view.saturating_sub(1) / self.length * self.length + 1
    }

    fn term_end(&self, view: View) -> View {
        view.div_ceil(self.length) * self.length
    }

    fn covering(&self, view: View) -> Option<&Vec<u8>> {
        let mut range = self.nullifications.range(self.term_start(view)..=view);
        range.next_back().map(|(_, bytes)| bytes)
    }

    /// Takes a certificate with its bytes.
    pub fn updated(&mut self, certificate: &Made, bytes: &[u8]) {
        let view = certificate.view();
        self.current = self.current.max(view);
        match certificate {
            Made::Notarization(_) => {
                if view > self.last_finalized() {
                    self.known.insert(view);
                }
            }
            Made::Nullification(_) => self.nullified(view, bytes),
            Made::Finalization(_) => self.finalized(view, bytes),
        }
        self.scan();
    }

    fn nullified(&mut self, view: View, bytes: &[u8]) {
        let end = self.term_end(view);
        if end <= self.last_finalized() {
            return;
        }
        let spelled = || bytes.to_vec();
        self.nullifications.entry(view).or_insert_with(spelled);
        self.close(view, end);
    }

    fn finalized(&mut self, view: View, bytes: &[u8]) {
        if view > self.last_finalized() {
            self.finalization = Some((view, bytes.to_vec()));
            let first = self.term_start(view + 1);
            drop_entries_below(&mut self.nullifications, first);
            drop_entries_below(&mut self.certified, view + 1);
            drop_below(&mut self.known, view + 1);
            drop_below(&mut self.failed, view + 1);
            drop_below(&mut self.outstanding, view + 1);
        }
        self.raise(view);
    }

    /// Takes a verdict on a notarization of these bytes.
    pub fn judged(&mut self, view: View, bytes: Vec<u8>, ok: bool) {
        if view > self.last_finalized() {
            self.known.insert(view);
        }
        if ok {
            if view > self.last_finalized() {
                self.certified.insert(view, bytes);
            }
            self.raise(view);
            self.scan();
            return;
        }
        if view > self.last_finalized() {
            self.failed.insert(view);
        }
        if view > self.floor && self.covering(view).is_none() {
            self.outstanding.insert(view);
        }
    }

    fn raise(&mut self, view: View) {
        if view > self.floor {
            self.floor = view;
            if self.term_start(view + 1) != view + 1 {
                self.looked = self.looked.min(view + 1);
            }
            drop_below(&mut self.outstanding, view + 1);
        }
    }

    fn close(&mut self, first: View, last: View) {
        while let Some(&view) = self.outstanding.range(first..=last).next() {
            self.outstanding.remove(&view);
        }
    }

    fn scan(&mut self) {
        let mut view = self.looked.max(self.floor + 1);
        while view < self.current {
            if self.covering(view).is_none() {
                self.outstanding.insert(view);
            }
            view = self.term_end(view) + 1;
        }
        self.looked = view;
    }

    pub fn is_settled(&self, view: View, kind: Kind) -> bool {
        view <= self.last_finalized()
            || match kind {
                Kind::Nullification => self.covering(view).is_some(),
                Kind::Notarization => self.known.contains(&view),
            }
    }

    /// The best certificate for who asks for the view.
    pub fn served(&self, view: View) -> Option<&Vec<u8>> {
        match &self.finalization {
            Some((last, bytes)) if view <= *last => return Some(bytes),
            _ => {}
        }
        let exact = self.certified.get(&view).or_else(|| self.covering(view));
        exact.or_else(|| self.certified.get(&self.floor).filter(|_| view <= self.floor))
    }
}
