//! A record in two files: how it is opened, rewritten while its node runs, and found again.

mod common;

use common::committee::place;
use std::collections::VecDeque;
use std::fs;
use std::io::ErrorKind;
use std::path::{Path, PathBuf};
use voumlis::wire::{Action, Event, Reply};
use voumlis::{Ending, Node, second_path};

/// A path at which there is neither file of a record yet.
fn pair(name: &str) -> PathBuf {
    let record = place(name);
    let _ = fs::remove_file(second_path(&record));
    record
}

fn stored(record: &Path) -> [Vec<u8>; 2] {
    [record.to_owned(), second_path(record)].map(|path| fs::read(path).unwrap_or_default())
}

/// A committee of one: its node, and a host that plays its application and its clock.
struct Alone {
    node: Node,
    waiting: VecDeque<Event<'static>>,
    wake: Option<u64>,
    /// The highest proposal that it was told is final.
    last: u64,
}

impl Alone {
    fn new((node, first): (Node, Reply)) -> Alone {
        let mut alone = Alone {
            node,
            waiting: VecDeque::new(),
            wake: None,
            last: 0,
        };
        alone.carry_out(first);
        alone
    }

    /// Over both files of this record.
    fn open(record: &Path) -> Alone {
        Alone::new(Node::open_pair(record, 0, 1).unwrap())
    }

    fn carry_out(&mut self, reply: Reply) {
        for action in reply.actions {
            match action {
                Action::Build {
                    request, context, ..
                } => {
                    let payload = Some([context.round.view as u8; 32]);
                    self.waiting.push_back(Event::Built { request, payload });
                }
                Action::Verify { request, .. } => {
                    let answer = Some(true);
                    self.waiting.push_back(Event::Checked { request, answer });
                }
                Action::Certify(proposal) => {
                    let view = proposal.round.view;
                    self.waiting.push_back(Event::Verdict { view, good: true });
                }
                Action::Finalized(proposal) => self.last = self.last.max(proposal.round.view),
                Action::Wake(moment) => self.wake = Some(moment),
                Action::Send { .. }
                | Action::Block(_)
                | Action::Forward { .. }
                | Action::Report(_) => {}
            }
        }
    }

    /// Goes on until this view is final.
    fn reach(&mut self, view: u64) {
        for _ in 0..100 * view {
            if self.node.views().finalized >= view {
                return;
            }
            let event = match self.waiting.pop_front() {
                Some(event) => event,
                None => Event::Moment(self.wake.expect("it waits for an answer or a moment")),
            };
            let reply = self.node.step(&event).unwrap();
            self.carry_out(reply);
        }
        panic!("view {view} isn't final");
    }
}

#[test]
fn two_empty_files_are_opened_and_there_is_nothing_to_rewrite() {
    let record = pair("empty-pair");
    let (mut node, first) = Node::open_pair(&record, 0, 4).unwrap();
    assert_eq!(first.actions, [Action::Wake(1000)]);
    // What the node asks is carried out in both: the first has a record, and the second is there and has none.
    let found = stored(&record);
    assert!(second_path(&record).exists());
    assert_eq!(node.rewrite().unwrap(), None);
    assert_eq!(stored(&record), found);
    let reply = node.step(&Event::Moment(300)).unwrap();
    assert_eq!(reply.actions, [Action::Wake(1000)]);
    assert_eq!(node.close(), Ending::Closed);
}

#[test]
fn a_record_in_one_file_is_never_rewritten() {
    let record = place("one-file");
    let mut alone = Alone::new(Node::open(&record, 0, 1).unwrap());
    alone.reach(8);
    let found = stored(&record);
    assert_eq!(alone.node.rewrite().unwrap(), None);
    assert_eq!(stored(&record), found);
    assert!(!second_path(&record).exists());
    alone.reach(9);
    assert_eq!(alone.node.close(), Ending::Closed);
}

#[test]
fn a_record_that_is_rewritten_is_shorter_and_goes_on() {
    let record = pair("rewritten");
    let mut alone = Alone::open(&record);
    alone.reach(40);
    let [long, nothing] = stored(&record);
    assert_eq!(nothing, []);
    let before = alone.node.views();
    assert_eq!(alone.node.rewrite().unwrap(), Some(before.finalized));
    assert_eq!(alone.node.views(), before);
    // The other file has it now, and the one from before stays until the next rewrite.
    let [first, short] = stored(&record);
    assert!(first == long, "{} of {}", first.len(), long.len());
    assert!(short.len() > 9 && short.len() < long.len() / 4);
    assert_eq!(alone.node.rewrite().unwrap(), None);
    assert!(stored(&record) == [long.clone(), short.clone()]);

    // It goes on in that file, from its last gate on, and back to the first.
    alone.reach(60);
    let [first, second] = stored(&record);
    assert!(first == long, "{} of {}", first.len(), long.len());
    assert!(second.len() > short.len() && second.starts_with(&short[..short.len() - 1]));
    let last = alone.node.views().finalized;
    assert_eq!(alone.node.rewrite().unwrap(), Some(last));
    assert!(stored(&record)[0].len() < long.len() / 4);
    assert!(stored(&record)[1] == second);
    assert_eq!(alone.node.close(), Ending::Closed);
    // By now neither is a record by itself.
    let found = stored(&record);
    let copied = place("rewritten-alone");
    fs::copy(&record, &copied).unwrap();
    for one in [&copied, &second_path(&record)] {
        let error = Node::open(one, 0, 1).unwrap_err();
        assert_eq!(error.to_string(), format!("{:?}", Ending::NoRecord));
    }
    assert_eq!(stored(&record), found);
}

#[test]
fn the_first_of_two_files_is_not_opened_alone() {
    let record = pair("first-alone");
    let mut alone = Alone::open(&record);
    alone.reach(8);
    // Behind one rewrite the first file is still the record from before, by its bytes.
    alone.node.rewrite().unwrap().unwrap();
    assert_eq!(alone.node.close(), Ending::Closed);
    let found = stored(&record);
    for opened in [Node::open(&record, 0, 1), Node::open_cutting(&record, 0, 1)] {
        assert_eq!(opened.unwrap_err().kind(), ErrorKind::AlreadyExists);
    }
    assert_eq!(stored(&record), found);
    assert_eq!(Alone::open(&record).node.close(), Ending::Closed);
}

#[test]
fn what_two_files_hold_is_found_again() {
    let record = pair("found-pair");
    let mut alone = Alone::open(&record);
    alone.reach(20);
    alone.node.rewrite().unwrap().unwrap();
    alone.reach(24);
    let (before, found) = (alone.node.views(), stored(&record));
    assert_eq!(alone.node.close(), Ending::Closed);
    for _ in 0..2 {
        let mut again = Alone::open(&record);
        assert_eq!(again.node.views(), before);
        assert_eq!(again.last, before.finalized);
        assert_eq!(again.node.close(), Ending::Closed);
        assert!(stored(&record) == found);
    }
    let mut again = Alone::open(&record);
    again.reach(30);
    let last = again.node.views().finalized;
    assert_eq!(again.node.rewrite().unwrap(), Some(last));
    again.reach(32);
}

#[test]
fn a_record_in_one_file_is_one_in_two_from_then_on() {
    let record = pair("one-to-two");
    let mut alone = Alone::new(Node::open(&record, 0, 1).unwrap());
    alone.reach(8);
    let (before, found) = (alone.node.views(), stored(&record));
    drop(alone);
    let mut alone = Alone::open(&record);
    assert_eq!(alone.node.views(), before);
    assert_eq!(stored(&record), found);
    assert_eq!(alone.node.rewrite().unwrap(), Some(before.finalized));
    assert_ne!(stored(&record), found);
}

#[test]
fn both_files_have_one_node_at_a_time() {
    let record = pair("locked-pair");
    let is_held = |opened: Result<(Node, Reply), std::io::Error>| {
        assert_eq!(opened.unwrap_err().kind(), ErrorKind::WouldBlock);
    };
    let (node, _) = Node::open_pair(&record, 1, 4).unwrap();
    is_held(Node::open_pair(&record, 1, 4));
    is_held(Node::open(&record, 1, 4));
    is_held(Node::open(&second_path(&record), 1, 4));
    drop(node);
    let (node, _) = Node::open(&second_path(&record), 1, 4).unwrap();
    is_held(Node::open_pair(&record, 1, 4));
    assert_eq!(node.close(), Ending::Closed);
}

#[test]
fn where_one_file_is_no_record_both_stay_as_they_are() {
    let record = pair("bad-pair");
    fs::write(&record, "# Voumlis").unwrap();
    let refused = || Node::open_pair(&record, 0, 1).unwrap_err().to_string();
    assert_eq!(refused(), format!("{:?}", Ending::NoRecord));
    assert!(!second_path(&record).exists());
    // Behind a closed gate a part of an entry: of a record that may be opened it would be cut.
    let part = [0, 0, 0, 0, 4, 2, 0];
    fs::write(&record, part).unwrap();
    fs::write(second_path(&record), [1, 0, 0, 0, 1, 7, 0]).unwrap();
    assert_eq!(refused(), format!("{:?}", Ending::Foreign(0)));
    assert_eq!(stored(&record), [part.to_vec(), vec![1, 0, 0, 0, 1, 7, 0]]);
    fs::remove_file(second_path(&record)).unwrap();
    let (node, _) = Node::open_pair(&record, 0, 1).unwrap();
    assert_eq!(node.close(), Ending::Closed);
    assert_eq!(stored(&record), [vec![0], vec![]]);
}

#[test]
fn what_no_crash_leaves_in_two_files_is_cut_where_that_is_asked() {
    let record = pair("cut-pair");
    let torn = [0, 0, 0, 0, 1, 7, 1];
    fs::write(&record, torn).unwrap();
    let error = Node::open_pair(&record, 0, 4).unwrap_err();
    assert_eq!(error.to_string(), format!("{:?}", Ending::Torn(0)));
    assert_eq!(stored(&record), [torn.to_vec(), vec![]]);
    let (node, _) = Node::open_pair_cutting(&record, 0, 4).unwrap();
    assert_eq!(node.close(), Ending::Closed);
    assert_eq!(stored(&record), [vec![0], vec![]]);
}
