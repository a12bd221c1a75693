//! Whether what was acknowledged is in the store, in the order in which it was seen to happen.

use crate::history::{Call, Entry, Happened, Operation, Told};
use crate::workload::LocalRead;
use serde::{Deserialize, Serialize};
use std::collections::{BTreeMap, HashMap};

/// A version of a key as a member's `/history` tells it.
#[derive(Clone, Debug, PartialEq, Eq, Serialize, Deserialize)]
pub struct Version {
    /// The view of the block that wrote it.
    pub view: u64,
    /// Which request of that block did.
    pub position: u16,
    /// The value, or none for a delete.
    pub value: Option<String>,
}

/// The versions of a key that a member keeps, oldest first.
#[derive(Clone, Debug, Default, PartialEq, Eq, Serialize, Deserialize)]
pub struct Versions {
    /// Whether there were older ones.
    pub forgotten: bool,
    /// Those that are kept.
    pub versions: Vec<Version>,
}

/// The values that a call left behind for sure: of a put or a compare-and-set that was carried out.
fn left(call: &Call) -> Option<(u64, &str)> {
    let end = call.end.as_ref().filter(|end| end.told == Told::Written)?;
    match &call.operation {
        Operation::Put(value) | Operation::CompareAndSet(_, Some(value)) => Some((end.view, value)),
        _ => None,
    }
}

/// The acknowledged writes that aren't among the versions of their key, one line each: those whose view
/// is one of which all is kept. `versions` are those of one member, that carried out the last of them.
pub fn lost(
    calls: &BTreeMap<String, Vec<Call>>,
    versions: &BTreeMap<String, Versions>,
) -> Vec<String> {
    let none = Versions::default();
    let mut lines = Vec::new();
    for (key, calls) in calls {
        let kept = versions.get(key).unwrap_or(&none);
        let oldest = kept
            .versions
            .first()
            .filter(|_| kept.forgotten)
            .map(|version| version.view);
        for (view, value) in calls.iter().filter_map(left) {
            let is_kept = oldest.is_none_or(|oldest| view > oldest);
            let is_it = |v: &Version| v.view == view && v.value.as_deref() == Some(value);
            if is_kept && !kept.versions.iter().any(is_it) {
                lines.push(format!(
                    "{key}: {value} was acknowledged in view {view} and isn't there"
                ));
            }
        }
    }
    lines
}

/// Over all keys: a call that began behind another's end was carried out in a later view. So there is
/// one order of all calls, that of the blocks, and it is the one in which they were seen. A line for each
/// call that wasn't.
pub fn out_of_order(entries: &[Entry]) -> Vec<String> {
    let mut highest = 0;
    let mut before: HashMap<u64, u64> = HashMap::new();
    let mut lines = Vec::new();
    for entry in entries {
        match &entry.happened {
            Happened::Invoke { .. } => {
                before.insert(entry.process, highest);
            }
            Happened::Ok { view, .. } => {
                let bound = before.remove(&entry.process).unwrap_or(0);
                if *view <= bound {
                    let process = entry.process;
                    lines.push(format!(
                        "process {process} was answered from view {view}, and began behind view {bound}"
                    ));
                }
                highest = highest.max(*view);
            }
            Happened::Fail | Happened::Info => {
                before.remove(&entry.process);
            }
        }
    }
    lines
}

/// The reads in members' states that told another value than the key had behind the view that they told: a line for each. Of views
/// that are forgotten nothing is said.
pub fn wrong_reads(reads: &[LocalRead], versions: &BTreeMap<String, Versions>) -> Vec<String> {
    let none = Versions::default();
    let wrong = reads.iter().filter_map(|read| {
        let kept = versions.get(&read.key).unwrap_or(&none);
        let last = kept
            .versions
            .iter()
            .rfind(|version| version.view <= read.view);
        let value = match last {
            Some(version) => version.value.as_ref(),
            None if kept.forgotten => return None,
            None => None,
        };
        let LocalRead {
            member,
            key,
            view,
            value: told,
        } = read;
        let is_right = told.as_ref() == value;
        (!is_right).then(|| {
            format!("member {member} read {told:?} of {key} in view {view}, not {value:?}")
        })
    });
    wrong.collect()
}

#[cfg(test)]
mod tests {
    use super::*;
    use crate::history::{Recorder, calls};

    fn history(steps: &[(u64, Operation, u64)]) -> Vec<Entry> {
        let recorder = Recorder::default();
        for (process, operation, view) in steps {
            let key = "a".to_owned();
            recorder.record(
                *process,
                Happened::Invoke {
                    key,
                    operation: operation.clone(),
                },
            );
            recorder.record(
                *process,
                Happened::Ok {
                    told: Told::Written,
                    view: *view,
                },
            );
        }
        recorder.entries()
    }

    fn put(value: &str) -> Operation {
        Operation::Put(value.to_owned())
    }

    fn versions(forgotten: bool, kept: &[(u64, Option<&str>)]) -> BTreeMap<String, Versions> {
        let version = |(view, value): &(u64, Option<&str>)| Version {
            view: *view,
            position: 0,
            value: value.map(str::to_owned),
        };
        let versions = kept.iter().map(version).collect();
        BTreeMap::from([(
            "a".to_owned(),
            Versions {
                forgotten,
                versions,
            },
        )])
    }

    #[test]
    fn each_acknowledged_write_is_a_version() {
        let swap = Operation::CompareAndSet(None, Some("z".to_owned()));
        let calls = calls(&history(&[
            (1, put("x"), 3),
            (1, put("y"), 5),
            (1, swap, 6),
        ]))
        .unwrap();
        let all = [(3, Some("x")), (5, Some("y")), (6, Some("z"))];
        assert!(lost(&calls, &versions(false, &all)).is_empty());
        for missing in 0..3 {
            let mut kept = all.to_vec();
            kept.remove(missing);
            assert_eq!(lost(&calls, &versions(false, &kept)).len(), 1);
        }
        assert_eq!(lost(&calls, &BTreeMap::new()).len(), 3);
        let other_value = [(3, Some("x")), (5, Some("q")), (6, Some("z"))];
        assert_eq!(lost(&calls, &versions(false, &other_value)).len(), 1);
    }

    #[test]
    fn of_views_that_are_forgotten_nothing_is_said() {
        let calls = calls(&history(&[(1, put("x"), 3), (1, put("y"), 5)])).unwrap();
        assert!(lost(&calls, &versions(true, &[(5, Some("y"))])).is_empty());
        assert_eq!(lost(&calls, &versions(true, &[(4, None)])).len(), 1);
    }

    #[test]
    fn what_began_behind_an_end_has_a_later_view() {
        assert!(out_of_order(&history(&[(1, put("x"), 3), (2, put("y"), 4)])).is_empty());
        assert_eq!(
            out_of_order(&history(&[(1, put("x"), 3), (2, put("y"), 3)])).len(),
            1
        );
        assert_eq!(
            out_of_order(&history(&[(1, put("x"), 3), (2, put("y"), 2)])).len(),
            1
        );
    }

    #[test]
    fn a_local_read_tells_what_its_view_had() {
        let read = |view, value: Option<&str>| LocalRead {
            member: 0,
            key: "a".to_owned(),
            view,
            value: value.map(str::to_owned),
        };
        let wrong = |read: LocalRead, forgotten| {
            let kept = versions(forgotten, &[(3, Some("x")), (5, None), (8, Some("y"))]);
            wrong_reads(&[read], &kept).len()
        };
        for (view, value) in [
            (3, Some("x")),
            (4, Some("x")),
            (6, None),
            (9, Some("y")),
            (1, None),
        ] {
            assert_eq!(wrong(read(view, value), false), 0, "{view}");
        }
        for (view, value) in [
            (4, None),
            (6, Some("x")),
            (7, Some("y")),
            (9, Some("x")),
            (1, Some("x")),
        ] {
            assert_eq!(wrong(read(view, value), false), 1, "{view}");
        }
        assert_eq!(wrong(read(1, Some("x")), true), 0);
    }

    #[test]
    fn calls_that_overlap_may_have_any_views() {
        let recorder = Recorder::default();
        for process in [1, 2] {
            let key = "a".to_owned();
            recorder.record(
                process,
                Happened::Invoke {
                    key,
                    operation: Operation::Get,
                },
            );
        }
        for (process, view) in [(1, 9), (2, 4)] {
            recorder.record(
                process,
                Happened::Ok {
                    told: Told::Read(None),
                    view,
                },
            );
        }
        assert!(out_of_order(&recorder.entries()).is_empty());
    }
}
