//! What clients did and saw, in the order in which it was seen.

use serde::{Deserialize, Serialize};
use std::collections::{BTreeMap, HashMap};
use std::io::{BufRead, Write};
use std::sync::{Mutex, PoisonError};
use std::time::Instant;

/// What a client asks of one key.
#[derive(Clone, Debug, PartialEq, Eq, Serialize, Deserialize)]
#[serde(rename_all = "snake_case")]
pub enum Operation {
    /// The value.
    Get,
    /// To have this value.
    Put(String),
    /// To have none.
    Delete,
    /// If it has the first, to have the second.
    CompareAndSet(Option<String>, Option<String>),
}

/// What a client was told.
#[derive(Clone, Debug, PartialEq, Eq, Serialize, Deserialize)]
#[serde(rename_all = "snake_case")]
pub enum Told {
    /// A get: the value, or none.
    Read(Option<String>),
    /// It was carried out.
    Written,
    /// The key had something else.
    Mismatch,
}

/// What happened to an operation.
#[derive(Clone, Debug, PartialEq, Eq, Serialize, Deserialize)]
#[serde(rename_all = "snake_case")]
pub enum Happened {
    /// It is about to be sent.
    Invoke {
        /// About which key.
        key: String,
        /// What is asked.
        operation: Operation,
    },
    /// It was carried out.
    Ok {
        /// What was told.
        told: Told,
        /// In the block of which view.
        view: u64,
    },
    /// It wasn't carried out and won't be.
    Fail,
    /// Nobody knows. Its process does nothing any more.
    Info,
}

/// One line of a history.
#[derive(Clone, Debug, PartialEq, Eq, Serialize, Deserialize)]
pub struct Entry {
    /// Microseconds since the trial began.
    pub micros: u64,
    /// Who: one operation at a time. A client whose operation has an unknown end goes on as another.
    pub process: u64,
    /// What.
    pub happened: Happened,
}

/// A history that is being written, by all clients.
#[derive(Debug)]
pub struct Recorder {
    start: Instant,
    entries: Mutex<Vec<Entry>>,
}

impl Default for Recorder {
    fn default() -> Recorder {
        Recorder {
            start: Instant::now(),
            entries: Mutex::default(),
        }
    }
}

impl Recorder {
    /// Writes a line. An invoke has to be written before anything is sent, an end behind its receipt.
    pub fn record(&self, process: u64, happened: Happened) {
        let mut entries = self.entries.lock().unwrap_or_else(PoisonError::into_inner);
        let micros = self.start.elapsed().as_micros() as u64;
        entries.push(Entry {
            micros,
            process,
            happened,
        });
    }

    /// What was written so far.
    pub fn entries(&self) -> Vec<Entry> {
        self.entries
            .lock()
            .unwrap_or_else(PoisonError::into_inner)
            .clone()
    }
}

/// Writes a history, a line of JSON for each entry.
///
/// # Errors
///
/// Those of `writer`.
pub fn write(entries: &[Entry], mut writer: impl Write) -> anyhow::Result<()> {
    for entry in entries {
        serde_json::to_writer(&mut writer, entry)?;
        writer.write_all(b"\n")?;
    }
    Ok(writer.flush()?)
}

/// Reads a history as it was written.
///
/// # Errors
///
/// Those of `reader`, and of a line that is no entry.
pub fn read(reader: impl BufRead) -> anyhow::Result<Vec<Entry>> {
    reader
        .lines()
        .map(|line| Ok(serde_json::from_str(&line?)?))
        .collect()
}

/// An operation from its start to its end.
#[derive(Clone, Debug, PartialEq, Eq)]
pub struct Call {
    /// Who.
    pub process: u64,
    /// What.
    pub operation: Operation,
    /// The place in the history of its start.
    pub invoked: usize,
    /// Its end, or none where nobody knows it.
    pub end: Option<End>,
}

/// How a call ended that was carried out.
#[derive(Clone, Debug, PartialEq, Eq)]
pub struct End {
    /// The place in the history.
    pub at: usize,
    /// What was told.
    pub told: Told,
    /// The view of the block that has it.
    pub view: u64,
}

/// The calls of each key in the order of their starts, without those that failed.
///
/// # Errors
///
/// Where a process began another operation before the end of one, or ended one that it hadn't begun.
pub fn calls(entries: &[Entry]) -> anyhow::Result<BTreeMap<String, Vec<Call>>> {
    let mut open: HashMap<u64, (String, Call)> = HashMap::new();
    let mut done: Vec<(String, Call)> = Vec::new();
    for (at, entry) in entries.iter().enumerate() {
        let process = entry.process;
        if let Happened::Invoke { key, operation } = &entry.happened {
            let call = Call {
                process,
                operation: operation.clone(),
                invoked: at,
                end: None,
            };
            let before = open.insert(process, (key.clone(), call));
            anyhow::ensure!(
                before.is_none(),
                "line {at}: process {process} is still busy"
            );
            continue;
        }
        let (key, mut call) = open
            .remove(&process)
            .ok_or_else(|| anyhow::anyhow!("line {at}: process {process} began nothing"))?;
        match &entry.happened {
            Happened::Ok { told, view } => {
                call.end = Some(End {
                    at,
                    told: told.clone(),
                    view: *view,
                });
                done.push((key, call));
            }
            Happened::Info => done.push((key, call)),
            Happened::Fail | Happened::Invoke { .. } => {}
        }
    }
    done.extend(open.into_values());
    done.sort_by_key(|(_, call)| call.invoked);
    let mut by_key: BTreeMap<String, Vec<Call>> = BTreeMap::new();
    for (key, call) in done {
        by_key.entry(key).or_default().push(call);
    }
    Ok(by_key)
}

#[cfg(test)]
mod tests {
    use super::*;

    fn invoke(process: u64, key: &str, operation: Operation) -> (u64, Happened) {
        (
            process,
            Happened::Invoke {
                key: key.to_owned(),
                operation,
            },
        )
    }

    fn entries(happened: Vec<(u64, Happened)>) -> Vec<Entry> {
        let recorder = Recorder::default();
        for (process, happened) in happened {
            recorder.record(process, happened);
        }
        recorder.entries()
    }

    fn some() -> Vec<Entry> {
        entries(vec![
            invoke(1, "a", Operation::Put("x".to_owned())),
            invoke(2, "b", Operation::Get),
            (
                1,
                Happened::Ok {
                    told: Told::Written,
                    view: 7,
                },
            ),
            (2, Happened::Fail),
            invoke(1, "a", Operation::CompareAndSet(None, Some("y".to_owned()))),
            invoke(2, "a", Operation::Get),
            (1, Happened::Info),
        ])
    }

    #[test]
    fn a_history_is_read_as_it_was_written() {
        let (entries, mut bytes) = (some(), Vec::new());
        write(&entries, &mut bytes).unwrap();
        assert_eq!(read(&bytes[..]).unwrap(), entries);
    }

    #[test]
    fn calls_have_both_ends_or_an_unknown_one() {
        let calls = calls(&some()).unwrap();
        assert_eq!(calls.keys().collect::<Vec<_>>(), ["a"]);
        let ends: Vec<_> = calls["a"]
            .iter()
            .map(|call| (call.invoked, call.end.clone()))
            .collect();
        let end = End {
            at: 2,
            told: Told::Written,
            view: 7,
        };
        assert_eq!(ends, [(0, Some(end)), (4, None), (5, None)]);
    }

    #[test]
    fn a_process_does_one_thing_at_a_time() {
        let twice = vec![
            invoke(1, "a", Operation::Get),
            invoke(1, "a", Operation::Get),
        ];
        assert!(calls(&entries(twice)).is_err());
        assert!(calls(&entries(vec![(1, Happened::Fail)])).is_err());
    }
}
