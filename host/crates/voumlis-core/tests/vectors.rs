//! The rows of docs/vectors.json, which programs from outside this crate made, through the reading of it.

use serde_json::Value;
use std::{fs, path::PathBuf};
use voumlis_core::plain;
use voumlis_core::wire::{Channel, Event, Message, Reader, Reply, Report, Trouble, Vote};

fn rows(list: &str) -> Vec<Value> {
    let path = PathBuf::from(env!("CARGO_MANIFEST_DIR")).join("../../../docs/vectors.json");
    let text = fs::read_to_string(path).unwrap();
    let mut all: Value = serde_json::from_str(&text).unwrap();
    let Value::Array(rows) = all[list].take() else {
        panic!("no list {list}");
    };
    rows.into_iter()
        .filter(|row| row["scheme"] == "plain")
        .collect()
}

fn bytes_of(row: &Value) -> Vec<u8> {
    hex::decode(row["bytes"].as_str().unwrap()).unwrap()
}

/// How many bytes the value of this type takes, or nothing where this crate doesn't read the type alone.
fn read(kind: &str, members: u32, bytes: &[u8]) -> Option<Result<usize, Trouble>> {
    let mut reader = Reader::new(bytes);
    let got = match kind {
        "vote" => reader.vote().map(|_| ()),
        "certificate" => reader.certificate(members).map(|_| ()),
        "report" => reader.report(members).map(|_| ()),
        "reply" => return Some(Reply::read(bytes).map(|(_, size)| size)),
        "number" => reader.number().map(|_| ()),
        "index" => reader.index().map(|_| ()),
        "truth" => reader.truth().map(|_| ()),
        "round" => reader.round().map(|_| ()),
        "proposal" => reader.proposal().map(|_| ()),
        _ => return None,
    };
    Some(got.map(|()| reader.place()))
}

#[test]
fn what_is_spelled_is_read_and_each_shorter_front_ends_within_it() {
    let mut count = 0;
    for row in rows("read") {
        let members = row["members"].as_u64().unwrap_or(4) as u32;
        let bytes = bytes_of(&row);
        let kind = row["type"].as_str().unwrap();
        let Some(got) = read(kind, members, &bytes) else {
            continue;
        };
        assert_eq!(got, Ok(bytes.len()), "{row}");
        for size in 0..bytes.len() {
            let cut = read(kind, members, &bytes[..size]).unwrap();
            assert_eq!(cut, Err(Trouble::End), "{size} of {row}");
        }
        count += 1;
    }
    assert!(count > 90, "{count}");
}

#[test]
fn what_is_refused_is_refused_so() {
    let mut count = 0;
    for row in rows("refused") {
        let members = row["members"].as_u64().unwrap_or(4) as u32;
        let trouble = match row["trouble"].as_str().unwrap() {
            "End" => Trouble::End,
            "Invalid" => Trouble::Invalid,
            _ => Trouble::TooLong,
        };
        let kind = row["type"].as_str().unwrap();
        let Some(got) = read(kind, members, &bytes_of(&row)) else {
            continue;
        };
        assert_eq!(got, Err(trouble), "{row}");
        count += 1;
    }
    assert!(count > 300, "{count}");
}

fn number(value: &Value) -> u64 {
    value
        .as_u64()
        .unwrap_or_else(|| value.as_str().unwrap().parse().unwrap())
}

/// The event of a row's value.
fn event(value: &Value) -> Event {
    let (kind, inner) = value.as_object().unwrap().iter().next().unwrap();
    let array = |value: &Value| hex::decode(value.as_str().unwrap()).unwrap();
    match kind.as_str() {
        "packet" => Event::Packet {
            sender: number(&inner["sender"]) as u32,
            channel: match inner["channel"].as_str().unwrap() {
                "votes" => Channel::Votes,
                "certificates" => Channel::Certificates,
                _ => Channel::Fetches,
            },
            bytes: array(&inner["bytes"]),
        },
        "built" => Event::Built {
            request: number(&inner["request"]),
            payload: (!inner["payload"].is_null())
                .then(|| array(&inner["payload"]).try_into().unwrap()),
        },
        "checked" => Event::Checked {
            request: number(&inner["request"]),
            answer: inner["answer"].as_bool(),
        },
        "verdict" => Event::Verdict {
            view: number(&inner["view"]),
            good: inner["verdict"].as_bool().unwrap(),
        },
        _ => Event::Moment(number(inner)),
    }
}

#[test]
fn events_are_spelled_as_the_rows_have_them() {
    let rows: Vec<Value> = rows("read")
        .into_iter()
        .filter(|row| row["type"] == "event")
        .collect();
    assert!(rows.len() > 5, "{}", rows.len());
    for row in rows {
        let mut spelled = Vec::new();
        event(&row["value"]).append(&mut spelled);
        assert_eq!(spelled, bytes_of(&row), "{row}");
    }
}

#[test]
fn attestations_are_found_with_their_signers() {
    for row in rows("read") {
        let text = row["value"].to_string();
        let bytes = bytes_of(&row);
        let found = match row["type"].as_str().unwrap() {
            "vote" => Message::read(Channel::Votes, 4, &bytes)
                .unwrap()
                .attestations()
                .to_vec(),
            "report" => Report::read(row["members"].as_u64().unwrap() as u32, &bytes)
                .unwrap()
                .attestations(),
            _ => continue,
        };
        assert_eq!(found.len(), text.matches("\"signer\"").count(), "{row}");
        for attestation in found {
            assert!(text.contains(&hex::encode(attestation.hash)), "{row}");
        }
    }
}

#[test]
fn votes_are_spelled_and_attested_as_the_rows_have_them() {
    let mut count = 0;
    for row in rows("read") {
        if row["type"] != "vote" {
            continue;
        }
        let bytes = bytes_of(&row);
        let vote: Vote = Reader::new(&bytes).vote().unwrap();
        assert_eq!(vote.bytes(), bytes);
        let attested = plain::attestation("simplex", vote.kind, &vote.on, vote.attestation.signer);
        count += usize::from(attested == vote.attestation.hash);
    }
    assert!(count >= 3, "{count}");
}
