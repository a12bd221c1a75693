//! The rows of docs/vectors.json, which are from outside the product, through the library.

mod common;

use common::{bytes, rows, word};
use voumlis::{Error, Kind, Record, Refusal, audit, decode, first_refused};

fn kind(row: &str) -> Option<Kind> {
    if word(row, "scheme") != "plain" {
        return None;
    }
    match word(row, "type") {
        "vote" => Some(Kind::Vote),
        "certificate" => Some(Kind::Certificate),
        "artifact" => Some(Kind::Artifact),
        "report" => Some(Kind::Report),
        _ => None,
    }
}

#[test]
fn what_is_spelled_is_read_and_each_shorter_front_ends_within_it() {
    let mut count = 0;
    for row in rows("read") {
        let Some(kind) = kind(&row) else { continue };
        let members = word(&row, "members").parse().unwrap();
        let spelled = bytes(word(&row, "bytes"));
        assert_eq!(decode(kind, members, &spelled), Ok(spelled.len()), "{row}");
        for size in 0..spelled.len() {
            assert_eq!(
                decode(kind, members, &spelled[..size]),
                Err(Refusal::End),
                "{size} of {row}"
            );
        }
        let mut longer = spelled.clone();
        longer.push(255);
        assert_eq!(decode(kind, members, &longer), Ok(spelled.len()), "{row}");
        count += 1;
    }
    assert!(count > 60, "{count}");
}

#[test]
fn what_is_refused_is_refused_so() {
    let mut count = 0;
    for row in rows("refused") {
        let Some(kind) = kind(&row) else { continue };
        let trouble = match word(&row, "trouble") {
            "End" => Refusal::End,
            "Invalid" => Refusal::Invalid,
            "TooLong" => Refusal::TooLong,
            other => panic!("{other}"),
        };
        let members = word(&row, "members").parse().unwrap();
        assert_eq!(
            decode(kind, members, &bytes(word(&row, "bytes"))),
            Err(trouble),
            "{row}"
        );
        count += 1;
    }
    assert!(count > 400, "{count}");
}

#[test]
fn audits_find_the_evidence() {
    for row in rows("audits") {
        let (_, behind) = row.split_once("\"evidence\":").unwrap();
        let listed = behind
            .trim_start()
            .strip_prefix('[')
            .unwrap()
            .split(']')
            .next()
            .unwrap();
        let evidence: Vec<u8> = listed
            .split('"')
            .skip(1)
            .step_by(2)
            .flat_map(bytes)
            .collect();
        let found = audit(
            word(&row, "members").parse().unwrap(),
            &bytes(word(&row, "bytes")),
        )
        .unwrap();
        assert_eq!(found.evidence, evidence, "{row}");
        let fault = word(&row, "fault");
        assert_eq!(
            found.fault.map(|place| place.to_string()),
            (fault != "null").then(|| fault.to_string()),
            "{row}"
        );
    }
}

#[test]
fn evidence_longer_than_the_first_buffer_is_whole() {
    let row = rows("audits")
        .into_iter()
        .find(|row| row.contains("\"two notarizes\""))
        .unwrap();
    let one = audit(4, &bytes(word(&row, "bytes"))).unwrap();
    assert!(!one.evidence.is_empty());
    let again = audit(4, &one.evidence).unwrap();
    assert_eq!(again, one);
}

#[test]
fn foreign_entries_are_named() {
    let mut count = 0;
    for row in rows("records") {
        let foreign = word(&row, "foreign");
        if foreign == "null" {
            continue;
        }
        let disk = bytes(word(&row, "disk"));
        assert_eq!(
            first_refused(4, 0, 4, 0, &disk),
            Ok(Record::Foreign(foreign.parse().unwrap())),
            "{row}"
        );
        count += 1;
    }
    assert!(count > 0);
}

#[test]
fn numbers_that_cant_be_answered_are_told() {
    assert_eq!(audit(0, &[]), Err(Error::Argument));
    assert_eq!(first_refused(0, 0, 4, 0, &[]), Err(Error::Argument));
    assert_eq!(first_refused(4, 0, 0, 0, &[]), Err(Error::Argument));
    assert_eq!(first_refused(4, 0, 4, u16::MAX, &[]), Ok(Record::Lawful(0)));
    assert_eq!(
        first_refused(4, u64::MAX, u32::MAX, 0, &[0]),
        Ok(Record::Lawful(0))
    );
    assert_eq!(decode(Kind::Vote, 0, &[]), Err(Refusal::End));
    assert_eq!(decode(Kind::Report, u32::MAX, &[10]), Err(Refusal::Invalid));
}
