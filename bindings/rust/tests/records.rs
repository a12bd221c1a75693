//! Records against the rows of the driver of `simplex_tool`, whose answers programs in another language gave.

mod common;

use common::bytes;
use voumlis::{Record, first_refused};

fn script(name: &str) -> Vec<String> {
    let folder = concat!(env!("CARGO_MANIFEST_DIR"), "/../../crates/run_cli/");
    let text = std::fs::read_to_string(format!("{folder}{name}")).unwrap();
    text.lines().map(String::from).collect()
}

/// What stands in the line of an answer, as `3 0 "refused entry 0\n" ""`.
fn told(answer: &str) -> Record {
    let line = answer.split('"').nth(1).unwrap().trim_end_matches("\\n");
    let (what, number) = line.rsplit_once(' ').unwrap();
    match what {
        "lawful entries" => Record::Lawful(number.parse().unwrap()),
        "refused entry" => Record::Refused(number.parse().unwrap()),
        "foreign at byte" => Record::Foreign(number.parse().unwrap()),
        other => panic!("{other}"),
    }
}

#[test]
fn records_are_lawful_or_refused_as_the_rows_say() {
    let (calls, answers) = (script("stdin"), script("stdout"));
    assert_eq!(calls.len(), answers.len());
    let (mut lawful, mut refused, mut foreign) = (0, 0, 0);
    let (mut record, mut whole) = (Vec::new(), true);
    for (call, answer) in calls.iter().zip(&answers) {
        let words: Vec<&str> = call.split(' ').collect();
        let (member, members) = match words[..] {
            ["reset"] => {
                (record, whole) = (Vec::new(), true);
                continue;
            }
            ["append", "1", more] if answer != "unreadable" => {
                record.extend(bytes(more));
                continue;
            }
            ["append" | "reader" | "output", ..] => {
                whole = false;
                continue;
            }
            ["tool", "check", member, members, "r"] if whole && !record.is_empty() => {
                (member, members)
            }
            _ => continue,
        };
        let (member, members) = (member.parse().unwrap(), members.parse().unwrap());
        let found = first_refused(members, 0, 4, member, &record).unwrap();
        assert_eq!(found, told(answer), "{call}");
        match found {
            Record::Lawful(_) => lawful += 1,
            Record::Refused(_) => refused += 1,
            Record::Foreign(_) => foreign += 1,
        }
    }
    assert!(
        lawful > 5 && refused > 20 && foreign > 2,
        "{lawful}, {refused}, {foreign}"
    );
}
