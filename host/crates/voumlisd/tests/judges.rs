//! A member that signs two votes which contradict each other is convicted from the files of the others alone.

mod common;

use common::{Committee, until};
use std::fs;
use std::path::{Path, PathBuf};

/// The example `liar`, which cargo builds beside the tests.
fn liar() -> PathBuf {
    let binary = Path::new(env!("CARGO_BIN_EXE_voumlisd"));
    binary.with_file_name("examples").join("liar")
}

fn words(output: &std::process::Output) -> String {
    String::from_utf8_lossy(&output.stdout).into_owned()
}

#[test]
fn a_liar_is_blocked_and_convicted_and_nobody_else() {
    let mut committee = Committee::new(4, |_| {});
    (0..3).for_each(|member| committee.start(member));
    committee.start_as(&liar(), 3);
    until("the liar is blocked by all others", || {
        let blocked = (0..3).filter(|member| {
            let status = committee.status(*member);
            status.is_some_and(|status| status["blocked"]["3"].is_string())
        });
        (blocked.count() == 3).then_some(())
    });
    let there = committee.highest();
    committee.reach(&[0, 1, 2], there + 6);
    for member in 0..3 {
        let status = committee.status(member).unwrap();
        assert_eq!(status["blocked"].as_object().unwrap().len(), 1, "{status}");
    }

    let program = common::program();
    let program = program.to_str().unwrap();
    let keys = committee.folder.path().join("committee.toml");
    let keys = keys.to_str().unwrap().to_owned();
    for member in 0..3 {
        let reports = committee.member(member).join("reports");
        let judged = committee.run(&[
            "judge",
            reports.to_str().unwrap(),
            &keys,
            "--program",
            program,
        ]);
        let said = words(&judged);
        assert_eq!(judged.status.code(), Some(3), "{said} {judged:?}");
        assert!(said.contains("member 3 with key"), "{said}");
        for other in 0..3 {
            assert!(
                !said.contains(&format!("member {other} with key")),
                "{said}"
            );
        }
        assert!(said.contains(" 0 with a signature"), "{said}");
    }
    judge_by_changed_reports(&committee, &keys, program);
}

/// A judge isn't misled: by reports whose signatures were changed, and by the keys of another committee, nobody is convicted.
fn judge_by_changed_reports(committee: &Committee, keys: &str, program: &str) {
    let stored = fs::read(committee.member(0).join("reports")).unwrap();
    let (mut reports, _) = voumlis_core::reports::read_all(&stored);
    for report in &mut reports {
        report.signatures.iter_mut().for_each(|one| one[5] ^= 1);
    }
    let changed: Vec<u8> = reports.iter().flat_map(|report| report.bytes()).collect();
    let path = committee.folder.path().join("changed");
    fs::write(&path, changed).unwrap();
    let path = path.to_str().unwrap();
    let judged = committee.run(&["judge", path, keys, "--program", program]);
    assert_eq!(judged.status.code(), Some(0), "{judged:?}");
    assert!(
        words(&judged).starts_with("0 reports counted"),
        "{judged:?}"
    );

    let others = Committee::new(4, |_| {});
    let others = others.folder.path().join("committee.toml");
    let reports = committee.member(0).join("reports");
    let judged = committee.run(&[
        "judge",
        reports.to_str().unwrap(),
        others.to_str().unwrap(),
        "--program",
        program,
    ]);
    assert_eq!(judged.status.code(), Some(0), "{judged:?}");
}
