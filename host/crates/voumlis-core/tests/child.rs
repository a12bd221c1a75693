//! A node as a child process, where that process is slow to end, doesn't, or can't open its record.

use anyhow::Result;
use std::fs;
use std::os::unix::fs::PermissionsExt;
use std::path::{Path, PathBuf};
use std::time::{Duration, Instant};
use tempfile::TempDir;
use voumlis_core::member::{Child, Member, NodeSettings, NotYet};
use voumlis_core::wire::{Event, Reply};

/// A program that answers its opening and does this then.
fn program(folder: &TempDir, then: &str) -> PathBuf {
    let path = folder.path().join("program");
    fs::write(&path, format!("#!/bin/sh\n{then}\n")).unwrap();
    fs::set_permissions(&path, fs::Permissions::from_mode(0o755)).unwrap();
    path
}

/// A reply that refuses nothing and asks for nothing.
const NOTHING: &str = r"printf '\000\000'";

/// Everything of its input is read, and then this is done.
fn at_the_end(then: &str) -> String {
    format!("{NOTHING}; cat >/dev/null; {then}")
}

/// What this program is as the node of a committee of one, set up as where nothing is said.
fn open(program: &Path, folder: &TempDir) -> Result<(Child, Reply)> {
    let record = folder.path().join("record");
    Child::open(program, &record, 0, 1, &NodeSettings::default())
}

fn is_running(process: u32) -> bool {
    fs::read_to_string(format!("/proc/{process}/stat")).is_ok_and(|line| !line.contains(") Z "))
}

#[test]
fn a_node_that_takes_long_to_end_is_waited_for() {
    let folder = tempfile::tempdir().unwrap();
    let slow = program(&folder, &at_the_end("exec sleep 6"));
    let (child, _) = open(&slow, &folder).unwrap();
    let begun = Instant::now();
    Box::new(child).close().unwrap();
    assert!(
        begun.elapsed() >= Duration::from_secs(6),
        "it was not waited for"
    );
}

#[test]
fn a_node_that_does_not_end_is_killed_and_its_member_goes_on() {
    let folder = tempfile::tempdir().unwrap();
    let endless = program(&folder, &at_the_end("exec sleep 1000"));
    let (child, _) = open(&endless, &folder).unwrap();
    let process = child.id();
    assert!(is_running(process));
    Box::new(child.with_patience(Duration::from_millis(200)))
        .close()
        .unwrap();
    assert!(!is_running(process));
}

#[test]
fn a_node_that_fails_at_its_end_says_why() {
    let folder = tempfile::tempdir().unwrap();
    let failing = program(&folder, &at_the_end("echo error: write >&2; exit 1"));
    let (child, _) = open(&failing, &folder).unwrap();
    let told = Box::new(child).close().unwrap_err().to_string();
    assert!(told.contains("error: write"), "{told}");
}

#[test]
fn what_may_pass_is_told_apart_from_what_stays() {
    let folder = tempfile::tempdir().unwrap();
    for (words, passes) in [
        ("error: device", true),
        ("error: memory", true),
        ("error: open 5 at 3", false),
        ("error: step 2", false),
    ] {
        let refusing = program(&folder, &format!("echo '{words}' >&2; exit 1"));
        let Err(told) = open(&refusing, &folder) else {
            panic!("{words}: it was opened");
        };
        assert_eq!(told.is::<NotYet>(), passes, "{told:#}");
        assert!(told.to_string().contains(words), "{told:#}");
    }
    let none = open(&folder.path().join("none"), &folder);
    assert!(!none.err().unwrap().is::<NotYet>());
}

#[test]
fn an_event_behind_the_end_of_a_node_is_an_error() {
    let folder = tempfile::tempdir().unwrap();
    let short = program(
        &folder,
        &format!("{NOTHING}; echo error: step 2 >&2; exit 1"),
    );
    let (mut child, _) = open(&short, &folder).unwrap();
    let told = child.step(&Event::Moment(1)).unwrap_err().to_string();
    assert!(told.contains("error: step 2"), "{told}");
}

#[test]
fn a_node_is_started_by_a_file_of_its_settings_beside_the_record() {
    let folder = tempfile::tempdir().unwrap();
    let telling = program(&folder, "echo $* >&2; cat $2 >&2; exit 1");
    let record = folder.path().join("record");
    let settings = NodeSettings {
        retry_timeout: 7,
        ..NodeSettings::default()
    };
    let told = Child::open(&telling, &record, 2, 4, &settings)
        .err()
        .unwrap();
    let file = folder.path().join("record.toml");
    for line in [
        format!("member {}", file.display()),
        format!("record = \"{}\"", record.display()),
        "members = 4".to_owned(),
        "member = 2".to_owned(),
        "retry-timeout = 7".to_owned(),
        "repair = \"with-nullify\"".to_owned(),
        "repair-window = 1024".to_owned(),
    ] {
        let told = told.to_string();
        assert!(told.lines().any(|it| it.ends_with(&line)), "{line}: {told}");
    }
}
