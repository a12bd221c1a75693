//! Members as real processes: they are killed, stopped, late and stuck, and go on.

mod common;

use common::{Committee, until};
use std::os::unix::fs::PermissionsExt;
use std::path::Path;
use std::process::{Command, Stdio};
use std::{fs, thread, time::Duration};

#[test]
fn four_members_go_on_without_one_that_was_killed_and_it_catches_up() {
    let mut committee = Committee::new(4, |_| {});
    committee.start_all();
    committee.reach(&[0, 1, 2, 3], 6);
    committee.kill(3);
    until("its node ends with it", || {
        (committee.nodes(3) == 0).then_some(())
    });
    let there = committee.highest();
    committee.reach(&[0, 1, 2], there + 8);
    committee.start(3);
    let there = committee.highest();
    committee.reach(&[3], there + 4);
    assert_eq!(committee.metric(0, "voumlis_unsigned_total"), 0.0);
}

#[test]
fn what_was_final_stays_final_where_all_are_killed_at_once() {
    let mut committee = Committee::new(4, |_| {});
    committee.start_all();
    committee.reach(&[0, 1, 2, 3], 8);
    let there = committee.highest();
    (0..4).for_each(|member| committee.kill(member));
    committee.start_all();
    // A payload that differs from one seen before fails in `status`.
    committee.reach(&[0, 1, 2, 3], there + 6);
}

#[test]
fn a_member_stops_cleanly_and_alone_has_its_folder() {
    let mut committee = Committee::new(1, |_| {});
    committee.start(0);
    committee.reach(&[0], 3);
    let folder = committee.member(0);
    let second = committee.run(&["run", folder.to_str().unwrap()]);
    assert!(!second.status.success());
    let told = String::from_utf8(second.stderr).unwrap();
    assert!(told.contains("another process runs the member"), "{told}");
    let there = committee.applied(0);
    let ended = committee.terminate(0);
    assert!(ended.success(), "{ended} {}", committee.log(0));
    assert_eq!(committee.nodes(0), 0);
    committee.start(0);
    committee.reach(&[0], there + 3);
}

#[test]
fn ctrl_c_is_a_clean_stop_though_it_goes_to_all_processes_of_the_terminal() {
    let mut committee = Committee::new(1, |_| {});
    committee.start(0);
    committee.reach(&[0], 3);
    let ended = committee.interrupt(0);
    assert!(ended.success(), "{ended} {}", committee.log(0));
    let log = committee.log(0);
    assert!(log.contains("stopped by SIGINT"), "{log}");
    assert_eq!(committee.nodes(0), 0);
}

#[test]
fn a_member_of_which_a_part_fails_ends() {
    let mut committee = Committee::new(1, |_| {});
    let binary = Path::new(env!("CARGO_BIN_EXE_voumlisd"));
    committee.start_as(&binary.with_file_name("examples").join("failing"), 0);
    until("it answers", || committee.get(0, "/status"));
    assert_eq!(committee.get(0, "/fail"), None);
    let ended = committee.ended(0);
    assert!(!ended.success(), "{ended}");
    let log = committee.log(0);
    assert!(log.contains("it fails, as it was asked to"), "{log}");
}

#[test]
fn what_a_member_writes_its_owner_alone_may_read() {
    let mut committee = Committee::new(1, |settings| settings.limits.snapshot_views = 2);
    let folder = committee.member(0);
    let mode = |path: &Path| fs::metadata(path).unwrap().permissions().mode() & 0o777;
    assert_eq!(mode(&folder), 0o700);
    committee.start(0);
    committee.reach(&[0], 6);
    let names = [
        "blocked",
        "blocks",
        "key",
        "lock",
        "record.toml",
        "reports",
        "signatures",
        "snapshot",
    ];
    let modes = names.map(|name| (name, mode(&folder.join(name))));
    assert_eq!(modes, names.map(|name| (name, 0o600)));
}

#[test]
fn a_key_that_others_may_read_is_refused() {
    let committee = Committee::new(1, |_| {});
    let folder = committee.member(0);
    let key = folder.join("key");
    assert_eq!(
        fs::metadata(&key).unwrap().permissions().mode() & 0o777,
        0o600
    );
    fs::set_permissions(&key, fs::Permissions::from_mode(0o644)).unwrap();
    let ended = committee.run(&["run", folder.to_str().unwrap()]);
    assert!(!ended.status.success());
    let told = String::from_utf8(ended.stderr).unwrap();
    assert!(told.contains("may be read by others"), "{told}");
}

#[test]
fn a_member_that_joins_late_takes_a_snapshot_and_the_blocks_behind_it() {
    let mut committee = Committee::new(4, |settings| settings.limits.snapshot_views = 8);
    (0..3).for_each(|member| committee.start(member));
    // Two snapshots are behind by then, so the first blocks are kept by nobody.
    committee.reach(&[0, 1, 2], 26);
    committee.start(3);
    let there = committee.highest();
    committee.reach(&[3], there + 4);
    assert!(
        committee
            .log(3)
            .contains("a snapshot was taken from others"),
        "it was reached another way"
    );
    // What it took is what it starts from.
    committee.kill(3);
    committee.start(3);
    let there = committee.highest();
    committee.reach(&[3], there + 4);
}

#[test]
fn a_record_is_opened_again_where_no_view_is_entered_for_long() {
    let mut committee = Committee::new(4, |settings| settings.times.reopen_after = 2_000);
    committee.start(0);
    committee.start(1);
    until("the record is opened again", || {
        (committee.metric(0, "voumlis_openings_total") >= 2.0).then_some(())
    });
    assert!(committee.metric(0, "voumlis_stuck_total") >= 1.0);
    thread::sleep(Duration::from_millis(500));
    committee.start(2);
    committee.reach(&[0, 1, 2], 4);
}

#[test]
fn a_record_that_has_doubled_is_rewritten_and_what_was_final_stays_final() {
    let mut committee = Committee::new(4, |settings| {
        settings.limits.record_bytes = 4_096;
        settings.node.rewrite_views = 0;
    });
    committee.start_all();
    until("each record is rewritten, and again", || {
        (0..4)
            .all(|member| is_rewritten_again(&committee, member))
            .then_some(())
    });
    let there = committee.highest();
    committee.reach(&[0, 1, 2, 3], there + 4);
    for member in 0..4 {
        assert!(committee.metric(member, "voumlis_rewrites_total") >= 2.0);
        assert!(committee.metric(member, "voumlis_rewritten_view") > 0.0);
    }
    (0..4).for_each(|member| committee.kill(member));
    committee.start_all();
    // A payload that differs from one seen before fails in `status`.
    committee.reach(&[0, 1, 2, 3], there + 8);
}

/// Whether both files of a member's record were written by a rewrite: then they begin with a head.
fn is_rewritten_again(committee: &Committee, member: usize) -> bool {
    let folder = committee.member(member);
    let files = ["record", "record.2"].map(|name| fs::read(folder.join(name)).unwrap_or_default());
    files.iter().all(|file| file.len() > 9 && file[0] == 2)
}

#[test]
fn a_record_is_rewritten_by_its_node_and_no_new_life_begins() {
    let mut committee = Committee::new(4, |settings| {
        settings.limits.record_bytes = 1_024;
        settings.node.rewrite_views = 8;
    });
    committee.start_all();
    until("each record is rewritten, and again", || {
        (0..4)
            .all(|member| is_rewritten_again(&committee, member))
            .then_some(())
    });
    let there = committee.highest();
    committee.reach(&[0, 1, 2, 3], there + 4);
    for member in 0..4 {
        let stuck = committee.metric(member, "voumlis_stuck_total");
        let openings = committee.metric(member, "voumlis_openings_total");
        assert_eq!(openings, 1.0 + stuck);
    }
    (0..4).for_each(|member| committee.kill(member));
    committee.start_all();
    // A payload that differs from one seen before fails in `status`.
    committee.reach(&[0, 1, 2, 3], there + 8);
}

#[test]
fn a_committee_over_links_that_lose_a_third_gets_on_with_a_member_down_and_it_catches_up() {
    let mut committee = Committee::new(4, |settings| {
        // Nothing but the nodes' own asks and nullifies goes again.
        settings.times.reopen_at_most = 24 * 60 * 60 * 1000;
        settings.times.reopen_after = settings.times.reopen_at_most;
        settings.pace.slowest = 1;
        settings.node.certification_timeout = 1_500;
        settings.node.retry_timeout = 1_600;
        settings.node.skip_timeout = 2_000;
        settings.node.stall_timeout = 4_000;
    });
    let binary = Path::new(env!("CARGO_BIN_EXE_voumlisd"));
    let lossy = binary.with_file_name("examples").join("lossy");
    (0..4).for_each(|member| committee.start_as(&lossy, member));
    committee.reach(&[0, 1, 2, 3], 1);
    committee.kill(3);
    let there = committee.highest();
    committee.reach(&[0, 1, 2], there + 12);
    // Who was down comes back behind a gap of some terms.
    committee.start_as(&lossy, 3);
    let there = committee.highest();
    committee.reach(&[3], there + 4);
    for member in 0..4 {
        assert_eq!(committee.metric(member, "voumlis_openings_total"), 1.0);
        let status = committee.status(member).unwrap();
        assert_eq!(status["blocked"].as_object().unwrap().len(), 0);
    }
}

#[test]
fn a_member_of_before_settings_could_be_chosen_goes_on() {
    let mut committee = Committee::new(1, |_| {});
    let folder = committee.member(0);
    // What `simplex node` left, and settings that name nothing but that program.
    let made = Command::new(common::program())
        .arg("node")
        .arg(folder.join("record"))
        .args(["0", "1"])
        .stdin(Stdio::null())
        .output()
        .unwrap();
    assert!(made.status.success(), "{made:?}");
    let beside = folder.join("simplex_tool");
    std::os::unix::fs::symlink(common::tool(), &beside).unwrap();
    let mut settings = voumlisd::Settings::read(&folder).unwrap();
    settings.program = folder.join("simplex");
    settings.tool = None;
    settings.write(&folder).unwrap();
    committee.start(0);
    committee.reach(&[0], 3);
    assert_eq!(committee.nodes(0), 1);
    fs::remove_file(beside).unwrap();
    assert!(committee.terminate(0).success());
    committee.start(0);
    assert!(!committee.ended(0).success());
    let log = committee.log(0);
    assert!(
        log.contains("there is no program") && log.contains("simplex_tool"),
        "{log}"
    );
}

#[test]
fn settings_that_no_node_can_be_opened_with_are_told_by_the_program() {
    let mut committee = Committee::new(1, |settings| settings.node.skip_timeout = 3_000);
    let folder = committee.member(0);
    let checked = committee.run(&["check", folder.to_str().unwrap()]);
    let said = String::from_utf8(checked.stderr).unwrap();
    assert!(!checked.status.success(), "{said}");
    assert!(said.contains("skip-timeout: SkipNotAboveRetry"), "{said}");
    committee.start(0);
    assert!(!committee.ended(0).success());
    let log = committee.log(0);
    assert!(log.contains("skip-timeout: SkipNotAboveRetry"), "{log}");
}

#[test]
fn a_committee_is_made_of_a_file_of_settings_and_members_set_up_otherwise_are_strangers() {
    let folder = tempfile::tempdir().unwrap();
    let file = folder.path().join("node.toml");
    fs::write(
        &file,
        "members = 4\nmember = 0\nterm-length = 3\nrepair-window = 64\n",
    )
    .unwrap();
    let made = folder.path().join("made");
    let committee = Committee::new(1, |_| {});
    let (program, tool) = (common::program(), common::tool());
    let words = [
        "init",
        "--program",
        program.to_str().unwrap(),
        "--tool",
        tool.to_str().unwrap(),
        "--node",
        file.to_str().unwrap(),
        made.to_str().unwrap(),
    ];
    let init = committee.run(&words);
    assert!(init.status.success(), "{init:?}");
    let of = |name: &str| voumlisd::settings::Members::read(&made.join(name)).unwrap();
    let listed = of("committee.toml");
    assert_eq!(
        (listed.node.term_length, listed.node.repair_window),
        (3, 64)
    );
    let hash = *listed.committee().unwrap().hash();
    for member in 0..4 {
        let own = of(&format!("member-{member}/settings.toml"));
        assert_eq!(own.committee().unwrap().hash(), &hash);
    }
    let mut usual = listed.clone();
    usual.node = Default::default();
    assert_ne!(usual.committee().unwrap().hash(), &hash);
}

#[test]
fn a_committee_far_apart_gets_on_since_the_time_is_told_slower() {
    let mut committee = Committee::new(4, |_| {});
    let binary = Path::new(env!("CARGO_BIN_EXE_voumlisd"));
    let late = binary.with_file_name("examples").join("late");
    (0..4).for_each(|member| committee.start_as(&late, member));
    committee.reach(&[0, 1, 2, 3], 12);
    let status = committee.status(0).unwrap();
    assert!(status["slowness"].as_u64() >= Some(2), "{status}");
    assert!(committee.metric(0, "voumlis_paces_total{direction=\"slower\"}") >= 1.0);
    assert!(committee.metric(0, "voumlis_slowness") >= 2.0);
    let log = committee.log(0);
    assert!(log.contains("the time is told slower"), "{log}");
    // Nobody was stuck, and nobody is to blame.
    assert_eq!(committee.metric(0, "voumlis_stuck_total"), 0.0);
    assert_eq!(status["blocked"].as_object().unwrap().len(), 0);
}

#[test]
fn a_committee_of_one_is_warned_of_where_it_is_made_checked_and_run() {
    let mut committee = Committee::new(1, |_| {});
    let told = "a committee of 1 bears no fault";
    let folder = committee.member(0);
    let checked = committee.run(&["check", folder.to_str().unwrap()]);
    let said = String::from_utf8(checked.stdout).unwrap();
    assert!(checked.status.success() && said.contains(told), "{said}");
    committee.start(0);
    committee.reach(&[0], 3);
    assert!(committee.log(0).contains(told), "{}", committee.log(0));
    let made = tempfile::tempdir().unwrap();
    let program = common::program();
    let words = [
        "init",
        "--members",
        "1",
        "--program",
        program.to_str().unwrap(),
    ];
    let init = committee.run(&[&words[..], &[made.path().to_str().unwrap()]].concat());
    assert!(String::from_utf8(init.stderr).unwrap().contains(told));
    // A key that is no member's is told of, and four members of nothing.
    fs::remove_file(folder.join("key")).unwrap();
    assert!(
        committee
            .run(&["keygen", folder.join("key").to_str().unwrap()])
            .status
            .success()
    );
    let checked = committee.run(&["check", folder.to_str().unwrap()]);
    let said = String::from_utf8(checked.stderr).unwrap();
    assert!(
        !checked.status.success() && said.contains("no member's key"),
        "{said}"
    );
    let four = Committee::new(4, |_| {});
    let checked = four.run(&["check", four.member(2).to_str().unwrap()]);
    let said = String::from_utf8(checked.stdout).unwrap();
    assert!(
        said.contains("member 2 of 4, of whom 1 may fail") && !said.contains("warning"),
        "{said}"
    );
}

#[cfg(not(feature = "library"))]
#[test]
#[ignore = "the node as a library isn't tried: the feature `library` wants the archive that `rt lib` proves and builds"]
fn members_with_the_node_as_a_library_agree_with_one_that_has_a_child() {}

#[cfg(feature = "library")]
#[test]
fn members_with_the_node_as_a_library_agree_with_one_that_has_a_child() {
    let mut committee = Committee::new(4, |settings| {
        // Member 0 has the program as a child.
        settings.library = settings.listen != settings.members[0].address;
        settings.limits.record_bytes = 4_096;
        settings.node.rewrite_views = 0;
    });
    committee.start_all();
    committee.reach(&[0, 1, 2, 3], 8);
    assert_eq!(committee.nodes(1), 0);
    committee.kill(2);
    let there = committee.highest();
    committee.reach(&[0, 1, 3], there + 6);
    committee.start(2);
    let there = committee.highest();
    committee.reach(&[2], there + 4);
    // A library rewrites its record beside its work: it begins no new life for that.
    until("records are rewritten", || {
        let rewrites = |member| committee.metric(member, "voumlis_rewrites_total");
        (rewrites(0) >= 2.0 && rewrites(1) >= 2.0).then_some(())
    });
    let stuck = committee.metric(1, "voumlis_stuck_total");
    assert_eq!(committee.metric(1, "voumlis_openings_total"), 1.0 + stuck);
    let there = committee.highest();
    committee.reach(&[0, 1, 2, 3], there + 4);
}
