//! A short trial of real processes, one of which lies, and what is found in what was seen when faults are put into it.

use std::path::{Path, PathBuf};
use std::time::Duration;
use trial::committee::{Lie, Programs};
use trial::plant::Fault;
use trial::random::Random;
use trial::run::{self, Plan};

/// A program: the one that this variable names, the one beside that of `VOUMLIS_PROGRAM`, or a proved one.
fn program(variable: &str, name: &str) -> PathBuf {
    if let Some(named) = std::env::var_os(variable) {
        return named.into();
    }
    let simplex = std::env::var_os("VOUMLIS_PROGRAM").map(PathBuf::from);
    let beside = simplex.map(|it| it.with_file_name(name));
    let top = Path::new(env!("CARGO_MANIFEST_DIR")).join("../../..");
    let proved = top.join("crates").join(name).join("out").join(name);
    let found = beside.filter(|it| it.exists()).unwrap_or(proved);
    assert!(
        found.exists(),
        "name a program {name} in {variable}: host/program {name} builds one, and prints its path"
    );
    found
}

#[tokio::test(flavor = "multi_thread")]
async fn a_committee_with_a_liar_serves_its_clients_and_convicts_it() {
    let folder = tempfile::tempdir().unwrap();
    let member = PathBuf::from(env!("CARGO_BIN_EXE_liar"));
    let plan = Plan {
        seed: 7,
        span: Duration::from_secs(8),
        members: 4,
        clients: 8,
        liar: Some((2, Lie::Notarize)),
        patience: Duration::from_secs(120),
        folder: folder.path().join("members"),
        // Without a lie it is a member as another.
        programs: Programs {
            kv: member.clone(),
            liar: member,
            simplex: program("VOUMLIS_PROGRAM", "simplex"),
            tool: program("VOUMLIS_TOOL", "simplex_tool"),
        },
    };
    let outcome = run::run(&plan).await.unwrap();
    assert_eq!(outcome.findings, [], "{outcome}");
    assert!(
        !outcome.seen.entries.is_empty() && outcome.view > 0,
        "{outcome}"
    );
    assert_eq!(outcome.seen.convicted, [2].into());

    let file = folder.path().join("seen.json");
    run::write(&outcome.seen, &file).unwrap();
    assert_eq!(run::read(&file).unwrap(), outcome.seen);
    for fault in [Fault::VoteTakenBack, Fault::WrongBlock] {
        let mut seen = outcome.seen.clone();
        let place = fault
            .plant(&mut seen, &mut Random::new(7))
            .expect("there is a place for it");
        assert!(!seen.findings().is_empty(), "{place}");
    }
}
