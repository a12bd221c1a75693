//! Light clients, and hosts that have keys: over the rows of docs/vectors.json, and over what a committee of seven sends.

mod common;

use common::committee::Committee;
use common::{bytes, rows, word};
use voumlis::wire::{Channel, Proposal, Round};
use voumlis::{
    Broken, Certified, Kind, Refusal, Settings, SettingsError, SettingsFault, Uncertified,
    attestations, certifies, finalized_in,
};

/// A committee that goes by the settings of the program.
fn program(members: u32) -> Settings {
    Settings::new(0, members)
}

#[test]
fn certificates_certify_as_the_rows_say() {
    let (mut good, mut bad) = (0, 0);
    for row in rows("certificates") {
        let settings = program(word(&row, "members").parse().unwrap());
        let spelled = bytes(word(&row, "bytes"));
        let found = certifies(&settings, &spelled);
        if word(&row, "certifies") == "true" {
            assert!(found.is_ok(), "{row}: {found:?}");
            // One byte more, one less, and another base or epoch.
            let longer = [&spelled[..], &[0]].concat();
            let invalid = Uncertified::Unread(Refusal::Invalid);
            assert_eq!(certifies(&settings, &longer), Err(invalid));
            let end = Uncertified::Unread(Refusal::End);
            assert_eq!(
                certifies(&settings, &spelled[..spelled.len() - 1]),
                Err(end)
            );
            let other = settings.clone().base("another");
            assert_eq!(certifies(&other, &spelled), Err(Uncertified::NotCertifying));
            let other = settings.clone().epoch(u64::MAX);
            assert_eq!(certifies(&other, &spelled), Err(Uncertified::OtherEpoch));
            good += 1;
        } else {
            assert_eq!(found, Err(Uncertified::NotCertifying), "{row}");
            bad += 1;
        }
    }
    assert!(good > 3 && bad > 3, "{good}, {bad}");
}

#[test]
fn settings_of_no_committee_certify_nothing() {
    let fault = SettingsError::Fault(SettingsFault::NoParticipants);
    assert_eq!(
        certifies(&program(0), &[]),
        Err(Uncertified::Settings(fault))
    );
    let broken = Broken {
        place: 0,
        why: Some(Uncertified::Settings(fault)),
    };
    assert_eq!(finalized_in(&program(0), &[]), Err(broken));
}

/// What seven members have sent when they have come so far: a finalization of each view that has one, by ascending view.
fn chain(settings: &Settings) -> Vec<Vec<u8>> {
    let mut committee = Committee::open("chain", |member| member_of(settings, member));
    committee.run(|nodes| nodes.iter_mut().all(|node| node.views().finalized >= 200));
    let mut found: Vec<(u64, Vec<u8>)> = Vec::new();
    // A finalization begins with the tag 2.
    for (_, bytes) in committee.sent_as(Channel::Certificates, &[2]) {
        match certifies(settings, &bytes) {
            Ok(Certified::Finalization(proposal)) => {
                found.push((proposal.round.view, bytes));
            }
            other => panic!("{other:?}"),
        }
    }
    found.sort();
    found.dedup_by_key(|(view, _)| *view);
    found.into_iter().map(|(_, bytes)| bytes).collect()
}

fn member_of(settings: &Settings, member: u32) -> Settings {
    settings.clone().member(member)
}

#[test]
fn a_chain_of_finalizations_is_taken_as_far_as_it_goes() {
    let settings = Settings::new(0, 7).epoch(4).base("light").rotating();
    let chain = chain(&settings);
    assert!(chain.len() > 100, "{}", chain.len());
    let bytes = chain.concat();
    let proposals = finalized_in(&settings, &bytes).unwrap();
    assert_eq!(proposals.len(), chain.len());
    for pair in proposals.windows(2) {
        assert!(pair[0].round.view < pair[1].round.view);
    }
    assert_eq!(finalized_in(&settings, &[]), Ok(vec![]));
    let broken = |bytes: &[u8]| finalized_in(&settings, bytes).unwrap_err();
    let place = (chain[0].len() + chain[1].len()) as u64;
    // The second stands there once more, or the third is cut; one of its signatures is another; it is of another kind.
    let again = [&chain[0][..], &chain[1], &chain[1], &chain[2]].concat();
    assert_eq!(broken(&again), Broken { place, why: None });
    let front = &bytes[..place as usize + 50];
    let why = Some(Uncertified::Unread(Refusal::End));
    assert_eq!(broken(front), Broken { place, why });
    let mut changed = bytes.clone();
    changed[place as usize + chain[2].len() - 1] ^= 1;
    let why = Some(Uncertified::NotCertifying);
    assert_eq!(broken(&changed), Broken { place, why });
    let mut notarized = bytes.clone();
    notarized[place as usize] = 0;
    assert_eq!(broken(&notarized), Broken { place, why });
    let other = settings.clone().epoch(5);
    let why = Some(Uncertified::OtherEpoch);
    assert_eq!(finalized_in(&other, &bytes), Err(Broken { place: 0, why }));
    let Proposal {
        round: Round { epoch, .. },
        ..
    } = proposals[0];
    assert_eq!(epoch, 4);
}

/// Each attestation of the row's message, as the row writes it: signer and signature.
fn listed(row: &str) -> Vec<(u32, Vec<u8>)> {
    let (_, value) = row.split_once("\"value\":").unwrap();
    let parts = value.split("\"signer\":").skip(1);
    parts
        .map(|part| {
            let signer = part.split([',', '}']).next().unwrap().trim();
            let signature = word(part, "signature");
            (signer.parse().unwrap(), bytes(signature))
        })
        .collect()
}

#[test]
fn attestations_stand_where_they_are_told() {
    // Of each kind, and of those with two at least.
    let mut counts = [0; 5];
    for row in rows("read") {
        let kind = match word(&row, "type") {
            "vote" => Kind::Vote,
            "certificate" => Kind::Certificate,
            "artifact" => Kind::Artifact,
            "report" => Kind::Report,
            _ => continue,
        };
        if word(&row, "scheme") != "plain" {
            continue;
        }
        let members = word(&row, "members").parse().unwrap();
        let spelled = bytes(word(&row, "bytes"));
        let found = attestations(kind, members, &spelled).unwrap();
        let told: Vec<_> = found
            .iter()
            .map(|it| (it.signer, it.hash.to_vec()))
            .collect();
        assert_eq!(told, listed(&row), "{row}");
        let mut behind = 0;
        for it in &found {
            let place = it.place as usize;
            assert!(behind < place);
            assert_eq!(spelled[place..place + 32], it.hash, "{row}");
            behind = place + 32;
        }
        // The last signature ends the message, where it has one.
        assert!(found.is_empty() || behind == spelled.len(), "{row}");
        for size in 0..spelled.len() {
            let cut = attestations(kind, members, &spelled[..size]);
            assert_eq!(cut, Err(Refusal::End), "{row}");
        }
        counts[kind as usize] += 1;
        counts[4] += usize::from(found.len() > 1);
    }
    assert!(counts.iter().all(|count| *count > 2), "{counts:?}");
}
