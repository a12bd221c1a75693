//! Who lied, by reports and public keys alone.
//!
//! A report counts if the signatures of all its attestations verify. What is left is given to the program `simplex audit`, which tests
//! that each attestation is its signer's over its subject, and names those whose votes contradict each other. So whoever is named
//! signed, with the member's key, two votes that no correct member signs both.

use crate::committee::Committee;
use crate::reports::SignedReport;
use anyhow::{Context, Result, bail};
use std::collections::{BTreeSet, HashSet};
use std::io::Write;
use std::path::Path;
use std::process::{Command, Stdio};
use std::thread;

/// What a judge says.
#[derive(Clone, Debug, PartialEq, Eq)]
pub struct Judgement {
    /// How many reports counted, each once.
    pub counted: usize,
    /// How many had a signature that doesn't verify, and so count for nothing.
    pub forged: usize,
    /// A line for each contradiction, as `simplex audit` prints it.
    pub lines: Vec<String>,
    /// Who lied.
    pub convicted: BTreeSet<u32>,
}

/// Judges by these reports.
///
/// # Errors
///
/// Where the program can't be run, or doesn't take the reports.
pub fn judge(committee: &Committee, reports: &[SignedReport], program: &Path) -> Result<Judgement> {
    let (counted, forged): (Vec<&SignedReport>, Vec<&SignedReport>) = reports
        .iter()
        .partition(|signed| is_signed(committee, signed));
    let mut told = HashSet::new();
    let once = counted.iter().filter(|signed| told.insert(&signed.plain));
    let input: Vec<u8> = once.flat_map(|signed| signed.plain.clone()).collect();
    let lines = audited(committee.size(), input, program)?;
    let convicted = lines.iter().filter_map(|line| signer(line)).collect();
    Ok(Judgement {
        counted: told.len(),
        forged: forged.len(),
        lines,
        convicted,
    })
}

/// Whether all signatures of a report verify. One in which nobody attests says nothing of anybody.
pub fn is_signed(committee: &Committee, signed: &SignedReport) -> bool {
    let attestations = signed.report.attestations();
    attestations.len() == signed.signatures.len()
        && attestations
            .iter()
            .zip(&signed.signatures)
            .all(|(attestation, signature)| committee.verifies(attestation, signature))
}

fn audited(members: u32, input: Vec<u8>, program: &Path) -> Result<Vec<String>> {
    let mut child = Command::new(program)
        .args(["audit", &members.to_string()])
        .stdin(Stdio::piped())
        .stdout(Stdio::piped())
        .stderr(Stdio::piped())
        .spawn()
        .with_context(|| format!("the program {}", program.display()))?;
    let mut pipe = child.stdin.take().context("a pipe was asked for")?;
    let writer = thread::spawn(move || pipe.write_all(&input));
    let output = child.wait_with_output()?;
    writer.join().expect("writing doesn't panic")?;
    let said = String::from_utf8(output.stdout)?;
    // 3 says that a place was named: a contradiction, or a fault, which whole reports don't have.
    match output.status.code() {
        Some(0 | 3) if !said.contains("fault at byte") => {
            Ok(said.lines().map(str::to_owned).collect())
        }
        _ => bail!(
            "the audit failed: {} {}",
            output.status,
            String::from_utf8_lossy(&output.stderr).trim()
        ),
    }
}

/// Whom a line of the audit names.
fn signer(line: &str) -> Option<u32> {
    let mut words = line.split(' ');
    words.find(|word| *word == "signer")?;
    words.next()?.parse().ok()
}

#[cfg(test)]
mod tests {
    use super::*;

    #[test]
    fn a_line_names_its_signer() {
        let line = "nullify-finalize epoch 0 view 2 signer 3 parent 1 payload aa";
        assert_eq!(signer(line), Some(3));
        assert_eq!(signer("fault at byte 3"), None);
    }
}
