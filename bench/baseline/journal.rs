//! Appends verdicts to a record in a new file, in plain Rust: what the journal is measured against.
//!
//! Takes the words `file PATH COUNT` of `../journal/main.rt.txt`, and leaves the same bytes.

use std::fs::{File, OpenOptions};
use std::io;
use std::os::unix::fs::FileExt;
use std::process::ExitCode;

const CERTIFICATION: u8 = 2;
const CLOSED: u8 = 0;
const OPEN: u8 = 1;

fn main() -> ExitCode {
    match run() {
        Ok(()) => ExitCode::SUCCESS,
        Err(error) => {
            eprintln!("journal: {error}");
            ExitCode::FAILURE
        }
    }
}

fn run() -> io::Result<()> {
    let words: Vec<String> = std::env::args().skip(1).collect();
    let ["file", path, count] = words.iter().map(String::as_str).collect::<Vec<_>>()[..] else {
        return Err(io::Error::other("usage: journal file PATH COUNT"));
    };
    let count: u64 = count.parse().map_err(io::Error::other)?;
    let file = OpenOptions::new()
        .read(true)
        .write(true)
        .create_new(true)
        .open(path)?;
    file.write_all_at(&[CLOSED], 0)?;
    file.sync_all()?;
    append_all(&file, count)
}

/// Appends the verdicts that the first views of epoch 0 are certified.
fn append_all(file: &File, count: u64) -> io::Result<()> {
    let mut gate = 0;
    let mut entry = Vec::new();
    for view in 1..=count {
        spell(&mut entry, view);
        file.write_all_at(&entry, gate + 1)?;
        file.sync_all()?;
        file.write_all_at(&[OPEN], gate)?;
        file.sync_all()?;
        gate += entry.len() as u64;
    }
    Ok(())
}

/// The length of the body, the body, and a closed gate.
fn spell(entry: &mut Vec<u8>, view: u64) {
    entry.clear();
    entry.extend_from_slice(&[0; 4]);
    entry.extend_from_slice(&[CERTIFICATION, 0]);
    let mut rest = view;
    while rest >= 0x80 {
        entry.push(rest as u8 | 0x80);
        rest >>= 7;
    }
    entry.push(rest as u8);
    entry.push(1);
    let size = entry.len() as u32 - 4;
    entry[..4].copy_from_slice(&size.to_be_bytes());
    entry.push(CLOSED);
}
