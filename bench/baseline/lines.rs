//! What an audit prints, and the program around it: COUNT on the command line, messages on standard input.

use std::io::{self, BufWriter, Read, Write};
use std::process::ExitCode;

use crate::messages::{Choice, Round, PAYLOAD_BYTES};

/// The status of an audit that met a place without a whole message.
const FAULT: u8 = 3;

/// A signer in a round.
pub type Suspect = (Round, u32);

/// The order is the order of lines for one suspect.
#[derive(Clone, Copy, PartialEq, Eq, PartialOrd, Ord)]
pub enum Kind {
    ConflictingNotarize,
    ConflictingFinalize,
    NullifyFinalize,
}

pub type Line<'a> = (Suspect, Kind, Choice<'a>, Option<Choice<'a>>);

/// What an audit gives: its lines in any order, and the first place without a whole message.
pub type Verdict<'a> = (Vec<Line<'a>>, Option<usize>);

/// The program over an audit of bytes for so many participants.
pub fn run(audit: for<'a> fn(&'a [u8], u64) -> Verdict<'a>) -> ExitCode {
    let Some(count) = count_argument() else {
        eprintln!("usage: audit COUNT < MESSAGES");
        return ExitCode::from(2);
    };
    match run_for(audit, count) {
        Ok(status) => status,
        Err(error) => {
            eprintln!("audit: {error}");
            ExitCode::FAILURE
        }
    }
}

fn count_argument() -> Option<u64> {
    let mut arguments = std::env::args().skip(1);
    let (command, count) = (arguments.next()?, arguments.next()?);
    if command != "audit" || arguments.next().is_some() {
        return None;
    }
    count.parse().ok()
}

fn run_for(audit: for<'a> fn(&'a [u8], u64) -> Verdict<'a>, count: u64) -> io::Result<ExitCode> {
    let mut input = Vec::new();
    io::stdin().lock().read_to_end(&mut input)?;
    let (mut lines, fault) = audit(&input, count);
    lines.sort_unstable();

    let mut output = BufWriter::new(io::stdout().lock());
    for line in lines {
        print_line(&mut output, line)?;
    }
    if let Some(place) = fault {
        writeln!(output, "fault at byte {place}")?;
    }
    output.flush()?;
    Ok(ExitCode::from(if fault.is_some() { FAULT } else { 0 }))
}

fn print_line(output: &mut impl Write, line: Line) -> io::Result<()> {
    let ((round, signer), kind, first, second) = line;
    let word = match kind {
        Kind::ConflictingNotarize => "conflicting-notarize",
        Kind::ConflictingFinalize => "conflicting-finalize",
        Kind::NullifyFinalize => "nullify-finalize",
    };
    write!(output, "{word} epoch {} view {}", round.epoch, round.view)?;
    write!(output, " signer {signer}")?;
    print_choice(output, first)?;
    if let Some(second) = second {
        print_choice(output, second)?;
    }
    writeln!(output)
}

fn print_choice(output: &mut impl Write, choice: Choice) -> io::Result<()> {
    const DIGITS: &[u8; 16] = b"0123456789abcdef";
    let mut digits = [0; 2 * PAYLOAD_BYTES];
    for (pair, byte) in digits.chunks_exact_mut(2).zip(choice.payload) {
        pair[0] = DIGITS[usize::from(byte >> 4)];
        pair[1] = DIGITS[usize::from(byte & 15)];
    }
    write!(output, " parent {} payload ", choice.parent)?;
    output.write_all(&digits)
}
