//! A member that hears only the time: `member RECORD INDEX COUNT MILLISECONDS`. It says what it would have the host do.

use std::path::Path;
use std::time::{Duration, Instant};
use std::{env, io, thread};
use voumlis::Node;
use voumlis::wire::{Action, Event, Reply};

/// Says what there is to do, and answers when the clock is to ring next.
fn carry_out(reply: &Reply) -> Option<u64> {
    let mut wake = None;
    for action in &reply.actions {
        match action {
            Action::Wake(moment) => wake = Some(*moment),
            Action::Send { to, bytes, .. } => println!("to {to:?}: {} bytes", bytes.len()),
            other => println!("{other:?}"),
        }
    }
    wake
}

fn main() -> io::Result<()> {
    let words: Vec<String> = env::args().collect();
    let [_, record, index, count, end] = &words[..] else {
        return Err(io::Error::other("member RECORD INDEX COUNT MILLISECONDS"));
    };
    let number = |word: &str| word.parse().map_err(io::Error::other);
    let (index, count, end) = (number(index)?, number(count)?, number(end)?);
    let start = Instant::now();
    let (mut node, first) = Node::open(Path::new(record), index, count)?;
    let mut wake = carry_out(&first);
    while let Some(moment) = wake.filter(|moment| *moment <= u64::from(end)) {
        thread::sleep(Duration::from_millis(moment).saturating_sub(start.elapsed()));
        wake = carry_out(&node.step(&Event::Moment(moment))?);
    }
    println!("{:?}", node.close());
    Ok(())
}
