//! What goes wrong, by seed: processes are killed and stopped, links cut and slowed.

use crate::committee::Committee;
use crate::proxy::{Condition, Flow};
use crate::random::Random;
use anyhow::Result;
use nix::sys::signal::Signal;
use std::collections::BTreeMap;
use std::sync::Arc;
use tokio::sync::Mutex;
use tokio::time::{Instant, sleep};

/// What was done, and how often.
pub type Done = BTreeMap<&'static str, u32>;

/// The committee, for all who do something to it.
pub type Shared = Arc<Mutex<Committee>>;

/// What is done to processes.
#[derive(Clone, Copy)]
enum ToProcesses {
    Kill,
    KillHostAlone,
    KillTwo,
    KillAll,
    Stop,
}

/// What is done to links.
#[derive(Clone, Copy)]
enum ToLinks {
    Halve,
    CutOff,
    OneWay,
    Slow,
    Flap,
}

/// Does things to processes until the end. All run when it ends.
///
/// # Errors
///
/// Where a process can't be started, or a signal not be sent.
pub async fn of_processes(committee: Shared, mut random: Random, until: Instant) -> Result<Done> {
    use ToProcesses::{Kill, KillAll, KillHostAlone, KillTwo, Stop};
    let mut done = Done::new();
    while Instant::now() < until {
        sleep(random.millis(1_000, 4_000)).await;
        let what = *random.of(&[
            Kill,
            Kill,
            Kill,
            KillHostAlone,
            KillTwo,
            KillAll,
            Stop,
            Stop,
            Stop,
        ]);
        let name = match what {
            Kill => "kill -9",
            KillHostAlone => "kill -9 of the host alone",
            KillTwo => "kill -9 of two",
            KillAll => "kill -9 of all",
            Stop => "stop and continue",
        };
        *done.entry(name).or_default() += 1;
        let victims = victims(&mut random, committee.lock().await.size(), what);
        if matches!(what, Stop) {
            stop(&committee, &mut random, &victims).await?;
        } else {
            kill(
                &committee,
                &mut random,
                &victims,
                matches!(what, KillHostAlone),
            )
            .await?;
        }
    }
    Ok(done)
}

fn victims(random: &mut Random, size: usize, what: ToProcesses) -> Vec<usize> {
    let first = random.below(size as u64) as usize;
    let second = (first + 1 + random.below(size as u64 - 1) as usize) % size;
    match what {
        ToProcesses::KillTwo => vec![first, second],
        ToProcesses::KillAll => (0..size).collect(),
        _ => vec![first],
    }
}

async fn kill(
    committee: &Shared,
    random: &mut Random,
    victims: &[usize],
    alone: bool,
) -> Result<()> {
    {
        let mut committee = committee.lock().await;
        victims
            .iter()
            .try_for_each(|victim| committee.kill(*victim, alone))?;
    }
    sleep(random.millis(100, 3_000)).await;
    let mut committee = committee.lock().await;
    victims
        .iter()
        .try_for_each(|victim| committee.start(*victim))
}

async fn stop(committee: &Shared, random: &mut Random, victims: &[usize]) -> Result<()> {
    for (signal, pause) in [
        (Signal::SIGSTOP, random.millis(200, 5_000)),
        (Signal::SIGCONT, random.millis(1, 100)),
    ] {
        for victim in victims {
            committee.lock().await.signal(*victim, signal)?;
        }
        sleep(pause).await;
    }
    Ok(())
}

/// Does things to links until the end. They are whole when it ends.
pub async fn of_links(committee: Shared, mut random: Random, until: Instant) -> Done {
    use ToLinks::{CutOff, Flap, Halve, OneWay, Slow};
    let mut done = Done::new();
    while Instant::now() < until {
        sleep(random.millis(500, 3_000)).await;
        let what = *random.of(&[Halve, CutOff, OneWay, Slow, Flap]);
        let name = match what {
            Halve => "halves cut",
            CutOff => "one cut off",
            OneWay => "one heard by nobody",
            Slow => "all slowed",
            Flap => "connections ended",
        };
        *done.entry(name).or_default() += 1;
        let cut = if random.percent(50) {
            Condition::both(Flow::Stalled)
        } else {
            Condition::closed()
        };
        set_links(&committee, &mut random, what, cut).await;
        sleep(random.millis(500, 6_000)).await;
        committee.lock().await.mend_links();
    }
    done
}

async fn set_links(committee: &Shared, random: &mut Random, what: ToLinks, cut: Condition) {
    let committee = committee.lock().await;
    let size = committee.size();
    let one = random.below(size as u64) as usize;
    let other = (one + 1 + random.below(size as u64 - 1) as usize) % size;
    let slow = random.millis(20, 200);
    for first in 0..size {
        for second in first + 1..size {
            let is_of = |member: usize| first == member || second == member;
            let condition = match what {
                ToLinks::Halve => {
                    let is_half = |member: usize| member == one || member == other;
                    if is_half(first) == is_half(second) {
                        continue;
                    }
                    cut
                }
                ToLinks::CutOff => {
                    if !is_of(one) {
                        continue;
                    }
                    cut
                }
                ToLinks::OneWay => match (first == one, second == one) {
                    (true, _) => Condition {
                        forth: Flow::Stalled,
                        ..Condition::default()
                    },
                    (_, true) => Condition {
                        back: Flow::Stalled,
                        ..Condition::default()
                    },
                    _ => continue,
                },
                ToLinks::Slow => Condition::both(Flow::Slow(slow)),
                ToLinks::Flap => Condition::closed(),
            };
            committee.set_link(first, second, condition);
        }
    }
}
