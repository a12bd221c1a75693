//! A committee of four in one process, of which one member is killed and opened again: `committee FOLDER VIEWS`.

use std::collections::VecDeque;
use std::path::{Path, PathBuf};
use std::{env, fs, io, time::Instant};
use voumlis::Node;
use voumlis::wire::{Action, Channel, Event};

const MEMBERS: u16 = 4;

/// An event on its way.
enum Letter {
    /// A packet of this member.
    Packet(u16, Channel, Vec<u8>),
    /// What the application answers, or the time.
    Own(Event<'static>),
}

/// What is on its way, the oldest first, each with the member that it comes to.
type Mail = VecDeque<(u16, Letter)>;

/// One member: a node, its clock's zero and next ring, and what it was told is final.
struct Member {
    index: u16,
    node: Option<Node>,
    zero: u64,
    wake: Option<u64>,
    finalized: u64,
}

impl Member {
    fn open(&mut self, folder: &Path, now: u64, mail: &mut Mail) -> io::Result<()> {
        let record = folder.join(format!("record{}", self.index));
        let (node, reply) = Node::open(&record, self.index, MEMBERS)?;
        self.node = Some(node);
        self.zero = now;
        for action in reply.actions {
            self.act(action, mail);
        }
        Ok(())
    }

    fn take(&mut self, letter: &Letter, mail: &mut Mail) -> io::Result<()> {
        let Some(mut node) = self.node.take() else {
            return Ok(());
        };
        let event = match letter {
            Letter::Packet(sender, channel, bytes) => Event::Packet {
                sender: u32::from(*sender),
                channel: *channel,
                bytes,
            },
            Letter::Own(event) => *event,
        };
        let reply = node.step_lent(&event)?;
        if reply.refused.is_none() {
            self.wake = None;
        }
        for action in reply {
            self.act(action.ok_or(io::ErrorKind::InvalidData)?, mail);
        }
        self.node = Some(node);
        Ok(())
    }

    fn act<B: AsRef<[u8]>>(&mut self, action: Action<B>, mail: &mut Mail) {
        let me = self.index;
        match action {
            Action::Send { to, channel, bytes } => (0..MEMBERS)
                .filter(|other| *other != me && to.is_none_or(|one| one == u32::from(*other)))
                .for_each(|other| {
                    let packet = Letter::Packet(me, channel, bytes.as_ref().to_vec());
                    mail.push_back((other, packet));
                }),
            Action::Build {
                request, context, ..
            } => {
                let mut payload = [0; 32];
                payload[..8].copy_from_slice(&context.round.view.to_be_bytes());
                let payload = Some(payload);
                mail.push_back((me, Letter::Own(Event::Built { request, payload })));
            }
            Action::Verify { request, .. } => {
                let answer = Some(true);
                mail.push_back((me, Letter::Own(Event::Checked { request, answer })));
            }
            Action::Certify(proposal) => {
                let (view, good) = (proposal.round.view, true);
                mail.push_back((me, Letter::Own(Event::Verdict { view, good })));
            }
            Action::Finalized(proposal) => self.finalized = self.finalized.max(proposal.round.view),
            Action::Wake(moment) => self.wake = Some(self.zero + moment),
            Action::Block(_) | Action::Forward { .. } | Action::Report(_) => {}
        }
    }
}

fn main() -> io::Result<()> {
    let words: Vec<String> = env::args().collect();
    let [_, folder, views] = &words[..] else {
        return Err(io::Error::other("committee FOLDER VIEWS"));
    };
    let folder = PathBuf::from(folder);
    let views: u64 = views.parse().map_err(io::Error::other)?;
    fs::create_dir(&folder)?;
    let (mut mail, mut now, mut killed) = (Mail::new(), 0, false);
    let mut members: Vec<Member> = (0..MEMBERS)
        .map(|index| Member {
            index,
            node: None,
            zero: 0,
            wake: None,
            finalized: 0,
        })
        .collect();
    for member in &mut members {
        member.open(&folder, now, &mut mail)?;
    }
    let start = Instant::now();
    while members.iter().any(|member| member.finalized < views) {
        if let Some((to, letter)) = mail.pop_front() {
            members[usize::from(to)].take(&letter, &mut mail)?;
        } else {
            // Nothing is on its way: the time passes until the first clock rings.
            let Some(next) = members
                .iter()
                .filter(|m| m.node.is_some())
                .filter_map(|m| m.wake)
                .min()
            else {
                return Err(io::Error::other("nobody waits for anything"));
            };
            now = now.max(next);
            for member in members
                .iter_mut()
                .filter(|m| m.wake.is_some_and(|at| at <= now))
            {
                let moment = Event::Moment(now - member.zero);
                member.take(&Letter::Own(moment), &mut mail)?;
            }
        }
        let best = members
            .iter()
            .map(|member| member.finalized)
            .max()
            .unwrap_or(0);
        if !killed && best >= views / 4 {
            // Let go in the midst of its work: what is on its way to it is lost.
            members[3].node = None;
            members[3].wake = None;
            killed = true;
        }
        if killed && members[3].node.is_none() && best >= views / 2 {
            members[3].open(&folder, now, &mut mail)?;
        }
    }
    let taken = start.elapsed().as_secs_f64();
    println!(
        "{views} views are final at all {MEMBERS} members, one of which was killed and opened again: {:.0} a second",
        views as f64 / taken
    );
    for member in members {
        if let Some(node) = member.node {
            println!("{:?}", node.close());
        }
    }
    Ok(())
}
