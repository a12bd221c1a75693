//! A committee in one process, whose packets come in the order in which they were sent, and whose time passes when nothing is on its way.

use std::collections::VecDeque;
use std::path::PathBuf;
use std::{env, fs, process};
use voumlis::wire::{Action, Channel, Event, Payload, Plan, Refusal, Reply};
use voumlis::{Node, Settings, Views};

/// A path at which there is no file yet: in memory, where the system has such a folder, since a sync takes its time.
pub fn place(name: &str) -> PathBuf {
    let shared = PathBuf::from("/dev/shm");
    let folder = if shared.is_dir() {
        shared
    } else {
        env::temp_dir()
    };
    let folder = folder.join(format!("voumlis-{}", process::id()));
    fs::create_dir_all(&folder).unwrap();
    let place = folder.join(name);
    let _ = fs::remove_file(&place);
    place
}

/// One member: a node, its record, and when its clock rings.
struct Member {
    node: Node,
    record: PathBuf,
    wake: Option<u64>,
}

pub struct Committee {
    members: Vec<Member>,
    mail: VecDeque<(usize, Vec<u8>)>,
    fill: u8,
    /// In milliseconds.
    pub now: u64,
    /// To whom nothing comes, and from whom.
    pub silent: Option<usize>,
    /// Who blocked whom.
    pub blocked: Vec<(usize, u32)>,
    /// The reports of all, each as bytes.
    pub reports: Vec<Vec<u8>>,
    /// What was sent to all, by whom, on what.
    pub sent: Vec<(usize, Channel, Vec<u8>)>,
    /// What was to be forwarded.
    pub plans: Vec<Plan>,
    /// Why events were refused.
    pub refused: Vec<Refusal>,
}

/// What is proposed in a view, by whoever leads it: the view, and behind it this byte.
fn payload(view: u64, fill: u8) -> Payload {
    let mut payload = [fill; 32];
    payload[..8].copy_from_slice(&view.to_be_bytes());
    payload
}

impl Committee {
    /// Opens seven members by their settings.
    pub fn open(name: &str, settings: impl Fn(u32) -> Settings) -> Committee {
        Committee::open_over(name, 7, settings)
    }

    /// The same, whose payloads end in this byte.
    pub fn open_over(name: &str, fill: u8, settings: impl Fn(u32) -> Settings) -> Committee {
        let mut committee = Committee {
            fill,
            members: Vec::new(),
            mail: VecDeque::new(),
            now: 0,
            silent: None,
            blocked: Vec::new(),
            reports: Vec::new(),
            sent: Vec::new(),
            plans: Vec::new(),
            refused: Vec::new(),
        };
        let mut first = Vec::new();
        for member in 0..7 {
            let record = place(&format!("{name}-{member}"));
            let (node, reply) = Node::open_with(&record, &settings(member)).unwrap();
            committee.members.push(Member {
                node,
                record,
                wake: None,
            });
            first.push(reply);
        }
        for (member, reply) in first.into_iter().enumerate() {
            committee.carry_out(member, reply);
        }
        committee
    }

    /// Goes on until that holds of the nodes.
    pub fn run(&mut self, mut is_enough: impl FnMut(&mut [&mut Node]) -> bool) {
        for step in 0_u64.. {
            if let Some((member, event)) = self.mail.pop_front() {
                self.take(member, &event);
            } else {
                self.ring();
            }
            if step % 64 == 0 {
                let mut nodes: Vec<&mut Node> = self
                    .members
                    .iter_mut()
                    .map(|member| &mut member.node)
                    .collect();
                if is_enough(&mut nodes) {
                    return;
                }
            }
        }
    }

    /// What was sent on a channel that begins so, with whose it is.
    pub fn sent_as(&self, on: Channel, front: &[u8]) -> Vec<(usize, Vec<u8>)> {
        let is_such = |it: &&(usize, Channel, Vec<u8>)| it.1 == on && it.2.starts_with(front);
        let sent = self.sent.iter().filter(is_such);
        sent.map(|(member, _, bytes)| (*member, bytes.clone()))
            .collect()
    }

    /// The views of each node.
    pub fn views(&mut self) -> Vec<Views> {
        let members = self.members.iter_mut();
        members.map(|member| member.node.views()).collect()
    }

    fn take(&mut self, member: usize, event: &[u8]) {
        let replies = self.members[member].node.step_bytes(event).unwrap();
        let (reply, rest) = Reply::read(&replies).unwrap();
        assert!(rest.is_empty());
        self.carry_out(member, reply);
    }

    /// Nothing is on its way: the time passes until the first clock rings.
    fn ring(&mut self) {
        let wakes = self.members.iter().filter_map(|member| member.wake);
        self.now = self.now.max(wakes.min().expect("somebody waits"));
        for member in 0..self.members.len() {
            if self.members[member].wake.is_some_and(|at| at <= self.now) {
                self.post(member, &Event::Moment(self.now));
                self.members[member].wake = None;
            }
        }
    }

    fn post(&mut self, to: usize, event: &Event) {
        let mut bytes = Vec::new();
        event.append(&mut bytes);
        self.mail.push_back((to, bytes));
    }

    fn carry_out(&mut self, member: usize, reply: Reply) {
        self.refused.extend(reply.refused);
        for action in reply.actions {
            match action {
                Action::Send { to, channel, bytes } => {
                    let packet = Event::Packet {
                        sender: member as u32,
                        channel,
                        bytes: &bytes,
                    };
                    for other in 0..self.members.len() {
                        let is_silent = [Some(member), Some(other)].contains(&self.silent);
                        let is_meant = to.is_none_or(|to| to as usize == other);
                        if other != member && is_meant && !is_silent {
                            self.post(other, &packet);
                        }
                    }
                    if to.is_none() {
                        self.sent.push((member, channel, bytes));
                    }
                }
                Action::Build {
                    request, context, ..
                } => {
                    let payload = Some(payload(context.round.view, self.fill));
                    self.post(member, &Event::Built { request, payload });
                }
                Action::Verify {
                    request, proposal, ..
                } => {
                    let answer = Some(proposal.payload == payload(proposal.round.view, self.fill));
                    self.post(member, &Event::Checked { request, answer });
                }
                Action::Certify(proposal) => {
                    let view = proposal.round.view;
                    self.post(member, &Event::Verdict { view, good: true });
                }
                Action::Block(other) => self.blocked.push((member, other)),
                Action::Report(report) => self.reports.push(report),
                Action::Wake(moment) => self.members[member].wake = Some(moment),
                Action::Forward { plan, .. } => self.plans.push(plan),
                Action::Finalized(_) => {}
            }
        }
    }
}

impl Drop for Committee {
    fn drop(&mut self) {
        for member in &self.members {
            let _ = fs::remove_file(&member.record);
        }
    }
}
