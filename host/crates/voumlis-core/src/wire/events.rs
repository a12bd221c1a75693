use super::{LARGEST, LONGEST_PACKET, Payload, Proposal, Reader, Round, Trouble, put_number};

/// What a packet is sent on.
#[derive(Clone, Copy, Debug, PartialEq, Eq, Hash)]
pub enum Channel {
    /// Votes.
    Votes,
    /// Certificates.
    Certificates,
    /// Fetches of certificates.
    Fetches,
}

impl Channel {
    /// The channel of this byte.
    pub fn of(byte: u8) -> Option<Channel> {
        [Channel::Votes, Channel::Certificates, Channel::Fetches]
            .get(usize::from(byte))
            .copied()
    }
}

/// What comes to a node.
#[derive(Clone, Debug, PartialEq, Eq)]
pub enum Event {
    /// A packet, and the member that sent it, of whom the host has made sure.
    Packet {
        /// The index of that member.
        sender: u32,
        /// What it was sent on.
        channel: Channel,
        /// The bytes as they came, at most 16,777,216.
        bytes: Vec<u8>,
    },
    /// What the application built, if it did.
    Built {
        /// The number of the request.
        request: u64,
        /// The payload, if there is one.
        payload: Option<Payload>,
    },
    /// What the application says of a proposal, if it does.
    Checked {
        /// The number of the request.
        request: u64,
        /// Whether the proposal is good.
        answer: Option<bool>,
    },
    /// Whether the notarized proposal of a view may stand.
    Verdict {
        /// The view.
        view: u64,
        /// Whether it may.
        good: bool,
    },
    /// The time, in milliseconds since the opening.
    Moment(u64),
}

/// What a proposal is built on.
#[derive(Clone, Copy, Debug, PartialEq, Eq)]
pub struct Context {
    /// The round.
    pub round: Round,
    /// The leader's index.
    pub leader: u32,
    /// The parent's view.
    pub parent: u64,
    /// The parent's payload.
    pub parent_payload: Payload,
}

/// To whom the application is to give a payload.
#[derive(Clone, Debug, PartialEq, Eq)]
pub enum Plan {
    /// To nobody yet: it prepares for this round.
    Prepare(Round),
    /// To all, in this round.
    Propose(Round),
    /// To these members, in this round.
    Forward(Round, Vec<u32>),
}

/// What a host is to do.
#[derive(Clone, Debug, PartialEq, Eq)]
pub enum Action {
    /// Send these bytes, to all others or to one member.
    Send {
        /// The member, or all others.
        to: Option<u32>,
        /// What to send them on.
        channel: Channel,
        /// The bytes.
        bytes: Vec<u8>,
    },
    /// Take nothing more of this member.
    Block(u32),
    /// Have the application build.
    Build {
        /// The number to answer with.
        request: u64,
        /// Whether it is for a handoff.
        handoff: bool,
        /// What to build on.
        context: Context,
    },
    /// Have the application check a proposal.
    Verify {
        /// The number to answer with.
        request: u64,
        /// What it was built on.
        context: Context,
        /// The proposal.
        proposal: Proposal,
    },
    /// Have the application say whether this notarized proposal may stand.
    Certify(Proposal),
    /// Have the application give a payload on.
    Forward {
        /// The payload.
        payload: Payload,
        /// To whom.
        plan: Plan,
    },
    /// This proposal is final, and all its ancestors.
    Finalized(Proposal),
    /// A report, as bytes.
    Report(Vec<u8>),
    /// Tell the time at this moment, in milliseconds, at the latest.
    Wake(u64),
}

/// What a node answers to an event.
#[derive(Clone, Debug, PartialEq, Eq)]
pub struct Reply {
    /// Why the event was refused, as docs/FORMATS.md numbers it, or 0.
    pub refused: u8,
    /// What to do, in this order.
    pub actions: Vec<Action>,
}

/// What each number of a refusal says, from 1 on.
const REFUSALS: [&str; 16] = [
    "no member",
    "own name",
    "not one message",
    "another epoch",
    "view 0",
    "a view not listened to",
    "no room",
    "a parent not below",
    "another's vote",
    "contradiction",
    "repetition",
    "doesn't certify",
    "an answer to nothing",
    "a second verdict",
    "a moment behind",
    "a moment too far ahead",
];

/// The number of: a view that isn't kept, or not listened to.
const VIEWS_APART: u8 = 6;

/// The number of: what came before.
const REPETITION: u8 = 11;

impl Reply {
    /// Whether a packet was refused since its view lies too far from the node's.
    pub fn is_of_views_apart(&self) -> bool {
        self.refused == VIEWS_APART
    }

    /// Whether something may rest on the packet that was handed in: it was taken, is known, or is told of, as evidence is.
    pub fn is_about_it(&self) -> bool {
        matches!(self.refused, 0 | REPETITION) || !self.actions.is_empty()
    }

    /// Why the event was refused, in words, if it was.
    pub fn refusal(&self) -> Option<&'static str> {
        let number = usize::from(self.refused).checked_sub(1)?;
        REFUSALS.get(number).copied()
    }

    /// The reply at the front of these bytes, and how many it takes.
    ///
    /// # Errors
    ///
    /// The first trouble from the left.
    pub fn read(bytes: &[u8]) -> Result<(Reply, usize), Trouble> {
        let mut reader = Reader::new(bytes);
        let refused = reader.one_of(REFUSALS.len() as u8 + 1)?;
        let count = reader.number()?;
        let actions = (0..count)
            .map(|_| reader.action())
            .collect::<Result<_, _>>()?;
        Ok((Reply { refused, actions }, reader.place()))
    }
}

impl Event {
    /// Appends the event's bytes.
    pub fn append(&self, bytes: &mut Vec<u8>) {
        match self {
            Event::Packet {
                sender,
                channel,
                bytes: packet,
            } => {
                bytes.push(0);
                put_number(bytes, u64::from(*sender));
                bytes.push(*channel as u8);
                put_number(bytes, packet.len() as u64);
                bytes.extend_from_slice(packet);
            }
            Event::Built { request, payload } => {
                bytes.push(1);
                put_number(bytes, *request);
                bytes.push(u8::from(payload.is_some()));
                bytes.extend(payload.iter().flatten());
            }
            Event::Checked { request, answer } => {
                bytes.push(2);
                put_number(bytes, *request);
                bytes.push(answer.map_or(2, u8::from));
            }
            Event::Verdict { view, good } => {
                bytes.push(3);
                put_number(bytes, *view);
                bytes.push(u8::from(*good));
            }
            Event::Moment(moment) => {
                bytes.push(4);
                put_number(bytes, *moment);
            }
        }
    }
}

impl Reader<'_> {
    fn channel(&mut self) -> Result<Channel, Trouble> {
        Channel::of(self.byte()?).ok_or(Trouble::Invalid)
    }

    fn counted(&mut self) -> Result<Vec<u8>, Trouble> {
        let size = self.number()?;
        if size > LONGEST_PACKET {
            return Err(Trouble::TooLong);
        }
        Ok(self.take(size as usize)?.to_vec())
    }

    fn context(&mut self) -> Result<Context, Trouble> {
        Ok(Context {
            round: self.round()?,
            leader: u32::from_be_bytes(self.array()?),
            parent: self.number()?,
            parent_payload: self.payload()?,
        })
    }

    fn plan(&mut self) -> Result<Plan, Trouble> {
        Ok(match self.one_of(3)? {
            0 => Plan::Prepare(self.round()?),
            1 => Plan::Propose(self.round()?),
            _ => {
                let round = self.round()?;
                let count = self.number()?;
                let members = (0..count).map(|_| self.index()).collect::<Result<_, _>>()?;
                Plan::Forward(round, members)
            }
        })
    }

    fn report_bytes(&mut self) -> Result<Vec<u8>, Trouble> {
        let mut ahead = self.clone();
        ahead.report(LARGEST)?;
        Ok(self.take(ahead.place() - self.place())?.to_vec())
    }

    fn action(&mut self) -> Result<Action, Trouble> {
        Ok(match self.one_of(9)? {
            0 => Action::Send {
                to: if self.truth()? {
                    Some(self.index()?)
                } else {
                    None
                },
                channel: self.channel()?,
                bytes: self.counted()?,
            },
            1 => Action::Block(self.index()?),
            2 => Action::Build {
                request: self.number()?,
                handoff: self.truth()?,
                context: self.context()?,
            },
            3 => Action::Verify {
                request: self.number()?,
                context: self.context()?,
                proposal: self.proposal()?,
            },
            4 => Action::Certify(self.proposal()?),
            5 => Action::Forward {
                payload: self.payload()?,
                plan: self.plan()?,
            },
            6 => Action::Finalized(self.proposal()?),
            7 => Action::Report(self.report_bytes()?),
            _ => Action::Wake(self.number()?),
        })
    }
}
