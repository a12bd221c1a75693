use super::{Forwarding, Member, NodeSettings, NotYet, Repair, Rewriting, record_bytes};
use crate::wire::{Action, Channel, Context, Event, Plan, Proposal, Reply, Round};
use anyhow::{Result, bail};
use std::io::ErrorKind;
use std::path::{Path, PathBuf};
use voumlis::{Ending, Node, Settings, Skips, wire};

/// The node in this process, by the proved static library. It stays on the thread that opened it.
pub struct Library {
    node: Node,
    record: PathBuf,
    /// How many views more have to be final before the record is rewritten, if it is rewritten so.
    rewrite_views: u64,
    /// The last final view when the record was opened or rewritten so.
    rewritten: u64,
}

impl Library {
    /// Opens this record as `member` of `members` with these settings, in the two files that the program keeps it in.
    ///
    /// # Errors
    ///
    /// Where it isn't opened: [`NotYet`] where another node has one of them.
    pub fn open(
        record: &Path,
        member: u32,
        members: u32,
        settings: &NodeSettings,
    ) -> Result<(Library, Reply)> {
        let set_up = set_up(settings, member, members);
        let (mut node, first) = match Node::open_pair_with(record, &set_up) {
            Ok(opened) => opened,
            Err(told) if told.kind() == ErrorKind::WouldBlock => {
                return Err(NotYet("another node has it".to_owned()).into());
            }
            Err(told) => return Err(told.into()),
        };
        let actions = first.actions.into_iter().map(action).collect();
        // The first reply answers no event: nothing is refused. By number, as in all replies.
        let refused = first.refused.map_or(0, |why| why as u8);
        let library = Library {
            rewritten: node.views().finalized,
            node,
            record: record.to_owned(),
            rewrite_views: settings.rewrite_views,
        };
        Ok((library, Reply { refused, actions }))
    }

    /// Rewrites the record where so many views more are final, as the program does behind a reply.
    fn rewrite_where_due(&mut self) -> Result<()> {
        let finalized = self.node.views().finalized;
        if self.rewrite_views > 0 && finalized.saturating_sub(self.rewritten) >= self.rewrite_views
        {
            self.node.rewrite()?;
            self.rewritten = finalized;
        }
        Ok(())
    }
}

/// The settings of a node, as the library's crate has them.
fn set_up(of: &NodeSettings, member: u32, members: u32) -> Settings {
    let skips = if of.skips {
        Skips::Enabled {
            timeout: of.skip_timeout,
            budget: of.skip_budget,
        }
    } else {
        Skips::Disabled
    };
    let forwarding = match of.forwarding {
        Forwarding::Disabled => voumlis::Forwarding::Disabled,
        Forwarding::SilentVoters => voumlis::Forwarding::SilentVoters,
        Forwarding::SilentLeader => voumlis::Forwarding::SilentLeader,
    };
    let repair = match of.repair {
        Repair::Once => voumlis::Repair::Once,
        Repair::WithNullify => voumlis::Repair::WithNullify,
    };
    let settings = Settings::new(member, members)
        .epoch(of.epoch)
        .genesis(of.genesis)
        .base(of.base.as_str())
        .terms(of.term_length, of.stall_timeout, of.optimistic_views)
        .leader_timeout(of.leader_timeout)
        .certification_timeout(of.certification_timeout)
        .retry_timeout(of.retry_timeout)
        .retention(of.retention)
        .skips(skips)
        .forwarding(forwarding)
        .repair(repair)
        .repair_window(of.repair_window)
        .historical_votes(of.historical_votes);
    match &of.seed {
        Some(seed) => settings.shuffled(seed.as_slice()),
        None => settings,
    }
}

impl Member for Library {
    fn step(&mut self, event: &Event) -> Result<Reply> {
        let mut bytes = Vec::new();
        event.append(&mut bytes);
        let replies = self.node.step_bytes(&bytes)?;
        let (reply, size) = Reply::read(&replies)?;
        if size != replies.len() {
            bail!("the node answered more than a reply");
        }
        self.rewrite_where_due()?;
        Ok(reply)
    }

    fn record_bytes(&self) -> Result<[u64; 2]> {
        Ok(record_bytes(&self.record)?)
    }

    fn rewrite(&mut self) -> Result<Rewriting> {
        if self.rewrite_views > 0 {
            return Ok(Rewriting::OfItself);
        }
        Ok(Rewriting::Done(self.node.rewrite()?))
    }

    /// Where it rewrites the record of itself it does so here too, as the program does where its input ends: so lives that are shorter than
    /// so many views don't let it grow.
    fn close(mut self: Box<Self>) -> Result<()> {
        if self.rewrite_views > 0 {
            self.node.rewrite()?;
        }
        match self.node.close() {
            Ending::Closed => Ok(()),
            other => bail!("the node ended: {other:?}"),
        }
    }
}

// The library's crate reads the first reply itself, and hands no bytes of it out.

fn round(of: wire::Round) -> Round {
    Round {
        epoch: of.epoch,
        view: of.view,
    }
}

fn proposal(of: wire::Proposal) -> Proposal {
    Proposal {
        round: round(of.round),
        parent: of.parent,
        payload: of.payload,
    }
}

fn context(of: wire::Context) -> Context {
    Context {
        round: round(of.round),
        leader: of.leader,
        parent: of.parent,
        parent_payload: of.parent_payload,
    }
}

fn plan(of: wire::Plan) -> Plan {
    match of {
        wire::Plan::Prepare(at) => Plan::Prepare(round(at)),
        wire::Plan::Propose(at) => Plan::Propose(round(at)),
        wire::Plan::Forward(at, members) => Plan::Forward(round(at), members),
    }
}

fn channel(of: wire::Channel) -> Channel {
    match of {
        wire::Channel::Votes => Channel::Votes,
        wire::Channel::Certificates => Channel::Certificates,
        wire::Channel::Fetches => Channel::Fetches,
    }
}

fn action(of: wire::Action) -> Action {
    match of {
        wire::Action::Send {
            to,
            channel: on,
            bytes,
        } => Action::Send {
            to,
            channel: channel(on),
            bytes,
        },
        wire::Action::Block(member) => Action::Block(member),
        wire::Action::Build {
            request,
            handoff,
            context: on,
        } => Action::Build {
            request,
            handoff,
            context: context(on),
        },
        wire::Action::Verify {
            request,
            context: on,
            proposal: proposed,
        } => Action::Verify {
            request,
            context: context(on),
            proposal: proposal(proposed),
        },
        wire::Action::Certify(notarized) => Action::Certify(proposal(notarized)),
        wire::Action::Forward { payload, plan: to } => Action::Forward {
            payload,
            plan: plan(to),
        },
        wire::Action::Finalized(last) => Action::Finalized(proposal(last)),
        wire::Action::Report(report) => Action::Report(report),
        wire::Action::Wake(moment) => Action::Wake(moment),
    }
}

#[cfg(test)]
mod tests {
    use super::*;

    #[test]
    fn where_nothing_is_said_a_node_is_set_up_as_the_librarys_crate_has_it() {
        let usual = set_up(&NodeSettings::default(), 2, 7);
        assert_eq!(usual, Settings::new(2, 7));
    }
}
