//! A member's node over a record in a file, or in two.

use crate::files::Files;
use crate::handle::MOST_KEPT;
use crate::settings::{Settings, SettingsError};
use crate::wire::{Event, LentReply, Reply};
use crate::{Found, Handle};
use std::io::{Error, ErrorKind};
use std::path::Path;

/// How a node ended.
#[derive(Clone, Copy, Debug, PartialEq, Eq)]
pub enum Ending {
    /// It was let go between two events.
    Closed,
    /// Memory ran out.
    Memory,
    /// No node can be opened with the settings.
    Settings(SettingsError),
    /// The archive doesn't know what it was asked: it is none that these bindings are for.
    Argument,
    /// At this place of the bytes that were handed in last no event stands.
    NoEvent(u64),
    /// More than 2^32 events were handed in at once.
    TooMany,
    /// The rules refuse this artifact of the record, counted from 0.
    Refused(u64),
    /// At this byte of the record stands an entry that is no artifact.
    Foreign(u64),
    /// The gate at this byte of the record, behind its last whole entry, isn't closed, or more stands behind it than a crash leaves.
    Torn(u64),
    /// The file isn't empty, and begins as no record does; opened alone, one of two that a rewrite has written does so too.
    NoRecord,
    /// A file of the record failed.
    Device,
}

/// The views of a node.
#[repr(C)]
#[derive(Clone, Copy, Debug, Default, PartialEq, Eq)]
pub struct Views {
    /// The view that it is in.
    pub current: u64,
    /// The last view that is final, or 0.
    pub finalized: u64,
}

/// A member's node over a record in a file, or in two, which stays on the thread that opened it. One that is let go is told nothing more:
/// its record has all that it handed out.
///
/// In one file a record grows by each vote and certificate. In two it can be rewritten ([`Node::rewrite`]). These belong together for good:
/// opened from one of them alone, a member may forget votes.
#[derive(Debug)]
pub struct Node {
    handle: Handle,
    files: Files,
    ending: Option<Ending>,
    room: Room,
}

/// Room for the bytes that pass between a node and its host, kept from call to call where it is small.
#[derive(Debug, Default)]
struct Room {
    event: Vec<u8>,
    requests: Vec<u8>,
    replies: Vec<u8>,
}

/// How a call ended that didn't do what it was asked.
fn ending(status: u32, found: &Found) -> Ending {
    match status {
        1 => Ending::Memory,
        5 => Ending::NoEvent(found.place),
        6 => Ending::TooMany,
        7 => Ending::Refused(found.place),
        8 => Ending::Foreign(found.place),
        9 | 10 => Ending::Device,
        11 => Ending::Torn(found.place),
        12 => Ending::NoRecord,
        13 | 14 => Ending::Settings(SettingsError::told(status, found)),
        _ => Ending::Argument,
    }
}

impl Node {
    /// Opens the record at this path, or makes an empty one, at moment 0, as `member` of `members`, set up as by the program
    /// `simplex node` (the plain scheme over the base `simplex`), and answers what is due at once.
    ///
    /// # Errors
    ///
    /// As of [`Node::open_with`].
    pub fn open(record: &Path, member: u16, members: u16) -> Result<(Node, Reply), Error> {
        Node::open_with(record, &Settings::of_program(member.into(), members.into()))
    }

    /// The same, where what stands behind the last whole entry is cut, whatever it is, in place of [`Ending::Torn`]. That may take
    /// votes that were sent: so it is for a person who knows what became of the record.
    ///
    /// # Errors
    ///
    /// As of [`Node::open_with`].
    pub fn open_cutting(record: &Path, member: u16, members: u16) -> Result<(Node, Reply), Error> {
        Node::open_cutting_with(record, &Settings::of_program(member.into(), members.into()))
    }

    /// Opens the record at this path, or makes an empty one, at moment 0, as the member of these settings, and answers what is due
    /// at once. The file is looked at first: one that is no record of this member as a crash may leave it is left as it is.
    ///
    /// # Errors
    ///
    /// [`ErrorKind::InvalidInput`] that holds the [`SettingsError`], where no node can be opened with the settings: then no file was
    /// touched; those of the file, of which [`ErrorKind::WouldBlock`] says that another node has it; [`ErrorKind::AlreadyExists`] where
    /// the record stands in a second file too, which holds something: then it is opened as [`Node::open_pair`] does; and one that holds
    /// the [`Ending`] as text, where the record was not opened.
    pub fn open_with(record: &Path, settings: &Settings) -> Result<(Node, Reply), Error> {
        Node::open_over(record, Files::one, settings, false)
    }

    /// The same, as [`Node::open_cutting`] cuts.
    ///
    /// # Errors
    ///
    /// As of [`Node::open_with`].
    pub fn open_cutting_with(record: &Path, settings: &Settings) -> Result<(Node, Reply), Error> {
        Node::open_over(record, Files::one, settings, true)
    }

    /// Opens the record in the file at this path and in the second beside it ([`second_path`](crate::second_path)), as the program
    /// `simplex node` has it, else as [`Node::open`] does. What is missing is made; one that was a record of one file is one of two from
    /// then on.
    ///
    /// # Errors
    ///
    /// As of [`Node::open_pair_with`].
    pub fn open_pair(record: &Path, member: u16, members: u16) -> Result<(Node, Reply), Error> {
        Node::open_pair_with(record, &Settings::of_program(member.into(), members.into()))
    }

    /// The same, as [`Node::open_cutting`] cuts.
    ///
    /// # Errors
    ///
    /// As of [`Node::open_pair_with`].
    pub fn open_pair_cutting(
        record: &Path,
        member: u16,
        members: u16,
    ) -> Result<(Node, Reply), Error> {
        Node::open_pair_cutting_with(record, &Settings::of_program(member.into(), members.into()))
    }

    /// Opens the record in two files, as [`Node::open_pair`], as the member of these settings. Both are looked at first: where one is no
    /// file of a record of this member as a crash may leave it, both are left as they are, and no second one is made.
    ///
    /// # Errors
    ///
    /// As of [`Node::open_with`], of either file: the [`Ending`] doesn't say of which, and the place in it is one in that file.
    pub fn open_pair_with(record: &Path, settings: &Settings) -> Result<(Node, Reply), Error> {
        Node::open_over(record, Files::two, settings, false)
    }

    /// The same, as [`Node::open_cutting`] cuts.
    ///
    /// # Errors
    ///
    /// As of [`Node::open_pair_with`].
    pub fn open_pair_cutting_with(
        record: &Path,
        settings: &Settings,
    ) -> Result<(Node, Reply), Error> {
        Node::open_over(record, Files::two, settings, true)
    }

    fn open_over(
        record: &Path,
        find: fn(&Path) -> Result<Files, Error>,
        settings: &Settings,
        cuts: bool,
    ) -> Result<(Node, Reply), Error> {
        settings
            .check()
            .map_err(|why| Error::new(ErrorKind::InvalidInput, why))?;
        let files = find(record)?;
        let (stored, beside) = files.stored()?;
        let mut node = Node {
            handle: Handle::NONE,
            files,
            ending: None,
            room: Room::default(),
        };
        let mut found = Found::default();
        let handle = &mut node.handle;
        let status = match beside {
            None => handle.open(settings, cuts, &stored, &mut found),
            Some(second) => handle.open_pair(settings, cuts, &stored, &second, &mut found),
        };
        if status == 0 {
            node.files.complete()?;
        }
        let reply = node.answered(status, &found).and_then(one);
        match reply {
            Ok(reply) => Ok((node, reply)),
            Err(_) if node.ending.is_some() => Err(Error::other(format!("{:?}", node.close()))),
            Err(error) => Err(error),
        }
    }

    /// The view that the node is in, and the last that is final.
    pub fn views(&mut self) -> Views {
        self.handle.views()
    }

    /// Hands an event in, and answers the reply. By then the record has all that it says.
    ///
    /// # Errors
    ///
    /// One behind which the node has ended: [`Node::close`] says why, and the record can be opened again.
    pub fn step(&mut self, event: &Event<'_>) -> Result<Reply, Error> {
        self.step_spelled(event).and_then(one)
    }

    /// The same, but that the reply is lent until the next call, and each of its actions is read where it is asked for: nothing of it
    /// is copied.
    ///
    /// # Errors
    ///
    /// As of [`Node::step`].
    pub fn step_lent(&mut self, event: &Event<'_>) -> Result<LentReply<'_>, Error> {
        LentReply::read(self.step_spelled(event)?).ok_or_else(|| ErrorKind::InvalidData.into())
    }

    /// The same of the bytes of any number of events, one behind another, and of their replies.
    ///
    /// # Errors
    ///
    /// As of [`Node::step`]; also where the bytes aren't those of whole events.
    pub fn step_bytes(&mut self, events: &[u8]) -> Result<Vec<u8>, Error> {
        self.going_on()?;
        let mut found = Found::default();
        let status = self.handle.step(events, &mut found);
        self.answered(status, &found).map(<[u8]>::to_vec)
    }

    /// The bytes of the reply to an event.
    fn step_spelled(&mut self, event: &Event<'_>) -> Result<&[u8], Error> {
        self.going_on()?;
        let room = &mut self.room.event;
        room.clear();
        room.shrink_to(MOST_KEPT);
        event.append(room);
        let mut found = Found::default();
        let status = self.handle.step(room, &mut found);
        self.answered(status, &found)
    }

    /// Rewrites a record in two files, so that it begins with the finalization of the last final view, and answers that view. What doesn't
    /// reach above it is dropped; nothing else of the node changes, and nothing is handed out. `None` where there is nothing to rewrite:
    /// it begins so already, no view is final yet, or it stands in one file. By the answer the files have it.
    ///
    /// # Errors
    ///
    /// As of [`Node::step`]: the record is the one from before or the rewritten one, and either has all that was handed out.
    pub fn rewrite(&mut self) -> Result<Option<u64>, Error> {
        self.going_on()?;
        let mut found = Found::default();
        let status = self.handle.rewrite(&mut found);
        self.carried_out(status, &found)?;
        Ok(found.named())
    }

    /// Fails where the node has ended.
    fn going_on(&self) -> Result<(), Error> {
        match self.ending {
            Some(_) => Err(ErrorKind::BrokenPipe.into()),
            None => Ok(()),
        }
    }

    /// Lets the node go, and answers how it ended.
    pub fn close(self) -> Ending {
        self.ending.unwrap_or(Ending::Closed)
    }

    /// Carries out what a call asked, and then answers the replies.
    fn answered(&mut self, status: u32, found: &Found) -> Result<&[u8], Error> {
        self.carried_out(status, found)?;
        Ok(self.handle.replies(&mut self.room.replies))
    }

    /// Carries out what a call asked, or ends the node where it failed.
    fn carried_out(&mut self, status: u32, found: &Found) -> Result<(), Error> {
        if status != 0 {
            self.ending = Some(ending(status, found));
            return Err(ErrorKind::BrokenPipe.into());
        }
        let requests = self.handle.requests(&mut self.room.requests);
        let done = self.files.carry_out(requests);
        if done.is_err() {
            self.ending = Some(Ending::Device);
        }
        done
    }
}

/// The one reply that these bytes are.
fn one(replies: &[u8]) -> Result<Reply, Error> {
    match Reply::read(replies) {
        Some((reply, [])) => Ok(reply),
        _ => Err(ErrorKind::InvalidData.into()),
    }
}
