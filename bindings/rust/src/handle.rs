//! A node as the proved library holds it between two calls.

use crate::Found;
use crate::node::Views;
use crate::settings::{Numbers, Settings};
use std::ptr;

/// A node as the library holds it. The pointer is the library's, and keeps this on the thread that opened it.
#[repr(C)]
#[derive(Debug)]
pub(crate) struct Handle {
    live: u32,
    place: *mut u8,
}

unsafe extern "C" {
    fn voumlis_proved_node_open_with(
        numbers: *const Numbers,
        base: *const u8,
        base_length: usize,
        seed: *const u8,
        seed_length: usize,
        cuts: u32,
        record: *const u8,
        length: usize,
        node: *mut Handle,
        found: *mut Found,
    ) -> u32;
    fn voumlis_proved_node_open_pair_with(
        numbers: *const Numbers,
        base: *const u8,
        base_length: usize,
        seed: *const u8,
        seed_length: usize,
        cuts: u32,
        record: *const u8,
        length: usize,
        second: *const u8,
        second_length: usize,
        node: *mut Handle,
        found: *mut Found,
    ) -> u32;
    fn voumlis_proved_node_rewrite(node: *mut Handle, found: *mut Found) -> u32;
    fn voumlis_proved_node_step(
        node: *mut Handle,
        events: *const u8,
        length: usize,
        found: *mut Found,
    ) -> u32;
    fn voumlis_proved_node_requests(
        node: *mut Handle,
        room: *mut u8,
        length: usize,
        found: *mut Found,
    ) -> u32;
    fn voumlis_proved_node_replies(
        node: *mut Handle,
        room: *mut u8,
        length: usize,
        found: *mut Found,
    ) -> u32;
    fn voumlis_proved_node_views(node: *mut Handle, views: *mut Views) -> u32;
    fn voumlis_proved_node_close(node: *mut Handle) -> u32;
}

/// The least room that is made for an answer, and the most that is kept for the next. Its bytes are filled once, when it is made.
const LEAST_ROOM: usize = 4096;
pub(crate) const MOST_KEPT: usize = 65_536;

/// A call that takes what waits.
type Take = unsafe extern "C" fn(*mut Handle, *mut u8, usize, *mut Found) -> u32;

impl Handle {
    /// No node.
    pub(crate) const NONE: Handle = Handle {
        live: 0,
        place: ptr::null_mut(),
    };

    pub(crate) fn open(
        &mut self,
        settings: &Settings,
        cuts: bool,
        record: &[u8],
        found: &mut Found,
    ) -> u32 {
        let (numbers, base, seed) = settings.parts();
        // SAFETY: numbers in the library's form, slices with their lengths, and a handle that is as the library left it, or none.
        unsafe {
            voumlis_proved_node_open_with(
                &numbers,
                base.as_ptr(),
                base.len(),
                seed.as_ptr(),
                seed.len(),
                u32::from(cuts),
                record.as_ptr(),
                record.len(),
                self,
                found,
            )
        }
    }

    /// The same over what two files hold.
    pub(crate) fn open_pair(
        &mut self,
        settings: &Settings,
        cuts: bool,
        record: &[u8],
        second: &[u8],
        found: &mut Found,
    ) -> u32 {
        let (numbers, base, seed) = settings.parts();
        // SAFETY: as above.
        unsafe {
            voumlis_proved_node_open_pair_with(
                &numbers,
                base.as_ptr(),
                base.len(),
                seed.as_ptr(),
                seed.len(),
                u32::from(cuts),
                record.as_ptr(),
                record.len(),
                second.as_ptr(),
                second.len(),
                self,
                found,
            )
        }
    }

    pub(crate) fn rewrite(&mut self, found: &mut Found) -> u32 {
        // SAFETY: a handle that is as the library left it, and a `Found` of the caller's frame.
        unsafe { voumlis_proved_node_rewrite(self, found) }
    }

    pub(crate) fn step(&mut self, events: &[u8], found: &mut Found) -> u32 {
        // SAFETY: as above.
        unsafe { voumlis_proved_node_step(self, events.as_ptr(), events.len(), found) }
    }

    /// The views of the node; zeros where no node is open.
    pub(crate) fn views(&mut self) -> Views {
        let mut views = Views::default();
        // SAFETY: a handle that is as the library left it, and views of this frame.
        unsafe { voumlis_proved_node_views(self, &mut views) };
        views
    }

    /// What the host is asked to do with the record, in this room.
    pub(crate) fn requests<'a>(&mut self, room: &'a mut Vec<u8>) -> &'a [u8] {
        self.taken(voumlis_proved_node_requests, room)
    }

    /// The replies that were not taken yet, in this room.
    pub(crate) fn replies<'a>(&mut self, room: &'a mut Vec<u8>) -> &'a [u8] {
        self.taken(voumlis_proved_node_replies, room)
    }

    fn taken<'a>(&mut self, take: Take, room: &'a mut Vec<u8>) -> &'a [u8] {
        room.truncate(MOST_KEPT);
        room.shrink_to(MOST_KEPT);
        loop {
            let mut found = Found::default();
            // SAFETY: a slice with its length, lent to be written, and a handle that is as the library left it.
            let status = unsafe { take(self, room.as_mut_ptr(), room.len(), &mut found) };
            match status {
                0 => return &room[..found.length],
                3 => room.resize(found.length.max(LEAST_ROOM), 0),
                _ => return &[],
            }
        }
    }
}

impl Drop for Handle {
    fn drop(&mut self) {
        // SAFETY: a handle that is as the library left it, or none, and is used no more.
        unsafe { voumlis_proved_node_close(self) };
    }
}
