//! The contents of a block: a batch of requests.
//!
//! `01`, how many in 2 bytes (at most [`MOST_REQUESTS`]), and so many requests, no two of one client
//! and number, in at most [`LONGEST_BATCH`] bytes altogether.

use crate::command::{Request, RequestId};
use crate::reader::{Malformed, Reader};
use std::collections::HashSet;

/// The version of the format, a batch's first byte.
const VERSION: u8 = 1;
/// Bytes before the first request.
const HEAD: usize = 3;
/// Requests of the longest batch.
pub const MOST_REQUESTS: usize = 1_024;
/// Bytes of the longest batch.
pub const LONGEST_BATCH: usize = 1 << 20;

/// The contents of these requests.
pub fn spell<'a>(requests: impl ExactSizeIterator<Item = &'a Request>) -> Vec<u8> {
    let mut bytes = vec![VERSION];
    bytes.extend((requests.len() as u16).to_be_bytes());
    for request in requests {
        request.append_to(&mut bytes);
    }
    bytes
}

/// The requests of these contents, in order.
///
/// # Errors
///
/// Where they are no batch; a request that comes twice is `Invalid`.
pub fn read(contents: &[u8]) -> Result<Vec<Request>, Malformed> {
    if contents.len() > LONGEST_BATCH {
        return Err(Malformed::TooLong);
    }
    let mut reader = Reader::new(contents);
    if reader.byte()? != VERSION {
        return Err(Malformed::Invalid);
    }
    let count = usize::from(reader.u16()?);
    if count > MOST_REQUESTS {
        return Err(Malformed::TooLong);
    }
    let mut names: HashSet<RequestId> = HashSet::with_capacity(count);
    let mut requests = Vec::with_capacity(count);
    for _ in 0..count {
        let request = Request::read(&mut reader)?;
        if !names.insert(request.id) {
            return Err(Malformed::Invalid);
        }
        requests.push(request);
    }
    reader.end()?;
    Ok(requests)
}

/// How much of a batch is filled.
#[derive(Debug)]
pub(crate) struct Room {
    requests: usize,
    bytes: usize,
}

impl Room {
    pub(crate) fn new() -> Room {
        Room {
            requests: MOST_REQUESTS,
            bytes: LONGEST_BATCH - HEAD,
        }
    }

    /// Takes room for one more of so many bytes, if there is.
    pub(crate) fn take(&mut self, length: usize) -> bool {
        if self.requests == 0 || self.bytes < length {
            return false;
        }
        self.requests -= 1;
        self.bytes -= length;
        true
    }
}

#[cfg(test)]
mod tests {
    use super::*;
    use crate::command::tests::{commands, put, request};

    #[test]
    fn a_batch_is_read_as_it_was_spelled_and_no_front_of_it_is() {
        let requests: Vec<_> = commands()
            .into_iter()
            .enumerate()
            .map(|(at, c)| request(1, at as u64 + 1, c))
            .collect();
        let bytes = spell(requests.iter());
        assert_eq!(read(&bytes), Ok(requests));
        for cut in 0..bytes.len() {
            assert_eq!(read(&bytes[..cut]), Err(Malformed::End));
        }
        assert_eq!(read(&[&bytes[..], &[0]].concat()), Err(Malformed::Trailing));
    }

    #[test]
    fn an_empty_batch_has_three_bytes() {
        assert_eq!(spell([].iter()), [1, 0, 0]);
        assert_eq!(read(&[1, 0, 0]), Ok(vec![]));
        assert_eq!(read(&[2, 0, 0]), Err(Malformed::Invalid));
        assert_eq!(read(&[1, 4, 1]), Err(Malformed::TooLong));
    }

    #[test]
    fn a_number_comes_once_in_a_batch() {
        let twice = [request(1, 1, put("k", "a")), request(1, 1, put("k", "b"))];
        assert_eq!(read(&spell(twice.iter())), Err(Malformed::Invalid));
        let two = [request(1, 1, put("k", "a")), request(2, 1, put("k", "a"))];
        assert!(read(&spell(two.iter())).is_ok());
    }

    #[test]
    fn room_ends_at_each_bound() {
        let mut room = Room::new();
        assert!((0..MOST_REQUESTS).all(|_| room.take(30)));
        assert!(!room.take(30));
        let mut room = Room::new();
        assert!(!room.take(LONGEST_BATCH - 2));
        assert!(room.take(LONGEST_BATCH - 3));
        assert!(!room.take(1));
    }

    #[test]
    fn a_batch_above_its_bytes_is_refused() {
        let text = "x".repeat(65_000);
        let requests: Vec<_> = (1..=17)
            .map(|number| request(1, number, put("k", &text)))
            .collect();
        assert_eq!(read(&spell(requests.iter())), Err(Malformed::TooLong));
        assert!(read(&spell(requests[..16].iter())).is_ok());
    }
}
