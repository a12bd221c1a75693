//! What a node asks of its record's files, as bytes: one request behind another, to be carried out in this order.

use std::io::{Error, ErrorKind};

/// A file of a record. Over one file it is always the first.
#[derive(Clone, Copy, Debug, PartialEq, Eq)]
pub(crate) enum Half {
    First,
    Second,
}

/// What is asked of a file.
#[derive(Clone, Copy, Debug, PartialEq, Eq)]
pub(crate) enum Request<'a> {
    /// These bytes are to stand from this place on.
    Write { place: u64, bytes: &'a [u8] },
    /// Nothing is to stand behind so many bytes.
    Cut(u64),
    /// All of it is to survive a crash.
    Sync,
}

/// Has each of these requests carried out by `on`, in their order.
///
/// # Errors
///
/// The first of `on`, and [`ErrorKind::InvalidData`] where no request stands: those before it are carried out, those behind it aren't.
pub(crate) fn carry_out(
    mut requests: &[u8],
    mut on: impl FnMut(Half, Request<'_>) -> Result<(), Error>,
) -> Result<(), Error> {
    while !requests.is_empty() {
        let (half, request) =
            next(&mut requests).ok_or_else(|| Error::from(ErrorKind::InvalidData))?;
        on(half, request)?;
    }
    Ok(())
}

/// The request at the front.
fn next<'a>(bytes: &mut &'a [u8]) -> Option<(Half, Request<'a>)> {
    let (tag, rest) = bytes.split_first()?;
    *bytes = rest;
    let (half, kind) = match *tag {
        tag @ 0..=2 => (Half::First, tag),
        tag @ 3..=5 => (Half::Second, tag - 3),
        _ => return None,
    };
    let request = match kind {
        0 => {
            let place = number(bytes)?;
            let size = usize::try_from(number(bytes)?).ok()?;
            let (front, rest) = bytes.split_at_checked(size)?;
            *bytes = rest;
            let bytes = front;
            Request::Write { place, bytes }
        }
        1 => Request::Cut(number(bytes)?),
        _ => Request::Sync,
    };
    Some((half, request))
}

/// The number in eight bytes at the front.
fn number(bytes: &mut &[u8]) -> Option<u64> {
    let (front, rest) = bytes.split_first_chunk()?;
    *bytes = rest;
    Some(u64::from_be_bytes(*front))
}

#[cfg(test)]
mod tests {
    use super::*;

    fn write(tag: u8, place: u64, bytes: &[u8]) -> Vec<u8> {
        let size = bytes.len() as u64;
        let head = [&[tag][..], &place.to_be_bytes(), &size.to_be_bytes()];
        [&head.concat(), bytes].concat()
    }

    fn cut(tag: u8, length: u64) -> Vec<u8> {
        [&[tag][..], &length.to_be_bytes()].concat()
    }

    /// What two buffers hold behind these requests, which of them was synced over what length, and whether all were requests.
    fn carried_out(requests: &[u8]) -> ([Vec<u8>; 2], Vec<(Half, usize)>, bool) {
        let (mut buffers, mut synced) = ([Vec::new(), Vec::new()], Vec::new());
        let ended = carry_out(requests, |half, request| {
            let buffer: &mut Vec<u8> = &mut buffers[half as usize];
            match request {
                Request::Write { place, bytes } => {
                    let place = place as usize;
                    let end = buffer.len().max(place + bytes.len());
                    buffer.resize(end, 0);
                    buffer[place..place + bytes.len()].copy_from_slice(bytes);
                }
                Request::Cut(length) => buffer.truncate(length as usize),
                Request::Sync => synced.push((half, buffer.len())),
            }
            Ok(())
        });
        let is_whole = match ended {
            Ok(()) => true,
            Err(told) => {
                assert_eq!(told.kind(), ErrorKind::InvalidData);
                false
            }
        };
        (buffers, synced, is_whole)
    }

    #[test]
    fn requests_go_to_their_file_in_their_order() {
        let requests = [
            write(0, 0, &[1, 2, 3]),
            vec![2],
            write(3, 0, &[7; 9]),
            cut(4, 0),
            vec![5],
            write(3, 0, &[0]),
            vec![5],
            write(3, 1, &[255, 254]),
            vec![5],
            cut(1, 2),
            vec![2],
        ];
        let (buffers, synced, is_whole) = carried_out(&requests.concat());
        assert_eq!(buffers, [vec![1, 2], vec![0, 255, 254]]);
        use Half::{First, Second};
        let expected = [
            (First, 3),
            (Second, 0),
            (Second, 1),
            (Second, 3),
            (First, 2),
        ];
        assert_eq!((&synced[..], is_whole), (&expected[..], true));
    }

    #[test]
    fn what_is_no_request_is_refused_and_nothing_behind_it_carried_out() {
        let good = write(3, 0, &[8]);
        let mut short = write(0, 0, &[8, 9]);
        short.pop();
        let mut long = write(3, 0, &[8, 9]);
        long[9..17].copy_from_slice(&u64::MAX.to_be_bytes());
        for bad in [
            vec![6, 2],
            vec![255, 2],
            short,
            long,
            vec![4, 0, 0],
            vec![0],
        ] {
            let behind = [&good[..], &bad].concat();
            let (buffers, synced, is_whole) = carried_out(&behind);
            assert!(!is_whole, "{bad:?}");
            assert_eq!((buffers, synced), ([vec![], vec![8]], vec![]));
        }
        assert_eq!(carried_out(&[]), ([vec![], vec![]], vec![], true));
    }
}
