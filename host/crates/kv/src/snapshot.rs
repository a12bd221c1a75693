//! The state as bytes, the same at every member behind the same block.
//!
//! All numbers have their most significant byte first.
//!
//! | Part | Bytes |
//! |---|---|
//! | version | `01` |
//! | the last block | its view in 8, its payload in 32 |
//! | the chain's hash | 32 |
//! | keys | how many in 4; for each, by rising key: the key, `01` if older versions were forgotten, else `00`, how many versions in 2, the versions |
//! | version of a key | view in 8, position in 2, value or none |
//! | clients | how many in 4; for each, those of number 1 first, of each sort the longest silent first: name in 16, number in 8, digest in 32, view in 8, outcome |
//! | outcome | `00` written, `01` mismatch, `02` full |

use crate::command::{ClientId, Key, Value};
use crate::machine::{History, Limits, Machine, Recorded, Session, Version};
use crate::reader::{Malformed, Reader};
use application::BlockId;
use std::collections::{BTreeMap, HashSet, VecDeque};

/// The version of the format, a snapshot's first byte.
const VERSION: u8 = 1;

/// The state as bytes.
pub fn spell(machine: &Machine) -> Vec<u8> {
    let sum = machine.bytes() + 100 * machine.clients.len() + 100;
    let mut bytes = Vec::with_capacity(sum);
    bytes.push(VERSION);
    bytes.extend(machine.at.view.to_be_bytes());
    bytes.extend(machine.at.payload);
    bytes.extend(machine.chain);
    bytes.extend((machine.keys.len() as u32).to_be_bytes());
    for (key, history) in &machine.keys {
        key.append_to(&mut bytes);
        bytes.push(history.forgotten.into());
        bytes.extend((history.versions.len() as u16).to_be_bytes());
        for version in &history.versions {
            bytes.extend(version.view.to_be_bytes());
            bytes.extend(version.position.to_be_bytes());
            Value::append_option(version.value.as_ref(), &mut bytes);
        }
    }
    bytes.extend((machine.clients.len() as u32).to_be_bytes());
    for (client, session) in machine.clients_by_recency() {
        bytes.extend(client.0);
        bytes.extend(session.number.to_be_bytes());
        bytes.extend(session.digest);
        bytes.extend(session.view.to_be_bytes());
        bytes.push(match session.outcome {
            Recorded::Written => 0,
            Recorded::Mismatch => 1,
            Recorded::Full => 2,
        });
    }
    bytes
}

/// The state of these bytes.
///
/// # Errors
///
/// Where they are no snapshot, or more than `limits` allow.
pub fn read(limits: Limits, bytes: &[u8]) -> Result<Machine, Malformed> {
    let mut reader = Reader::new(bytes);
    if reader.byte()? != VERSION {
        return Err(Malformed::Invalid);
    }
    let at = BlockId {
        view: reader.u64()?,
        payload: reader.array()?,
    };
    let chain = reader.array()?;
    let keys = read_keys(&mut reader, &limits)?;
    let clients = read_clients(&mut reader, &limits)?;
    reader.end()?;
    Ok(Machine::of_parts(limits, at, chain, keys, clients))
}

fn read_keys(
    reader: &mut Reader<'_>,
    limits: &Limits,
) -> Result<BTreeMap<Key, History>, Malformed> {
    let mut keys: BTreeMap<Key, History> = BTreeMap::new();
    let count = reader.u32()? as usize;
    if count > limits.keys {
        return Err(Malformed::TooLong);
    }
    for _ in 0..count {
        let key = Key::read(reader)?;
        if keys.last_key_value().is_some_and(|(last, _)| *last >= key) {
            return Err(Malformed::Invalid);
        }
        let forgotten = reader.presence()?;
        let versions = read_versions(reader, limits)?;
        keys.insert(
            key,
            History {
                forgotten,
                versions,
            },
        );
    }
    Ok(keys)
}

fn read_versions(reader: &mut Reader<'_>, limits: &Limits) -> Result<VecDeque<Version>, Malformed> {
    let count = usize::from(reader.u16()?);
    if count > limits.versions {
        return Err(Malformed::TooLong);
    }
    let mut versions: VecDeque<Version> = VecDeque::with_capacity(count);
    for _ in 0..count {
        let (view, position) = (reader.u64()?, reader.u16()?);
        let is_later = |last: &Version| (last.view, last.position) < (view, position);
        if !versions.back().is_none_or(is_later) {
            return Err(Malformed::Invalid);
        }
        versions.push_back(Version {
            view,
            position,
            value: Value::read_option(reader)?,
        });
    }
    if versions.is_empty() {
        Err(Malformed::Invalid)
    } else {
        Ok(versions)
    }
}

fn read_clients(
    reader: &mut Reader<'_>,
    limits: &Limits,
) -> Result<Vec<(ClientId, Session)>, Malformed> {
    let count = reader.u32()? as usize;
    if count > 2 * limits.clients {
        return Err(Malformed::TooLong);
    }
    let mut names = HashSet::new();
    let mut clients: Vec<(ClientId, Session)> = Vec::new();
    let mut stayed = 0;
    for used in 1..=count as u64 {
        let client = ClientId(reader.array()?);
        let number = reader.u64()?;
        stayed += usize::from(number > 1);
        let is_late = number == 1 && stayed > 0;
        if number == 0 || is_late || !names.insert(client) {
            return Err(Malformed::Invalid);
        }
        let (digest, view) = (reader.array()?, reader.u64()?);
        let outcome = match reader.byte()? {
            0 => Recorded::Written,
            1 => Recorded::Mismatch,
            2 => Recorded::Full,
            _ => return Err(Malformed::Invalid),
        };
        let session = Session {
            number,
            digest,
            view,
            outcome,
            used,
        };
        clients.push((client, session));
    }
    if stayed > limits.clients || clients.len() - stayed > limits.clients {
        return Err(Malformed::TooLong);
    }
    Ok(clients)
}

#[cfg(test)]
mod tests {
    use super::*;
    use crate::command::Command;
    use crate::command::tests::{key, put, request, value};
    use crate::machine::tests::{block, small};

    fn machine() -> Machine {
        let mut machine = Machine::new(small());
        let swap = Command::CompareAndSet {
            key: key("a"),
            expected: Some(value("9")),
            new: None,
        };
        machine.apply(
            block(1),
            &[request(1, 1, put("a", "1")), request(2, 1, put("b", "2"))],
        );
        machine.apply(
            block(2),
            &[request(1, 2, Command::Delete { key: key("a") })],
        );
        machine.apply(
            block(4),
            &[request(2, 2, swap), request(1, 3, put("c", ""))],
        );
        machine
    }

    #[test]
    fn a_snapshot_is_read_as_it_was_spelled_and_no_front_of_it_is() {
        let bytes = spell(&machine());
        let read_back = read(small(), &bytes).unwrap();
        assert_eq!(spell(&read_back), bytes);
        assert_eq!(read_back.bytes(), machine().bytes());
        for cut in 0..bytes.len() {
            assert_eq!(
                read(small(), &bytes[..cut]).err(),
                Some(Malformed::End),
                "cut at {cut}"
            );
        }
        let longer = [&bytes[..], &[0]].concat();
        assert_eq!(read(small(), &longer).err(), Some(Malformed::Trailing));
    }

    /// What was restored goes on as what it was taken of: deletes are forgotten and clients evicted at
    /// the same places.
    #[test]
    fn a_restored_state_goes_on_as_the_other() {
        let mut one = machine();
        let mut other = read(small(), &spell(&one)).unwrap();
        for view in 5..40 {
            let client = view as u8 % 4;
            let name = ["a", "b", "c"][view as usize % 3];
            let command = if view % 5 == 0 {
                Command::Delete { key: key(name) }
            } else {
                put(name, "x")
            };
            let requests = [
                request(client, view, command.clone()),
                request(client, 1, command),
            ];
            assert_eq!(
                one.apply(block(view), &requests),
                other.apply(block(view), &requests)
            );
            assert_eq!(spell(&one), spell(&other), "view {view}");
        }
    }

    #[test]
    fn keys_out_of_order_and_clients_twice_are_refused() {
        let mut machine = Machine::new(small());
        machine.apply(
            block(1),
            &[request(1, 1, put("a", "")), request(2, 1, put("b", ""))],
        );
        let bytes = spell(&machine);
        let first_key = 1 + 8 + 32 + 32 + 4 + 2;
        assert_eq!(bytes[first_key], b'a');
        let mut unsorted = bytes.clone();
        unsorted[first_key] = b'b';
        assert_eq!(read(small(), &unsorted).err(), Some(Malformed::Invalid));
        let mut twice = bytes.clone();
        let second = bytes.len() - 65;
        assert_eq!(twice[second..second + 16], [2; 16]);
        twice[second..second + 16].fill(1);
        assert_eq!(read(small(), &twice).err(), Some(Malformed::Invalid));
    }

    #[test]
    fn more_than_the_limits_allow_is_refused() {
        let bytes = spell(&machine());
        for limits in [
            Limits { keys: 2, ..small() },
            Limits {
                versions: 1,
                ..small()
            },
            Limits {
                clients: 1,
                ..small()
            },
        ] {
            assert_eq!(read(limits, &bytes).err(), Some(Malformed::TooLong));
        }
    }
}
