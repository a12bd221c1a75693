//! What clients ask for, and how it is spelled in a block.
//!
//! All numbers have their most significant byte first.
//!
//! | Value | Spelling |
//! |---|---|
//! | key | its length in 2 bytes, 1 to [`LONGEST_KEY`], and so many bytes |
//! | value | its length in 4 bytes, at most [`LONGEST_VALUE`], and so many bytes |
//! | value or none | `00`, or `01` and the value |
//! | get | `00`, key |
//! | put | `01`, key, value |
//! | delete | `02`, key |
//! | compare and set | `03`, key, what is expected (value or none), what it becomes (value or none) |
//! | request | the client's name in 16 bytes, its number in 8 (from 1 on), a command |
//!
//! Each value has one spelling, and any other byte is refused.

use crate::reader::{Malformed, Reader};
use hyper::body::Bytes;
use ring::digest::{SHA256, digest};
use std::fmt;

/// Bytes of the longest key.
pub const LONGEST_KEY: usize = 512;
/// Bytes of the longest value.
pub const LONGEST_VALUE: usize = 65_536;

/// A key: 1 to [`LONGEST_KEY`] bytes.
#[derive(Clone, PartialEq, Eq, PartialOrd, Ord, Hash)]
pub struct Key(Bytes);

impl Key {
    /// The key of these bytes.
    ///
    /// # Errors
    ///
    /// `Invalid` for none, `TooLong` for too many.
    pub fn new(bytes: impl Into<Bytes>) -> Result<Key, Malformed> {
        let bytes = bytes.into();
        match bytes.len() {
            0 => Err(Malformed::Invalid),
            1..=LONGEST_KEY => Ok(Key(bytes)),
            _ => Err(Malformed::TooLong),
        }
    }

    /// Its bytes.
    pub fn bytes(&self) -> &Bytes {
        &self.0
    }

    pub(crate) fn append_to(&self, bytes: &mut Vec<u8>) {
        bytes.extend((self.0.len() as u16).to_be_bytes());
        bytes.extend(&self.0);
    }

    pub(crate) fn read(reader: &mut Reader<'_>) -> Result<Key, Malformed> {
        let length = reader.u16()?.into();
        match length {
            0 => Err(Malformed::Invalid),
            1..=LONGEST_KEY => Ok(Key(Bytes::copy_from_slice(reader.take(length)?))),
            _ => Err(Malformed::TooLong),
        }
    }
}

impl fmt::Debug for Key {
    fn fmt(&self, f: &mut fmt::Formatter<'_>) -> fmt::Result {
        write!(f, "Key({})", self.0.escape_ascii())
    }
}

/// A value: at most [`LONGEST_VALUE`] bytes. Copies share them.
#[derive(Clone, PartialEq, Eq, Hash)]
pub struct Value(Bytes);

impl Value {
    /// The value of these bytes.
    ///
    /// # Errors
    ///
    /// `TooLong` for too many.
    pub fn new(bytes: impl Into<Bytes>) -> Result<Value, Malformed> {
        let bytes = bytes.into();
        if bytes.len() > LONGEST_VALUE {
            Err(Malformed::TooLong)
        } else {
            Ok(Value(bytes))
        }
    }

    /// Its bytes.
    pub fn bytes(&self) -> &Bytes {
        &self.0
    }

    fn append_to(&self, bytes: &mut Vec<u8>) {
        bytes.extend((self.0.len() as u32).to_be_bytes());
        bytes.extend(&self.0);
    }

    fn read(reader: &mut Reader<'_>) -> Result<Value, Malformed> {
        let length = reader.u32()? as usize;
        if length > LONGEST_VALUE {
            return Err(Malformed::TooLong);
        }
        Ok(Value(Bytes::copy_from_slice(reader.take(length)?)))
    }

    pub(crate) fn append_option(value: Option<&Value>, bytes: &mut Vec<u8>) {
        bytes.push(value.is_some().into());
        if let Some(value) = value {
            value.append_to(bytes);
        }
    }

    pub(crate) fn read_option(reader: &mut Reader<'_>) -> Result<Option<Value>, Malformed> {
        Ok(if reader.presence()? {
            Some(Value::read(reader)?)
        } else {
            None
        })
    }
}

impl fmt::Debug for Value {
    fn fmt(&self, f: &mut fmt::Formatter<'_>) -> fmt::Result {
        write!(f, "Value({})", self.0.escape_ascii())
    }
}

/// What a client asks for. No value and none that was ever put are the same: a deleted key.
#[derive(Clone, Debug, PartialEq, Eq)]
pub enum Command {
    /// The value at this place of the order.
    Get {
        /// Of which key.
        key: Key,
    },
    /// The key has this value from now on.
    Put {
        /// Which key.
        key: Key,
        /// Its value.
        value: Value,
    },
    /// The key has no value from now on.
    Delete {
        /// Which key.
        key: Key,
    },
    /// If the key has what is expected, it becomes `new`; else nothing changes.
    CompareAndSet {
        /// Which key.
        key: Key,
        /// What it has to have.
        expected: Option<Value>,
        /// What it has then.
        new: Option<Value>,
    },
}

impl Command {
    /// The key that it is about.
    pub fn key(&self) -> &Key {
        match self {
            Command::Get { key }
            | Command::Put { key, .. }
            | Command::Delete { key }
            | Command::CompareAndSet { key, .. } => key,
        }
    }

    /// Whether it changes nothing, whatever the state.
    pub fn only_reads(&self) -> bool {
        matches!(self, Command::Get { .. })
    }

    fn append_to(&self, bytes: &mut Vec<u8>) {
        bytes.push(match self {
            Command::Get { .. } => 0,
            Command::Put { .. } => 1,
            Command::Delete { .. } => 2,
            Command::CompareAndSet { .. } => 3,
        });
        self.key().append_to(bytes);
        match self {
            Command::Get { .. } | Command::Delete { .. } => {}
            Command::Put { value, .. } => value.append_to(bytes),
            Command::CompareAndSet { expected, new, .. } => {
                Value::append_option(expected.as_ref(), bytes);
                Value::append_option(new.as_ref(), bytes);
            }
        }
    }

    fn read(reader: &mut Reader<'_>) -> Result<Command, Malformed> {
        let tag = reader.byte()?;
        if tag > 3 {
            return Err(Malformed::Invalid);
        }
        let key = Key::read(reader)?;
        Ok(match tag {
            0 => Command::Get { key },
            1 => Command::Put {
                key,
                value: Value::read(reader)?,
            },
            2 => Command::Delete { key },
            _ => Command::CompareAndSet {
                key,
                expected: Value::read_option(reader)?,
                new: Value::read_option(reader)?,
            },
        })
    }
}

/// The name that a client gave itself: 16 bytes, which it should draw at random.
#[derive(Clone, Copy, PartialEq, Eq, PartialOrd, Ord, Hash)]
pub struct ClientId(pub [u8; 16]);

impl fmt::Debug for ClientId {
    fn fmt(&self, f: &mut fmt::Formatter<'_>) -> fmt::Result {
        write!(f, "ClientId({})", hex::encode(self.0))
    }
}

/// Which request of which client. A client counts its requests from 1 on, and has one under way at a time.
#[derive(Clone, Copy, Debug, PartialEq, Eq, PartialOrd, Ord, Hash)]
pub struct RequestId {
    /// Whose.
    pub client: ClientId,
    /// Which; never 0.
    pub number: u64,
}

/// A command under its client's name and number.
#[derive(Clone, Debug, PartialEq, Eq)]
pub struct Request {
    /// Whose, and which.
    pub id: RequestId,
    /// What is asked for.
    pub command: Command,
}

impl Request {
    /// Appends its spelling.
    pub fn append_to(&self, bytes: &mut Vec<u8>) {
        bytes.extend(self.id.client.0);
        bytes.extend(self.id.number.to_be_bytes());
        self.command.append_to(bytes);
    }

    /// The request that these bytes are exactly.
    ///
    /// # Errors
    ///
    /// The first trouble from the left.
    pub fn of_bytes(bytes: &[u8]) -> Result<Request, Malformed> {
        let mut reader = Reader::new(bytes);
        let request = Request::read(&mut reader)?;
        reader.end()?;
        Ok(request)
    }

    pub(crate) fn read(reader: &mut Reader<'_>) -> Result<Request, Malformed> {
        let client = ClientId(reader.array()?);
        let number = reader.u64()?;
        if number == 0 {
            return Err(Malformed::Invalid);
        }
        let command = Command::read(reader)?;
        Ok(Request {
            id: RequestId { client, number },
            command,
        })
    }

    /// How many bytes its spelling has.
    pub fn length(&self) -> usize {
        let mut bytes = Vec::new();
        self.append_to(&mut bytes);
        bytes.len()
    }

    /// The SHA-256 of its spelling: two commands under one number are told apart by it.
    pub fn digest(&self) -> [u8; 32] {
        let mut bytes = Vec::new();
        self.append_to(&mut bytes);
        let mut hash = [0; 32];
        hash.copy_from_slice(digest(&SHA256, &bytes).as_ref());
        hash
    }
}

#[cfg(test)]
pub(crate) mod tests {
    use super::*;

    pub(crate) fn key(name: &str) -> Key {
        Key::new(name.to_owned()).unwrap()
    }

    pub(crate) fn value(text: &str) -> Value {
        Value::new(text.to_owned()).unwrap()
    }

    pub(crate) fn put(name: &str, text: &str) -> Command {
        Command::Put {
            key: key(name),
            value: value(text),
        }
    }

    pub(crate) fn request(client: u8, number: u64, command: Command) -> Request {
        Request {
            id: RequestId {
                client: ClientId([client; 16]),
                number,
            },
            command,
        }
    }

    pub(crate) fn commands() -> Vec<Command> {
        let cas = |expected: Option<&str>, new: Option<&str>| Command::CompareAndSet {
            key: key("k"),
            expected: expected.map(value),
            new: new.map(value),
        };
        vec![
            Command::Get { key: key("k") },
            put("k", "v"),
            put("k", ""),
            Command::Delete { key: key("k") },
            cas(None, None),
            cas(Some("a"), None),
            cas(None, Some("b")),
            cas(Some("a"), Some("b")),
        ]
    }

    #[test]
    fn a_put_is_spelled_as_the_page_says() {
        let mut bytes = Vec::new();
        request(7, 258, put("ab", "xyz")).append_to(&mut bytes);
        let said = format!(
            "{}000000000000010201{}{}",
            "07".repeat(16),
            "00026162",
            "0000000378797a"
        );
        assert_eq!(hex::encode(bytes), said);
    }

    #[test]
    fn each_request_is_read_as_it_was_spelled_and_no_front_of_it_is() {
        for command in commands() {
            let request = request(1, 9, command);
            let mut bytes = Vec::new();
            request.append_to(&mut bytes);
            assert_eq!(Request::of_bytes(&bytes), Ok(request.clone()));
            assert_eq!(request.length(), bytes.len());
            for cut in 0..bytes.len() {
                assert_eq!(
                    Request::of_bytes(&bytes[..cut]),
                    Err(Malformed::End),
                    "{request:?} cut at {cut}"
                );
            }
            bytes.push(0);
            assert_eq!(Request::of_bytes(&bytes), Err(Malformed::Trailing));
        }
    }

    #[test]
    fn number_nought_and_unknown_tags_are_refused() {
        let mut bytes = Vec::new();
        request(1, 1, put("k", "v")).append_to(&mut bytes);
        let mut nought = bytes.clone();
        nought[23] = 0;
        assert_eq!(Request::of_bytes(&nought), Err(Malformed::Invalid));
        let mut tag = bytes.clone();
        tag[24] = 4;
        assert_eq!(Request::of_bytes(&tag), Err(Malformed::Invalid));
    }

    #[test]
    fn presence_is_one_bit() {
        let mut bytes = Vec::new();
        let command = Command::CompareAndSet {
            key: key("k"),
            expected: None,
            new: None,
        };
        request(1, 1, command).append_to(&mut bytes);
        *bytes.last_mut().unwrap() = 2;
        assert_eq!(Request::of_bytes(&bytes), Err(Malformed::Invalid));
    }

    #[test]
    fn keys_and_values_have_bounds() {
        assert_eq!(Key::new(vec![]), Err(Malformed::Invalid));
        assert!(Key::new(vec![0; LONGEST_KEY]).is_ok());
        assert_eq!(Key::new(vec![0; LONGEST_KEY + 1]), Err(Malformed::TooLong));
        assert!(Value::new(vec![0; LONGEST_VALUE]).is_ok());
        assert_eq!(
            Value::new(vec![0; LONGEST_VALUE + 1]),
            Err(Malformed::TooLong)
        );
        let mut head = vec![1; 23];
        head.push(1);
        let behind = |tail: &[u8]| Request::of_bytes(&[&head, tail].concat());
        assert_eq!(behind(&[0, 0, 0]), Err(Malformed::Invalid));
        assert_eq!(behind(&[0, 2, 1]), Err(Malformed::TooLong));
        assert_eq!(
            behind(&[1, 0, 1, b'k', 0, 1, 0, 1]),
            Err(Malformed::TooLong)
        );
    }

    #[test]
    fn other_commands_under_a_number_have_other_digests() {
        let digests: std::collections::BTreeSet<_> = commands()
            .into_iter()
            .map(|command| request(1, 1, command).digest())
            .collect();
        assert_eq!(digests.len(), commands().len());
    }
}
