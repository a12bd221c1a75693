use super::Payload;

/// Why no value was read: the first trouble from the left.
#[derive(Clone, Copy, Debug, PartialEq, Eq)]
pub enum Trouble {
    /// The bytes end within a value.
    End,
    /// A byte or a value can't stand there.
    Invalid,
    /// A count is above its bound.
    TooLong,
}

impl std::fmt::Display for Trouble {
    fn fmt(&self, f: &mut std::fmt::Formatter<'_>) -> std::fmt::Result {
        f.write_str(match self {
            Trouble::End => "the bytes end within a value",
            Trouble::Invalid => "a byte or a value can't stand there",
            Trouble::TooLong => "a count is above its bound",
        })
    }
}

impl std::error::Error for Trouble {}

/// Bytes that are read from left to right.
#[derive(Clone, Debug)]
pub struct Reader<'a> {
    bytes: &'a [u8],
    place: usize,
}

impl<'a> Reader<'a> {
    /// Reads from the front of these bytes.
    pub fn new(bytes: &'a [u8]) -> Reader<'a> {
        Reader { bytes, place: 0 }
    }

    /// How many bytes were read.
    pub fn place(&self) -> usize {
        self.place
    }

    /// Whether all bytes were read.
    pub fn is_at_end(&self) -> bool {
        self.place == self.bytes.len()
    }

    /// Takes so many bytes.
    ///
    /// # Errors
    ///
    /// [`Trouble::End`] where there are fewer. All readings have this one, and those of their values.
    pub fn take(&mut self, count: usize) -> Result<&'a [u8], Trouble> {
        let end = self.place.checked_add(count).ok_or(Trouble::End)?;
        let taken = self.bytes.get(self.place..end).ok_or(Trouble::End)?;
        self.place = end;
        Ok(taken)
    }

    /// Takes all bytes that are left.
    pub fn rest(&mut self) -> &'a [u8] {
        let rest = &self.bytes[self.place..];
        self.place = self.bytes.len();
        rest
    }

    /// Takes as many bytes as the array has.
    pub fn array<const N: usize>(&mut self) -> Result<[u8; N], Trouble> {
        let taken = self.take(N)?;
        Ok(taken.try_into().expect("as many bytes as were asked for"))
    }

    /// A payload, or another 32 bytes.
    pub fn payload(&mut self) -> Result<Payload, Trouble> {
        self.array()
    }

    /// One byte.
    pub fn byte(&mut self) -> Result<u8, Trouble> {
        Ok(self.take(1)?[0])
    }

    /// A byte that is one of so many.
    pub fn one_of(&mut self, count: u8) -> Result<u8, Trouble> {
        let byte = self.byte()?;
        if byte < count {
            Ok(byte)
        } else {
            Err(Trouble::Invalid)
        }
    }

    /// A truth value.
    pub fn truth(&mut self) -> Result<bool, Trouble> {
        Ok(self.one_of(2)? == 1)
    }

    /// A number of 64 bits.
    pub fn number(&mut self) -> Result<u64, Trouble> {
        self.bits(64)
    }

    /// An index, or another number of 32 bits.
    pub fn index(&mut self) -> Result<u32, Trouble> {
        let number = self.bits(32)?;
        Ok(number.try_into().expect("a number of 32 bits"))
    }

    fn bits(&mut self, bits: u32) -> Result<u64, Trouble> {
        let mut number = 0;
        let mut shift = 0;
        loop {
            let byte = self.byte()?;
            let group = u64::from(byte & 127);
            let room = bits - shift;
            let last = room <= 7;
            let too_great = last && (byte > 127 || group >> room != 0);
            if too_great || (byte == 0 && shift > 0) {
                return Err(Trouble::Invalid);
            }
            number |= group << shift;
            if byte < 128 {
                return Ok(number);
            }
            shift += 7;
        }
    }
}
