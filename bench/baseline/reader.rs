//! The parts that all byte formats have.

/// Reads from the place on. Whatever is cut off or wrongly spelled is `None`.
pub struct Reader<'a> {
    pub input: &'a [u8],
    pub place: usize,
}

impl<'a> Reader<'a> {
    #[inline]
    pub fn varint(&mut self) -> Option<u64> {
        let mut value = 0;
        for shift in (0..u64::BITS).step_by(7) {
            let byte = self.byte()?;
            let group = u64::from(byte & 0x7f);
            // The tenth byte has room for one bit only, and none may follow it.
            if shift == 63 && byte > 1 {
                return None;
            }
            value |= group << shift;
            if byte < 0x80 {
                // A last group of zero could have been left out.
                let shortest = byte != 0 || shift == 0;
                return shortest.then_some(value);
            }
        }
        None
    }

    #[inline]
    pub fn byte(&mut self) -> Option<u8> {
        let byte = *self.input.get(self.place)?;
        self.place += 1;
        Some(byte)
    }

    #[inline]
    pub fn array<const LENGTH: usize>(&mut self) -> Option<&'a [u8; LENGTH]> {
        let array = self.input[self.place..].first_chunk()?;
        self.place += LENGTH;
        Some(array)
    }
}
