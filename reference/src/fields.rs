//! What graph files and messages have in common: an outer length, a version,
//! and fields that are read from the front.

use crate::refusal::Refusal;

pub const VERSION: u8 = 1;

/// The bytes that are still to be read. Bytes ending before a field give 1.
pub struct Fields<'a> {
    rest: &'a [u8],
}

impl<'a> Fields<'a> {
    /// "Two bytes: count of the bytes after them", compared at full width.
    pub fn after_outer_length(bytes: &'a [u8]) -> Result<Self, Refusal> {
        let mut fields = Fields { rest: bytes };
        if usize::from(fields.take_u16()?) != fields.rest.len() {
            return Err(Refusal::Length);
        }
        Ok(fields)
    }

    pub fn take(&mut self, len: usize) -> Result<&'a [u8], Refusal> {
        let (field, rest) = self.rest.split_at_checked(len).ok_or(Refusal::Length)?;
        self.rest = rest;
        Ok(field)
    }

    pub fn take_u8(&mut self) -> Result<u8, Refusal> {
        Ok(self.take(1)?[0])
    }

    pub fn take_u16(&mut self) -> Result<u16, Refusal> {
        let field = self.take(2)?;
        Ok(u16::from_be_bytes([field[0], field[1]]))
    }

    pub fn take_version(&mut self) -> Result<(), Refusal> {
        match self.take_u8()? {
            VERSION => Ok(()),
            _ => Err(Refusal::Version),
        }
    }

    pub fn take_in_range(&mut self, least: u8, most: u8) -> Result<u8, Refusal> {
        let field = self.take_u8()?;
        if (least..=most).contains(&field) {
            Ok(field)
        } else {
            Err(Refusal::Range)
        }
    }

    /// Bytes short or left over.
    pub fn expect_left(&self, len: usize) -> Result<(), Refusal> {
        if self.rest.len() == len {
            Ok(())
        } else {
            Err(Refusal::Length)
        }
    }
}

/// Puts "count of the bytes after them" in front.
pub fn with_outer_length(after: &[u8]) -> Vec<u8> {
    let mut bytes = (after.len() as u16).to_be_bytes().to_vec();
    bytes.extend(after);
    bytes
}
