//! Fields read from the front of octets.

use crate::addr::{Addr, Family, Prefix};

/// Why an input can't be read.
#[derive(Debug)]
pub struct Malformed(pub &'static str);

pub type Read<T> = Result<T, Malformed>;

/// Octets that are read from the front; a field that isn't there whole is an error.
#[derive(Clone, Copy)]
pub struct Octets<'a>(pub &'a [u8]);

impl<'a> Octets<'a> {
    pub fn is_empty(&self) -> bool {
        self.0.is_empty()
    }

    /// The next octets, so many.
    pub fn take(&mut self, count: usize) -> Read<&'a [u8]> {
        if self.0.len() < count {
            return Err(Malformed("a field is cut"));
        }
        let (front, rest) = self.0.split_at(count);
        self.0 = rest;
        Ok(front)
    }

    fn array<const N: usize>(&mut self) -> Read<[u8; N]> {
        let (front, rest) = self
            .0
            .split_first_chunk()
            .ok_or(Malformed("a field is cut"))?;
        self.0 = rest;
        Ok(*front)
    }

    pub fn u8(&mut self) -> Read<u8> {
        Ok(self.array::<1>()?[0])
    }

    pub fn u16(&mut self) -> Read<u16> {
        Ok(u16::from_be_bytes(self.array()?))
    }

    pub fn u32(&mut self) -> Read<u32> {
        Ok(u32::from_be_bytes(self.array()?))
    }

    /// What stands behind its length in two octets.
    pub fn behind_u16(&mut self) -> Read<&'a [u8]> {
        let count = self.u16()?;
        self.take(usize::from(count))
    }

    /// An address of this family.
    pub fn addr(&mut self, family: Family) -> Read<Addr> {
        Ok(match family {
            Family::V4 => Addr::V4(self.u32()?),
            Family::V6 => Addr::V6(u128::from_be_bytes(self.array()?)),
        })
    }

    /// The number of an autonomous system, in four octets or in two.
    pub fn asn(&mut self, wide: bool) -> Read<u32> {
        if wide {
            self.u32()
        } else {
            Ok(u32::from(self.u16()?))
        }
    }

    /// A prefix (RFC 4271, section 4.3): its length, then the octets that hold it. Bits past the length have no meaning.
    pub fn prefix(&mut self, family: Family) -> Read<Prefix> {
        let len = self.u8()?;
        if len > family.width() {
            return Err(Malformed("a prefix is too long"));
        }
        let held = self.take(usize::from(len).div_ceil(8))?;
        let mut octets = [0; 16];
        octets[..held.len()].copy_from_slice(held);
        let mask = !u128::MAX.checked_shr(u32::from(len)).unwrap_or(0);
        let bits = u128::from_be_bytes(octets) & mask;
        Ok(Prefix { family, bits, len })
    }

    /// An entry of NLRI: a prefix, with its path identifier before it where the list has them (RFC 7911, section 3).
    pub fn nlri(&mut self, family: Family, with_ids: bool) -> Read<(u32, Prefix)> {
        let id = if with_ids { self.u32()? } else { 0 };
        Ok((id, self.prefix(family)?))
    }
}

/// The family of an Address Family Identifier, if it is IPv4 or IPv6.
pub fn family_of(afi: u16) -> Option<Family> {
    match afi {
        1 => Some(Family::V4),
        2 => Some(Family::V6),
        _ => None,
    }
}
