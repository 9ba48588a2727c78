//! Addresses and prefixes of both families.

/// IPv4 (RFC 791) or IPv6 (RFC 4291).
#[derive(Clone, Copy, PartialEq, Eq, PartialOrd, Ord, Hash, Debug)]
pub enum Family {
    V4,
    V6,
}

impl Family {
    /// Both, in the order in which they are printed.
    pub const BOTH: [Family; 2] = [Family::V4, Family::V6];

    /// How many bits an address has.
    pub fn width(self) -> u8 {
        match self {
            Family::V4 => 32,
            Family::V6 => 128,
        }
    }

    /// Its place in a pair that has one thing for each family.
    pub fn index(self) -> usize {
        self as usize
    }
}

/// An address. IPv4 comes before IPv6 in its order.
#[derive(Clone, Copy, PartialEq, Eq, PartialOrd, Ord, Hash, Debug)]
pub enum Addr {
    V4(u32),
    V6(u128),
}

impl Addr {
    pub fn family(self) -> Family {
        match self {
            Addr::V4(_) => Family::V4,
            Addr::V6(_) => Family::V6,
        }
    }

    /// Its bits, the first of them the highest of the number.
    pub fn bits(self) -> u128 {
        match self {
            Addr::V4(bits) => u128::from(bits) << 96,
            Addr::V6(bits) => bits,
        }
    }

    /// Reads an address: four decimal numbers without leading zeros, or the groups of RFC 4291, section 2.2, without a dotted
    /// part.
    pub fn parse(text: &str) -> Option<Addr> {
        if text.contains(':') {
            if text.contains('.') {
                return None;
            }
            let addr: std::net::Ipv6Addr = text.parse().ok()?;
            Some(Addr::V6(addr.into()))
        } else {
            let addr: std::net::Ipv4Addr = text.parse().ok()?;
            Some(Addr::V4(addr.into()))
        }
    }
}

/// A prefix; the bits past its length are 0.
#[derive(Clone, Copy, PartialEq, Eq, Debug)]
pub struct Prefix {
    pub family: Family,
    /// Its bits, the first of them the highest of the number, whatever the family.
    pub bits: u128,
    pub len: u8,
}

impl Prefix {
    /// The prefix of all addresses of a family.
    pub fn whole(family: Family) -> Prefix {
        Prefix {
            family,
            bits: 0,
            len: 0,
        }
    }

    /// The bit at a place, from 0.
    pub fn bit(&self, at: u8) -> bool {
        bit(self.bits, at)
    }

    /// The half of its region whose next bit this is.
    pub fn half(&self, bit: bool) -> Prefix {
        Prefix {
            family: self.family,
            bits: self.bits | u128::from(bit) << (127 - self.len),
            len: self.len + 1,
        }
    }
}

/// The bit of a number at a place, from 0 for the highest.
pub fn bit(bits: u128, at: u8) -> bool {
    bits >> (127 - at) & 1 == 1
}
