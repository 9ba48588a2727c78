//! Numbers, addresses and prefixes as text.

use crate::addr::{Addr, Family, Prefix};

/// Adds a number in decimal.
pub fn number(out: &mut Vec<u8>, mut number: u64) {
    let mut digits = [0; 20];
    let mut at = digits.len();
    loop {
        at -= 1;
        digits[at] = b'0' + (number % 10) as u8;
        number /= 10;
        if number == 0 {
            break;
        }
    }
    out.extend_from_slice(&digits[at..]);
}

/// The decimal digits of each octet, behind how many there are.
const OCTETS: [[u8; 4]; 256] = octets();

const fn octets() -> [[u8; 4]; 256] {
    let mut all = [[0; 4]; 256];
    let mut n = 0;
    while n < 256 {
        let (hundreds, tens, ones) = (
            b'0' + (n / 100) as u8,
            b'0' + (n / 10 % 10) as u8,
            b'0' + (n % 10) as u8,
        );
        all[n] = if n >= 100 {
            [3, hundreds, tens, ones]
        } else if n >= 10 {
            [2, tens, ones, 0]
        } else {
            [1, ones, 0, 0]
        };
        n += 1;
    }
    all
}

/// Writes an octet in decimal into a line, and tells the place behind it.
fn octet(line: &mut [u8], at: usize, octet: u8) -> usize {
    let [count, digits @ ..] = OCTETS[usize::from(octet)];
    line[at..at + 3].copy_from_slice(&digits);
    at + usize::from(count)
}

/// Adds an IPv4 address: four decimal numbers.
fn ipv4(out: &mut Vec<u8>, bits: u32) {
    let [a, b, c, d] = bits.to_be_bytes();
    let mut line = [b'.'; 18];
    let mut at = octet(&mut line, 0, a);
    for next in [b, c, d] {
        line[at] = b'.';
        at = octet(&mut line, at + 1, next);
    }
    out.extend_from_slice(&line[..at]);
}

/// The longest run of at least two groups that are 0, the first of equal ones: its start and its end.
fn zeros(groups: &[u16; 8]) -> (usize, usize) {
    let (mut best, mut start) = ((8, 8), 0);
    for end in 1..=8 {
        if groups[end - 1] != 0 {
            start = end;
        } else if end - start >= 2 && end - start > best.1 - best.0 {
            best = (start, end);
        }
    }
    best
}

/// Adds a group in hexadecimal without leading zeros.
fn group(out: &mut Vec<u8>, group: u16) {
    const DIGITS: &[u8; 16] = b"0123456789abcdef";
    let count = (16 - (group | 1).leading_zeros()).div_ceil(4);
    for place in (0..count).rev() {
        out.push(DIGITS[usize::from(group >> (4 * place) & 15)]);
    }
}

/// Adds an IPv6 address by RFC 5952, section 4, without a dotted part.
fn ipv6(out: &mut Vec<u8>, bits: u128) {
    let groups: [u16; 8] = std::array::from_fn(|i| (bits >> (112 - 16 * i)) as u16);
    let (start, end) = zeros(&groups);
    for (i, &next) in groups[..start].iter().enumerate() {
        if i > 0 {
            out.push(b':');
        }
        group(out, next);
    }
    if start == 8 {
        return;
    }
    out.extend_from_slice(b"::");
    for (i, &next) in groups[end..].iter().enumerate() {
        if i > 0 {
            out.push(b':');
        }
        group(out, next);
    }
}

/// Adds an address.
pub fn addr(out: &mut Vec<u8>, addr: Addr) {
    match addr {
        Addr::V4(bits) => ipv4(out, bits),
        Addr::V6(bits) => ipv6(out, bits),
    }
}

/// Adds a prefix: its least address, a slash and its length.
pub fn prefix(out: &mut Vec<u8>, prefix: &Prefix) {
    match prefix.family {
        Family::V4 => ipv4(out, (prefix.bits >> 96) as u32),
        Family::V6 => ipv6(out, prefix.bits),
    }
    out.push(b'/');
    number(out, u64::from(prefix.len));
}

#[cfg(test)]
mod tests {
    use super::*;

    fn of(text: &str) -> String {
        let mut out = Vec::new();
        addr(&mut out, Addr::parse(text).expect("an address"));
        String::from_utf8(out).expect("ASCII")
    }

    #[test]
    fn addresses_are_written_as_they_are_read() {
        for text in [
            "0.0.0.0",
            "10.1.20.255",
            "::",
            "::1",
            "1::",
            "2001:db8::1",
            "1:0:2:3::",
            "1:0:2:3:4:5:6:7",
        ] {
            assert_eq!(of(text), text);
        }
    }

    #[test]
    fn the_first_of_the_longest_runs_is_left_out() {
        assert_eq!(of("1:0:0:2:0:0:3:4"), "1::2:0:0:3:4");
        assert_eq!(of("1:0:0:2:0:0:0:4"), "1:0:0:2::4");
        assert_eq!(of("::FFFF:1:2"), "::ffff:1:2");
    }

    #[test]
    fn numbers_are_decimal() {
        let mut out = Vec::new();
        for next in [0, 9, 10, u64::MAX] {
            number(&mut out, next);
            out.push(b' ');
        }
        assert_eq!(out, b"0 9 10 18446744073709551615 ");
    }
}
