//! Next hops and their numbers.

use crate::addr::Addr;
use crate::hash::Map;
use crate::text;

/// The number of a next hop, from 1 in the order of their first use; 0 is none, and an entry with it drops.
pub type Hop = u16;

/// The number that stands where there is no route, or no entry.
pub const NO_HOP: Hop = Hop::MAX;

/// The number of the hop of addresses that have no route.
pub const NONE: Hop = 0;

const MOST: usize = 65_534;

/// All next hops, by their addresses and by their numbers.
#[derive(Default)]
pub struct Hops {
    numbers: Map<Addr, Hop>,
    /// The text of each hop; hop 1 is at place 0.
    texts: Vec<Box<[u8]>>,
}

impl Hops {
    /// The number of an address; a new one gets the next, as long as there are any.
    pub fn number(&mut self, addr: Addr) -> Option<Hop> {
        if let Some(&hop) = self.numbers.get(&addr) {
            return Some(hop);
        }
        if self.texts.len() == MOST {
            return None;
        }
        let mut text = Vec::new();
        text::addr(&mut text, addr);
        self.texts.push(text.into());
        let hop = self.texts.len() as Hop;
        self.numbers.insert(addr, hop);
        Some(hop)
    }

    /// The text of a hop, or this one of none.
    pub fn text<'a>(&'a self, hop: Hop, none: &'a [u8]) -> &'a [u8] {
        if hop == NONE {
            none
        } else {
            &self.texts[usize::from(hop) - 1]
        }
    }
}
