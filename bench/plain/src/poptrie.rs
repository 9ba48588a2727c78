//! What a Poptrie of the routes needs, and how far a look-up goes in it (Asai and Ohara, 'Poptrie: A Compressed Trie with
//! Population Count for Fast and Scalable Software IP Routing Table Lookup', SIGCOMM 2015).
//!
//! The first bits of an address choose a direct word. Where a region of direct words' bits, or of six bits more at a time, isn't
//! uniform it has a node with 64 slots. The node's children lie side by side, and so do its leaves, each of which stands for a run
//! of slots with one hop.

use crate::addr::{bit, Addr};
use crate::hops::{Hop, NONE};
use crate::trie::{Trie, ROOT};

const STRIDE: u8 = 6;

/// How many places are needed.
#[derive(Clone, Copy, Default)]
pub struct Need {
    pub nodes: u64,
    pub leaves: u64,
}

impl std::ops::AddAssign for Need {
    fn add_assign(&mut self, other: Need) {
        self.nodes += other.nodes;
        self.leaves += other.leaves;
    }
}

/// What a node's slots met so far come to.
#[derive(Default)]
struct Slots {
    children: u64,
    runs: u64,
    /// The hop of the last run.
    last: Option<Hop>,
}

impl Slots {
    fn leaf(&mut self, hop: Hop) {
        if self.last != Some(hop) {
            self.last = Some(hop);
            self.runs += 1;
        }
    }

    /// The places of both rows: of each the least power of two that is at least its length.
    fn need(&self) -> Need {
        let row = |count: u64| {
            if count == 0 {
                0
            } else {
                count.next_power_of_two()
            }
        };
        Need {
            nodes: row(self.children),
            leaves: row(self.runs),
        }
    }
}

impl Trie {
    /// What a Poptrie with so many direct bits needs.
    pub fn need(&self, direct: u8) -> Need {
        let mut need = Need::default();
        self.add_direct(ROOT, NONE, direct, &mut need);
        need
    }

    /// Adds the needs of the direct words of a region.
    fn add_direct(&self, at: u32, above: Hop, left: u8, need: &mut Need) {
        let node = self.node(at);
        if node.best.uniform().is_some() {
            return;
        }
        let routed = node.routed(above);
        if left == 0 {
            need.nodes += 1;
            self.add_node(at, routed, need);
            return;
        }
        for half in [false, true].into_iter().filter_map(|bit| node.half(bit)) {
            self.add_direct(half, routed, left - 1, need);
        }
    }

    /// Adds what a node's rows need, and those of the nodes below it.
    fn add_node(&self, at: u32, routed: Hop, need: &mut Need) {
        let mut slots = Slots::default();
        self.add_slots(at, routed, STRIDE, &mut slots, need);
        *need += slots.need();
    }

    /// Adds the slots of a region that isn't uniform.
    fn add_slots(&self, at: u32, routed: Hop, left: u8, slots: &mut Slots, need: &mut Need) {
        if left == 0 {
            slots.children += 1;
            self.add_node(at, routed, need);
            return;
        }
        for bit in [false, true] {
            let Some(half) = self.node(at).half(bit) else {
                slots.leaf(routed);
                continue;
            };
            let node = self.node(half);
            match node.best.uniform() {
                Some(hop) => slots.leaf(hop),
                None => self.add_slots(half, node.routed(routed), left - 1, slots, need),
            }
        }
    }

    /// How many nodes a look-up of an address visits: of its regions of the direct bits, and of six bits more at a time, those
    /// that aren't uniform.
    pub fn visits(&self, addr: Addr, direct: u8) -> u64 {
        let bits = addr.bits();
        let (mut at, mut visits) = (ROOT, 0);
        for depth in 0..self.family.width() {
            let node = self.node(at);
            if node.best.uniform().is_some() {
                break;
            }
            if depth >= direct && (depth - direct).is_multiple_of(STRIDE) {
                visits += 1;
            }
            match node.half(bit(bits, depth)) {
                Some(half) => at = half,
                None => break,
            }
        }
        visits
    }
}
