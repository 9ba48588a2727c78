//! The binary trie of a family: routes, the kept table's entries, and the best hops of each region.

use crate::addr::{bit, Addr, Family, Prefix};
use crate::candidates::EMPTY;
use crate::hops::{Hop, NONE, NO_HOP};
use crate::ortc::{Best, Lists};

/// The place of the whole space's node.
pub const ROOT: u32 = 0;

/// Where a half has no node. The root is no half.
pub const NO_NODE: u32 = 0;

/// A region of addresses, in which a prefix has a route, an entry or candidates, or that has such a region within it.
#[derive(Clone, Copy)]
pub struct Node {
    pub halves: [u32; 2],
    /// The list of the prefix's candidates.
    pub candidates: u32,
    pub best: Best,
    /// The hop of the prefix's route, or `NO_HOP`.
    pub route: Hop,
    /// The hop of the kept table's entry at the prefix, or `NO_HOP`.
    pub entry: Hop,
    /// Whether best hops at the node or below it changed since the entries there were found.
    pub dirty: bool,
}

impl Node {
    fn new(best: Best) -> Node {
        Node {
            halves: [NO_NODE; 2],
            candidates: EMPTY,
            best,
            route: NO_HOP,
            entry: NO_HOP,
            dirty: false,
        }
    }

    /// The hop of addresses of this region that no longer route matches, of which above it is this one.
    pub fn routed(&self, above: Hop) -> Hop {
        if self.route == NO_HOP {
            above
        } else {
            self.route
        }
    }

    pub fn half(&self, bit: bool) -> Option<u32> {
        let half = self.halves[usize::from(bit)];
        (half != NO_NODE).then_some(half)
    }
}

/// The nodes of a family's regions, in one array.
pub struct Trie {
    pub family: Family,
    pub nodes: Vec<Node>,
    pub lists: Lists,
}

impl Trie {
    pub fn new(family: Family) -> Trie {
        Trie {
            family,
            nodes: vec![Node::new(Best::Uniform(NONE))],
            lists: Lists::default(),
        }
    }

    pub fn node(&self, at: u32) -> &Node {
        &self.nodes[at as usize]
    }

    pub fn node_mut(&mut self, at: u32) -> &mut Node {
        &mut self.nodes[at as usize]
    }

    /// The node of a prefix, if there is one.
    pub fn find(&self, prefix: &Prefix) -> Option<u32> {
        let mut at = ROOT;
        for depth in 0..prefix.len {
            at = self.node(at).half(prefix.bit(depth))?;
        }
        Some(at)
    }

    /// The node of a prefix, which is made if there is none.
    pub fn find_or_make(&mut self, prefix: &Prefix) -> u32 {
        let (mut at, mut routed) = (ROOT, NONE);
        for depth in 0..prefix.len {
            routed = self.node(at).routed(routed);
            let bit = prefix.bit(depth);
            at = match self.node(at).half(bit) {
                Some(half) => half,
                None => self.make_half(at, bit, routed),
            };
        }
        at
    }

    /// Makes a half's node, all of whose addresses go to this hop.
    pub fn make_half(&mut self, at: u32, bit: bool, routed: Hop) -> u32 {
        let half = self.nodes.len() as u32;
        self.nodes.push(Node::new(Best::Uniform(routed)));
        self.node_mut(at).halves[usize::from(bit)] = half;
        half
    }

    /// What is best for a half of a region where this hop is inherited from routes.
    pub fn best_of_half(&self, at: u32, bit: bool, routed: Hop) -> Best {
        match self.node(at).half(bit) {
            Some(half) => self.node(half).best,
            None => Best::Uniform(routed),
        }
    }

    /// Finds anew what is best for a region by its halves, and tells whether that was something else.
    pub fn rejoin(&mut self, at: u32, routed: Hop) -> bool {
        let low = self.best_of_half(at, false, routed);
        let high = self.best_of_half(at, true, routed);
        self.lists
            .join(low, high, &mut self.nodes[at as usize].best)
    }

    /// Finds what is best for all regions, and has all entries to be found.
    pub fn join_all(&mut self, at: u32, above: Hop) {
        let node = self.node_mut(at);
        node.dirty = true;
        let (routed, halves) = (node.routed(above), node.halves);
        for half in halves.into_iter().filter(|&half| half != NO_NODE) {
            self.join_all(half, routed);
        }
        self.rejoin(at, routed);
    }

    /// Goes through the nodes in the order of prefixes.
    pub fn each<F: FnMut(&Prefix, &Node)>(&self, mut visit: F) {
        let whole = Prefix::whole(self.family);
        self.each_within(ROOT, &whole, &mut visit);
    }

    fn each_within<F: FnMut(&Prefix, &Node)>(&self, at: u32, prefix: &Prefix, visit: &mut F) {
        let node = self.node(at);
        visit(prefix, node);
        for bit in [false, true] {
            if let Some(half) = node.half(bit) {
                self.each_within(half, &prefix.half(bit), visit);
            }
        }
    }

    /// The hop of an address by the longest route that matches it.
    pub fn answer(&self, addr: Addr) -> Hop {
        let bits = addr.bits();
        let mut node = self.node(ROOT);
        let mut hop = node.routed(NONE);
        for depth in 0..self.family.width() {
            let Some(half) = node.half(bit(bits, depth)) else {
                break;
            };
            node = self.node(half);
            hop = node.routed(hop);
        }
        hop
    }
}
