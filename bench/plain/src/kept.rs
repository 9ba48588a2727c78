//! The kept table: small, and changed little by each event (after Uzmi et al., 'SMALTA: Practical and Near-Optimal FIB
//! Aggregation', CoNEXT 2011).
//!
//! The table is least after a snapshot. An event that changes the route of a prefix is followed by a repair: the table's entries
//! within the prefix become those that the downward pass of ORTC gives there, under the hop that the table has above it. A
//! snapshot is that pass over all. A pass goes only where something changed: a region stays as it is if the best hops within it
//! are as they were when its entries were found, and it inherits what it inherited.

use crate::addr::Prefix;
use crate::hops::{Hop, Hops, NONE, NO_HOP};
use crate::ortc::Best;
use crate::text;
use crate::trie::{Trie, ROOT};

/// The changes of the kept table as text, in their order.
#[derive(Default)]
pub struct Changes {
    pub text: Vec<u8>,
    /// The number of the event at hand.
    pub event: u64,
}

impl Changes {
    /// Adds a change from the old hop of an entry to the new one.
    fn add(&mut self, prefix: &Prefix, old: Hop, new: Hop, hops: &Hops) {
        let sign = match (old, new) {
            (NO_HOP, _) => b'+',
            (_, NO_HOP) => b'-',
            _ => b'=',
        };
        self.text.extend_from_slice(b"change,");
        text::number(&mut self.text, self.event);
        self.text.extend_from_slice(&[b',', sign, b',']);
        text::prefix(&mut self.text, prefix);
        if new != NO_HOP {
            self.text.push(b',');
            self.text.extend_from_slice(hops.text(new, b"drop"));
        }
        self.text.push(b'\n');
    }
}

/// What a region inherits.
#[derive(Clone, Copy)]
pub struct Above {
    /// From the routes.
    pub routed: Hop,
    /// From the table, as its entries were.
    pub old: Hop,
    /// From the table, as they are.
    pub new: Hop,
}

impl Above {
    /// What the whole space inherits.
    pub const ALL: Above = Above {
        routed: NONE,
        old: NONE,
        new: NONE,
    };
}

/// An entry's hop, or without one what is inherited.
fn or(entry: Hop, above: Hop) -> Hop {
    if entry == NO_HOP {
        above
    } else {
        entry
    }
}

impl Trie {
    /// The entry of a region that inherits a hop: none where that is best, else with the old entry's hop where that is best, else
    /// with the least of the best hops.
    pub fn own_entry(&self, best: &Best, old: Hop, above: Hop) -> Hop {
        if self.lists.has(best, above) {
            NO_HOP
        } else if old != NO_HOP && self.lists.has(best, old) {
            old
        } else {
            self.lists.least(best)
        }
    }

    /// The pass over the whole space.
    pub fn snapshot(&mut self, hops: &Hops, changes: &mut Changes) {
        let whole = Prefix::whole(self.family);
        self.renew(ROOT, &whole, Above::ALL, hops, changes);
    }

    /// The pass over a region.
    fn renew(
        &mut self,
        at: u32,
        prefix: &Prefix,
        above: Above,
        hops: &Hops,
        changes: &mut Changes,
    ) {
        let node = self.node(at);
        if !node.dirty && above.old == above.new {
            return;
        }
        let routed = node.routed(above.routed);
        let old = node.entry;
        let new = self.own_entry(&node.best, old, above.new);
        if new != old {
            changes.add(prefix, old, new, hops);
        }
        let node = self.node_mut(at);
        node.dirty = false;
        node.entry = new;
        let below = Above {
            routed,
            old: or(old, above.old),
            new: or(new, above.new),
        };
        for bit in [false, true] {
            match self.node(at).half(bit) {
                Some(half) => self.renew(half, &prefix.half(bit), below, hops, changes),
                None if routed != below.new => {
                    let half = self.make_half(at, bit, routed);
                    self.node_mut(half).entry = routed;
                    changes.add(&prefix.half(bit), NO_HOP, routed, hops);
                }
                None => {}
            }
        }
    }

    /// Sets the route of a prefix that has a node, or with `NO_HOP` takes it away, and repairs the table.
    pub fn set_route(&mut self, prefix: &Prefix, route: Hop, hops: &Hops, changes: &mut Changes) {
        let mut way = [(ROOT, NONE); 128];
        let (mut at, mut above) = (ROOT, Above::ALL);
        for depth in 0..prefix.len {
            let node = self.node(at);
            above.routed = node.routed(above.routed);
            above.old = or(node.entry, above.old);
            way[usize::from(depth)] = (at, above.routed);
            at = node.halves[usize::from(prefix.bit(depth))];
        }
        above.new = above.old;
        let node = self.node_mut(at);
        let before = node.routed(above.routed);
        node.route = route;
        let after = node.routed(above.routed);
        let changed = before != after && self.reroute(at, after);
        self.renew(at, prefix, above, hops, changes);
        if changed {
            self.rejoin_above(&way[..usize::from(prefix.len)]);
        }
    }

    /// Finds anew what is best for a region, after the route that is inherited there changed; tells whether that was something
    /// else.
    fn reroute(&mut self, at: u32, routed: Hop) -> bool {
        for bit in [false, true] {
            if let Some(half) = self.node(at).half(bit) {
                if self.node(half).route == NO_HOP {
                    self.reroute(half, routed);
                }
            }
        }
        self.node_mut(at).dirty = true;
        self.rejoin(at, routed)
    }

    /// Finds anew what is best for the regions on a way, from the last one up as far as that changes.
    fn rejoin_above(&mut self, way: &[(u32, Hop)]) {
        let Some(&(last, routed)) = way.last() else {
            return;
        };
        if !self.rejoin(last, routed) {
            return;
        }
        for &(at, _) in way {
            self.node_mut(at).dirty = true;
        }
        for &(at, routed) in way.iter().rev().skip(1) {
            if !self.rejoin(at, routed) {
                return;
            }
        }
    }
}
