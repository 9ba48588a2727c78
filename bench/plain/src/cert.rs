//! The certificate that a least table is least, as rows.

use crate::addr::{Family, Prefix};
use crate::hops::{Hop, NONE};
use crate::rows::Writer;
use crate::text;
use crate::trie::ROOT;
use std::io::{self, Write};

impl<W: Write> Writer<'_, W> {
    /// The rows of the certificate: a leaf for each greatest uniform region, a join for each region above them, behind its halves,
    /// with the number of entries that it costs; and the bound of the family.
    pub fn cert_rows(&mut self) -> io::Result<()> {
        let whole = Prefix::whole(self.trie.family);
        let cost = self.cert_within(ROOT, &whole, NONE)?;
        let root = &self.trie.node(ROOT).best;
        let bound = cost + u64::from(!self.trie.lists.has(root, NONE));
        let kind: &[u8] = match self.trie.family {
            Family::V4 => b"cert,bound,4,",
            Family::V6 => b"cert,bound,6,",
        };
        self.rows.count(kind, bound)
    }

    /// The rows of a region, and what it costs under its best hops.
    fn cert_within(&mut self, at: u32, prefix: &Prefix, above: Hop) -> io::Result<u64> {
        let trie = self.trie;
        let node = trie.node(at);
        if let Some(hop) = node.best.uniform() {
            self.leaf_row(prefix, hop)?;
            return Ok(0);
        }
        let routed = node.routed(above);
        let mut cost = 0;
        for bit in [false, true] {
            match node.half(bit) {
                Some(half) => cost += self.cert_within(half, &prefix.half(bit), routed)?,
                None => self.leaf_row(&prefix.half(bit), routed)?,
            }
        }
        // A hop that is best for the region is best for both halves, or none is.
        let hop = trie.lists.least(&node.best);
        let both = [false, true]
            .into_iter()
            .all(|bit| trie.lists.has(&trie.best_of_half(at, bit, routed), hop));
        cost += u64::from(!both);
        let row = self.rows.row();
        row.extend_from_slice(b"cert,join,");
        text::prefix(row, prefix);
        row.push(b',');
        text::number(row, cost);
        self.rows.end()?;
        Ok(cost)
    }

    fn leaf_row(&mut self, prefix: &Prefix, hop: Hop) -> io::Result<()> {
        self.rows
            .entry(b"cert,leaf,", prefix, self.hops.text(hop, b"none"))
    }
}
