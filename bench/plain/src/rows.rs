//! The rows of a text, and those of routes and tables.

use crate::addr::Prefix;
use crate::hops::{Hop, Hops, NONE, NO_HOP};
use crate::text;
use crate::trie::{Node, Trie, ROOT};
use std::io::{self, Write};

const PIECE: usize = 1 << 16;

/// Rows that are written out piece by piece.
pub struct Rows<W: Write> {
    out: W,
    text: Vec<u8>,
}

impl<W: Write> Rows<W> {
    pub fn new(out: W) -> Self {
        Rows {
            out,
            text: Vec::with_capacity(PIECE + 256),
        }
    }

    /// The text to which a row is added, and then its end.
    pub fn row(&mut self) -> &mut Vec<u8> {
        &mut self.text
    }

    /// Ends a row.
    pub fn end(&mut self) -> io::Result<()> {
        self.text.push(b'\n');
        if self.text.len() >= PIECE {
            self.flush()?;
        }
        Ok(())
    }

    pub fn flush(&mut self) -> io::Result<()> {
        self.out.write_all(&self.text)?;
        self.text.clear();
        Ok(())
    }

    /// Adds rows that are text already.
    pub fn whole(&mut self, rows: &[u8]) -> io::Result<()> {
        self.flush()?;
        self.out.write_all(rows)
    }

    /// Adds a row of a prefix and a hop.
    pub fn entry(&mut self, kind: &[u8], prefix: &Prefix, hop: &[u8]) -> io::Result<()> {
        self.text.extend_from_slice(kind);
        text::prefix(&mut self.text, prefix);
        self.text.push(b',');
        self.text.extend_from_slice(hop);
        self.end()
    }

    /// Adds a row of a count.
    pub fn count(&mut self, kind: &[u8], count: u64) -> io::Result<()> {
        self.text.extend_from_slice(kind);
        text::number(&mut self.text, count);
        self.end()
    }
}

/// What writes the rows of a family.
pub struct Writer<'a, W: Write> {
    pub trie: &'a Trie,
    pub hops: &'a Hops,
    pub rows: &'a mut Rows<W>,
}

impl<W: Write> Writer<'_, W> {
    /// The rows of the routes; tells how many there are.
    pub fn route_rows(&mut self) -> io::Result<u64> {
        self.table_of(b"route,", |node| node.route)
    }

    /// The rows of the kept table; tells how many there are.
    pub fn table_rows(&mut self) -> io::Result<u64> {
        self.table_of(b"table,", |node| node.entry)
    }

    /// The rows of the nodes that have such a hop.
    fn table_of(&mut self, kind: &[u8], hop: fn(&Node) -> Hop) -> io::Result<u64> {
        let (mut count, mut done) = (0, Ok(()));
        self.trie.each(|prefix, node| {
            let hop = hop(node);
            if hop != NO_HOP && done.is_ok() {
                count += 1;
                done = self.rows.entry(kind, prefix, self.hops.text(hop, b"drop"));
            }
        });
        done.map(|()| count)
    }

    /// The rows of the least table: the downward pass of ORTC, which takes the kept table's own hops where they are best.
    pub fn least_rows(&mut self) -> io::Result<()> {
        let whole = Prefix::whole(self.trie.family);
        self.least_within(ROOT, &whole, NONE, NONE)
    }

    /// The rows of a region that inherits one hop from the routes and one from the least table.
    fn least_within(
        &mut self,
        at: u32,
        prefix: &Prefix,
        above: Hop,
        inherited: Hop,
    ) -> io::Result<()> {
        let trie = self.trie;
        let node = trie.node(at);
        let entry = trie.own_entry(&node.best, node.entry, inherited);
        let mut hop = inherited;
        if entry != NO_HOP {
            hop = entry;
            self.least_row(prefix, entry)?;
        }
        if node.best.uniform().is_some() {
            return Ok(());
        }
        let routed = node.routed(above);
        for bit in [false, true] {
            match node.half(bit) {
                Some(half) => self.least_within(half, &prefix.half(bit), routed, hop)?,
                None if routed != hop => self.least_row(&prefix.half(bit), routed)?,
                None => {}
            }
        }
        Ok(())
    }

    fn least_row(&mut self, prefix: &Prefix, hop: Hop) -> io::Result<()> {
        self.rows
            .entry(b"least,", prefix, self.hops.text(hop, b"drop"))
    }
}
