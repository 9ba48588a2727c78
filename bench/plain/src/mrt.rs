//! Records of MRT files (RFC 6396, RFC 8050).

use crate::addr::Family;
use crate::bgp::{rib_route, Session, Sink};
use crate::candidates::{Peer, Via};
use crate::wire::{family_of, Malformed, Octets, Read};
use std::fs::File;
use std::io::{self, Read as _};

const HEADER: usize = 12;
const MOST_BODY: usize = 1 << 24;
const PIECE: usize = 1 << 16;
const ESTABLISHED: u16 = 6;

/// How many records there were, of what kind.
#[derive(Default)]
pub struct Counts {
    pub records: u64,
    /// Those that say nothing here.
    pub skipped: u64,
    /// Messages treated as withdrawals.
    pub treated: u64,
}

/// A file that is read piece by piece; the records lie in one buffer.
struct Input {
    file: File,
    buffer: Vec<u8>,
    /// What of the buffer is read and not yet taken.
    start: usize,
    end: usize,
}

impl Input {
    fn open(name: &str) -> io::Result<Input> {
        Ok(Input {
            file: File::open(name)?,
            buffer: vec![0; PIECE],
            start: 0,
            end: 0,
        })
    }

    /// Sees to it that so many octets are there, or as many as are left of the file.
    fn fill(&mut self, count: usize) -> io::Result<usize> {
        if self.start + count > self.buffer.len() {
            self.buffer.copy_within(self.start..self.end, 0);
            self.end -= self.start;
            self.start = 0;
            if count > self.buffer.len() {
                self.buffer.resize(count, 0);
            }
        }
        while self.end - self.start < count {
            match self.file.read(&mut self.buffer[self.end..])? {
                0 => break,
                read => self.end += read,
            }
        }
        Ok(self.end - self.start)
    }

    /// The next record: its type, its subtype and its body.
    fn record(&mut self) -> io::Result<Option<(u16, u16, &[u8])>> {
        let cut = || io::Error::new(io::ErrorKind::InvalidData, "the input ends within a record");
        match self.fill(HEADER)? {
            0 => return Ok(None),
            there if there < HEADER => return Err(cut()),
            _ => {}
        }
        let header = &self.buffer[self.start..self.start + HEADER];
        let kind = u16::from_be_bytes([header[4], header[5]]);
        let subtype = u16::from_be_bytes([header[6], header[7]]);
        let len = u32::from_be_bytes([header[8], header[9], header[10], header[11]]) as usize;
        if len > MOST_BODY || self.fill(HEADER + len)? < HEADER + len {
            return Err(cut());
        }
        let body = self.start + HEADER;
        self.start = body + len;
        Ok(Some((kind, subtype, &self.buffer[body..body + len])))
    }
}

/// The peers of an input's last PEER_INDEX_TABLE, each with the number of its way without a path identifier.
type Peers = Option<Vec<(Peer, Via)>>;

/// Hands on the events of a file, and counts its records.
pub fn read<S: Sink>(name: &str, counts: &mut Counts, sink: &mut S) -> Result<(), String> {
    let mut input = Input::open(name).map_err(|error| format!("{name}: {error}"))?;
    let (mut number, mut peers) = (0, None);
    loop {
        let record = input.record();
        let record = record.map_err(|error| format!("{name}: record {number}: {error}"))?;
        let Some((kind, subtype, body)) = record else {
            return Ok(());
        };
        let said = take(kind, subtype, Octets(body), &mut peers, sink);
        let said = said.map_err(|Malformed(why)| format!("{name}: record {number}: {why}"))?;
        counts.skipped += u64::from(said == Said::Skipped);
        counts.treated += u64::from(said == Said::Treated);
        counts.records += 1;
        number += 1;
    }
}

/// What became of a record.
#[derive(PartialEq, Eq)]
enum Said {
    Taken,
    Skipped,
    Treated,
}

/// Takes a record by its type and subtype.
fn take<S: Sink>(
    kind: u16,
    subtype: u16,
    body: Octets,
    peers: &mut Peers,
    sink: &mut S,
) -> Read<Said> {
    match (kind, subtype) {
        (13, 1) => *peers = Some(peer_table(body, sink)?),
        (13, 2) => rib(body, Family::V4, false, peers, sink)?,
        (13, 4) => rib(body, Family::V6, false, peers, sink)?,
        (13, 8) => rib(body, Family::V4, true, peers, sink)?,
        (13, 10) => rib(body, Family::V6, true, peers, sink)?,
        (16, 0 | 1 | 4..=11) => return bgp4mp(body, subtype, sink),
        (17, 0 | 1 | 4..=11) => {
            let mut body = body;
            body.u32()?; // microseconds (RFC 6396, section 3)
            return bgp4mp(body, subtype, sink);
        }
        _ => return Ok(Said::Skipped),
    }
    Ok(Said::Taken)
}

/// PEER_INDEX_TABLE (RFC 6396, section 4.3.1).
fn peer_table<S: Sink>(mut body: Octets, sink: &mut S) -> Read<Vec<(Peer, Via)>> {
    body.u32()?; // the collector
    body.behind_u16()?; // the view's name
    let count = body.u16()?;
    let mut peers = Vec::with_capacity(usize::from(count));
    for _ in 0..count {
        let kind = body.u8()?;
        body.u32()?; // the peer's BGP identifier
        let family = if kind & 1 == 0 {
            Family::V4
        } else {
            Family::V6
        };
        let addr = body.addr(family)?;
        let asn = body.asn(kind & 2 != 0)?;
        let peer = Peer { addr, asn };
        peers.push((peer, sink.via(peer, 0)));
    }
    at_end(body)?;
    Ok(peers)
}

/// A RIB record (RFC 6396, section 4.3.2; RFC 8050, section 4): an event for each of its entries.
fn rib<S: Sink>(
    mut body: Octets,
    family: Family,
    with_ids: bool,
    peers: &Peers,
    sink: &mut S,
) -> Read<()> {
    let peers = peers.as_ref().ok_or(Malformed("no peer table"))?;
    body.u32()?; // the sequence number
    let prefix = body.prefix(family)?;
    for _ in 0..body.u16()? {
        let index = usize::from(body.u16()?);
        let &(peer, via) = peers.get(index).ok_or(Malformed("no such peer"))?;
        body.u32()?; // the time
        let via = if with_ids {
            sink.via(peer, body.u32()?)
        } else {
            via
        };
        match rib_route(body.behind_u16()?, family)? {
            Some(route) => sink.announce(via, prefix, route)?,
            None => sink.withdraw(via, prefix),
        }
    }
    at_end(body)
}

/// A message or a change of state (RFC 6396, section 4.4; RFC 8050, section 3).
fn bgp4mp<S: Sink>(mut body: Octets, subtype: u16, sink: &mut S) -> Read<Said> {
    let wide = matches!(subtype, 4 | 5 | 7 | 9 | 11);
    let asn = body.asn(wide)?;
    body.asn(wide)?; // the local AS
    body.u16()?; // the interface
    let Some(family) = family_of(body.u16()?) else {
        return Ok(Said::Skipped);
    };
    let addr = body.addr(family)?;
    body.addr(family)?; // the local address
    let peer = Peer { addr, asn };
    if matches!(subtype, 0 | 5) {
        let (old, new) = (body.u16()?, body.u16()?);
        at_end(body)?;
        if old == ESTABLISHED && new != ESTABLISHED {
            sink.lose(peer);
        }
        return Ok(Said::Taken);
    }
    let session = Session {
        peer,
        wide,
        with_ids: subtype >= 8,
    };
    if session.message(body.0, sink)? {
        return Ok(Said::Treated);
    }
    Ok(Said::Taken)
}

fn at_end(body: Octets) -> Read<()> {
    if body.is_empty() {
        Ok(())
    } else {
        Err(Malformed("octets are left over"))
    }
}
