//! The routes that are offered for each prefix, and which of them is chosen.

use crate::addr::Addr;
use crate::hash::Map;
use crate::hops::{Hop, NO_HOP};

/// A peer. The order of peers decides where paths are equally long.
#[derive(Clone, Copy, PartialEq, Eq, PartialOrd, Ord, Hash)]
pub struct Peer {
    pub addr: Addr,
    pub asn: u32,
}

/// The number of a way by which routes come: a peer and a path identifier (RFC 7911).
pub type Via = u32;

/// The list of a prefix without candidates.
pub const EMPTY: u32 = u32::MAX;

/// What is offered by one way, in a list linked by places.
struct Candidate {
    via: Via,
    path_len: u16,
    hop: Hop,
    next: u32,
}

/// All candidates. A prefix's are a list, which is told by the place of its first one, or `EMPTY`. The greatest number of a way
/// comes first, so that a dump, which has the peers in order, adds to the front.
pub struct Candidates {
    held: Vec<Candidate>,
    /// The first spare place.
    spare: u32,
    vias: Vec<(Peer, u32)>,
    numbers: Map<(Peer, u32), Via>,
}

impl Candidates {
    pub fn new() -> Self {
        Candidates {
            held: Vec::new(),
            spare: EMPTY,
            vias: Vec::new(),
            numbers: Map::default(),
        }
    }

    /// The number of a way; a new one gets the next.
    pub fn via(&mut self, peer: Peer, id: u32) -> Via {
        let next = self.vias.len() as Via;
        let via = *self.numbers.entry((peer, id)).or_insert(next);
        if via == next {
            self.vias.push((peer, id));
        }
        via
    }

    /// Where a way's candidate stands in a list, or would stand: the place of the one before it, if there is one, and its own or
    /// that of the one behind it.
    fn find(&self, list: u32, via: Via) -> (Option<u32>, u32) {
        let (mut before, mut at) = (None, list);
        while at != EMPTY && self.held[at as usize].via > via {
            before = Some(at);
            at = self.held[at as usize].next;
        }
        (before, at)
    }

    /// Whether there is a candidate at a place, and it is this way's.
    fn is_of(&self, at: u32, via: Via) -> bool {
        at != EMPTY && self.held[at as usize].via == via
    }

    /// Has another place follow one in a list, or the list begin with it, and tells the list.
    fn link(&mut self, list: u32, before: Option<u32>, next: u32) -> u32 {
        match before {
            None => next,
            Some(before) => {
                self.held[before as usize].next = next;
                list
            }
        }
    }

    /// Puts a way's candidate in the place of its last one, and tells the list.
    pub fn put(&mut self, list: u32, via: Via, path_len: u16, hop: Hop) -> u32 {
        let (before, at) = self.find(list, via);
        if self.is_of(at, via) {
            let candidate = &mut self.held[at as usize];
            candidate.path_len = path_len;
            candidate.hop = hop;
            return list;
        }
        let new = self.place(Candidate {
            via,
            path_len,
            hop,
            next: at,
        });
        self.link(list, before, new)
    }

    /// Puts a candidate into a spare place, or a new one.
    fn place(&mut self, candidate: Candidate) -> u32 {
        if self.spare == EMPTY {
            self.held.push(candidate);
            return self.held.len() as u32 - 1;
        }
        let at = self.spare;
        self.spare = std::mem::replace(&mut self.held[at as usize], candidate).next;
        at
    }

    /// Takes a way's candidate away, if there is one, and tells the list.
    pub fn cut(&mut self, list: u32, via: Via) -> u32 {
        let (before, at) = self.find(list, via);
        if !self.is_of(at, via) {
            return list;
        }
        let next = std::mem::replace(&mut self.held[at as usize].next, self.spare);
        self.spare = at;
        self.link(list, before, next)
    }

    /// The next hop of the chosen candidate of a list: the one of the shortest path, of several the one of the least way.
    pub fn chosen(&self, list: u32) -> Hop {
        if list == EMPTY {
            return NO_HOP;
        }
        let mut best = &self.held[list as usize];
        let mut at = best.next;
        while at != EMPTY {
            let other = &self.held[at as usize];
            if self.beats(other, best) {
                best = other;
            }
            at = other.next;
        }
        best.hop
    }

    fn beats(&self, one: &Candidate, other: &Candidate) -> bool {
        one.path_len < other.path_len
            || one.path_len == other.path_len
                && self.vias[one.via as usize] < self.vias[other.via as usize]
    }

    /// Finds a peer's ways in a list, in the order of path identifiers.
    pub fn of_peer(&self, list: u32, peer: Peer, found: &mut Vec<Via>) {
        found.clear();
        let mut at = list;
        while at != EMPTY {
            let candidate = &self.held[at as usize];
            if self.vias[candidate.via as usize].0 == peer {
                found.push(candidate.via);
            }
            at = candidate.next;
        }
        found.sort_unstable_by_key(|&via| self.vias[via as usize].1);
    }
}
