//! What a run goes through: events change candidates, candidates change routes, and routes the kept table.

use crate::addr::{Family, Prefix};
use crate::bgp::{Route, Sink};
use crate::candidates::{Candidates, Peer, Via};
use crate::hops::Hops;
use crate::kept::Changes;
use crate::trie::{Trie, ROOT};
use crate::wire::Malformed;

/// Candidates, routes and the kept table of both families.
pub struct Router {
    pub tries: [Trie; 2],
    pub hops: Hops,
    pub changes: Changes,
    /// How many elementary events there were, with those of the load.
    pub events: u64,
    candidates: Candidates,
    /// The prefix of the last announcement with its node, for those that follow are often its own.
    last: Option<(Prefix, u32)>,
    loaded: bool,
    /// After how many events of the updates a snapshot is made; 0 is never.
    every: u64,
}

impl Router {
    pub fn new(every: u64) -> Router {
        Router {
            tries: Family::BOTH.map(Trie::new),
            hops: Hops::default(),
            changes: Changes::default(),
            events: 0,
            candidates: Candidates::new(),
            last: None,
            loaded: false,
            every,
        }
    }

    /// Ends the load: routes are chosen, and the table is made.
    pub fn end_load(&mut self) {
        self.loaded = true;
        for trie in &mut self.tries {
            for node in &mut trie.nodes {
                node.route = self.candidates.chosen(node.candidates);
            }
            trie.join_all(ROOT, 0);
            trie.snapshot(&self.hops, &mut self.changes);
        }
    }

    /// The node of a prefix.
    fn node_of(&mut self, prefix: &Prefix) -> u32 {
        match self.last {
            Some((last, at)) if last == *prefix => at,
            _ => {
                let at = self.tries[prefix.family.index()].find_or_make(prefix);
                self.last = Some((*prefix, at));
                at
            }
        }
    }

    /// Counts an elementary event.
    fn count(&mut self) {
        self.events += 1;
        if self.loaded {
            self.changes.event += 1;
        }
    }

    /// Goes on with the candidates of a prefix after an event: the route that is chosen now, and a snapshot if one is due.
    fn settle(&mut self, prefix: &Prefix, at: Option<u32>) {
        if !self.loaded {
            return;
        }
        if let Some(at) = at {
            let trie = &mut self.tries[prefix.family.index()];
            let route = self.candidates.chosen(trie.node(at).candidates);
            if route != trie.node(at).route {
                trie.set_route(prefix, route, &self.hops, &mut self.changes);
            }
        }
        if self.every > 0 && self.changes.event.is_multiple_of(self.every) {
            for trie in &mut self.tries {
                trie.snapshot(&self.hops, &mut self.changes);
            }
        }
    }

    /// The ways by which a peer's routes come, with their prefixes, in the order of prefixes and then of path identifiers.
    fn ways_of(&self, peer: Peer) -> Vec<(Prefix, Via)> {
        let (mut ways, mut found) = (Vec::new(), Vec::new());
        for trie in &self.tries {
            trie.each(|prefix, node| {
                self.candidates.of_peer(node.candidates, peer, &mut found);
                ways.extend(found.iter().map(|&via| (*prefix, via)));
            });
        }
        ways
    }
}

impl Sink for Router {
    fn via(&mut self, peer: Peer, id: u32) -> Via {
        self.candidates.via(peer, id)
    }

    fn announce(&mut self, via: Via, prefix: Prefix, route: Route) -> Result<(), Malformed> {
        self.count();
        let hop = self.hops.number(route.next_hop);
        let hop = hop.ok_or(Malformed("there are too many next hops"))?;
        let at = self.node_of(&prefix);
        let node = self.tries[prefix.family.index()].node_mut(at);
        node.candidates = self
            .candidates
            .put(node.candidates, via, route.path_len, hop);
        self.settle(&prefix, Some(at));
        Ok(())
    }

    fn withdraw(&mut self, via: Via, prefix: Prefix) {
        self.count();
        let trie = &mut self.tries[prefix.family.index()];
        let at = trie.find(&prefix);
        if let Some(at) = at {
            let node = trie.node_mut(at);
            node.candidates = self.candidates.cut(node.candidates, via);
        }
        self.settle(&prefix, at);
    }

    fn lose(&mut self, peer: Peer) {
        for (prefix, via) in self.ways_of(peer) {
            self.withdraw(via, prefix);
        }
    }
}
