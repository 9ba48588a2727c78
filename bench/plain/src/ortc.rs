//! The upward pass of ORTC (Draves, King, Venkatachary and Zill, 'Constructing Optimal IP Routing Tables', INFOCOM 1999): which
//! hops are best for a region of addresses.
//!
//! A region that all goes to one hop is best served by it. Of two halves those hops are best that are best for both, and where
//! there are none those that are best for either, at the cost of an entry.

use crate::hops::Hop;

const FEW: usize = 3;

/// The best hops of a region, ascending.
#[derive(Clone, Copy)]
pub enum Best {
    /// All addresses of the region go to this hop.
    Uniform(Hop),
    /// So many of these, of a region that isn't uniform.
    Few(u8, [Hop; FEW]),
    /// Those of the list at this place.
    Many(u32),
}

impl Best {
    /// The hop of a uniform region.
    pub fn uniform(self) -> Option<Hop> {
        match self {
            Best::Uniform(hop) => Some(hop),
            _ => None,
        }
    }
}

/// The best hops where they are more than a few.
#[derive(Default)]
pub struct Lists {
    lists: Vec<Box<[Hop]>>,
    spare: Vec<u32>,
    /// Where the hops of two halves are put together.
    joined: Vec<Hop>,
}

impl Lists {
    /// The best hops, ascending.
    pub fn hops<'a>(&'a self, best: &'a Best) -> &'a [Hop] {
        match best {
            Best::Uniform(hop) => std::slice::from_ref(hop),
            Best::Few(count, hops) => &hops[..usize::from(*count)],
            Best::Many(at) => &self.lists[*at as usize],
        }
    }

    /// Whether a hop is best.
    pub fn has(&self, best: &Best, hop: Hop) -> bool {
        match best {
            Best::Uniform(only) => *only == hop,
            _ => self.hops(best).contains(&hop),
        }
    }

    /// The least of the best hops.
    pub fn least(&self, best: &Best) -> Hop {
        self.hops(best)[0]
    }

    /// Makes `best` what is best for a region with these halves, and tells whether it was something else.
    pub fn join(&mut self, low: Best, high: Best, best: &mut Best) -> bool {
        if let (Best::Uniform(a), Best::Uniform(b)) = (low, high) {
            let joined = match a.cmp(&b) {
                std::cmp::Ordering::Equal => Best::Uniform(a),
                std::cmp::Ordering::Less => Best::Few(2, [a, b, 0]),
                std::cmp::Ordering::Greater => Best::Few(2, [b, a, 0]),
            };
            return self.put(best, joined);
        }
        let mut joined = std::mem::take(&mut self.joined);
        joined.clear();
        common(self.hops(&low), self.hops(&high), &mut joined);
        if joined.is_empty() {
            either(self.hops(&low), self.hops(&high), &mut joined);
        }
        let changed = self.set(best, &joined);
        self.joined = joined;
        changed
    }

    /// Makes `best` these hops, of a region that isn't uniform.
    fn set(&mut self, best: &mut Best, hops: &[Hop]) -> bool {
        if best.uniform().is_none() && self.hops(best) == hops {
            return false;
        }
        let new = if hops.len() <= FEW {
            let mut few = [0; FEW];
            few[..hops.len()].copy_from_slice(hops);
            Best::Few(hops.len() as u8, few)
        } else if let Some(at) = self.spare.pop() {
            self.lists[at as usize] = hops.into();
            Best::Many(at)
        } else {
            self.lists.push(hops.into());
            Best::Many(self.lists.len() as u32 - 1)
        };
        self.free(*best);
        *best = new;
        true
    }

    /// Makes `best` this, which isn't a list.
    fn put(&mut self, best: &mut Best, new: Best) -> bool {
        let same = match (*best, new) {
            (Best::Uniform(a), Best::Uniform(b)) => a == b,
            (Best::Few(..), Best::Few(..)) => self.hops(best) == self.hops(&new),
            _ => false,
        };
        if !same {
            self.free(*best);
            *best = new;
        }
        !same
    }

    fn free(&mut self, best: Best) {
        if let Best::Many(at) = best {
            self.lists[at as usize] = Box::default();
            self.spare.push(at);
        }
    }
}

/// The hops that both lists have.
fn common(mut a: &[Hop], mut b: &[Hop], out: &mut Vec<Hop>) {
    while let ([first, rest @ ..], [other, others @ ..]) = (a, b) {
        if first == other {
            out.push(*first);
        }
        if first <= other {
            a = rest;
        }
        if other <= first {
            b = others;
        }
    }
}

/// The hops of two lists that have none in common.
fn either(mut a: &[Hop], mut b: &[Hop], out: &mut Vec<Hop>) {
    while let ([first, rest @ ..], [other, others @ ..]) = (a, b) {
        if first < other {
            out.push(*first);
            a = rest;
        } else {
            out.push(*other);
            b = others;
        }
    }
    out.extend_from_slice(a);
    out.extend_from_slice(b);
}

#[cfg(test)]
mod tests {
    use super::*;

    fn joined(lists: &mut Lists, low: Best, high: Best) -> Best {
        let mut best = Best::Uniform(0);
        lists.join(low, high, &mut best);
        best
    }

    #[test]
    fn halves_with_one_hop_are_uniform() {
        let lists = &mut Lists::default();
        let both = joined(lists, Best::Uniform(3), Best::Uniform(3));
        assert_eq!(both.uniform(), Some(3));
    }

    #[test]
    fn common_hops_come_before_all() {
        let lists = &mut Lists::default();
        let low = joined(lists, Best::Uniform(2), Best::Uniform(1));
        let high = joined(lists, Best::Uniform(5), Best::Uniform(4));
        let all = joined(lists, low, high);
        assert_eq!(lists.hops(&all), [1, 2, 4, 5]);
        let common = joined(lists, all, Best::Uniform(4));
        assert_eq!(lists.hops(&common), [4]);
        assert_eq!(common.uniform(), None);
    }

    #[test]
    fn the_same_hops_are_no_change() {
        let lists = &mut Lists::default();
        let low = joined(lists, Best::Uniform(2), Best::Uniform(1));
        let high = joined(lists, Best::Uniform(5), Best::Uniform(4));
        let mut all = joined(lists, low, high);
        assert!(!lists.join(high, low, &mut all));
        assert!(lists.join(low, low, &mut all));
        assert_eq!(lists.hops(&all), [1, 2]);
    }
}
