//! Path attributes and UPDATE messages of BGP-4 (RFC 4271, section 4.3; RFC 4760).

use crate::addr::{Addr, Family, Prefix};
use crate::candidates::{Peer, Via};
use crate::wire::{family_of, Malformed, Octets, Read};

/// What takes what an input says of routes.
pub trait Sink {
    /// The number of a way by which routes come: a peer with a path identifier.
    fn via(&mut self, peer: Peer, id: u32) -> Via;
    /// A route of a prefix is announced.
    fn announce(&mut self, via: Via, prefix: Prefix, route: Route) -> Result<(), Malformed>;
    /// The route of a prefix is withdrawn.
    fn withdraw(&mut self, via: Via, prefix: Prefix);
    /// A peer's session is lost.
    fn lose(&mut self, peer: Peer);
}

/// What of a route decides whether it is chosen, and where it leads.
#[derive(Clone, Copy)]
pub struct Route {
    pub path_len: u16,
    pub next_hop: Addr,
}

const AS_PATH: u8 = 2;
const NEXT_HOP: u8 = 3;
const MP_REACH_NLRI: u8 = 14;
const MP_UNREACH_NLRI: u8 = 15;
const UNICAST: u8 = 1;
const EXTENDED_LENGTH: u8 = 0x10;
const UPDATE: u8 = 2;

/// The next attribute of a list: its type and its value.
fn attribute<'a>(list: &mut Octets<'a>) -> Read<(u8, &'a [u8])> {
    let flags = list.u8()?;
    let kind = list.u8()?;
    let len = if flags & EXTENDED_LENGTH != 0 {
        list.u16()?
    } else {
        u16::from(list.u8()?)
    };
    Ok((kind, list.take(usize::from(len))?))
}

/// The length of an AS_PATH (RFC 4271, section 9.1.2.2): the numbers of its sequences, and one for each set that isn't empty.
/// Segments of confederations count nothing (RFC 5065, section 5.3).
fn path_len(value: &[u8], wide: bool) -> Read<u16> {
    let (mut path, mut len) = (Octets(value), 0);
    while !path.is_empty() {
        let kind = path.u8()?;
        let count = path.u8()?;
        path.take(usize::from(count) * if wide { 4 } else { 2 })?;
        len += match kind {
            1 => u16::from(count > 0),
            2 => u16::from(count),
            3 | 4 => 0,
            _ => return Err(Malformed("a segment of a path is of an unknown type")),
        };
    }
    Ok(len)
}

fn next_hop(value: &[u8]) -> Read<Addr> {
    let octets = value
        .try_into()
        .map_err(|_| Malformed("a NEXT_HOP isn't of four octets"))?;
    Ok(Addr::V4(u32::from_be_bytes(octets)))
}

/// The next hop of MP_REACH_NLRI for routes of a family, behind its length. Of 32 octets the first 16 count (RFC 2545, section
/// 3).
fn mp_next_hop(value: &mut Octets, family: Family) -> Read<Addr> {
    let len = value.u8()?;
    let mut hop = Octets(value.take(usize::from(len))?);
    match (family, len) {
        (Family::V4, 4) => hop.addr(Family::V4),
        (_, 16 | 32) => hop.addr(Family::V6),
        _ => Err(Malformed("a next hop is of no known length")),
    }
}

/// The next hop that MP_REACH_NLRI of a RIB entry tells, in the short form of RFC 6396, section 4.3.4, or in the full one, which
/// begins with an octet 0. One that can't be read tells none.
fn rib_mp_next_hop(value: &[u8], family: Family) -> Option<Addr> {
    let mut value = Octets(value);
    if *value.0.first()? == 0 {
        let afi = value.u16().ok()?;
        if family_of(afi) != Some(family) || value.u8().ok()? != UNICAST {
            return None;
        }
    }
    mp_next_hop(&mut value, family).ok()
}

/// The route of a RIB entry's attributes (RFC 6396, section 4.3.4), or none where they tell no next hop.
pub fn rib_route(list: &[u8], family: Family) -> Read<Option<Route>> {
    let mut list = Octets(list);
    let (mut path, mut hop, mut mp_hop) = (None, None, None);
    while !list.is_empty() {
        match attribute(&mut list)? {
            (AS_PATH, value) if path.is_none() => path = Some(path_len(value, true)?),
            (NEXT_HOP, value) if hop.is_none() => hop = Some(next_hop(value)?),
            (MP_REACH_NLRI, _) if mp_hop.is_some() => {
                return Err(Malformed("a second MP_REACH_NLRI"))
            }
            (MP_REACH_NLRI, value) => mp_hop = Some(rib_mp_next_hop(value, family)),
            _ => {}
        }
    }
    let mp_hop = mp_hop.flatten();
    let next_hop = match family {
        Family::V4 => hop.or(mp_hop),
        Family::V6 => mp_hop.or(hop),
    };
    Ok(next_hop.map(|next_hop| Route {
        path_len: path.unwrap_or(0),
        next_hop,
    }))
}

/// What the attributes of an UPDATE say.
#[derive(Default)]
struct Attributes<'a> {
    path_len: u16,
    next_hop: Option<Addr>,
    /// The routes of MP_REACH_NLRI, with their next hop.
    reach: Option<(Family, Addr, Octets<'a>)>,
    /// The routes of MP_UNREACH_NLRI.
    unreach: Option<(Family, Octets<'a>)>,
    /// Whether the AS_PATH or the NEXT_HOP isn't of its form.
    bad: bool,
}

impl<'a> Attributes<'a> {
    fn read(list: &'a [u8], wide: bool) -> Read<Self> {
        let mut read = Attributes::default();
        let mut seen = [false; 256];
        let mut list = Octets(list);
        while !list.is_empty() {
            let (kind, value) = attribute(&mut list)?;
            let again = std::mem::replace(&mut seen[usize::from(kind)], true);
            match kind {
                AS_PATH if !again => match path_len(value, wide) {
                    Ok(len) => read.path_len = len,
                    Err(_) => read.bad = true,
                },
                NEXT_HOP if !again => match next_hop(value) {
                    Ok(hop) => read.next_hop = Some(hop),
                    Err(_) => read.bad = true,
                },
                MP_REACH_NLRI | MP_UNREACH_NLRI if again => {
                    return Err(Malformed("a second MP attribute of one kind"))
                }
                MP_REACH_NLRI => read.reach = mp_reach(value)?,
                MP_UNREACH_NLRI => {
                    let mut value = Octets(value);
                    read.unreach = mp_family(&mut value)?.map(|family| (family, value));
                }
                _ => {}
            }
        }
        Ok(read)
    }

    /// What a route with this next hop is, unless it is to be withdrawn.
    fn route(&self, next_hop: Option<Addr>) -> Option<Route> {
        if self.bad {
            return None;
        }
        let path_len = self.path_len;
        next_hop.map(|next_hop| Route { path_len, next_hop })
    }
}

/// The family of an MP attribute, if it is unicast of IPv4 or IPv6.
fn mp_family(value: &mut Octets) -> Read<Option<Family>> {
    let family = family_of(value.u16()?);
    let unicast = value.u8()? == UNICAST;
    Ok(family.filter(|_| unicast))
}

/// MP_REACH_NLRI (RFC 4760, section 3): its family, next hop and routes.
fn mp_reach(value: &[u8]) -> Read<Option<(Family, Addr, Octets<'_>)>> {
    let mut value = Octets(value);
    let Some(family) = mp_family(&mut value)? else {
        return Ok(None);
    };
    let hop = mp_next_hop(&mut value, family)?;
    value.u8()?; // reserved
    Ok(Some((family, hop, value)))
}

/// How a message was recorded.
#[derive(Clone, Copy)]
pub struct Session {
    pub peer: Peer,
    /// Whether AS numbers take four octets.
    pub wide: bool,
    /// Whether each prefix has a path identifier.
    pub with_ids: bool,
}

impl Session {
    /// Hands on a message's events: its withdrawn routes, those of MP_UNREACH_NLRI, those with NEXT_HOP, and those of
    /// MP_REACH_NLRI. Tells whether the message is treated as a withdrawal (RFC 7606, section 2).
    pub fn message<S: Sink>(self, octets: &[u8], sink: &mut S) -> Read<bool> {
        let mut message = Octets(octets);
        message.take(16)?; // the marker
        if usize::from(message.u16()?) != octets.len() {
            return Err(Malformed("a message's length isn't its own"));
        }
        if message.u8()? != UPDATE {
            return Ok(false);
        }
        let withdrawn = Octets(message.behind_u16()?);
        let attributes = Attributes::read(message.behind_u16()?, self.wide)?;
        self.say(Family::V4, withdrawn, None, sink)?;
        if let Some((family, routes)) = attributes.unreach {
            self.say(family, routes, None, sink)?;
        }
        let route = attributes.route(attributes.next_hop);
        self.say(Family::V4, message, route, sink)?;
        if let Some((family, hop, routes)) = attributes.reach {
            self.say(family, routes, attributes.route(Some(hop)), sink)?;
        }
        Ok(attributes.bad)
    }

    /// Announces a route of each prefix of a list, or withdraws it.
    fn say<S: Sink>(
        self,
        family: Family,
        mut list: Octets,
        route: Option<Route>,
        sink: &mut S,
    ) -> Read<()> {
        while !list.is_empty() {
            let (id, prefix) = list.nlri(family, self.with_ids)?;
            let via = sink.via(self.peer, id);
            match route {
                Some(route) => sink.announce(via, prefix, route)?,
                None => sink.withdraw(via, prefix),
            }
        }
        Ok(())
    }
}
