#!/usr/bin/env python3
"""A slow implementation of `fib`, written from the definitions (docs/DEFINITIONS.md) and the formats (docs/FORMATS.md).

Usage:  reference.py WORDS OF fib..

Its output, its line to standard error and its status are those of the program; only memory and time have other limits. It
shares no code with the program, and is plain rather than fast. Data forms:

  family   4 or 6                       address  (family, bits)
  prefix   (family, bits, length)       peer     (address, AS)
  via      (peer, identifier)           hop      a number, 0 is none

Tuples of these forms compare in the order of prefixes, peers and vias.
"""

import sys
from bisect import bisect_left, insort

MOST_HOPS = 65534
MOST_BODY = 16777216
MOST_OCTETS = 1 << 36
ESTABLISHED = 6


# ---------------------------------------------------------------- outcomes

class Stop(Exception):
    """An outcome other than Done: status, line to err, rows to out (docs/FORMATS.md, 'How a run ends')."""

    def __init__(self, status, line, out=""):
        super().__init__(line)
        self.status, self.line, self.out = status, line, out


def usage():
    return Stop(2, "fib: usage")


def malformed(name, number, rule):
    return Stop(5, "fib: malformed %s record %d rule %d" % (name, number, rule))


def bad_line(name, line, why):
    return Stop(8, "fib: bad line %s %d why %d" % (name, line, why))


def read_input(name, called):
    """The content of a file; a fault is ReadFault."""
    try:
        with open(name, "rb") as f:
            data = f.read()
    except OSError:
        raise Stop(3, "fib: read fault")
    if len(data) > MOST_OCTETS:
        raise Stop(10, "fib: too large " + called)
    return data


# ------------------------------------------- addresses and prefixes

WIDTH = {4: 32, 6: 128}
ROOT = {4: (4, 0, 0), 6: (6, 0, 0)}
FAMILIES = (4, 6)


def cleared(family, bits, length):
    """bits with zeros past length."""
    low = WIDTH[family] - length
    return bits >> low << low


def contains(p, a):
    """Prefix p contains address a."""
    return p[0] == a[0] and cleared(a[0], a[1], p[2]) == p[1]


def is_within(q, p):
    """Prefix q is within p, p itself included."""
    return p[0] == q[0] and q[2] >= p[2] and cleared(q[0], q[1], p[2]) == p[1]


def half(p, bit):
    """The lower (0) or upper (1) half of a prefix shorter than w."""
    family, bits, length = p
    return (family, bits | bit << (WIDTH[family] - length - 1), length + 1)


def first_address(p):
    return (p[0], p[1])


def last_bits(p):
    return p[1] | ((1 << (WIDTH[p[0]] - p[2])) - 1)


DIGITS = "0123456789"
HEX = "0123456789abcdefABCDEF"


def read_decimal(text):
    """Plain decimal without leading zeros, else None."""
    if text == "" or any(c not in DIGITS for c in text):
        return None
    if len(text) > 1 and text[0] == "0":
        return None
    return int(text) if len(text) <= 40 else 10 ** 40


def read_number(text, below):
    n = read_decimal(text)
    return n if n is not None and n < below else None


def read_addr(text):
    """An address, IPv6 by RFC 4291, section 2.2, without dotted parts; None outside the grammar."""
    if ":" in text:
        return read_v6(text)
    parts = text.split(".")
    if len(parts) != 4:
        return None
    bits = 0
    for part in parts:
        n = read_number(part, 256)
        if n is None:
            return None
        bits = bits << 8 | n
    return (4, bits)


def read_groups(text):
    """Groups joined by single colons; the empty text has no group."""
    if text == "":
        return []
    groups = text.split(":")
    for g in groups:
        if not 1 <= len(g) <= 4 or any(c not in HEX for c in g):
            return None
    return [int(g, 16) for g in groups]


def read_v6(text):
    sides = text.split("::")
    if len(sides) > 2:
        return None
    left = read_groups(sides[0])
    right = read_groups(sides[1]) if len(sides) == 2 else []
    if left is None or right is None:
        return None
    if len(sides) == 1:
        if len(left) != 8:
            return None
        groups = left
    else:
        if len(left) + len(right) > 7:
            return None
        groups = left + [0] * (8 - len(left) - len(right)) + right
    bits = 0
    for g in groups:
        bits = bits << 16 | g
    return (6, bits)


def read_prefix(text):
    """Address, slash, length of at most w, zero bits past it."""
    front, slash, back = text.partition("/")
    if slash == "":
        return None
    a = read_addr(front)
    if a is None:
        return None
    length = read_number(back, WIDTH[a[0]] + 1)
    if length is None or cleared(a[0], a[1], length) != a[1]:
        return None
    return (a[0], a[1], length)


def write_addr(a):
    """IPv6 by RFC 5952, section 4, without dotted parts."""
    family, bits = a
    if family == 4:
        return ".".join(str(bits >> s & 255) for s in (24, 16, 8, 0))
    groups = [bits >> s & 0xffff for s in range(112, -1, -16)]
    best_at, best_len = 0, 0
    i = 0
    while i < 8:
        j = i
        while j < 8 and groups[j] == 0:
            j += 1
        if j - i > best_len:
            best_at, best_len = i, j - i
        i = max(j, i + 1)
    words = ["%x" % g for g in groups]
    if best_len < 2:
        return ":".join(words)
    return ":".join(words[:best_at]) + "::" + ":".join(words[best_at + best_len:])


def write_prefix(p):
    return "%s/%d" % (write_addr((p[0], p[1])), p[2])


class HopTable:
    """Hops numbered 1, 2, .. in the order in which they come; 0 is none."""

    def __init__(self):
        self.addrs, self.numbers = [None], {}

    def number(self, addr):
        """The hop's number, or None for HopsFull."""
        if addr not in self.numbers:
            if len(self.numbers) >= MOST_HOPS:
                return None
            self.numbers[addr] = len(self.addrs)
            self.addrs.append(addr)
        return self.numbers[addr]

    def text(self, hop, zero):
        """Hop 0 is `none` or `drop`, by the row."""
        return zero if hop == 0 else write_addr(self.addrs[hop])


# --------------------------------------------------- reading records (RFC 6396)

class Rule(Exception):
    """A rule of reading that was broken, by its number in docs/FORMATS.md."""

    def __init__(self, rule):
        super().__init__(rule)
        self.rule = rule


class Octets:
    """The octets of one enclosing part, read from the front."""

    def __init__(self, data):
        self.data, self.at = data, 0

    def left(self):
        return len(self.data) - self.at

    def take(self, n, rule):
        """The next n octets; where they are cut, this rule is broken."""
        if self.left() < n:
            raise Rule(rule)
        self.at += n
        return self.data[self.at - n:self.at]

    def num(self, n, rule):
        return int.from_bytes(self.take(n, rule), "big")

    def addr(self, family, rule):
        return (family, self.num(WIDTH[family] // 8, rule))


def wire_prefix(o, family, ids, cut_rule):
    """Path identifier (RFC 7911, section 3), length octet (rule 6), octets of the prefix (RFC 4271, section 4.3)."""
    ident = o.num(4, cut_rule) if ids else 0
    length = o.num(1, cut_rule)
    if length > WIDTH[family]:
        raise Rule(6)
    octets = (length + 7) // 8
    bits = o.num(octets, cut_rule) << (WIDTH[family] - 8 * octets)
    return ident, (family, cleared(family, bits, length), length)


def wire_prefixes(data, family, ids, cut_rule):
    o, found = Octets(data), []
    while o.left() > 0:
        found.append(wire_prefix(o, family, ids, cut_rule))
    return found


def read_path(data, wide):
    """AS_PATH (RFC 4271, section 5.1.2): the path length, in which confederation segments count nothing (RFC 5065), and the
    origin (RFC 6811, section 2). Rule 10."""
    o, length, origin = Octets(data), 0, None
    while o.left() > 0:
        kind, count = o.num(1, 10), None
        if kind not in (1, 2, 3, 4):
            raise Rule(10)
        count = o.num(1, 10)
        numbers = [o.num(4 if wide else 2, 10) for _ in range(count)]
        if kind == 2:
            length += count
        elif kind == 1 and count > 0:
            length += 1
        # only the last segment says the origin, and only a sequence that isn't empty
        origin = numbers[-1] if kind == 2 and count > 0 else None
    return length, origin


def family_of(afi):
    return {1: 4, 2: 6}.get(afi)


def hop_lengths(family):
    """Next-hop lengths for AFI 1 and AFI 2 (RFC 4760, RFC 8950, RFC 2545)."""
    return (4, 16, 32) if family == 4 else (16, 32)


def mp_hop(octets):
    """4 octets are IPv4; of 16 or 32 the first 16 are IPv6 (RFC 2545, section 3)."""
    if len(octets) == 4:
        return (4, int.from_bytes(octets, "big"))
    return (6, int.from_bytes(octets[:16], "big"))


def rib_reach_hop(data, family):
    """The next hop of a RIB entry's MP_REACH_NLRI (RFC 6396, section 4.3.4), or None."""
    o = Octets(data)
    try:
        if o.left() > 0 and data[0] == 0:           # full form (RFC 4760)
            if family_of(o.num(2, 0)) != family or o.num(1, 0) != 1:
                return None
        length = o.num(1, 0)                        # short form starts here
        if length not in hop_lengths(family):
            return None
        return mp_hop(o.take(length, 0))
    except Rule:                                    # empty or cut: passed over
        return None


class Attrs:
    """What one attribute list gives."""

    def __init__(self):
        self.path, self.origin, self.next_hop, self.bad = 0, None, None, False
        self.rib_reach = None           # next hop of a RIB entry's MP_REACH_NLRI
        self.reach = None               # (next hop, [(id, prefix)]) of an UPDATE
        self.unreach = None             # [(id, prefix)] of an UPDATE


def read_attrs(data, place):
    """What an attribute list gives (RFC 4271, sections 4.3 and 5.1; RFC 4760, sections 3 and 4).

    place: ("rib", family) or ("update", wide, ids). In an UPDATE a malformed AS_PATH or NEXT_HOP makes the message be treated
    as a withdrawal (RFC 7606); in a RIB entry it breaks rule 10.
    """
    rib = place[0] == "rib"
    wide = True if rib else place[1]
    used = (2, 3, 14) if rib else (2, 3, 14, 15)
    a, o, seen = Attrs(), Octets(data), set()
    while o.left() > 0:
        flags = o.num(1, 9)
        kind = o.num(1, 9)
        if kind in (14, 15) and kind in used and kind in seen:
            raise Rule(11)                          # at the type, before the length
        length = o.num(2 if flags & 0x10 else 1, 9)
        value = o.take(length, 9)
        if kind not in used or kind in seen:        # unread
            continue
        seen.add(kind)
        if kind == 2:
            try:
                a.path, a.origin = read_path(value, wide)
            except Rule:
                if rib:
                    raise
                a.bad = True
        elif kind == 3:
            if len(value) == 4:
                a.next_hop = (4, int.from_bytes(value, "big"))
            elif rib:
                raise Rule(10)
            else:
                a.bad = True
        elif kind == 14 and rib:
            a.rib_reach = rib_reach_hop(value, place[1])
        else:
            v = Octets(value)
            family = family_of(v.num(2, 10))
            if v.num(1, 10) != 1 or family is None:
                continue                            # another AFI or SAFI
            if kind == 14:
                n = v.num(1, 10)
                if n not in hop_lengths(family):
                    raise Rule(10)
                hop = mp_hop(v.take(n, 10))
                v.take(1, 10)                       # Reserved
                a.reach = (hop, wire_prefixes(value[v.at:], family, place[2], 10))
            else:
                a.unreach = wire_prefixes(value[v.at:], family, place[2], 10)
    return a


# Events:
#   ("announce", via, prefix, path length, hop, origin)
#   ("withdraw", via, prefix)        ("down", peer)

def read_peer_table(body):
    """PEER_INDEX_TABLE (RFC 6396, section 4.3.1): the peers in order. Rule 4."""
    o = Octets(body)
    o.take(4, 4)
    o.take(o.num(2, 4), 4)
    peers = []
    for _ in range(o.num(2, 4)):
        kind = o.num(1, 4)
        o.take(4, 4)
        addr = o.addr(6 if kind & 1 else 4, 4)
        peers.append((addr, o.num(4 if kind & 2 else 2, 4)))
    if o.left() > 0:
        raise Rule(4)
    return peers


def read_rib(body, peers, family, ids):
    """A RIB record (RFC 6396, sections 4.3.2 and 4.3.4; with ids RFC 8050, section 4): one event for each entry."""
    o = Octets(body)
    o.take(4, 8)
    _, prefix = wire_prefix(o, family, False, 8)
    events = []
    for _ in range(o.num(2, 8)):
        index = o.num(2, 8)
        if index >= len(peers):
            raise Rule(7)
        o.take(4, 8)
        ident = o.num(4, 8) if ids else 0
        a = read_attrs(o.take(o.num(2, 8), 8), ("rib", family))
        if family == 4:
            hop = a.next_hop if a.next_hop is not None else a.rib_reach
        else:
            hop = a.rib_reach if a.rib_reach is not None else a.next_hop
        via = (peers[index], ident)
        if hop is None:
            events.append(("withdraw", via, prefix))
        else:
            events.append(("announce", via, prefix, a.path, hop, a.origin))
    if o.left() > 0:
        raise Rule(8)
    return events


def read_message(data, wide, ids, peer):
    """The events of one BGP message (RFC 4271, sections 4.1 and 4.3), and whether it is treated as a withdrawal (RFC 7606)."""
    o = Octets(data)
    if o.left() < 19:
        raise Rule(13)
    o.take(16, 13)
    length = o.num(2, 13)
    if length < 19 or length != len(data):
        raise Rule(13)
    if o.num(1, 13) != 2:
        return [], False
    withdrawn = wire_prefixes(o.take(o.num(2, 14), 14), 4, ids, 14)
    a = read_attrs(o.take(o.num(2, 14), 14), ("update", wide, ids))
    nlri = wire_prefixes(data[o.at:], 4, ids, 14)

    def gone(pairs):
        return [("withdraw", (peer, i), p) for i, p in pairs]

    def come(pairs, hop):
        if hop is None or a.bad:
            return gone(pairs)
        return [("announce", (peer, i), p, a.path, hop, a.origin) for i, p in pairs]

    events = gone(withdrawn) + gone(a.unreach or []) + come(nlri, a.next_hop)
    if a.reach is not None:
        events += come(a.reach[1], a.reach[0])
    return events, a.bad


def read_bgp4mp(body, sub, micro):
    """BGP4MP (RFC 6396, section 4.4; RFC 8050, section 3): (events, treated), or None for a record that is skipped."""
    o = Octets(body)
    if micro:
        o.take(4, 12)
    wide = sub in (4, 5, 7, 9, 11)
    asn = o.num(4 if wide else 2, 12)
    o.take(4 if wide else 2, 12)
    o.take(2, 12)
    family = family_of(o.num(2, 12))
    if family is None:
        return None
    peer = (o.addr(family, 12), asn)
    o.addr(family, 12)
    if sub in (0, 5):
        old, new = o.num(2, 12), o.num(2, 12)
        if o.left() > 0:
            raise Rule(12)
        down = old == ESTABLISHED and new != ESTABLISHED
        return ([("down", peer)] if down else []), False
    return read_message(body[o.at:], wide, sub in (8, 9, 10, 11), peer)


class Reader:
    """The events of one input, record by record; Malformed is a Stop."""

    def __init__(self, data, name):
        self.data, self.name = data, name
        self.records = self.skipped = self.treated = 0
        self.peers = None

    def __iter__(self):
        at, data = 0, self.data
        while at < len(data):
            number = self.records
            if len(data) - at < 12:
                raise malformed(self.name, number, 1)
            kind = int.from_bytes(data[at + 4:at + 6], "big")
            sub = int.from_bytes(data[at + 6:at + 8], "big")
            length = int.from_bytes(data[at + 8:at + 12], "big")
            if length > MOST_BODY:
                raise malformed(self.name, number, 3)
            if len(data) - at - 12 < length:
                raise malformed(self.name, number, 2)
            body = data[at + 12:at + 12 + length]
            at += 12 + length
            try:
                events = self.body(kind, sub, body)
            except Rule as r:
                raise malformed(self.name, number, r.rule)
            self.records += 1
            yield events

    def body(self, kind, sub, body):
        """The events of one record, by its type and subtype; what isn't known is skipped."""
        if kind == 13 and sub == 1:
            self.peers = read_peer_table(body)
            return []
        ribs = {2: (4, False), 4: (6, False), 8: (4, True), 10: (6, True)}
        if kind == 13 and sub in ribs:
            if self.peers is None:
                raise Rule(5)
            family, with_id = ribs[sub]
            return read_rib(body, self.peers, family, with_id)
        if kind in (16, 17) and sub in (0, 1, 4, 5, 6, 7, 8, 9, 10, 11):
            got = read_bgp4mp(body, sub, kind == 17)
            if got is not None:
                self.treated += got[1]
                return got[0]
        self.skipped += 1
        return []


# ----------------------------------------- candidates and choice

class Candidates:
    """The candidate of (prefix, via) is (path length, hop address)."""

    def __init__(self):
        self.of = {}                    # prefix -> {via: (path length, hop)}

    def elementary(self, event):
        """Elementary events: ("put", via, prefix, path, hop) and ("cut", via, prefix)."""
        if event[0] == "announce":
            return [("put",) + event[1:5]]
        if event[0] == "withdraw":
            return [("cut", event[1], event[2])]
        peer = event[1]
        return [("cut", via, p) for p in sorted(self.of)
                for via in sorted(self.of[p]) if via[0] == peer]

    def take(self, elem):
        """The candidates one elementary event further."""
        p = elem[2]
        if elem[0] == "put":
            self.of.setdefault(p, {})[elem[1]] = (elem[3], elem[4])
        elif elem[1] in self.of.get(p, {}):
            del self.of[p][elem[1]]
            if not self.of[p]:
                del self.of[p]

    def apply(self, elem):
        """The same; the prefix with its chosen hop before and after."""
        before = self.chosen(elem[2])
        self.take(elem)
        return elem[2], before, self.chosen(elem[2])

    def chosen(self, p):
        """The chosen hop: least path length, then least via."""
        held = self.of.get(p)
        if not held:
            return None
        via = min(held, key=lambda v: (held[v][0], v))
        return held[via][1]

    def all(self):
        """(prefix, via, path length, hop), by prefix, then via."""
        return [(p, via) + self.of[p][via]
                for p in sorted(self.of) for via in sorted(self.of[p])]


# ------------------------------------------------ tables and regions

class Table:
    """Entries with distinct prefixes, of one family, kept in order."""

    def __init__(self, family, entries=()):
        self.family, self.hop = family, dict(entries)
        self.order = sorted(self.hop)

    def set(self, p, hop):
        if p not in self.hop:
            insort(self.order, p)
        self.hop[p] = hop

    def clear(self, p):
        if p in self.hop:
            del self.hop[p]
            del self.order[bisect_left(self.order, p)]

    def within(self, p):
        """The entries within p, in prefix order."""
        lo = bisect_left(self.order, p)
        hi = bisect_left(self.order, (p[0], last_bits(p), WIDTH[p[0]] + 1))
        return [(q, self.hop[q]) for q in self.order[lo:hi]]

    def above(self, p):
        """The hop of the longest entry strictly containing p, or 0."""
        for length in range(p[2] - 1, -1, -1):
            q = (p[0], cleared(p[0], p[1], length), length)
            if q in self.hop:
                return self.hop[q]
        return 0

    def entries(self):
        return [(q, self.hop[q]) for q in self.order]

    def regions(self, p=None):
        """The regions of p (of the whole space) under longest match in this table."""
        p = ROOT[self.family] if p is None else p
        return regions(self.within(p), p, self.above(p))


def regions(entries, p, h):
    """The tree of regions of p for entries within p (in order), h inherited.

    A leaf is a hop (int), exactly where all addresses get one answer; any other
    region is the pair of its halves. Equal trees are equal answers.
    """
    if entries and entries[0][0] == p:
        h, entries = entries[0][1], entries[1:]
    if not entries:
        return h
    lower, upper = half(p, 0), half(p, 1)
    cut = bisect_left(entries, (upper,))
    a = regions(entries[:cut], lower, h)
    b = regions(entries[cut:], upper, h)
    return a if isinstance(a, int) and a == b else (a, b)


def is_leaf(tree):
    return isinstance(tree, int)


def part(tree, bit):
    """The tree of one half of a region."""
    return tree if is_leaf(tree) else tree[bit]


def region_at(tree, p):
    """The tree of region p, given the tree of the whole space."""
    for i in range(p[2]):
        if is_leaf(tree):
            return tree
        tree = tree[p[1] >> (WIDTH[p[0]] - 1 - i) & 1]
    return tree


def answer_at(tree, a):
    return region_at(tree, (a[0], a[1], WIDTH[a[0]]))


def first_difference(one, two, p):
    """The least address at which two region trees differ, with both answers."""
    if one == two:
        return None
    if is_leaf(one) and is_leaf(two):
        return first_address(p), one, two
    return (first_difference(part(one, 0), part(two, 0), half(p, 0))
            or first_difference(part(one, 1), part(two, 1), half(p, 1)))


# --------------------------------------------- aggregation

def join_sets(a, ka, b, kb):
    """Hops and costs of a region from those of its halves. None stands for any hop."""
    if a is None:
        return b, ka + kb
    if b is None:
        return a, ka + kb
    both = a & b
    return (both, ka + kb) if both else (a | b, ka + kb + 1)


def with_sets(tree):
    """(best hops, cost, both halves with theirs or None), upwards."""
    if is_leaf(tree):
        return frozenset((tree,)), 0, None
    lower, upper = with_sets(tree[0]), with_sets(tree[1])
    s, k = join_sets(lower[0], lower[1], upper[0], upper[1])
    return s, k, (lower, upper)


def bound_of(s, k):
    return k if s is None or 0 in s else k + 1


def agg(tree, p, h, old):
    """The least table within p for these regions, h inherited; a hop of the old table stays if it is best."""
    def down(node, p, h, out):
        s, _, halves = node
        if h not in s:
            h = old[p] if old.get(p, -1) in s else min(s)
            out.append((p, h))
        if halves is not None:
            down(halves[0], half(p, 0), h, out)
            down(halves[1], half(p, 1), h, out)
    out = []
    down(with_sets(tree), p, h, out)
    return out


def certificate(tree, family):
    """Leaf and join rows, halves before their region, then the bound."""
    rows = []

    def up(tree, p):
        if is_leaf(tree):
            rows.append(("leaf", p, tree))
            return frozenset((tree,)), 0
        a, ka = up(tree[0], half(p, 0))
        b, kb = up(tree[1], half(p, 1))
        s, k = join_sets(a, ka, b, kb)
        rows.append(("join", p, k))
        return s, k

    s, k = up(tree, ROOT[family])
    rows.append(("bound", family, bound_of(s, k)))
    return rows


def patched(table, routes, p):
    """The kept table's entries within p, after its repair at p."""
    return agg(routes.regions(p), p, table.above(p), table.hop)


def near(table, routes):
    """The nearest table that answers as the routes, and the least number of prefixes at which such a table differs.

    Upwards each region gets the set of hops that it may inherit at the least number k of changes within it; an entry of the
    table that must change costs one. Downwards an entry stays if it may, and else the least hop of the set is put in.
    """
    def build(entries, tree, p):
        """(S, set, k, t, halves) of a region; entries of T within it."""
        t = None
        if entries and entries[0][0] == p:
            t, entries = entries[0][1], entries[1:]
        if is_leaf(tree) and not entries:
            s, m, halves = frozenset((tree,)), 0, None
        else:
            cut = bisect_left(entries, (half(p, 1),))
            lower = build(entries[:cut], part(tree, 0), half(p, 0))
            upper = build(entries[cut:], part(tree, 1), half(p, 1))
            s, m = join_sets(lower[1], lower[2], upper[1], upper[2])
            halves = (lower, upper)
        if t is None:
            return s, s, m, None, halves
        return s, None, m if s is None or t in s else m + 1, t, halves

    def down(node, p, h, out):
        s, _, _, t, halves = node
        hold = lambda hop: s is None or hop in s
        if t is not None and hold(t):
            h = t
            out.append((p, h))
        elif not hold(h):
            h = min(s)
            out.append((p, h))
        if halves is not None:
            down(halves[0], half(p, 0), h, out)
            down(halves[1], half(p, 1), h, out)

    root = ROOT[table.family]
    top = build(table.entries(), routes.regions(), root)
    out = []
    down(top, root, 0, out)
    return out, bound_of(top[1], top[2])


def near_rows(table, routes):
    """The rows that prove the changes fewest, of one family: halves before their region, a join's k with the region's own entry
    counted, then the bound."""
    rows = []

    def go(entries, tree, p):
        t = None
        if entries and entries[0][0] == p:
            t, entries = entries[0][1], entries[1:]
        if is_leaf(tree) and not entries:
            s, k = frozenset((tree,)), 0
            if t is not None:
                s, k = None, int(t != tree)
            rows.append(("leaf", p, tree))
            return s, k
        cut = bisect_left(entries, (half(p, 1),))
        low = go(entries[:cut], part(tree, 0), half(p, 0))
        high = go(entries[cut:], part(tree, 1), half(p, 1))
        s, k = join_sets(low[0], low[1], high[0], high[1])
        if t is not None:
            s, k = None, k if s is None or t in s else k + 1
        rows.append(("join", p, k))
        return s, k

    s, k = go(table.entries(), routes.regions(), ROOT[table.family])
    rows.append(("bound", table.family, bound_of(s, k)))
    return rows


def steady(changes):
    """Steady order: what is added or replaced from the longest prefix on, then what is removed from the shortest on, IPv4
    first; changes of one turn as they stand."""
    return sorted(changes, key=lambda c: (c[1][0], 129 + c[1][2] if c[0] == "-" else 128 - c[1][2]))


def between(old, new):
    """One change for each prefix that differs, in prefix order; dicts of entries."""
    out = []
    for p in sorted(set(old) | set(new)):
        if p not in old:
            out.append(("+", p, new[p]))
        elif p not in new:
            out.append(("-", p, None))
        elif old[p] != new[p]:
            out.append(("=", p, new[p]))
    return out


# ------------------------------------------------- what a Poptrie visits and needs

def visits(tree, a, s):
    """The address's regions of length s, s + 6, .. below w that aren't uniform."""
    w = WIDTH[a[0]]
    return sum(not is_leaf(region_at(tree, (a[0], cleared(a[0], a[1], n), n)))
               for n in range(s, w, 6))


def up(n):
    """0 for 0, else the least power of two that is at least n."""
    return 0 if n == 0 else 1 << (n - 1).bit_length()


def slots(tree, p):
    """The children (prefix, tree) and r of the chunk region p, which isn't uniform.

    A uniform region met within six bits covers whole slots with one answer, so
    only its first slot can count for r. No region of length w has halves.
    """
    children, answers = [], []

    def walk(tree, q):
        if is_leaf(tree):
            if not answers or answers[-1] != tree:
                answers.append(tree)
        elif q[2] == p[2] + 6:
            children.append((q, tree))
        else:
            walk(tree[0], half(q, 0))
            walk(tree[1], half(q, 1))

    walk(tree, p)
    return children, len(answers)


def chunk_need(tree, p):
    """What is needed below one chunk region, its own node not counted."""
    if is_leaf(tree):
        return 0, 0
    children, r = slots(tree, p)
    nodes, leaves = up(len(children)), up(r)
    for q, sub in children:
        n, m = chunk_need(sub, q)
        nodes, leaves = nodes + n, leaves + m
    return nodes, leaves


def slot_need(tree, p):
    """What one direct slot adds to both needs."""
    n, m = chunk_need(tree, p)
    return (0 if is_leaf(tree) else 1) + n, m


def needs(tree, p, s):
    """The needs of a whole family (called with its root)."""
    if is_leaf(tree):
        return 0, 0
    if p[2] == s:
        return slot_need(tree, p)
    a, b = needs(tree[0], half(p, 0), s), needs(tree[1], half(p, 1), s)
    return a[0] + b[0], a[1] + b[1]


class Needs:
    """The needs of one family's routes, mended slot by slot: they are sums over direct slots."""

    def __init__(self, routes, s):
        self.routes, self.s, self.of, self.total = routes, s, {}, (0, 0)
        self.mend(ROOT[routes.family])

    def slot(self, p):
        return (p[0], cleared(p[0], p[1], self.s), self.s)

    def mend(self, p):
        """After a change of the route at p: the slots within p, or p's own slot.

        A slot in which no route longer than s stands is uniform.
        """
        touched = {self.slot(q) for q, _ in self.routes.within(p) if q[2] > self.s}
        if p[2] >= self.s:
            touched.add(self.slot(p))
        for q in touched:
            n, m = slot_need(self.routes.regions(q), q)
            a, b = self.of.get(q, (0, 0))
            self.of[q] = (n, m)
            self.total = (self.total[0] - a + n, self.total[1] - b + m)


# --------------------------------------------------------- the engine

class Engine:
    """Candidates, hops, routes, kept table and needs under one event after another."""

    def __init__(self, opts, vrps=None):
        self.opts, self.vrps = opts, vrps
        self.candidates, self.hops = Candidates(), HopTable()
        self.routes = {f: Table(f) for f in FAMILIES}
        self.kept = {f: Table(f) for f in FAMILIES}
        self.events = 0                 # elementary events taken
        self.updates = 0                # those after the load
        self.changes, self.moves, self.invalid = [], [], []
        self.needs = None

    def number(self, addr, event):
        n = self.hops.number(addr)
        if n is None:
            raise Stop(7, "fib: too many hops at event %d" % event)
        return n

    def judged(self, event):
        """An announcement that is Invalid is taken as its withdrawal."""
        if self.vrps is None or event[0] != "announce":
            return event
        state, vrp = rov_state(self.vrps, event[2], event[5])
        if state != "invalid":
            return event
        self.invalid.append((event, vrp))
        return ("withdraw", event[1], event[2])

    def load(self, event):
        for elem in self.candidates.elementary(self.judged(event)):
            self.events += 1
            if elem[0] == "put":
                self.number(elem[4], 0)
            self.candidates.take(elem)

    def finish_load(self):
        """The kept table after the load; TrieFull of event 0."""
        for p in sorted(self.candidates.of):
            hop = self.hops.numbers[self.candidates.chosen(p)]
            self.routes[p[0]].set(p, hop)
        self.needs = {f: Needs(self.routes[f], self.opts["direct"]) for f in FAMILIES}
        self.check_fit(0)
        self.record(0, self.snapshot(dict(), dict()))

    def check_fit(self, event):
        """TrieFull: the first arena whose need is over 2^order."""
        all_needs = self.needs[4].total + self.needs[6].total
        for arena, need in enumerate(all_needs):
            have = 1 << self.opts["leaves" if arena % 2 else "nodes"]
            if need > have:
                raise Stop(6, "fib: trie full at event %d: arena %d needs %d of %d"
                           % (event, arena, need, have))

    def snapshot(self, *old):
        """Both families aggregated whole; the changes."""
        changes = []
        for family in FAMILIES:
            was = self.kept[family].hop
            now = dict(agg(self.routes[family].regions(), ROOT[family], 0, was))
            changes += between(was, now)
            self.kept[family] = Table(family, now)
        return changes

    def record(self, event, changes):
        if self.opts.get("steady"):
            changes = steady(changes)
        self.changes += [(event,) + c for c in changes]

    def apply(self, event):
        for elem in self.candidates.elementary(self.judged(event)):
            self.apply_elem(elem)

    def apply_elem(self, elem):
        """One elementary event after the load."""
        self.events += 1
        self.updates += 1
        e = self.updates
        if elem[0] == "put":
            self.number(elem[4], e)
        p, before, after = self.candidates.apply(elem)
        if before != after:
            self.change(e, p, after)
        every = self.opts.get("every", 0)
        if every > 0 and e % every == 0:
            self.record(e, self.snapshot())

    def change(self, e, p, after):
        family = p[0]
        routes, kept = self.routes[family], self.kept[family]
        if after is None:
            routes.clear(p)
        else:
            routes.set(p, self.hops.numbers[after])
        self.needs[family].mend(p)
        self.check_fit(e)
        if self.opts.get("fewest"):
            old, new = dict(kept.hop), dict(near(kept, routes)[0])
        else:                                       # only what is within p can differ
            old, new = dict(kept.within(p)), dict(patched(kept, routes, p))
        changes = between(old, new)
        for sign, q, hop in changes:
            kept.clear(q) if sign == "-" else kept.set(q, hop)
        self.record(e, changes)
        if self.opts.get("fewest"):
            self.moves.append((e, len(changes)))


# ------------------------------------------------------- text rows

def report_rows(engine, readers):
    """The counts."""
    rows = [("records", sum(r.records for r in readers)),
            ("skipped", sum(r.skipped for r in readers)),
            ("events", engine.events),
            ("routes", sum(len(engine.routes[f].hop) for f in FAMILIES)),
            ("entries", sum(len(engine.kept[f].hop) for f in FAMILIES)),
            ("nodes", sum(engine.needs[f].total[0] for f in FAMILIES)),
            ("leaves", sum(engine.needs[f].total[1] for f in FAMILIES)),
            ("treated", sum(r.treated for r in readers))]
    return ["report,%s,%d" % row for row in rows]


def run_rows(engine, readers, asks):
    """The whole text of `run`."""
    hops = engine.hops
    rows = []
    for f in FAMILIES:
        for p, hop in engine.routes[f].entries():
            rows.append("route,%s,%s" % (write_prefix(p), hops.text(hop, "")))
    for event, (_, vp, maxlen, asn) in engine.invalid:
        _, ((addr, peer_as), _), p, _, _, origin = event
        rows.append("invalid,%s,%s,%d,%s,%s,%d,%d" % (
            write_prefix(p), write_addr(addr), peer_as,
            "none" if origin is None else origin, write_prefix(vp), maxlen, asn))
    for e, sign, p, hop in engine.changes:
        tail = "" if sign == "-" else "," + hops.text(hop, "drop")
        rows.append("change,%d,%s,%s%s" % (e, sign, write_prefix(p), tail))
    for e, n in engine.moves:
        rows.append("moves,%d,%d" % (e, n))
    trees = {f: engine.routes[f].regions() for f in FAMILIES}
    for a in asks:
        rows.append("answer,%s,%s" % (write_addr(a), hops.text(answer_at(trees[a[0]], a), "none")))
        rows.append("visits,%s,%d" % (write_addr(a), visits(trees[a[0]], a, engine.opts["direct"])))
    for f in FAMILIES:
        for p, hop in engine.kept[f].entries():
            rows.append("table,%s,%s" % (write_prefix(p), hops.text(hop, "drop")))
    for f in FAMILIES:
        for p, hop in agg(trees[f], ROOT[f], 0, engine.kept[f].hop):
            rows.append("least,%s,%s" % (write_prefix(p), hops.text(hop, "drop")))
    for f in FAMILIES:
        rows += [cert_text(row, hops) for row in certificate(trees[f], f)]
    return rows + report_rows(engine, readers)


def cert_text(row, hops):
    """A row of a certificate."""
    kind, p, n = row
    if kind == "bound":
        return "cert,bound,%d,%d" % (p, n)
    return "cert,%s,%s,%s" % (kind, write_prefix(p), hops.text(n, "none") if kind == "leaf" else n)


def text_lines(data):
    """(number, line) of each line that isn't empty."""
    lines = data.decode("latin-1").split("\n")
    last = lines.pop()                              # what follows the last LF
    numbered = [(i + 1, line[:-1] if line.endswith("\r") else line)
                for i, line in enumerate(lines)]
    numbered.append((len(numbered) + 1, last))
    return [(i, line) for i, line in numbered if line != ""]


def read_asks(data):
    asks = []
    for number, line in text_lines(data):
        a = read_addr(line)
        if a is None:
            raise bad_line("asks", number, 1)
        asks.append(a)
    return asks


# ------------------------------------------------ origin validation (RFC 6811)

def read_vrps(data):
    """Lines PREFIX,MAXLEN,AS; whys in the order 3, 4, 5, 7."""
    vrps = []
    for number, line in text_lines(data):
        fields = line.split(",")
        if len(fields) != 3:
            raise bad_line("vrps", number, 3)
        p = read_prefix(fields[0])
        if p is None:
            raise bad_line("vrps", number, 4)
        maxlen, asn = read_number(fields[1], 256), read_number(fields[2], 1 << 32)
        if maxlen is None or asn is None:
            raise bad_line("vrps", number, 5)
        if maxlen < p[2] or maxlen > WIDTH[p[0]]:
            raise bad_line("vrps", number, 7)
        vrps.append((len(vrps), p, maxlen, asn))
    return vrps


def rov_state(vrps, p, origin):
    """Valid, Invalid or NotFound (RFC 6811, section 2), with the first VRP that matches or covers."""
    covering = [v for v in vrps if is_within(p, v[1])]
    matching = [v for v in covering
                if p[2] <= v[2] and origin is not None and origin != 0 and v[3] == origin]
    if matching:
        return "valid", matching[0]
    return ("invalid", covering[0]) if covering else ("notfound", None)


# ------------------------------------- printed text and its check

class Why(Exception):
    def __init__(self, why):
        super().__init__(why)
        self.why = why


def want_fields(fields, n):
    if len(fields) != n:
        raise Why(3)


def want_word(word, words):
    if word not in words:
        raise Why(2)


def want_prefix(text):
    p = read_prefix(text)
    if p is None:
        raise Why(4)
    return p


def want_number(text):
    n = read_number(text, 1 << 64)
    if n is None:
        raise Why(5)
    return n


def want_hop(text, zero=None):
    """An address; or 0 for the word that the row allows."""
    if zero is not None and text == zero:
        return 0
    a = read_addr(text)
    if a is None:
        raise Why(1)
    return a


REPORT = ("records", "skipped", "events", "routes", "entries", "nodes", "leaves", "treated")


def read_row(line):
    """One row of the grammar: a tuple that begins with its kind."""
    f = line.split(",")
    want_word(f[0], ("route", "invalid", "change", "moves", "answer", "visits", "table", "least", "cert", "report"))
    if f[0] == "route":
        want_fields(f, 3)
        return "route", want_prefix(f[1]), want_hop(f[2])
    if f[0] in ("table", "least"):
        want_fields(f, 3)
        return f[0], want_prefix(f[1]), want_hop(f[2], "drop")
    if f[0] == "answer":
        want_fields(f, 3)
        return "answer", want_hop(f[1]), want_hop(f[2], "none")
    if f[0] == "visits":
        want_fields(f, 3)
        return "visits", want_hop(f[1]), want_number(f[2])
    if f[0] == "change":                            # the sign decides the fields
        if len(f) > 1:
            want_number(f[1])
        if len(f) < 3:
            raise Why(3)
        want_word(f[2], ("+", "=", "-"))
        want_fields(f, 4 if f[2] == "-" else 5)
        p = want_prefix(f[3])
        return "change", p, None if f[2] == "-" else want_hop(f[4], "drop"), f[2]
    if f[0] == "cert":                              # the second word decides them
        if len(f) < 2:
            raise Why(3)
        want_word(f[1], ("leaf", "join", "bound"))
        want_fields(f, 4)
        if f[1] == "leaf":
            return "leaf", want_prefix(f[2]), want_hop(f[3], "none")
        if f[1] == "join":
            return "join", want_prefix(f[2]), want_number(f[3])
        want_word(f[2], ("4", "6"))
        return "bound", int(f[2]), want_number(f[3])
    if f[0] == "report":
        want_fields(f, 3)
        want_word(f[1], REPORT)
        return "report", f[1], want_number(f[2])
    if f[0] == "moves":
        want_fields(f, 3)
        return "moves", want_number(f[1]), want_number(f[2])
    want_fields(f, 8)                               # an invalid row
    want_prefix(f[1])
    want_hop(f[2])
    want_number(f[3])
    if f[4] != "none":
        want_number(f[4])
    want_prefix(f[5])
    want_number(f[6])
    want_number(f[7])
    return ("invalid",)


def read_rows(data, name, kinds, hops):
    """All rows of the kinds wanted, in order, hops as numbers (why 6)."""
    rows = []
    for number, line in text_lines(data):
        try:
            row = read_row(line)
            if row[0] not in kinds:
                continue
            if row[0] in ("route", "table", "least", "leaf", "change") and row[2] not in (0, None):
                hop = hops.number(row[2])
                if hop is None:
                    raise Why(6)
                row = row[:2] + (hop,) + row[3:]
            rows.append(row)
        except Why as w:
            raise bad_line(name, number, w.why)
    return rows


def check_no(row):
    return Stop(1, "fib: no", row + "\n")


def twice(entries):
    """The first entry whose prefix stands again later, as CheckNo."""
    count = {}
    for p, _ in entries:
        count[p] = count.get(p, 0) + 1
    for p, _ in entries:
        if count[p] > 1:
            raise check_no("no,twice," + write_prefix(p))


def trees_of(entries):
    return {f: Table(f, [e for e in entries if e[0][0] == f]).regions() for f in FAMILIES}


def check(routes, table, rows, hops):
    """The verdict on a printed text: raises CheckNo, or returns."""
    twice(routes)
    twice(table)
    want, has = trees_of(routes), trees_of(table)
    for f in FAMILIES:
        differ = first_difference(want[f], has[f], ROOT[f])
        if differ:
            raise check_no("no,notsame,%s,%s,%s" % (
                write_addr(differ[0]), hops.text(differ[1], "none"), hops.text(differ[2], "none")))
    bounds = check_rows(want, rows)
    for f in FAMILIES:
        entries = sum(p[0] == f for p, _ in table)
        if entries > bounds[f]:
            raise check_no("no,notleast,%d,%d,%d" % (f, entries, bounds[f]))


def check_rows(want, rows):
    """The rows over a stack of regions: Shape, LeafWrong, JoinWrong; the bounds."""
    stack, bounds = [], {}                          # stack of (prefix, set, k)
    for number, (kind, p, n) in enumerate(rows, 1):
        shape = check_no("no,shape,%d" % number)
        if 6 in bounds:
            raise shape
        if kind == "leaf":
            if region_at(want[p[0]], p) != n:
                raise check_no("no,leafwrong,%d" % number)
            stack.append((p, frozenset((n,)), 0))
            continue
        if kind == "join":
            if p[2] == WIDTH[p[0]] or len(stack) < 2:
                raise shape
            if stack[-2][0] != half(p, 0) or stack[-1][0] != half(p, 1):
                raise shape
            _, b, kb = stack.pop()
            _, a, ka = stack.pop()
            s, due = join_sets(a, ka, b, kb)
            stack.append((p, s, due))
        else:
            if p != (6 if 4 in bounds else 4) or [x[0] for x in stack] != [ROOT[p]]:
                raise shape
            _, s, k = stack.pop()
            due = bounds[p] = bound_of(s, k)
        if n != due:
            raise check_no("no,joinwrong,%d,%d,%d" % (number, n, due))
    if 6 not in bounds:
        raise check_no("no,shape,%d" % (len(rows) + 1))
    return bounds


def check_moves(family, table, routes, rows, hops):
    """The verdict on changes of a router's table in one family, and on the rows that are to prove them fewest. Raises CheckNo."""
    def no(kind, *numbers):
        return check_no(",".join(["no", kind, str(family), *map(str, numbers)]))

    changes, rows = [r for r in rows if r[0] == "change"], [r for r in rows if r[0] != "change"]
    changed = dict(table.hop)
    for number, (_, p, hop, sign) in enumerate(changes, 1):
        if (sign == "+") == (p in changed):
            raise no("apply", number)
        changed[p] = hop
        if sign == "-":
            del changed[p]
    tree = routes.regions()
    differ = first_difference(tree, Table(family, changed).regions(), ROOT[family])
    if differ:
        raise check_no("no,notsame,%s,%s,%s" % (
            write_addr(differ[0]), hops.text(differ[1], "none"), hops.text(differ[2], "none")))

    def with_entry(p, s, k):
        """What a region may inherit at how many changes, its own entry counted."""
        t = table.hop.get(p)
        return (p, s, k) if t is None else (p, None, k if s is None or t in s else k + 1)

    stack, bound = [], None
    for number, (kind, p, n) in enumerate(rows, 1):
        if bound is not None:
            raise no("shape", number)
        if kind == "leaf":
            if region_at(tree, p) != n or any(q != p for q, _ in table.within(p)):
                raise no("leafwrong", number)
            stack.append(with_entry(p, frozenset((n,)), 0))
            continue
        if kind == "join":
            if p[2] == WIDTH[family] or [x[0] for x in stack[-2:]] != [half(p, 0), half(p, 1)]:
                raise no("shape", number)
            (_, b, kb), (_, a, ka) = stack.pop(), stack.pop()
            stack.append(with_entry(p, *join_sets(a, ka, b, kb)))
            due = stack[-1][2]
        else:
            if [x[0] for x in stack] != [ROOT[family]]:
                raise no("shape", number)
            _, s, k = stack.pop()
            due = bound = bound_of(s, k)
        if n != due:
            raise no("joinwrong", number, n, due)
    if bound is None:
        raise no("shape", len(rows) + 1)
    if len(changes) > bound:
        raise no("notshortest", len(changes), bound)


# ------------------------------------------------- arenas, two sets

class Arena:
    """The free blocks (order, place) of an arena of order n, in a buddy system."""

    def __init__(self, order):
        self.order = order
        self.clear()

    def clear(self):
        self.free = {(self.order, 0)}

    def take(self, items):
        """A block for so many items, or None where no free block is large enough."""
        k = (items - 1).bit_length()
        fit = [b for b in self.free if b[0] >= k]
        if not fit:
            return None
        order, place = min(fit)                     # smallest order, lowest place
        self.free.remove((order, place))
        while order > k:
            order -= 1
            self.free.add((order, place + (1 << order)))
        return (k, place)

    def give(self, block):
        order, place = block
        while (order, place ^ (1 << order)) in self.free:
            self.free.remove((order, place ^ (1 << order)))
            place &= ~(1 << order)
            order += 1
        self.free.add((order, place))


def asks_of(tree, p, s):
    """What the chunk region p, which isn't uniform, asks for: (arena, places)."""
    children, r = slots(tree, p)
    return ([(0, 1)] if p[2] == s else []) + \
        ([(0, up(len(children)))] if children else []) + \
        ([(1, up(r))] if r else [])


def changed_chunks(old, new, p, s):
    """The chunk regions with a changed answer, (p, old, new), in prefix order,
    but for those that are uniform before and after (they have no block)."""
    if old == new or (is_leaf(old) and is_leaf(new)):
        return
    if p[2] >= s and (p[2] - s) % 6 == 0:
        yield p, old, new
    yield from changed_chunks(part(old, 0), part(new, 0), half(p, 0), s)
    yield from changed_chunks(part(old, 1), part(new, 1), half(p, 1), s)


def changed_slots(old, new, p, s):
    """The direct slots that hold an address with different answers, ascending."""
    if old == new:
        return
    slot = p[1] >> (WIDTH[p[0]] - s) if s else 0
    if p[2] == s:
        yield slot
    elif is_leaf(old) and is_leaf(new):
        yield from range(slot, slot + (1 << (s - p[2])))
    else:
        yield from changed_slots(part(old, 0), part(new, 0), half(p, 0), s)
        yield from changed_slots(part(old, 1), part(new, 1), half(p, 1), s)


class Live:
    """The live Poptrie of one family: two sets of arenas, of which one is selected, and retired blocks.

    The blocks of a fill and of a rebuild are asked for as those of an update are: by chunk regions, in prefix order. What the
    program may print of a run in steps doesn't fix where blocks lie, so its rows may differ from these (docs/PAUSED.md).
    """

    def __init__(self, family, s, nodes, leaves):
        self.family, self.s = family, s
        self.sets = [[Arena(nodes), Arena(leaves)] for _ in range(2)]
        self.selected, self.time, self.tree = 0, 0, 0
        self.blocks = {}                # chunk region -> [(arena, block)], present version
        self.retired = []               # (end, arena, block) in the selected set
        self.other = None               # None: free; else the end that retired it
        self.pending = None

    def take_all(self, which, regions_):
        """Take the asks in turn. ({region: blocks}, None), or what was taken and
        (arena, places) of the first refused one."""
        taken = {}
        for p, tree in regions_:
            taken[p] = []
            for arena, places in asks_of(tree, p, self.s):
                block = self.sets[which][arena].take(places)
                if block is None:
                    return taken, (arena, places)
                taken[p].append((arena, block))
        return taken, None

    def give_all(self, which, taken):
        for blocks in taken.values():
            for arena, block in blocks:
                self.sets[which][arena].give(block)

    def whole(self, which, tree):
        """Clear a set and build the whole trie there; it fits where the need does."""
        for arena in self.sets[which]:
            arena.clear()
        all_chunks = [(p, new) for p, _, new in changed_chunks(-1, tree, ROOT[self.family], self.s)
                      if not is_leaf(new)]
        taken, refused = self.take_all(which, all_chunks)
        assert refused is None
        return taken

    def fill(self, tree):
        self.blocks, self.tree = self.whole(self.selected, tree), tree

    def prepare(self, tree, oldest):
        """None where prepared; else the pinned cursor. oldest: (since, cursor) or None.
        The caller has tested TrieFull."""
        held = lambda end: oldest is not None and oldest[0] < end
        for end, arena, block in self.retired:
            if not held(end):
                self.sets[self.selected][arena].give(block)
        self.retired = [r for r in self.retired if held(r[0])]
        if self.other is not None and not held(self.other):
            self.other = None
        root = ROOT[self.family]
        chunks = list(changed_chunks(self.tree, tree, root, self.s))
        taken, refused = self.take_all(self.selected, [(p, new) for p, _, new in chunks
                                                       if not is_leaf(new)])
        if refused is None:
            replaced = [p for p, old, _ in chunks if not is_leaf(old)]
            stores = list(changed_slots(self.tree, tree, root, self.s))
            self.pending = (False, taken, replaced, tree, stores)
            return None
        self.give_all(self.selected, taken)
        if self.other is not None:
            return oldest[1]
        taken = self.whole(1 - self.selected, tree)
        self.pending = (True, taken, None, tree, ["selector"])
        return None

    def cancel(self):
        if not self.pending[0]:
            self.give_all(self.selected, self.pending[1])
        self.pending = None

    def end(self):
        selector, taken, replaced, tree, _ = self.pending
        self.time += 1
        if selector:
            self.blocks, self.retired = taken, []
            self.selected, self.other = 1 - self.selected, self.time
        else:
            for p in replaced:
                self.retired += [(self.time, a, b) for a, b in self.blocks.pop(p)]
            self.blocks.update(taken)
        self.tree, self.pending = tree, None
        self.keeps_need()

    def keeps_need(self):
        """The present version's blocks fill exactly the need."""
        sums = [0, 0]
        for blocks in self.blocks.values():
            for arena, (order, _) in blocks:
                sums[arena] += 1 << order
        assert tuple(sums) == needs(self.tree, ROOT[self.family], self.s)


# ------------------------------------------------------- runs in steps

def read_script(data):
    """The lines of a script as tuples."""
    script = []
    for number, line in text_lines(data):
        f = line.split(" ")
        try:
            want_word(f[0], ("open", "go", "prepare", "store", "end", "cancel"))
            want_fields(f, 2 if f[0] in ("open", "go") else 1)
            if f[0] == "open":
                script.append(("open", want_hop(f[1])))
            elif f[0] == "go":
                c = read_number(f[1], 128)
                if c is None:
                    raise Why(5)
                script.append(("go", c))
            else:
                script.append((f[0],))
        except Why as w:
            raise bad_line("script", number, w.why)
    return script


class Machine:
    """A run in steps. For each number of ended events it keeps a region tree of each family."""

    def __init__(self, engine, events, opts):
        self.s = opts["direct"]
        self.engine, self.opts = engine, opts
        self.hops = engine.hops
        self.events = events            # the elementary events, each with its choice
        self.n = 0
        self.routes = engine.routes     # the routes after n ended events
        self.trees = [{f: self.routes[f].regions() for f in FAMILIES}]
        self.live = {f: Live(f, self.s, opts["nodes"], opts["leaves"]) for f in FAMILIES}
        for f in FAMILIES:
            self.live[f].fill(self.trees[0][f])
        self.open = {4: {}, 6: {}}      # number -> [address, time at start, goes, version]
        self.begun = None               # (touches a Live, prefix, stores, made)

    def slot(self, a):
        return a[1] >> (WIDTH[a[0]] - self.s) if self.s else 0

    def published(self, a):
        """n + 1 where a store that was made covers a's slot, else n."""
        if self.begun and self.begun[0] and self.begun[1][0] == a[0]:
            made = self.begun[2][:self.begun[3]]
            if made == ["selector"] or self.slot(a) in set(made):
                return self.n + 1
        return self.n

    def step(self, line):
        """The row of one script line, without `step,N,`."""
        return getattr(self, "do_" + line[0])(*line[1:])

    def do_open(self, a):
        cursors = self.open[a[0]]
        free = [c for c in range(64) if c not in cursors]
        if not free:
            return "full"
        cursors[free[0]] = [a, self.live[a[0]].time, 0, None]
        return "open,%d" % (free[0] + (64 if a[0] == 6 else 0))

    def do_go(self, number):
        family = 6 if number >= 64 else 4
        look = self.open[family].get(number % 64)
        if look is None:
            return "notopen,%d" % number
        if look[2] == 0:
            look[3] = self.published(look[0])
        look[2] += 1
        tree = self.trees[look[3]][family]
        if look[2] <= visits(tree, look[0], self.s):
            return "on,%d" % number
        del self.open[family][number % 64]
        return "hop,%d,%s" % (number, self.hops.text(answer_at(tree, look[0]), "none"))

    def oldest(self, family):
        return min(((look[1], c) for c, look in self.open[family].items()), default=None)

    def do_prepare(self):
        if self.begun:
            return "busy"
        if self.n == len(self.events):
            return "nothing"
        elem, p, before, after = self.events[self.n]
        if elem[0] == "put":
            self.engine.number(elem[4], self.n + 1)
        trees = dict(self.trees[self.n])
        if before == after:
            self.begun = [False, p, [], 0]
        else:
            self.set_route(p, after)
            trees[p[0]] = self.routes[p[0]].regions()
            self.check_fit(trees[p[0]], p[0])
            pinned = self.live[p[0]].prepare(trees[p[0]], self.oldest(p[0]))
            if pinned is not None:
                self.set_route(p, before)
                return "pinned,%d" % (pinned + (64 if p[0] == 6 else 0))
            self.begun = [True, p, self.live[p[0]].pending[4], 0]
        self.trees.append(trees)
        return "prepared"

    def set_route(self, p, hop):
        if hop is None:
            self.routes[p[0]].clear(p)
        else:
            self.routes[p[0]].set(p, self.hops.numbers[hop])

    def check_fit(self, tree, family):
        for i, need in enumerate(needs(tree, ROOT[family], self.s)):
            have = 1 << self.opts["leaves" if i else "nodes"]
            if need > have:
                raise Stop(6, "fib: trie full at event %d: arena %d needs %d of %d"
                           % (self.n + 1, i + (2 if family == 6 else 0), need, have))

    def do_store(self):
        if not self.begun or self.begun[3] == len(self.begun[2]):
            return "nothing"
        self.begun[3] += 1
        return "stored"

    def do_end(self):
        if not self.begun:
            return "nothing"
        if self.begun[3] < len(self.begun[2]):
            return "left"
        if self.begun[0]:
            self.live[self.begun[1][0]].end()
        self.n, self.begun = self.n + 1, None
        return "ended"

    def do_cancel(self):
        if not self.begun:
            return "nothing"
        if self.begun[3] > 0:
            return "late"
        touched, p = self.begun[:2]
        if touched:
            self.live[p[0]].cancel()
            self.set_route(p, self.events[self.n][2])
        self.trees.pop()
        self.begun = None
        return "cancelled"


def elementary_list(candidates, events):
    """The elementary events of all updates: (elementary event, prefix, hop before, after)."""
    out = []
    for event in events:
        for elem in candidates.elementary(event):
            out.append((elem,) + candidates.apply(elem))
    return out


# ------------------------------------------------------ inputs made of a number

def record(kind, sub, body):
    """One MRT record of time 0."""
    return (bytes(4) + kind.to_bytes(2, "big") + sub.to_bytes(2, "big")
            + len(body).to_bytes(4, "big") + body)


def generate(n, seed):
    """The dump and the updates (docs/DEFINITIONS.md, 'Inputs made of a number')."""
    x = seed

    def draw():
        nonlocal x
        x = (6364136223846793005 * x + 1442695040888963407) % (1 << 64)
        return x >> 33

    def be(value, octets):
        return value.to_bytes(octets, "big")

    def peer_addr(i):
        return bytes((192, 0, 2, i + 1))

    def attributes(i, length, last):
        path = bytes((2, length)) + be(64500 + i, 4) * length
        return (bytes((0x40, 1, 1, 0)) + bytes((0x40, 2, len(path))) + path
                + bytes((0x40, 3, 4, 198, 51, 100, last)))

    peers = b"".join(b"\x02" + peer_addr(i) * 2 + be(64500 + i, 4) for i in range(8))
    dump = [record(13, 1, bytes(6) + be(8, 2) + peers)]
    made = []
    for i in range(n):
        length = 8 + draw() % 17
        address = cleared(4, draw() % (1 << 24) * 256, length)
        peer = draw() % 8
        path = 1 + draw() % 4
        last = 1 + draw() % 16
        wire = bytes((length,)) + be(address, 4)[:(length + 7) // 8]
        a = attributes(peer, path, last)
        dump.append(record(13, 2, be(i, 4) + wire + be(1, 2) + be(peer, 2) + bytes(4)
                           + be(len(a), 2) + a))
        made.append((wire, peer))
    updates = []
    for _ in range(n // 2):
        wire, peer = made[draw() % n]
        kind = draw() % 4
        path = 1 + draw() % 4
        last = 1 + draw() % 16
        if kind == 0:
            body = be(len(wire), 2) + wire + be(0, 2)
        else:
            a = attributes(peer, path, last)
            body = be(0, 2) + be(len(a), 2) + a + wire
        head = (be(64500 + peer, 4) + be(64511, 4) + be(0, 2) + be(1, 2) + peer_addr(peer)
                + bytes((192, 0, 2, 254)))
        updates.append(record(16, 4, head + b"\xff" * 16 + be(19 + len(body), 2) + b"\x02" + body))
    return b"".join(dump), b"".join(updates)


# ---------------------------------------------------------- a checkpoint

def write_dump(cands):
    """The octets of a dump of the candidates (RFC 6396, section 4.3), or PeersFull, or PathTooLong."""
    peers = sorted({via[0] for _, via, _, _ in cands})
    if len(peers) > 65535:
        raise Stop(12, "fib: too many peers: %d" % len(peers))
    for p, _, path, _ in cands:
        if path > 15000:
            raise Stop(11, "fib: path too long at %s: %d" % (write_prefix(p), path))
    index = {peer: i for i, peer in enumerate(peers)}
    be = lambda value, octets: value.to_bytes(octets, "big")
    body = bytes(6) + be(len(peers), 2)
    for (family, bits), asn in peers:
        body += bytes((3 if family == 6 else 2,)) + bytes(4) + be(bits, WIDTH[family] // 8) + be(asn, 4)
    out = [record(13, 1, body)]
    ids = any(via[1] != 0 for _, via, _, _ in cands)
    subs = {4: 8, 6: 10} if ids else {4: 2, 6: 4}

    def entry(via, path, hop):
        (family, bits), value = hop, b""
        for at in range(0, path, 255):              # sequences of 255, the rest last
            count = min(255, path - at)
            value += bytes((2, count)) + be(via[0][1], 4) * count
        a = b""
        if len(value) > 255:
            a += b"\x50\x02" + be(len(value), 2) + value
        elif path > 0:
            a += b"\x40\x02" + be(len(value), 1) + value
        a += b"\x40\x03\x04" + be(bits, 4) if family == 4 else b"\x80\x0e\x11\x10" + be(bits, 16)
        return be(index[via[0]], 2) + bytes(4) + (be(via[1], 4) if ids else b"") + be(len(a), 2) + a

    groups = {}                                     # in prefix order, as cands is
    for p, via, path, hop in cands:
        groups.setdefault(p, []).append(entry(via, path, hop))
    sequence = 0
    for p, entries in groups.items():
        family, bits, length = p
        octets = (length + 7) // 8
        wire = bytes((length,)) + be(bits, WIDTH[family] // 8)[:octets]
        while entries:
            count, size = 0, 4 + len(wire) + 2
            while count < len(entries) and count < 65535 and size + len(entries[count]) <= MOST_BODY:
                size += len(entries[count])
                count += 1
            out.append(record(13, subs[family], be(sequence % (1 << 32), 4) + wire
                              + be(count, 2) + b"".join(entries[:count])))
            entries = entries[count:]
            sequence += 1
    return b"".join(out)


# ----------------------------------------------------- words and commands

def take_words(words, least, most, options=(), flags=()):
    """What clap takes by default: (positionals, {option: value}); else Usage.

    Options may stand anywhere, as `--name value` or `--name=value`, each once;
    after `--` all words are positionals; a value doesn't begin with `-`, but may
    be `-` itself.
    """
    places, given, waiting, only = [], {}, None, False
    for word in words:
        if not only and word == "--":
            only = True
        elif not only and word.startswith("--"):
            name, eq, value = word[2:].partition("=")
            if waiting or name in given or name not in tuple(options) + tuple(flags):
                raise usage()
            if name in flags:
                if eq:
                    raise usage()
                given[name] = True
            elif eq:
                given[name] = value
            else:
                waiting = name
        elif not only and word.startswith("-") and word != "-":
            raise usage()
        elif waiting and not only:
            given[waiting], waiting = word, None
        else:
            places.append(word)
    if waiting or not least <= len(places) <= most:
        raise usage()
    return places, given


LIMITS = {"direct": (0, 18), "nodes": (0, 24), "leaves": (0, 26), "every": (0, (1 << 32) - 1),
          "n": (1, 200000), "seed": (0, (1 << 64) - 1)}


def number_word(name, text):
    n = read_decimal(text)
    if n is None or not LIMITS[name][0] <= n <= LIMITS[name][1]:
        raise usage()
    return n


def numbers(given, **defaults):
    """The numeric options, each in its range."""
    return {name: number_word(name, given[name]) if name in given else default
            for name, default in defaults.items()}


def do_run(words):
    options = ("updates", "ask", "vrps", "every", "direct", "nodes", "leaves")
    (dump,), given = take_words(words, 1, 1, options, ("fewest", "steady"))
    opts = numbers(given, every=0, direct=16, nodes=16, leaves=18)
    opts["fewest"], opts["steady"] = "fewest" in given, "steady" in given
    asks = read_asks(read_input(given["ask"], "asks")) if "ask" in given else []
    vrps = read_vrps(read_input(given["vrps"], "vrps")) if "vrps" in given else None
    engine = Engine(opts, vrps)
    readers = main_job(engine, lambda: read_input(dump, "dump"),
                       (lambda: read_input(given["updates"], "updates")) if "updates" in given
                       else (lambda: b""))
    return run_rows(engine, readers, asks)


def main_job(engine, dump, updates):
    """Load the dump, then take the updates record by record; the readers."""
    one = Reader(dump(), "dump")
    for events in one:
        for event in events:
            engine.load(event)
    engine.finish_load()
    two = Reader(updates(), "updates")
    for events in two:
        for event in events:
            engine.apply(event)
    return [one, two]


def do_check(words):
    (printed,), _ = take_words(words, 1, 1)
    hops = HopTable()
    rows = read_rows(read_input(printed, "printed"), "printed",
                     ("route", "least", "leaf", "join", "bound"), hops)
    check([r[1:] for r in rows if r[0] == "route"], [r[1:] for r in rows if r[0] == "least"],
          [r for r in rows if r[0] in ("leaf", "join", "bound")], hops)
    return ["yes"]


def do_make(words):
    (n,), given = take_words(words, 1, 1, ["seed"])
    if "seed" not in given:
        raise usage()
    n, seed = number_word("n", n), number_word("seed", given["seed"])
    dump, updates = generate(n, seed)
    engine = Engine({"direct": 16, "nodes": 20, "leaves": 22, "every": 1000})
    return report_rows(engine, main_job(engine, lambda: dump, lambda: updates))


def do_steps(words):
    (dump, updates, script), given = take_words(words, 3, 3, ["direct", "nodes", "leaves"])
    opts = numbers(given, direct=16, nodes=16, leaves=18)
    lines = read_script(read_input(script, "script"))
    engine = Engine(opts)
    for events in Reader(read_input(dump, "dump"), "dump"):
        for event in events:
            engine.load(event)
    engine.finish_load()
    updates = [e for es in Reader(read_input(updates, "updates"), "updates") for e in es]
    machine = Machine(engine, elementary_list(engine.candidates, updates), opts)
    return ["step,%d,%s" % (n, machine.step(line)) for n, line in enumerate(lines, 1)]


def do_save(words):
    (dump,), given = take_words(words, 1, 1, ["updates"])
    candidates = Candidates()
    names = [(dump, "dump")] + ([(given["updates"], "updates")] if "updates" in given else [])
    for name, called in names:
        for events in Reader(read_input(name, called), called):
            for event in events:
                for elem in candidates.elementary(event):
                    candidates.take(elem)
    return write_dump(candidates.all())


def do_same(words):
    """Whether texts say the same table (docs/DEFINITIONS.md, 'Printed texts compared')."""
    names, given = take_words(words, 2, len(words), ["rows"])
    kind = given.get("rows", "table")
    if kind not in ("route", "table", "least"):
        raise usage()
    hops, texts = HopTable(), []
    for i, name in enumerate(names, 1):
        called = "text%d" % i
        rows = [r[1:] for r in read_rows(read_input(name, called), called, (kind,), hops)]
        twice(rows)
        texts.append(trees_of(rows))
    for f in FAMILIES:
        differing = [(d, i) for i, text in enumerate(texts, 1)
                     for d in [first_difference(texts[0][f], text[f], ROOT[f])] if d]
        if differing:
            (addr, first, other), i = min(differing, key=lambda x: (x[0][0], x[1]))
            raise Stop(13, "fib: differ", "differ,%d,%s,%s,%s\n" % (
                i, write_addr(addr), hops.text(first, "none"), hops.text(other, "none")))
    return ["alike"]


def do_moves(words):
    """The fewest changes from the table that the first text's least rows are to one that answers as the second's route rows, and
    the rows that prove it; or the verdict on those of a third text (docs/DEFINITIONS.md, 'What a router must change')."""
    names, given = take_words(words, 2, 3, (), ("check", "steady"))
    if ("check" in given) != (len(names) == 3) or len(given) > 1:
        raise usage()
    hops, lists = HopTable(), []
    for i, (name, kind) in enumerate(zip(names, ("least", "route")), 1):
        rows = [r[1:] for r in read_rows(read_input(name, "text%d" % i), "text%d" % i, (kind,), hops)]
        twice(rows)
        lists.append(rows)
    pairs = [(f,) + tuple(Table(f, [e for e in rows if e[0][0] == f]) for rows in lists) for f in FAMILIES]
    if "check" in given:
        rows = read_rows(read_input(names[2], "text3"), "text3", ("change", "leaf", "join", "bound"), hops)
        for f, old, routes in pairs:
            check_moves(f, old, routes, [r for r in rows if (r[1] if r[0] == "bound" else r[1][0]) == f], hops)
        return ["yes"]
    out, count, proof = [], 0, []
    for f, old, routes in pairs:
        changes = between(dict(old.hop), dict(near(old, routes)[0]))
        if "steady" in given:
            changes = steady(changes)
        count += len(changes)
        for sign, p, hop in changes:
            out.append("change,1,%s,%s%s" % (sign, write_prefix(p), "" if sign == "-" else "," + hops.text(hop, "drop")))
        proof += [cert_text(row, hops) for row in near_rows(old, routes)]
    return out + ["moves,1,%d" % count] + proof


COMMANDS = {"run": do_run, "check": do_check, "same": do_same, "save": do_save, "moves": do_moves, "make": do_make,
            "steps": do_steps}


def run_fib(words):
    """(status, octets to out, line to err)."""
    try:
        if not words or words[0] not in COMMANDS:
            raise usage()
        rows = COMMANDS[words[0]](words[1:])
        if isinstance(rows, bytes):
            return 0, rows, ""
        return 0, "".join(row + "\n" for row in rows).encode(), ""
    except Stop as stop:
        return stop.status, stop.out.encode(), stop.line + "\n"


def main():
    sys.setrecursionlimit(10000)
    status, out, err = run_fib(sys.argv[1:])
    try:
        sys.stdout.buffer.write(out)
        sys.stdout.buffer.flush()
    except OSError:
        status, err = 4, "fib: write fault\n"
    try:
        sys.stderr.write(err)
        sys.stderr.flush()
    except OSError:
        pass
    sys.exit(status)


if __name__ == "__main__":
    main()
