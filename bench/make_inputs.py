#!/usr/bin/env python3
"""Makes a dump, updates to it and addresses to ask for.

Usage:  make_inputs.py PREFIXES UPDATES ASKS SEED DIR

DIR/dump.mrt gets a peer table of eight peers and a RIB record for each of so many distinct
prefixes, with an entry of every peer: five of six prefixes are IPv4, with lengths mixed about
as on the Internet, the others IPv6.  Every second draw is within a prefix drawn before, and a
repeated one is drawn again: four to five in ten lie within another.  DIR/updates.mrt gets so
many UPDATE messages of the peers, nine of ten announcing one of the prefixes anew and the
others withdrawing one, and then the loss of the first peer's session.  DIR/asks.txt gets the
addresses, nine of ten within a prefix.  Equal arguments give equal files.
"""

import argparse
import ipaddress
import os
import random

LENGTHS = {
    4: {24: 590, 23: 100, 22: 110, 21: 55, 20: 50, 19: 30, 18: 20, 17: 12, 16: 20, 15: 4, 14: 3, 13: 2},
    6: {48: 480, 47: 20, 46: 40, 44: 110, 40: 90, 36: 60, 32: 160, 29: 40},
}
WIDTH = {4: 32, 6: 128}
ROOT = {4: (1 << 24, 224 << 24), 6: (0x2001 << 112, 0x2c10 << 112)}
PEERS = [(0xc0000201 + i, 64500 + i) for i in range(8)]
HOPS = 300
TABLE_DUMP_V2, BGP4MP = 13, 16
PEER_INDEX_TABLE, RIB = 1, {4: 2, 6: 4}
STATE_CHANGE_AS4, MESSAGE_AS4 = 5, 4


def be(n, octets):
    return n.to_bytes(octets, "big")


def record(kind, subtype, body):
    """An MRT record (RFC 6396, section 2)."""
    return be(0, 4) + be(kind, 2) + be(subtype, 2) + be(len(body), 4) + body


def attribute(kind, value):
    """A path attribute (RFC 4271, section 4.3), with a length of two octets.

    Its flags say well-known, of the attributes of RFC 4760 optional and non-transitive.
    """
    flags = 0x90 if kind in (14, 15) else 0x50
    return be(flags, 1) + be(kind, 1) + be(len(value), 2) + value


def on_wire(family, bits, length):
    """A prefix: its length and the octets that hold it."""
    octets = (length + 7) // 8
    return be(length, 1) + be(bits, WIDTH[family] // 8)[:octets]


class Maker:
    """The files of one seed."""

    def __init__(self, prefixes, seed):
        self.rng = random.Random(seed)
        six = prefixes // 6
        self.prefixes = self.some_prefixes(4, prefixes - six) + self.some_prefixes(6, six)

    def within(self, family, bits, length):
        return bits | self.rng.getrandbits(WIDTH[family]) & (1 << WIDTH[family] - length) - 1

    def some_prefixes(self, family, count):
        """So many distinct prefixes, in prefix order."""
        found, seen, lengths = [], set(), LENGTHS[family]
        for length in sorted(self.rng.choices(list(lengths), list(lengths.values()), k=count)):
            while True:
                if found and self.rng.random() < 0.5:
                    bits = self.within(*self.rng.choice(found))
                else:
                    bits = self.rng.randrange(*ROOT[family])
                bits = bits >> WIDTH[family] - length << WIDTH[family] - length
                if (bits, length) not in seen:
                    break
            seen.add((bits, length))
            found.append((family, bits, length))
        return sorted(found)

    def path(self, asn):
        """AS_PATH: one sequence of one to six AS numbers."""
        numbers = [asn] + [self.rng.randrange(1, 64496) for _ in range(self.rng.randint(0, 5))]
        return attribute(2, be(2, 1) + be(len(numbers), 1) + b"".join(be(n, 4) for n in numbers))

    def hop(self, family):
        number = self.rng.randrange(HOPS)
        return be(0xc6120000 + number, 4) if family == 4 else be((0x20010db8 << 96) + number, 16)

    def attributes(self, family, asn, nlri=None):
        """ORIGIN, AS_PATH and the next hop, which for IPv6 stands in MP_REACH_NLRI: with routes where it isn't of a RIB."""
        hop = self.hop(family)
        if family == 4:
            reach = attribute(3, hop)
        elif nlri is None:
            reach = attribute(14, be(16, 1) + hop)
        else:
            reach = attribute(14, be(2, 2) + be(1, 1) + be(16, 1) + hop + be(0, 1) + nlri)
        return attribute(1, be(0, 1)) + self.path(asn) + reach

    def rib(self, number, family, bits, length):
        entries = []
        for index, (_, asn) in enumerate(PEERS):
            attributes = self.attributes(family, asn)
            entries.append(be(index, 2) + be(0, 4) + be(len(attributes), 2) + attributes)
        body = be(number, 4) + on_wire(family, bits, length) + be(len(entries), 2) + b"".join(entries)
        return record(TABLE_DUMP_V2, RIB[family], body)

    def dump(self):
        peers = b"".join(be(2, 1) + be(addr, 4) + be(addr, 4) + be(asn, 4) for addr, asn in PEERS)
        yield record(TABLE_DUMP_V2, PEER_INDEX_TABLE, be(0, 4) + be(0, 2) + be(len(PEERS), 2) + peers)
        for number, prefix in enumerate(self.prefixes):
            yield self.rib(number, *prefix)

    def session(self, subtype, peer, rest):
        addr, asn = peer
        return record(BGP4MP, subtype, be(asn, 4) + be(64511, 4) + be(0, 2) + be(1, 2) + be(addr, 4) + be(0xc00002fe, 4) + rest)

    def update(self):
        family, bits, length = self.rng.choice(self.prefixes)
        peer, prefix = self.rng.choice(PEERS), on_wire(family, bits, length)
        gone, attributes, nlri = b"", b"", b""
        if self.rng.random() < 0.1:
            if family == 4:
                gone = prefix
            else:
                attributes = attribute(15, be(2, 2) + be(1, 1) + prefix)
        else:
            nlri = prefix if family == 4 else b""
            attributes = self.attributes(family, peer[1], prefix)
        body = be(len(gone), 2) + gone + be(len(attributes), 2) + attributes + nlri
        return self.session(MESSAGE_AS4, peer, b"\xff" * 16 + be(19 + len(body), 2) + be(2, 1) + body)

    def updates(self, count):
        for _ in range(count):
            yield self.update()
        yield self.session(STATE_CHANGE_AS4, PEERS[0], be(6, 2) + be(1, 2))

    def asks(self, count):
        for _ in range(count):
            family = self.rng.choice((4, 4, 4, 6))
            bits = self.rng.randrange(*ROOT[family])
            if self.rng.random() < 0.9:
                family, bits, length = self.rng.choice(self.prefixes)
                bits = self.within(family, bits, length)
            yield str(ipaddress.IPv4Address(bits) if family == 4 else ipaddress.IPv6Address(bits))


def main():
    parser = argparse.ArgumentParser(description=__doc__.splitlines()[0])
    for name in ("prefixes", "updates", "asks", "seed"):
        parser.add_argument(name, type=int)
    parser.add_argument("dir")
    args = parser.parse_args()
    maker = Maker(args.prefixes, args.seed)
    with open(os.path.join(args.dir, "dump.mrt"), "wb") as out:
        out.writelines(maker.dump())
    with open(os.path.join(args.dir, "updates.mrt"), "wb") as out:
        out.writelines(maker.updates(args.updates))
    with open(os.path.join(args.dir, "asks.txt"), "w", encoding="ascii") as out:
        out.writelines(ask + "\n" for ask in maker.asks(args.asks))


if __name__ == "__main__":
    main()
