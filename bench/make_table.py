#!/usr/bin/env python3
"""Makes a dump of one peer's whole table, as a router or a collector has it.

Usage:  make_table.py IPV4 IPV6 SEED FILE

FILE gets a peer table of one peer and a RIB record for each of so many distinct prefixes of each
family, with lengths mixed about as on the Internet.  Every second draw is within a prefix drawn
before, and a repeated one is drawn again: four to five in ten lie within another.  Four of five
drawn so have that prefix's next hop, as more-specifics of one network mostly have.  All other
hops are drawn from 60, a few of which most routes have.  Equal arguments give equal files.
"""

import argparse
import random

from make_inputs import (LENGTHS, PEER_INDEX_TABLE, PEERS, RIB, ROOT, TABLE_DUMP_V2, WIDTH, attribute, be, on_wire,
                         record)

HOPS = 60
WITHIN = 0.5
AS_ABOVE = 0.8


class Table:
    """The routes of one seed."""

    def __init__(self, counts, seed):
        self.rng = random.Random(seed)
        self.weights = [1 / (number + 1) for number in range(HOPS)]
        self.routes = [route for family, count in counts for route in self.some_routes(family, count)]

    def place(self, family, found, hops):
        """The bits of an address, and the hop of a route there."""
        if found and self.rng.random() < WITHIN:
            bits, length = above = self.rng.choice(found)
            bits |= self.rng.getrandbits(WIDTH[family] - length)
            if self.rng.random() < AS_ABOVE:
                return bits, hops[above]
        else:
            bits = self.rng.randrange(*ROOT[family])
        return bits, self.rng.choices(range(HOPS), self.weights)[0]

    def some_routes(self, family, count):
        """So many routes of distinct prefixes, in prefix order: family, bits, length and the hop's number."""
        found, hops, lengths = [], {}, LENGTHS[family]
        for length in sorted(self.rng.choices(list(lengths), list(lengths.values()), k=count)):
            host = WIDTH[family] - length
            prefix = None
            while prefix is None or prefix in hops:
                bits, hop = self.place(family, found, hops)
                prefix = bits >> host << host, length
            hops[prefix] = hop
            found.append(prefix)
        return [(family, bits, length, hops[bits, length]) for bits, length in sorted(found)]


def rib(number, family, bits, length, hop):
    """A record with one entry (RFC 6396, section 4.3.2)."""
    addr = be(0xc6120000 + hop, 4) if family == 4 else be((0x20010db8 << 96) + hop, 16)
    reach = attribute(3, addr) if family == 4 else attribute(14, be(16, 1) + addr)
    path = attribute(2, be(2, 1) + be(2, 1) + be(PEERS[0][1], 4) + be(64496, 4))
    attributes = attribute(1, be(0, 1)) + path + reach
    body = be(number, 4) + on_wire(family, bits, length) + be(1, 2) + be(0, 2) + be(0, 4)
    return record(TABLE_DUMP_V2, RIB[family], body + be(len(attributes), 2) + attributes)


def main():
    parser = argparse.ArgumentParser(description=__doc__.splitlines()[0])
    for name in ("ipv4", "ipv6", "seed"):
        parser.add_argument(name, type=int)
    parser.add_argument("file")
    args = parser.parse_args()
    (addr, asn), *_ = PEERS
    peer = be(2, 1) + be(addr, 4) + be(addr, 4) + be(asn, 4)
    table = Table(((4, args.ipv4), (6, args.ipv6)), args.seed)
    with open(args.file, "wb") as out:
        out.write(record(TABLE_DUMP_V2, PEER_INDEX_TABLE, be(0, 4) + be(0, 2) + be(1, 2) + peer))
        out.writelines(rib(number, *route) for number, route in enumerate(table.routes))


if __name__ == "__main__":
    main()
