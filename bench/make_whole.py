#!/usr/bin/env python3
"""Makes a dump of a real table's shape, of any number of peers.

Usage:  make_whole.py IPV4 IPV6 PEERS SEED FILE

FILE gets about so many prefixes of each family, with an entry of each peer.  Half of them are
blocks that lie side by side through most of the address space, as registries hand them out; the
others are runs of adjacent more-specifics within blocks, as networks announce them.  Half of the
blocks have the next hop of the block before, and six of seven more-specifics that of their block;
all others are drawn from 60, a few of which most have.  Equal arguments give equal files.
"""

import argparse
import functools
import random

from make_inputs import PEER_INDEX_TABLE, RIB, TABLE_DUMP_V2, WIDTH, attribute, be, on_wire, record

HOPS = 60
FIRST = {4: 1 << 24, 6: 0x2001 << 112}
# Lengths of blocks, and of more-specifics, with how many in a thousand have them.
BLOCKS = {4: {24: 300, 23: 110, 22: 210, 21: 90, 20: 110, 19: 90, 18: 50, 17: 20, 16: 18, 15: 1, 14: 1},
          6: {48: 250, 44: 60, 40: 60, 36: 60, 32: 420, 29: 150}}
WITHIN = {4: {24: 800, 23: 100, 22: 100}, 6: {48: 700, 44: 120, 40: 100, 36: 80}}


class Table:
    """The routes of one seed, by prefix: the number of the next hop."""

    def __init__(self, counts, seed):
        self.rng = random.Random(seed)
        self.weights = [1 / (number + 1) for number in range(HOPS)]
        self.routes = []
        for family, count in counts:
            hops = self.of_family(family, count)
            self.routes += [(family, bits, length, hops[bits, length]) for bits, length in sorted(hops)]

    def drawn(self, lengths):
        return self.rng.choices(list(lengths), list(lengths.values()))[0]

    def any_hop(self):
        return self.rng.choices(range(HOPS), self.weights)[0]

    def blocks(self, family, count):
        hops, place, hop = {}, FIRST[family], 0
        for _ in range(count):
            length = self.drawn(BLOCKS[family])
            size = 1 << WIDTH[family] - length
            place = (place + size - 1) // size * size
            hop = hop if self.rng.random() < 0.5 else self.any_hop()
            hops[place, length] = hop
            place += size
        return hops

    def of_family(self, family, count):
        hops = self.blocks(family, count // 2)
        large = [block for block in hops if block[1] <= (22 if family == 4 else 36)]
        while len(hops) < count:
            block = bits, above = self.rng.choice(large)
            length = max(self.drawn(WITHIN[family]), above + 2)
            size = 1 << WIDTH[family] - length
            first = bits + self.rng.randrange(1 << length - above) * size
            end = bits + (1 << WIDTH[family] - above)
            for place in range(first, min(end, first + self.rng.randint(1, 12) * size), size):
                hop = hops[block] if self.rng.random() < 6 / 7 else self.any_hop()
                hops.setdefault((place, length), hop)
        return hops


def peer(index):
    return 0xc0000201 + index, 64500 + index


@functools.lru_cache(None)
def entry(index, family, hop, length):
    """An entry of a RIB record (RFC 6396, section 4.3.4), with a path of so many AS numbers."""
    addr = be(0xc6120000 + hop, 4) if family == 4 else be((0x20010db8 << 96) + hop, 16)
    reach = attribute(3, addr) if family == 4 else attribute(14, be(16, 1) + addr)
    path = attribute(2, be(2, 1) + be(length, 1) + be(peer(index)[1], 4) * length)
    attributes = attribute(1, be(0, 1)) + path + reach
    return be(index, 2) + be(0, 4) + be(len(attributes), 2) + attributes


def dump(routes, count):
    peers = b"".join(be(2, 1) + be(addr, 4) + be(addr, 4) + be(asn, 4) for addr, asn in map(peer, range(count)))
    yield record(TABLE_DUMP_V2, PEER_INDEX_TABLE, be(0, 4) + be(0, 2) + be(count, 2) + peers)
    for number, (family, bits, length, hop) in enumerate(routes):
        # The shortest path is the first peer's, so the table is that of the hops drawn.
        entries = b"".join(entry(index, family, (hop + index) % HOPS, 2 + (number + index) % 5 if index else 1)
                           for index in range(count))
        yield record(TABLE_DUMP_V2, RIB[family], be(number, 4) + on_wire(family, bits, length) + be(count, 2) + entries)


def main():
    parser = argparse.ArgumentParser(description=__doc__.splitlines()[0])
    for name in ("ipv4", "ipv6", "peers", "seed"):
        parser.add_argument(name, type=int)
    parser.add_argument("file")
    args = parser.parse_args()
    routes = Table(((4, args.ipv4), (6, args.ipv6)), args.seed).routes
    with open(args.file, "wb") as out:
        out.writelines(dump(routes, args.peers))


if __name__ == "__main__":
    main()
