#!/usr/bin/env python3
"""Makes a whole table of several peers, and updates to it.

Usage:  make_large.py IPV4 IPV6 PEERS UPDATES SEED DUMP UPDATES_FILE

DUMP gets the prefixes of make_table.py with the same numbers and seed, with an entry of each of
1 to 8 peers; UPDATES_FILE gets so many UPDATE messages, each of one to three prefixes, one of ten
a withdrawal.  Equal arguments give equal files.
"""

import argparse
import functools
import random

from make_inputs import (BGP4MP, MESSAGE_AS4, PEER_INDEX_TABLE, PEERS, RIB, TABLE_DUMP_V2, attribute, be, on_wire,
                         record)
from make_table import HOPS, Table


@functools.lru_cache(None)
def path(asn, length):
    """AS_PATH: one sequence of so many AS numbers."""
    return attribute(2, be(2, 1) + be(length, 1) + be(asn, 4) * length)


@functools.lru_cache(None)
def address(family, hop):
    return be(0xc6120000 + hop, 4) if family == 4 else be((0x20010db8 << 96) + hop, 16)


@functools.lru_cache(None)
def entry(index, family, hop, length):
    """An entry of a RIB record (RFC 6396, section 4.3.4)."""
    addr = address(family, hop)
    reach = attribute(3, addr) if family == 4 else attribute(14, be(16, 1) + addr)
    attributes = attribute(1, be(0, 1)) + path(PEERS[index][1], length) + reach
    return be(index, 2) + be(0, 4) + be(len(attributes), 2) + attributes


def dump(routes, count, rng):
    peers = b"".join(be(2, 1) + be(addr, 4) + be(addr, 4) + be(asn, 4) for addr, asn in PEERS[:count])
    yield record(TABLE_DUMP_V2, PEER_INDEX_TABLE, be(0, 4) + be(0, 2) + be(count, 2) + peers)
    for number, (family, bits, length, hop) in enumerate(routes):
        entries = b"".join(entry(index, family, (hop + index) % HOPS, 1 + int(rng.random() * 6))
                           for index in range(count))
        body = be(number, 4) + on_wire(family, bits, length) + be(count, 2) + entries
        yield record(TABLE_DUMP_V2, RIB[family], body)


def update(ranges, count, rng):
    addr, asn = rng.choice(PEERS[:count])
    routes = rng.choices(*ranges)[0]
    family = routes[0][0]
    nlri = b"".join(on_wire(*rng.choice(routes)[:3]) for _ in range(rng.randint(1, 3)))
    gone, attributes, told = b"", b"", b""
    if rng.random() < 0.1:
        gone = nlri if family == 4 else b""
        attributes = b"" if family == 4 else attribute(15, be(2, 2) + be(1, 1) + nlri)
    else:
        told = nlri if family == 4 else b""
        hop = address(family, rng.randrange(HOPS))
        reach = attribute(3, hop) if family == 4 else attribute(14, be(2, 2) + be(1, 1) + be(16, 1) + hop + be(0, 1) + nlri)
        attributes = attribute(1, be(0, 1)) + path(asn, rng.randint(1, 6)) + reach
    body = be(len(gone), 2) + gone + be(len(attributes), 2) + attributes + told
    message = b"\xff" * 16 + be(19 + len(body), 2) + be(2, 1) + body
    session = be(asn, 4) + be(64511, 4) + be(0, 2) + be(1, 2) + be(addr, 4) + be(0xc00002fe, 4)
    return record(BGP4MP, MESSAGE_AS4, session + message)


def main():
    parser = argparse.ArgumentParser(description=__doc__.splitlines()[0])
    for name in ("ipv4", "ipv6", "peers", "updates", "seed"):
        parser.add_argument(name, type=int)
    parser.add_argument("dump")
    parser.add_argument("updates_file")
    args = parser.parse_args()
    routes = Table(((4, args.ipv4), (6, args.ipv6)), args.seed).routes
    rng = random.Random(args.seed)
    with open(args.dump, "wb") as out:
        out.writelines(dump(routes, args.peers, rng))
    lists = [part for part in (routes[:args.ipv4], routes[args.ipv4:]) if part]
    ranges = lists, [len(part) for part in lists]
    with open(args.updates_file, "wb") as out:
        out.writelines(update(ranges, args.peers, rng) for _ in range(args.updates))


if __name__ == "__main__":
    main()
