#!/usr/bin/env python3
"""Compares what two programs print on small inputs.

Usage:  compare.py ONE TWO [--cases N] [--first N] [--keep DIR]

ONE and TWO are commands that take the words of `fib run`, each in one word of the shell: `fib`, or `python3 other.py`.
Each case has a number, from which its inputs are made: equal numbers give equal files. Nine of ten have a few prefixes
close together, so that most events matter, with all kinds of records that are read; the tenth is one of make_inputs.py.
Prints how many cases differ, and ends with 1 if any does. DIR gets the inputs of those that do.
"""

import argparse
import ipaddress
import os
import random
import shlex
import shutil
import subprocess
import sys
import tempfile

HERE = os.path.dirname(os.path.abspath(__file__))
sys.path.insert(0, os.path.dirname(HERE))
from make_inputs import BGP4MP, TABLE_DUMP_V2, WIDTH, Maker, attribute, be, on_wire, record

BGP4MP_ET = 17
AFI = {4: 1, 6: 2}
AS_SET, AS_SEQUENCE, AS_CONFED_SEQUENCE, AS_CONFED_SET = 1, 2, 3, 4


class Small:
    """The files of a case: few peers, few next hops, and few prefixes close together."""

    def __init__(self, number):
        self.rng = rng = random.Random(number)
        self.peers = [(4, 0xc0000201 + i, rng.choice((64500, 64501))) for i in range(rng.randint(1, 4))]
        if rng.random() < 0.5:
            self.peers.append((6, (0x20010db8 << 96) + 1, 4200000000))
        self.hops = rng.choice((1, 2, 3, 3, 5, 9, 30))
        self.ids = rng.choice(((0,), (0,), (0, 1), (0, 1, 2, 1 << 31)))
        self.pool = [prefix for family in (4, 6) for prefix in self.some_prefixes(family)]

    def some_prefixes(self, family):
        """Prefixes of one family, close together: at the top of the space, below a prefix, or both."""
        rng, width = self.rng, WIDTH[family]
        found = set()
        base = rng.choice((0, 10 << width - 8, 0xfe << width - 8))
        start = rng.choice((0, 0, 5, 8, 14, 16, width - 8))
        for _ in range(rng.choice((1, 3, 6, 12, 25, 60))):
            length = rng.randint(start, min(width, start + rng.choice((1, 3, 5, 8))))
            bits = base ^ rng.getrandbits(6) << max(0, width - start - 6)
            found.add((family, bits >> width - length << width - length, length))
        return sorted(found)

    def path(self, wide):
        rng, value = self.rng, b""
        for _ in range(rng.choice((0, 1, 1, 1, 2))):
            kind = rng.choice((AS_SEQUENCE, AS_SEQUENCE, AS_SEQUENCE, AS_SET, AS_CONFED_SEQUENCE, AS_CONFED_SET))
            count = rng.choice((0, 1, 1, 2, 3))
            value += be(kind, 1) + be(count, 1) + b"".join(be(64496 + i, 4 if wide else 2) for i in range(count))
        return attribute(2, value)

    def next_hop(self, family):
        """A next hop behind its length: of IPv6 with a link-local one behind it at times (RFC 2545, section 3)."""
        number = self.rng.randrange(self.hops)
        if family == 4:
            return be(4, 1) + be(0xc6120000 + number, 4)
        hop = be((0x20010db8 << 96) + number, 16)
        return be(32, 1) + hop + be(0xfe80 << 112 | 1, 16) if self.rng.random() < 0.3 else be(16, 1) + hop

    def nlri(self, prefix, with_ids):
        return (be(self.rng.choice(self.ids), 4) if with_ids else b"") + on_wire(*prefix)

    def some(self, family, with_ids, least=0):
        """NLRI of some prefixes of a family."""
        pool = [prefix for prefix in self.pool if prefix[0] == family]
        return b"".join(self.nlri(self.rng.choice(pool), with_ids) for _ in range(self.rng.randint(least, 3)))

    def rib(self, number):
        """A RIB record of a prefix, with entries of some peers."""
        rng, prefix = self.rng, self.rng.choice(self.pool)
        family, with_ids = prefix[0], rng.random() < 0.3
        entries = []
        for _ in range(rng.randint(1, 4)):
            hop = self.next_hop(family)
            full = be(AFI[family], 2) + be(1, 1) + hop + be(0, 1)
            reach = attribute(3, hop[1:]) if family == 4 else attribute(14, full if rng.random() < 0.3 else hop)
            attributes = attribute(1, be(0, 1)) + self.path(True) + (reach if rng.random() < 0.95 else b"")
            ident = be(rng.choice(self.ids), 4) if with_ids else b""
            entries.append(be(rng.randrange(len(self.peers)), 2) + be(0, 4) + ident + be(len(attributes), 2) + attributes)
        subtype = {4: (2, 8), 6: (4, 10)}[family][with_ids]
        body = be(number, 4) + on_wire(*prefix) + be(len(entries), 2) + b"".join(entries)
        return record(TABLE_DUMP_V2, subtype, body)

    def peer_table(self):
        body = be(0, 4) + be(4, 2) + b"view" + be(len(self.peers), 2)
        for family, addr, asn in self.peers:
            wide = asn > 65535 or self.rng.random() < 0.5
            kind = (family == 6) + 2 * wide
            body += be(kind, 1) + be(0, 4) + be(addr, WIDTH[family] // 8) + be(asn, 4 if wide else 2)
        return record(TABLE_DUMP_V2, 1, body)

    def session(self, subtype, peer, wide, rest):
        family, addr, asn = peer
        body = be(asn, 4 if wide else 2) + be(64511, 4 if wide else 2) + be(0, 2) + be(AFI[family], 2)
        body += be(addr, WIDTH[family] // 8) + be(addr + 1, WIDTH[family] // 8) + rest
        if self.rng.random() < 0.3:
            return record(BGP4MP_ET, subtype, be(7, 4) + body)
        return record(BGP4MP, subtype, body)

    def update(self):
        """A message of a peer: routes withdrawn and announced, at times one to be treated as a withdrawal."""
        rng, peer = self.rng, self.rng.choice(self.peers)
        wide, with_ids = peer[2] > 65535 or rng.random() < 0.5, rng.random() < 0.3
        gone = self.some(4, with_ids) if rng.random() < 0.3 else b""
        attributes, told = b"", b""
        if rng.random() < 0.75:
            told = self.some(4, with_ids, 1)
            attributes += attribute(1, be(0, 1)) + self.path(wide)
            attributes += attribute(3, self.next_hop(4)[1:] if rng.random() < 0.95 else b"\0")
        if rng.random() < 0.3:
            attributes += attribute(15, be(2, 2) + be(1, 1) + self.some(6, with_ids))
        if rng.random() < 0.4:
            family = rng.choice((4, 6, 6, 6))
            value = be(AFI[family], 2) + be(rng.choice((1, 1, 1, 1, 2)), 1) + self.next_hop(family) + be(0, 1)
            attributes += self.path(wide) + attribute(14, value + self.some(family, with_ids, 1))
        body = be(len(gone), 2) + gone + be(len(attributes), 2) + attributes + told
        message = b"\xff" * 16 + be(19 + len(body), 2) + be(2, 1) + body
        subtype = rng.choice(((1, 6), (8, 10), (4, 7), (9, 11))[2 * wide + with_ids])
        return self.session(subtype, peer, wide, message)

    def other(self):
        """A record that says nothing of routes, or that is skipped, or the loss of a peer's session."""
        rng, peer = self.rng, self.rng.choice(self.peers)
        kind = rng.randrange(5)
        if kind == 0:
            return record(rng.choice((11, 12, 32, 48)), 1, bytes(rng.randint(0, 9)))
        if kind == 1:
            return record(TABLE_DUMP_V2, 6, bytes(rng.randint(0, 9)))
        if kind == 2:
            return self.session(4, peer, True, b"\xff" * 16 + be(19, 2) + be(4, 1))
        wide = peer[2] > 65535 or rng.random() < 0.5
        return self.session(5 if wide else 0, peer, wide, be(rng.choice((6, 6, 3)), 2) + be(rng.choice((1, 1, 6)), 2))

    def dump(self):
        yield self.peer_table()
        for number in range(self.rng.choice((0, 3, 10, 40, 120))):
            yield self.rib(number) if self.rng.random() < 0.97 else self.other()

    def updates(self):
        for _ in range(self.rng.choice((0, 3, 10, 40, 120))):
            yield self.update() if self.rng.random() < 0.9 else self.other()

    def asks(self):
        for _ in range(self.rng.randint(0, 12)):
            family, bits, length = self.rng.choice(self.pool)
            bits ^= self.rng.getrandbits(WIDTH[family] - length) if self.rng.random() < 0.7 else 0
            yield str(ipaddress.IPv4Address(bits) if family == 4 else ipaddress.IPv6Address(bits))


def make(number, folder):
    """Makes a case's files, and its words."""
    rng = random.Random(-1 - number)
    small = Small(number)
    dump, updates, asks = small.dump(), small.updates(), small.asks()
    if number % 10 == 9:
        maker = Maker(rng.choice((10, 60, 200)), number)
        dump, updates, asks = maker.dump(), maker.updates(rng.choice((5, 50, 150))), maker.asks(20)
    for name, octets in (("dump.mrt", b"".join(dump)), ("updates.mrt", b"".join(updates)),
                         ("asks.txt", "".join(ask + "\n" for ask in asks).encode())):
        with open(os.path.join(folder, name), "wb") as out:
            out.write(octets)
    words = ["run", "dump.mrt"]
    if rng.random() < 0.9:
        words += ["--updates", "updates.mrt"]
    if rng.random() < 0.7:
        words += ["--ask", "asks.txt"]
    if rng.random() < 0.6:
        words += ["--every", str(rng.choice((1, 2, 3, 7, 50)))]
    if rng.random() < 0.5:
        words += ["--direct", str(rng.choice((0, 1, 4, 6, 12, 18)))]
    return words


def main():
    parser = argparse.ArgumentParser(description=__doc__.splitlines()[0])
    parser.add_argument("one", metavar="ONE")
    parser.add_argument("two", metavar="TWO")
    parser.add_argument("--cases", type=int, default=200)
    parser.add_argument("--first", type=int, default=0)
    parser.add_argument("--keep", metavar="DIR")
    args = parser.parse_args()
    commands = []
    for command in (args.one, args.two):
        first, *rest = shlex.split(command)
        commands.append([shutil.which(os.path.abspath(first)) or shutil.which(first) or sys.exit("no such program: " + first), *rest])
    differ = 0
    for number in range(args.first, args.first + args.cases):
        with tempfile.TemporaryDirectory() as folder:
            words = make(number, folder)
            runs = [subprocess.run(command + words, cwd=folder, capture_output=True, check=False) for command in commands]
            if any(run.returncode != 0 or run.stdout != runs[0].stdout for run in runs):
                differ += 1
                print("case %d: %s: status %s" % (number, " ".join(words), " and ".join(str(run.returncode) for run in runs)))
                if args.keep:
                    shutil.copytree(folder, os.path.join(args.keep, str(number)), dirs_exist_ok=True)
    print("%d cases, %d differ" % (args.cases, differ))
    sys.exit(1 if differ else 0)


if __name__ == "__main__":
    main()
