#!/usr/bin/env python3
"""Measures events of prefixes that nothing lies within, as they come and with --fewest.

Usage:  measure_single.py PROGRAM [--ipv4 N] [--ipv6 N] [--events N] [--runs N]

Makes a whole table as make_whole.py does, of one peer, and so many UPDATE messages, each of which gives one of its
longest prefixes (24 bits of IPv4, 48 of IPv6) another next hop: nothing lies within it. The program runs on the table alone,
with the messages, and with them and --fewest, in turns and with its output to nothing. Prints the least processor seconds,
of user and system, of each, what an event takes beside the table alone, and how many times one without the option an event
with it takes. No time is judged.
"""

import argparse
import os
import random
import tempfile

import make_large
import make_whole
from make_inputs import BGP4MP, MESSAGE_AS4, attribute, be, on_wire, record
from measure import ROOM
from measure_plain import SEED, found, made, used

LONGEST = {4: 24, 6: 48}


def update(family, bits, length, hop):
    """An UPDATE message (RFC 4271, section 4.3) by the first peer, whose path is the shortest, of one prefix."""
    nlri = on_wire(family, bits, length)
    address = make_large.address(family, hop)
    reach = attribute(3, address) if family == 4 else attribute(14, be(2, 2) + be(1, 1) + be(16, 1) + address + be(0, 1) + nlri)
    addr, asn = make_whole.peer(0)
    attributes = attribute(1, be(0, 1)) + make_large.path(asn, 1) + reach
    body = be(0, 2) + be(len(attributes), 2) + attributes + (nlri if family == 4 else b"")
    message = b"\xff" * 16 + be(19 + len(body), 2) + be(2, 1) + body
    session = be(asn, 4) + be(64511, 4) + be(0, 2) + be(1, 2) + be(addr, 4) + be(0xc00002fe, 4)
    return record(BGP4MP, MESSAGE_AS4, session + message)


def make(args, dump, updates):
    """Makes the table and the messages to it, each with another next hop than the prefix had."""
    routes = make_whole.Table(((4, args.ipv4), (6, args.ipv6)), SEED).routes
    with open(dump, "wb") as out:
        out.writelines(make_whole.dump(routes, 1))
    rng = random.Random(SEED)
    single = [route for route in routes if route[2] == LONGEST[route[0]]]
    last = {}
    with open(updates, "wb") as out:
        for _ in range(args.events):
            family, bits, length, hop = rng.choice(single)
            hop = (last.get((family, bits), hop) + 1 + rng.randrange(make_whole.HOPS - 1)) % make_whole.HOPS
            last[family, bits] = hop
            out.write(update(family, bits, length, hop))


def main():
    parser = argparse.ArgumentParser(description=__doc__.splitlines()[0])
    parser.add_argument("program")
    for name, count in (("ipv4", 1_000_000), ("ipv6", 220_000), ("events", 400_000), ("runs", 3)):
        parser.add_argument("--" + name, type=int, default=count)
    args = parser.parse_args()
    program = found(args.program)
    with tempfile.TemporaryDirectory() as folder:
        dump, updates = os.path.join(folder, "dump.mrt"), os.path.join(folder, "updates.mrt")
        made(args, dump, updates, make)
        load = [program, "run", dump, *ROOM]
        runs = {"the table alone": load, "with events": [*load, "--updates", updates],
                "with events and --fewest": [*load, "--updates", updates, "--fewest"]}
        best = {}
        for _ in range(args.runs):
            for name, words in runs.items():
                took = used(words, os.devnull)
                best[name] = min(took, best.get(name, took))
        alone, *events = best.values()
        each = [(took - alone) / args.events for took in events]
        for name, took in best.items():
            print("%-28s %7.2f s" % (name, took))
        print("an event: %.2f us, with --fewest %.2f us: %.2f times" % (each[0] * 1e6, each[1] * 1e6, each[1] / each[0]))


if __name__ == "__main__":
    main()
