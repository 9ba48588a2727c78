#!/usr/bin/env python3
"""Counts the events whose changes, made one by one as they are printed, send some address astray meanwhile.

Usage:  count_astray.py PRINTED..

A router that makes the changes of an event one by one sends an address astray if it sends it neither where the table before the event
does nor where the one after it does, or if it sends it where the latter does and then elsewhere again. Event 0, the load, begins with
an empty table. Of each event the first and the last address of each changed prefix and those beside them are asked for after each
change, so what is counted is a lower bound. A line for each text: events that change the table, those of more than one change, and
those that send an address astray. The status is 1 if any does.
"""

import ipaddress
import sys
from bisect import bisect_left, bisect_right

WIDTH = {4: 32, 6: 128}


def read_events(name):
    """The changes of each event, in their order: the sign, the prefix as version, length and bits, and the hop."""
    events = {}
    with open(name, encoding="ascii") as lines:
        for line in lines:
            if line.startswith("change,"):
                _, event, sign, prefix, *hop = line.rstrip("\n").split(",")
                network = ipaddress.ip_network(prefix)
                bits = int(network.network_address) >> (WIDTH[network.version] - network.prefixlen)
                events.setdefault(int(event), []).append((sign, (network.version, network.prefixlen, bits), *hop))
    return [events[event] for event in sorted(events)]


class Table:
    """Entries by their prefixes, and how many there are of each length."""

    def __init__(self):
        self.hops = {}
        self.lengths = {4: [0] * 33, 6: [0] * 129}

    def put(self, prefix, hop):
        version, length, _ = prefix
        self.lengths[version][length] += (hop is not None) - (prefix in self.hops)
        if hop is None:
            self.hops.pop(prefix, None)
        else:
            self.hops[prefix] = hop

    def make(self, change):
        sign, prefix, *hop = change
        if (sign == "+") == (prefix in self.hops):
            sys.exit(f"count_astray.py: a change that isn't possible in its turn: {change}")
        self.put(prefix, hop[0] if hop else None)

    def answer(self, address):
        """The hop of the longest match, and no hop where it drops or there is none."""
        version, value = address
        counts, width = self.lengths[version], WIDTH[version]
        for length in range(width, -1, -1):
            if counts[length]:
                hop = self.hops.get((version, length, value >> (width - length)))
                if hop is not None:
                    return None if hop == "drop" else hop
        return None


def span(prefix):
    """The first and the last address of a prefix."""
    version, length, bits = prefix
    first = bits << (WIDTH[version] - length)
    return first, first + (1 << (WIDTH[version] - length)) - 1


def addresses_of(changes):
    """Of each version the first and the last address of each prefix and the ones beside them, in order."""
    found = {4: set(), 6: set()}
    for _, prefix, *_ in changes:
        first, last = span(prefix)
        found[prefix[0]].update(value for value in (first - 1, first, last, last + 1) if 0 <= value < 1 << WIDTH[prefix[0]])
    return {version: sorted(values) for version, values in found.items()}


def answers(table, addresses):
    return {(version, value): table.answer((version, value)) for version in addresses for value in addresses[version]}


def goes_astray(table, changes):
    """Whether some address does while the changes are made, which the table has in the end."""
    addresses = addresses_of(changes)
    kept = {change[1]: table.hops.get(change[1]) for change in changes}
    before = answers(table, addresses)
    for change in changes:
        table.make(change)
    after = answers(table, addresses)
    for prefix, hop in kept.items():
        table.put(prefix, hop)
    astray, arrived = False, {address for address in before if before[address] == after[address]}
    for change in changes:
        table.make(change)
        version = change[1][0]
        first, last = span(change[1])
        # no answer changes outside the prefix
        for value in addresses[version][bisect_left(addresses[version], first) : bisect_right(addresses[version], last)]:
            address = (version, value)
            answer = table.answer(address)
            astray |= answer not in (before[address], after[address]) or address in arrived and answer != after[address]
            if answer == after[address]:
                arrived.add(address)
    return astray


def main():
    if len(sys.argv) < 2 or any(word.startswith("-") for word in sys.argv[1:]):
        sys.exit(__doc__)
    any_astray = False
    for name in sys.argv[1:]:
        table, several, astray = Table(), 0, 0
        events = read_events(name)
        for changes in events:
            if len(changes) == 1:
                table.make(changes[0])
            else:
                several += 1
                astray += goes_astray(table, changes)
        any_astray |= astray > 0
        print(f"{name}: {len(events)} events change the table, {several} by several changes, {astray} send an address astray")
    sys.exit(any_astray)


if __name__ == "__main__":
    main()
