"""Compares the routes that fib chooses with what `bgpdump` reads from the same files.

Usage:  compare_bgpdump.py PROGRAM DUMP [UPDATES]

Runs `PROGRAM run DUMP [--updates UPDATES]`, where PROGRAM is the built `fib`, and `bgpdump -m` on each of the files, chooses among
the routes that bgpdump prints by fib's rule, and prints each prefix whose next hop isn't the same in both, then counts.  A file may
be compressed by bzip2, gzip, xz or zstd, or be a pipe: both programs read an unpacked copy.  The status is 0 where all are equal, 1
where any differ, 2 where a file or a program is missing, a program failed, or bgpdump printed a line of an unknown kind.

It needs Python 3.9 and bgpdump.  As fib does, it tells the routes of one peer apart by their path identifiers (ADD-PATH), and takes
a route without a next hop as a withdrawal.
"""

import os
import re
import shutil
import subprocess
import sys
import tempfile
from ipaddress import ip_address, ip_network

sys.path.append(os.path.join(os.path.dirname(os.path.dirname(os.path.abspath(__file__))), "tools"))
from common import Refused, opened, run

ESTABLISHED = "6"
NO_HOP = "255.255.255.255"              # what bgpdump prints where there is none
WITH_IDS = "_AP"                        # how it ends the names of records with path identifiers

SEGMENTS = re.compile(r"\{([^}]*)\}|\([^)]*\)|\[[^\]]*\]|(\d+)")


def path_length(path):
    """AS numbers of sequences, and one for each set that isn't empty.

    bgpdump prints a set as {1,2}, segments of confederations as (1 2) and [1,2].
    """
    return sum(1 for segment in SEGMENTS.finditer(path) if segment[1] or segment[2])


def address(text):
    """An address that sorts with others, IPv4 before IPv6."""
    addr = ip_address(text)
    return addr.version, int(addr)


def prefix(text):
    net = ip_network(text, strict=False)
    return net.version, int(net.network_address), net.prefixlen


def lines_of(command):
    done = subprocess.run(command, capture_output=True, text=True)
    if done.returncode != 0:
        raise Refused(f"{command[0]}: status {done.returncode}: {done.stderr}")
    return done.stdout.splitlines()


class Candidates:
    """What each peer, by its address and AS number, offers for each prefix, by its path identifiers."""

    def __init__(self):
        self.offers = {}                # prefix -> {(peer, path identifier): (path length, next hop)}
        self.kinds = {}                 # how many lines of each kind were read
        self.no_peer = 0                # sessions lost of peers that offered nothing

    def count(self, kind):
        self.kinds[kind] = self.kinds.get(kind, 0) + 1

    def withdraw(self, via, pref):
        offers = self.offers.get(pref, {})
        offers.pop(via, None)
        if not offers:
            self.offers.pop(pref, None)

    def lose(self, peer):
        theirs = [(via, pref) for pref, offers in self.offers.items() for via in offers if via[0] == peer]
        self.no_peer += not theirs
        for via, pref in theirs:
            self.withdraw(via, pref)

    def read(self, file):
        for line in lines_of(["bgpdump", "-q", "-m", file]):
            try:
                self.take(line.split("|"))
            except (IndexError, ValueError):
                raise Refused(f"a line of bgpdump of an unknown kind: {line}") from None

    def take(self, fields):
        kind = fields[2]
        peer = address(fields[3]), int(fields[4])
        self.count(kind)
        if kind == "STATE":
            if fields[5] == ESTABLISHED and fields[6] != ESTABLISHED:
                self.count("lost")
                self.lose(peer)
            return
        number = 0
        if fields[0].endswith(WITH_IDS):
            self.count("ADD-PATH")
            number = int(fields.pop(6))
        via, pref = (peer, number), prefix(fields[5])
        if kind in ("A", "B") and fields[8] == NO_HOP:
            self.count("no hop")
            self.withdraw(via, pref)
        elif kind in ("A", "B"):
            self.offers.setdefault(pref, {})[via] = path_length(fields[6]), address(fields[8])
        elif kind == "W":
            self.withdraw(via, pref)
        else:
            raise ValueError

    def chosen(self):
        """The next hop of each prefix: the shortest path, then the least peer, then the least path identifier."""
        return {
            pref: min((length, via, hop) for via, (length, hop) in offers.items())[2]
            for pref, offers in self.offers.items()
        }


def routes_of(program, dump, updates):
    command = [program, "run", dump, "--nodes", "22", "--leaves", "24"] + (["--updates", updates[0]] if updates else [])
    rows = [line.split(",") for line in lines_of(command)]
    return {prefix(row[1]): address(row[2]) for row in rows if row[0] == "route"}


def text_of(addr):
    return "none" if addr is None else str(shown(*addr))


def shown(version, number):
    """The address with this number (small numbers are IPv6 addresses too)."""
    return ip_address(number.to_bytes(4 if version == 4 else 16, "big"))


def compare(ours, theirs):
    """Prints each prefix that differs, and returns how many there are."""
    differ = [pref for pref in sorted(ours.keys() | theirs.keys()) if ours.get(pref) != theirs.get(pref)]
    for version, number, length in differ:
        pref = version, number, length
        print(f"{shown(version, number)}/{length}: fib {text_of(ours.get(pref))}, bgpdump {text_of(theirs.get(pref))}")
    return len(differ)


def unpacked(name, path):
    """The path, at which a copy of the input is now."""
    with open(path, "wb") as file:
        shutil.copyfileobj(opened(name), file)
    return path


def main(words):
    program, *names = words
    expected = Candidates()
    with tempfile.TemporaryDirectory() as folder:
        dump, *updates = [unpacked(name, os.path.join(folder, str(place))) for place, name in enumerate(names)]
        for file in [dump, *updates]:
            expected.read(file)
        ours = routes_of(program, dump, updates)
    theirs = expected.chosen()
    differ = compare(ours, theirs)
    several = sum(1 for offers in expected.offers.values() if len(offers) > 1)
    print(f"routes {len(ours)}, of bgpdump {len(theirs)} ({several} of several candidates), differ {differ}")
    print("lines: " + ", ".join(f"{kind} {n}" for kind, n in sorted(expected.kinds.items()))
          + f"; sessions lost of peers without routes {expected.no_peer}")
    return 1 if differ else 0


if __name__ == "__main__":
    run(main, __doc__, least=2, most=3, failed=2)
