#!/usr/bin/env python3
"""Measures what runs take, and writes the tables of docs/USAGE.md, "What it takes".

Usage:  what_it_takes.py PROGRAM [PEERS]

Makes whole tables of make_whole.py of one peer, four and PEERS (60 if nothing is said: 4.5 GB of disk
and 3 GB of memory), tables of single addresses, and updates in which the default route comes and
goes; runs the program on each three times, with its output to a file and room for whole tables, and
prints Markdown: the least processor time of user and system, and the peak of memory. So it may run
beside other work. No time and no memory is judged.
"""

import argparse
import os
import random
import shutil
import sys
import tempfile

from make_inputs import BGP4MP, MESSAGE_AS4, attribute, be, record
from make_whole import dump, peer
from measure import ROOM, count_rows, make, start

SEED = 1
RUNS = 3
FOUR, SIX = 1_000_000, 220_000
FLAPS = 10
MIB = 1 << 20


class Run:
    """What a run took: seconds of processor, octets of memory, of text, and its rows."""

    def __init__(self, words, out):
        self.seconds = None
        for _ in range(RUNS):
            _, status, usage = os.wait4(start(words, out), 0)
            if status != 0:
                sys.exit("%s ended with %d" % (" ".join(words[1:]), os.waitstatus_to_exitcode(status)))
            seconds = usage.ru_utime + usage.ru_stime
            self.seconds = min(seconds, self.seconds or seconds)
        self.memory, self.text, self.rows = usage.ru_maxrss * 1024, os.path.getsize(out), count_rows(out)


def single(family, count, path):
    """A dump of one peer with routes of so many single addresses, drawn from the family's space of routes."""
    width, first, end = (32, 1 << 24, 224 << 24) if family == 4 else (128, 0x2001 << 112, 0x2c10 << 112)
    rng = random.Random(SEED)
    places = set()
    while len(places) < count:
        places.add(rng.randrange(first, end))
    with open(path, "wb") as out:
        out.writelines(dump([(family, place, width, rng.randrange(60)) for place in sorted(places)], 1))


def flaps(path):
    """Updates of the first peer: the default route comes and goes, so many times."""
    addr, asn = peer(0)
    session = be(asn, 4) + be(64511, 4) + be(0, 2) + be(1, 2) + be(addr, 4) + be(0xc00002fe, 4)
    attributes = attribute(1, be(0, 1)) + attribute(2, be(2, 1) + be(1, 1) + be(asn, 4)) + attribute(3, be(0xc6120000, 4))
    bodies = [be(0, 2) + be(len(attributes), 2) + attributes + be(0, 1), be(1, 2) + be(0, 1) + be(0, 2)]
    with open(path, "wb") as out:
        for body in (FLAPS // 2) * bodies:
            message = b"\xff" * 16 + be(19 + len(body), 2) + be(2, 1) + body
            out.write(record(BGP4MP, MESSAGE_AS4, session + message))


def vrps(table, path):
    """A list with a VRP of every second route of a printed table, by which it and all within it are Valid; how many there are."""
    with open(table) as text, open(path, "w") as out:
        prefixes = [row.split(",")[1] for row in text if row.startswith("route,")][::2]
        out.writelines("%s,%d,%d\n" % (prefix, 128 if ":" in prefix else 32, peer(0)[1]) for prefix in prefixes)
    return len(prefixes)


def router(table, path):
    """A text of a router that has the routes of a printed table as they are."""
    with open(table) as text, open(path, "w") as out:
        out.writelines("least" + line[len("route"):] for line in text if line.startswith("route,"))


def number(n):
    return "{:,}".format(round(n))


def row(*cells):
    print("| " + " | ".join(cells) + " |", flush=True)


def told(what, run, routes, candidates):
    """A row: in all, and by the route."""
    row(what, number(routes), number(candidates), "%.1f" % run.seconds, number(run.memory / MIB), number(run.text / MIB),
        "%.1f" % (run.seconds / candidates * 1e6), number(run.memory / candidates), number(run.text / routes),
        "%.1f" % (run.rows["cert"] / routes))


def whole(program, four, six, peers, folder, what):
    """A whole table of so many peers: the dump's name and its run."""
    path = os.path.join(folder, "whole.mrt")
    make("make_whole.py", four, six, peers, SEED, path)
    run = Run([program, "run", path, *ROOM], os.path.join(folder, "out"))
    told(what, run, run.rows["route"], run.rows["route"] * peers)
    return path, run


def singles(program, family, count, folder, what):
    path = os.path.join(folder, "single.mrt")
    single(family, count, path)
    run = Run([program, "run", path, *ROOM], os.path.join(folder, "single.txt"))
    told(what, run, run.rows["route"], run.rows["route"])
    os.remove(path)


def main():
    parser = argparse.ArgumentParser(description=__doc__.splitlines()[0])
    parser.add_argument("program", metavar="PROGRAM")
    parser.add_argument("peers", metavar="PEERS", nargs="?", type=int, default=60)
    args = parser.parse_args()
    program = shutil.which(os.path.abspath(args.program)) or sys.exit("no such program: " + args.program)
    with tempfile.TemporaryDirectory() as folder:
        row("Dump", "Routes", "Candidates", "Seconds", "MiB", "MiB of text", "us a candidate", "Octets a candidate",
            "Octets of text a route", "Rows of the certificate a route")
        row(*["---"] * 10)
        whole(program, FOUR, 0, 1, folder, "IPv4, one peer")
        whole(program, 0, SIX, 1, folder, "IPv6, one peer")
        path, one = whole(program, FOUR, SIX, 1, folder, "both, one peer")
        out, table = os.path.join(folder, "out"), os.path.join(folder, "table.txt")
        os.rename(out, table)
        check = Run([program, "check", table], out)
        same = Run([program, "same", table, table], out)
        has = os.path.join(folder, "router.txt")
        router(table, has)
        moved = Run([program, "moves", has, table], out)
        open(has, "w").close()
        loaded = Run([program, "moves", has, table], out)
        roas = os.path.join(folder, "vrps.txt")
        count = vrps(table, roas)
        judged = Run([program, "run", path, "--vrps", roas, *ROOM], out)
        updates = os.path.join(folder, "updates.mrt")
        flaps(updates)
        flapped = Run([program, "run", path, "--updates", updates, *ROOM], out)
        changes = flapped.rows["change"] - one.rows["change"]
        path, four = whole(program, FOUR, SIX, 4, folder, "both, four peers")
        save = Run([program, "save", path], out)
        whole(program, FOUR, SIX, args.peers, folder, "both, %d peers" % args.peers)
        singles(program, 4, 100_000, folder, "single IPv4 addresses (/32)")
        singles(program, 6, 20_000, folder, "single IPv6 addresses (/128)")
        print()
        row("Of both, one peer", "Seconds", "MiB", "")
        row(*["---"] * 4)
        row("`fib check` of its text", "%.1f" % check.seconds, number(check.memory / MIB),
            "%.1f octets of memory an octet of text" % (check.memory / one.text))
        row("%d events of the default route" % FLAPS, "%.1f more" % (flapped.seconds - one.seconds), number(flapped.memory / MIB),
            "%.2f s an event, %s changes" % ((flapped.seconds - one.seconds) / FLAPS, number(changes / FLAPS)))
        row("`fib same` of two such texts", "%.1f" % same.seconds, number(same.memory / MIB),
            "%.1f octets of memory an octet of one text" % (same.memory / one.text))
        row("`fib moves` of a router with its routes", "%.1f" % moved.seconds, number(moved.memory / MIB),
            "%s changes" % number(moved.rows["change"]))
        row("`fib moves` of an empty router", "%.1f" % loaded.seconds, number(loaded.memory / MIB),
            "%s changes" % number(loaded.rows["change"]))
        row("`--vrps` with %s VRPs" % number(count), "%.1f more" % (judged.seconds - one.seconds), number(judged.memory / MIB),
            "%.2f us a candidate" % ((judged.seconds - one.seconds) / one.rows["route"] * 1e6))
        row("`fib save` of both, four peers", "%.1f" % save.seconds, number(save.memory / MIB),
            "%d octets a candidate" % (save.memory / four.rows["route"] / 4))


if __name__ == "__main__":
    main()
