#!/usr/bin/env python3
"""Measures runs that ask for the fewest changes, and what a router must change that has a table.

Usage:  measure_fewest.py PROGRAM

PROGRAM is the built fib. Of 1,000,000 IPv4 and 220,000 IPv6 prefixes of four peers and 200,000 UPDATE
messages it times the run without updates, with them, with --fewest, and with --every 100000 and 10000
beside it; of each run with updates it counts the changes behind the load, and the entries of the kept
table and of the least one at the end. Of the same prefixes of one peer it makes a router that has the
routes as they are, and one that has the table of the four peers' updates; it times `moves` of each
against the least table's routes, and counts the changes, beside those that a flush and a load would take.
Each time is the least processor time of two runs, in turns; beside it the peak of memory. A run that
doesn't end as it must ends it with status 1. No time and no memory is judged.
"""

import argparse
import collections
import os
import tempfile

from measure import MIB, make, peak
from measure_texts import PREFIXES, ROOM, seconds

RUNS = 2


def counted(text):
    """How many rows of each kind the text has; changes behind the load alone."""
    rows = collections.Counter()
    with open(text, encoding="ascii") as lines:
        for line in lines:
            if not line.startswith("change,0,"):
                rows[line.split(",", 1)[0]] += 1
    return rows


def named(source, kind, target):
    """A text whose `least` rows are the rows of another kind."""
    with open(source, encoding="ascii") as lines, open(target, "w", encoding="ascii") as out:
        for line in lines:
            if line.startswith(kind + ","):
                out.write("least" + line[len(kind):])


def in_turns(jobs):
    """Prints the least seconds of each job, all of them in turns, its peak of memory, and what its text has."""
    best = {}
    for _ in range(RUNS):
        for name, words, out in jobs:
            took = seconds(words, out)
            best[name] = min(took, best.get(name, took))
    for name, words, out in jobs:
        rows = counted(out)
        print("%-44s %8.2f s %8.0f MiB %9d changes %9d entries, %d in a least table" % (
            name, best[name], peak(words, out) / MIB, rows["change"], rows["table"], rows["least"]), flush=True)


def main():
    parser = argparse.ArgumentParser(description="Measures runs that ask for the fewest changes.")
    parser.add_argument("program")
    program = os.path.abspath(parser.parse_args().program)
    with tempfile.TemporaryDirectory() as folder:
        four, updates, one, none = (os.path.join(folder, name) for name in ("four.mrt", "updates.mrt", "one.mrt", "none.mrt"))
        make("make_large.py", *PREFIXES, 4, 200_000, 1, four, updates)
        make("make_large.py", *PREFIXES, 1, 0, 1, one, none)
        load = [program, "run", four, *ROOM]
        run = [*load, "--updates", updates]
        text = [os.path.join(folder, name) for name in ("repaired", "fewest", "later", "often")]
        in_turns([("run, without the updates", load, os.path.join(folder, "loaded")), ("run", run, text[0]),
                  ("--fewest", [*run, "--fewest"], text[1]),
                  ("--fewest --every 100000", [*run, "--fewest", "--every", "100000"], text[2]),
                  ("--fewest --every 10000", [*run, "--fewest", "--every", "10000"], text[3])])
        plain, has, kept = (os.path.join(folder, name) for name in ("plain", "has", "kept"))
        seconds([program, "run", one, *ROOM], plain)
        named(plain, "route", has)
        named(text[0], "table", kept)
        rows = counted(plain)
        print("a table of %d routes, %d in a least table" % (rows["route"], rows["least"]))
        in_turns([("moves, of a router with these routes", [program, "moves", has, plain], os.path.join(folder, "none")),
                  ("moves, of a router with the routes of others", [program, "moves", kept, plain], os.path.join(folder, "moved"))])


if __name__ == "__main__":
    main()
