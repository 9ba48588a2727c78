#!/usr/bin/env python3
"""Measures what a list of VRPs costs a run.

Usage:  measure_vrps.py PROGRAM [--vrps N]

Of 1,000,000 IPv4 and 220,000 IPv6 prefixes of one peer it times `run` without a list, with N VRPs
(500,000 if not said) by which no announcement is Invalid, so that the text stays what it is, and with
N by which some are: one in ten has another AS than the routes. Each VRP has a prefix that is drawn
from the table. It times the second list with hardly a route too, which is what reading and indexing it
costs. Each time is the least processor time of three runs, in turns; beside it the peak of memory. A
run that doesn't end as it must ends it with status 1. No time and no memory is judged.
"""

import argparse
import os
import random
import tempfile

from measure import make
from measure_texts import PREFIXES, ROOM, in_turns, seconds


def origin_of(program, dump, folder, prefix):
    """The AS in which the table's routes originate, as a list that has none of them tells it."""
    lists, text = os.path.join(folder, "one.vrps"), os.path.join(folder, "told")
    with open(lists, "w") as f:
        f.write("%s,%s,4294967295\n" % (prefix, prefix.split("/")[1]))
    seconds([program, "run", dump, "--vrps", lists, *ROOM], text)
    with open(text) as f:
        return next(row.split(",")[4] for row in f if row.startswith("invalid,"))


def list_of(prefixes, origin, agrees, name):
    """Writes a VRP of each prefix: of any length within it and the routes' AS, or at most four bits longer and one in ten another AS."""
    rng = random.Random(1)
    with open(name, "w") as f:
        for prefix in prefixes:
            width = 128 if ":" in prefix else 32
            longest = width if agrees else min(int(prefix.split("/")[1]) + rng.randrange(5), width)
            f.write("%s,%d,%s\n" % (prefix, longest, origin if agrees or rng.randrange(10) else 64999))


def main():
    parser = argparse.ArgumentParser(description="Measures what a list of VRPs costs a run.")
    parser.add_argument("program")
    parser.add_argument("--vrps", type=int, default=500_000, help="how many VRPs")
    given = parser.parse_args()
    program = os.path.abspath(given.program)
    with tempfile.TemporaryDirectory() as folder:
        dump, updates, tiny, text = (os.path.join(folder, name) for name in ("dump", "updates", "tiny", "text"))
        make("make_large.py", *PREFIXES, 1, 0, 1, dump, updates)
        make("make_large.py", 1, 1, 1, 0, 1, tiny, updates)
        seconds([program, "run", dump, *ROOM], text)
        with open(text) as f:
            prefixes = [row.split(",")[1] for row in f if row.startswith("route,")]
        origin = origin_of(program, dump, folder, prefixes[0])
        drawn = random.Random(1).sample(prefixes, min(given.vrps, len(prefixes)))
        quiet, many = os.path.join(folder, "quiet.vrps"), os.path.join(folder, "many.vrps")
        list_of(drawn, origin, True, quiet)
        list_of(drawn, origin, False, many)
        seconds([program, "run", dump, "--vrps", many, *ROOM], text)
        with open(text) as f:
            invalid = sum(row.startswith("invalid,") for row in f)
        print("%d routes, %d VRPs, %d announcements Invalid" % (len(prefixes), len(drawn), invalid))
        in_turns([("no list", [program, "run", dump, *ROOM]),
                  ("a list by which none is Invalid", [program, "run", dump, "--vrps", quiet, *ROOM]),
                  ("a list by which some are", [program, "run", dump, "--vrps", many, *ROOM]),
                  ("this list, with hardly a route", [program, "run", tiny, "--vrps", many, *ROOM])], folder)


if __name__ == "__main__":
    main()
