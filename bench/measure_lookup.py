#!/usr/bin/env python3
"""Measures look-ups by the program's Poptries beside those of a Poptrie in C.

Usage:  measure_lookup.py PROGRAM PART_COUNT [--ipv4 N] [--ipv6 N] [--count N] [--rounds N] [--turns N] [--direct S ..]

PROGRAM is the built fib, PART_COUNT the built crates/part_count/out/part_count. Makes the table
of one peer that make_large.py makes, has PROGRAM print its routes, and builds bench/lookup_poptrie.c
with cc. For each family and number of direct bits both programs draw the same addresses and look each
of them up: by itself, and changed by the answer before it, for which the look-up has to wait; ours does so
in the tries of an engine and in the live tries of a router. A look-up is what a run with the rounds takes
more than one without them, over all look-ups, of the least processor times of so many turns: so it may run
beside other work. Prints nanoseconds a look-up of both programs, how many times C's ours are, nanoseconds of
the router's, and what the trie takes. Ends with status 1 where the
programs' tries differ, in what they need or in how many nodes are visited. No time is judged.
"""

import argparse
import os
import subprocess
import sys
import tempfile

from measure import ROOM, make, start

SEED = 1
HERE = os.path.dirname(os.path.abspath(__file__))
NODE, LEAF, WORD = 24, 2, 4            # octets
MIB = 1 << 20
WAYS = {"apart": (1, 0), "chained": (0, 1)}


def built(folder):
    """The program in C."""
    program = os.path.join(folder, "lookup_poptrie")
    words = ["cc", "-O3", "-march=x86-64-v2", os.path.join(HERE, "lookup_poptrie.c"), "-o", program]
    subprocess.run(words, check=True)
    return program


def run(words, out):
    """(rows by their first word, processor seconds) of a run."""
    _, status, usage = os.wait4(start(words, out), 0)
    if os.waitstatus_to_exitcode(status) != 0:
        sys.exit("%s ended with %d" % (" ".join(words), os.waitstatus_to_exitcode(status)))
    with open(out, encoding="ascii") as f:
        rows = (line.rstrip("\n").split(",") for line in f)
        return {kind: [int(number) for number in numbers] for kind, *numbers in rows}, usage.ru_utime + usage.ru_stime


class Looked:
    """A program at a table, a family and a number of direct bits."""

    def __init__(self, program, table, family, given, direct, last=()):
        self.words = [program, table, str(family), str(given.count)]
        self.direct = str(direct)
        self.last = last
        self.best = {}

    def turn(self, way, rounds, out):
        """One run; the rows of it."""
        apart, chained = WAYS[way]
        words = [*self.words, str(apart * rounds), str(chained * rounds), self.direct, *self.last]
        rows, seconds = run(words, out)
        key = way if rounds else "none"
        self.best[key] = min(seconds, self.best.get(key, seconds))
        return rows

    def nanoseconds(self, way, given):
        return (self.best[way] - self.best["none"]) / (given.rounds * given.count) * 1e9


def compare(ours, router, plain, family, given, out):
    """What ours, the router and the plain program took, in turns: the row of the table."""
    for _ in range(given.turns):
        for looked in (ours, router, plain):
            looked.turn("apart", 0, out)
            for way in WAYS:
                looked.turn(way, given.rounds, out)
    told, plainly = ours.turn("apart", 1, out), plain.turn("apart", 0, out)
    if router.turn("apart", 1, out) != told:
        sys.exit("the router's look-ups differ")
    at = 0 if family == 4 else 1
    nodes, leaves, visits = told["nodes"][at], told["leaves"][at], told["apart"][0]
    if [[nodes], [leaves], [visits]] != [plainly[kind] for kind in ("nodes", "leaves", "visits")]:
        sys.exit("the tries differ: %s, and in C %s" % (told, plainly))
    columns = []
    for way in WAYS:
        taken, plain_taken = ours.nanoseconds(way, given), plain.nanoseconds(way, given)
        columns += ["%.1f" % taken, "%.1f" % plain_taken, "%.2f" % (taken / plain_taken),
                    "%.1f" % router.nanoseconds(way, given)]
    words = 1 << int(ours.direct)
    octets = nodes * NODE + leaves * LEAF + words * WORD
    return ["IPv%d" % family, ours.direct, *columns, str(nodes), str(leaves), str(words), "%.1f" % (octets / MIB),
            "%.2f" % (visits / given.count)]


def main():
    parser = argparse.ArgumentParser(description="Measures look-ups beside those of a Poptrie in C.")
    parser.add_argument("program")
    parser.add_argument("part_count")
    for name, default in (("ipv4", 1_000_000), ("ipv6", 220_000), ("count", 1_000_000), ("rounds", 100), ("turns", 5)):
        parser.add_argument("--" + name, type=int, default=default)
    parser.add_argument("--direct", type=int, nargs="+", default=[16, 18])
    given = parser.parse_args()
    program, part_count = os.path.abspath(given.program), os.path.abspath(given.part_count)
    with tempfile.TemporaryDirectory() as folder:
        dump, rows, out = (os.path.join(folder, name) for name in ("dump.mrt", "rows.txt", "out"))
        make("make_large.py", given.ipv4, given.ipv6, 1, 0, SEED, dump, os.path.join(folder, "updates.mrt"))
        run_rows = os.waitstatus_to_exitcode(os.wait4(start([program, "run", dump, *ROOM], rows), 0)[1])
        if run_rows != 0:
            sys.exit("%s run ended with %d" % (program, run_rows))
        plain = built(folder)
        print("| Family | direct bits | apart, ns | in C | times | router | chained, ns | in C | times | router | nodes | leaves "
              "| words | MiB | visits |\n" + "|---" * 15 + "|", flush=True)
        for family in (4, 6):
            for direct in given.direct:
                columns = compare(Looked(part_count, dump, family, given, direct),
                                  Looked(part_count, dump, family, given, direct, ["router"]),
                                  Looked(plain, rows, family, given, direct), family, given, out)
                print("| %s |" % " | ".join(columns), flush=True)


if __name__ == "__main__":
    main()
