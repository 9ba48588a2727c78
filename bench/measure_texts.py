#!/usr/bin/env python3
"""Measures comparisons of printed texts and checkpoints beside what they are made of.

Usage:  measure_texts.py PROGRAM [--read PART_COUNT]

PROGRAM is the built fib, PART_COUNT the built crates/part_count/out/part_count. Of 1,000,000 IPv4 and
220,000 IPv6 prefixes of one peer it prints a text, and times `check` of it and `same` of it with itself,
of its routes and of its tables. Of the same prefixes of four peers it times `save`, the reading of the
dump by itself (`part_count`), and the reading of the checkpoint. Each time is the least processor time
of three runs, in turns; beside it the peak of memory. A run that doesn't end as it must ends it with
status 1. No time and no memory is judged.
"""

import argparse
import os
import sys
import tempfile

from measure import MIB, make, peak, start

RUNS = 3
PREFIXES = (1_000_000, 220_000)
ROOM = ["--nodes", "22", "--leaves", "24"]


def seconds(words, out):
    """The processor seconds of a run."""
    _, status, usage = os.wait4(start(words, out), 0)
    if os.waitstatus_to_exitcode(status) != 0:
        sys.exit("%s ended with %d" % (" ".join(words), os.waitstatus_to_exitcode(status)))
    return usage.ru_utime + usage.ru_stime


def in_turns(jobs, folder):
    """Prints the least seconds of each job, all of them in turns, and its peak of memory."""
    best = [None] * len(jobs)
    for _ in range(RUNS):
        for i, (_, words) in enumerate(jobs):
            took = seconds(words, os.path.join(folder, "out"))
            best[i] = took if best[i] is None else min(best[i], took)
    for (name, words), took in zip(jobs, best):
        print("%-44s %8.2f s %8.0f MiB" % (name, took, peak(words, os.path.join(folder, "out")) / MIB), flush=True)


def main():
    parser = argparse.ArgumentParser(description="Measures comparisons of printed texts and checkpoints.")
    parser.add_argument("program")
    parser.add_argument("--read", help="the built part_count")
    given = parser.parse_args()
    program = os.path.abspath(given.program)
    with tempfile.TemporaryDirectory() as folder:
        one, four, none = (os.path.join(folder, name) for name in ("one.mrt", "four.mrt", "none.mrt"))
        make("make_large.py", *PREFIXES, 1, 0, 1, one, none)
        make("make_large.py", *PREFIXES, 4, 0, 1, four, none)
        text = os.path.join(folder, "text")
        seconds([program, "run", one, *ROOM], text)
        with open(text, "rb") as f:
            rows = sum(1 for _ in f)
        print("a text of %d rows, %.0f MB" % (rows, os.path.getsize(text) / 1e6))
        in_turns([("check", [program, "check", text]),
                  ("same, of two such texts, the routes", [program, "same", text, text, "--rows", "route"]),
                  ("same, of two such texts, the tables", [program, "same", text, text])], folder)
        saved = os.path.join(folder, "saved.mrt")
        seconds([program, "save", four], saved)
        print("a dump of %.0f MB, its checkpoint of %.0f MB" % (os.path.getsize(four) / 1e6, os.path.getsize(saved) / 1e6))
        jobs = [("save", [program, "save", four])]
        if given.read:
            read = os.path.abspath(given.read)
            jobs += [("reading the dump alone", [read, four]), ("reading the checkpoint alone", [read, saved])]
        in_turns(jobs, folder)


if __name__ == "__main__":
    main()
