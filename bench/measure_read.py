#!/usr/bin/env python3
"""Measures the reading of records by itself.

Usage:  measure_read.py PROGRAM [FILE ..]

PROGRAM is the built crates/part_count/out/part_count, which counts what the records of a file say.
Without files it reads the dump and the updates that make_large.py makes of 1,000,000 IPv4 and
220,000 IPv6 prefixes of four peers and 200,000 messages. It prints the least processor time of
five runs, what that is for an event, and the peak of memory. A run that doesn't end with 0, or
counts otherwise than the one before it, ends it with status 1. No time and no memory is judged.
"""

import argparse
import os
import sys
import tempfile

from measure import MIB, make, peak, start

RUNS = 5
LARGE = (1_000_000, 220_000, 4, 200_000, 1)


def make_large(folder):
    files = [os.path.join(folder, name) for name in ("dump.mrt", "updates.mrt")]
    make("make_large.py", *LARGE, *files)
    return files


def counted(words, out):
    """(counts, processor seconds) of a run."""
    _, status, usage = os.wait4(start(words, out), 0)
    if os.waitstatus_to_exitcode(status) != 0:
        sys.exit("%s ended with %d" % (" ".join(words), os.waitstatus_to_exitcode(status)))
    with open(out, encoding="ascii") as f:
        rows = [line.rstrip("\n").split(",") for line in f]
    return {name: int(count) for name, count in rows}, usage.ru_utime + usage.ru_stime


def measured(words, out):
    """(counts, least processor seconds) of some runs."""
    counts, best = counted(words, out)
    for _ in range(RUNS - 1):
        again, seconds = counted(words, out)
        if again != counts:
            sys.exit("%s: counted %s, then %s" % (" ".join(words), counts, again))
        best = min(best, seconds)
    return counts, best


def main():
    parser = argparse.ArgumentParser(description="Measures the reading of records by itself.")
    parser.add_argument("program")
    parser.add_argument("files", nargs="*")
    given = parser.parse_args()
    program = os.path.abspath(given.program)
    with tempfile.TemporaryDirectory() as folder:
        out = os.path.join(folder, "out")
        print("%9s %9s %9s %9s %11s %9s %9s %9s" % ("records", "skipped", "events", "treated", "octets", "seconds",
                                                    "ns/event", "peak MiB"))
        for file in given.files or make_large(folder):
            counts, best = measured([program, file], out)
            print("%9d %9d %9d %9d %11d %9.2f %9.0f %9.0f" % (
                *(counts[name] for name in ("records", "skipped", "events", "treated")), os.path.getsize(file), best,
                best / max(1, counts["events"]) * 1e9, peak([program, file], out) / MIB), flush=True)


if __name__ == "__main__":
    main()
