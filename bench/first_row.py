#!/usr/bin/env python3
"""Times README's commands on a fresh clone.

Usage:  first_row.py [--build] [--gate] [--processors N]

Clones the repository that it stands in, as it is committed, into a folder of its own, and runs README's first command there.  It prints
after how many seconds the first row came, and the end, and how many processor seconds it took.  The program that comes along runs, or
with --build one that is proved and built there.  With --gate it is README's second command, the gate, and the row is the first that
it prints.  --processors has the command use so many alone.  The status is the command's.
"""

import argparse
import os
import pathlib
import resource
import subprocess
import sys
import tempfile
import time

ROOT = pathlib.Path(__file__).resolve().parent.parent
FIRST = ["./fib", "run", "examples/dump.mrt", "--ask", "examples/asks.txt"]
GATE = [".ci/run"]


def words_of(words):
    reader = argparse.ArgumentParser(description=__doc__, formatter_class=argparse.RawDescriptionHelpFormatter)
    reader.add_argument("--build", action="store_true")
    reader.add_argument("--gate", action="store_true")
    reader.add_argument("--processors", type=int, metavar="N")
    return reader.parse_args(words)


def timed(words, folder, build):
    """Runs a command; the seconds until its first line of output, until its end, and its status."""
    environment = {**os.environ, "FIB_BUILD": "1"} if build else {name: word for name, word in os.environ.items() if name != "FIB_BUILD"}
    begun = time.monotonic()
    with subprocess.Popen(words, cwd=folder, stdin=subprocess.DEVNULL, stdout=subprocess.PIPE, env=environment) as command:
        command.stdout.readline()
        first = time.monotonic() - begun
        for _ in command.stdout:
            pass
    return first, time.monotonic() - begun, command.returncode


def main(words):
    told = words_of(words)
    if told.processors:
        os.sched_setaffinity(0, sorted(os.sched_getaffinity(0))[: told.processors])
    with tempfile.TemporaryDirectory() as folder:
        subprocess.run(["git", "clone", "--quiet", ROOT, f"{folder}/fib"], check=True)
        first, last, status = timed(GATE if told.gate else FIRST, f"{folder}/fib", told.build)
    used = resource.getrusage(resource.RUSAGE_CHILDREN)
    processors = len(os.sched_getaffinity(0))
    print(f"{processors} processors: the first row after {first:,.1f} s, the end after {last:,.1f} s, {used.ru_utime + used.ru_stime:,.0f} processor seconds")
    return status


if __name__ == "__main__":
    sys.exit(main(sys.argv[1:]))
