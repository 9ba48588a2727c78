#!/usr/bin/env python3
"""Measures a program on inputs of several sizes.

Usage:  measure.py PROGRAM [--table]

Runs `PROGRAM run DUMP --updates UPDATES --ask ASKS` with its output to a file on inputs of
make_inputs.py, and prints the best time of three; then once more for its peak of memory. The
first line of each size is the dump alone. With --table it runs `PROGRAM run DUMP` on whole
tables of make_table.py, and `PROGRAM check` on what that printed. All runs have Poptries with
room for whole tables (--nodes 22 --leaves 24). A run that doesn't end with 0
or hasn't the routes that are due, or a check that doesn't say yes, ends it with status 1. No
time and no memory is judged.
"""

import argparse
import os
import shutil
import subprocess
import sys
import tempfile
import time
from collections import Counter

HERE = os.path.dirname(os.path.abspath(__file__))
SIZES = (50_000, 100_000, 200_000)
TABLES = ((250_000, 50_000), (500_000, 100_000), (1_000_000, 200_000))
ASKS = 1000
SEED = 1
RUNS = 3
ROOM = ["--nodes", "22", "--leaves", "24"]      # for the Poptries of a whole table
MIB = 1024                          # KiB


def make(script, *words):
    """Makes inputs in a process of its own, so that this one stays small."""
    subprocess.run([sys.executable, os.path.join(HERE, script), *map(str, words)], check=True)


def make_inputs(n, folder):
    make("make_inputs.py", n, n, ASKS, SEED, folder)
    return [os.path.join(folder, name) for name in ("dump.mrt", "updates.mrt", "asks.txt")]


def make_table(counts, folder):
    dump = os.path.join(folder, "table.mrt")
    make("make_table.py", *counts, SEED, dump)
    return dump


def start(words, out):
    """The id of a process that runs these words, with out and err to files."""
    to_files = [(os.POSIX_SPAWN_OPEN, fd, name, os.O_WRONLY | os.O_CREAT | os.O_TRUNC, 0o600)
                for fd, name in ((1, out), (2, out + ".err"))]
    return os.posix_spawn(words[0], words, os.environ, file_actions=to_files)


def timed(words, out):
    """(status, seconds) of a run."""
    begin = time.perf_counter()
    _, status, _ = os.wait4(start(words, out), 0)
    return os.waitstatus_to_exitcode(status), time.perf_counter() - begin


def own_size(folder):
    """What the kernel counts to any program that this one starts: its own size, in KiB."""
    return os.wait4(start([shutil.which("true")], os.path.join(folder, "nothing")), 0)[2].ru_maxrss


def peak_now(pid):
    """The peak so far, in KiB, of a process that runs; 0 where it can't be seen."""
    try:
        with open("/proc/%d/status" % pid) as f:
            return next((int(line.split()[1]) for line in f if line.startswith("VmHWM:")), 0)
    except OSError:
        return 0


def peak(words, out):
    """The peak of a run in KiB: as counted at its end, or where that's our own size, as last seen."""
    own, seen, pid, ended = own_size(os.path.dirname(out)), 0, start(words, out), 0
    while not ended:
        seen = max(seen, peak_now(pid))
        ended, _, usage = os.wait4(pid, os.WNOHANG)
    return usage.ru_maxrss if usage.ru_maxrss > own else seen


def count_rows(out):
    """How many rows of each kind the file holds."""
    with open(out, "rb") as f:
        return Counter(line.split(b",", 1)[0].decode("latin-1").rstrip("\n") for line in f)


def measured(words, out, octets, due):
    """The columns of one run, and how many rows of each kind it printed; these are due at least."""
    best = None
    for _ in range(RUNS):
        status, seconds = timed(words, out)
        if status != 0:
            sys.exit("%s ended with %d" % (" ".join(words[1:]), status))
        rows = count_rows(out)
        if any(rows[kind] != count for kind, count in due.items()):
            sys.exit("%s: %s due, printed %s" % (" ".join(words[1:]), due, dict(rows)))
        best = seconds if best is None else min(best, seconds)
    return (octets, best, octets / best / 1e6, peak(words, out) / MIB), rows


def peers(program, folder, out):
    """All peers' routes with updates, at several sizes."""
    print("%8s %8s %11s %9s %9s %9s %9s" % ("prefixes", "updates", "octets", "seconds", "MB/s", "peak MiB", "rows"))

    def row(updates, words, octets):
        columns, rows = measured(words, out, octets, {"route": n})
        print("%8d %8d %11d %9.2f %9.1f %9.0f %9d" % (n, updates, *columns, sum(rows.values())), flush=True)

    for n in SIZES:
        dump, updates, asks = make_inputs(n, folder)
        octets = os.path.getsize(dump)
        row(0, [program, "run", dump, "--ask", asks, *ROOM], octets)
        words = [program, "run", dump, "--updates", updates, "--ask", asks, *ROOM]
        row(n, words, octets + os.path.getsize(updates))


def tables(program, folder, out):
    """Whole tables of one peer, at several sizes, and the checks of what is printed of them."""
    print("%8s %8s %11s %9s %9s %9s %9s %9s" % ("IPv4", "IPv6", "octets", "seconds", "MB/s", "peak MiB", "least", "cert"))
    for counts in TABLES:
        dump, n = make_table(counts, folder), sum(counts)
        columns, rows = measured([program, "run", dump, *ROOM], out, os.path.getsize(dump), {"route": n})
        print("%8d %8d %11d %9.2f %9.1f %9.0f %9d %9d" % (*counts, *columns, rows["least"], rows["cert"]), flush=True)
        columns, _ = measured([program, "check", out], out + ".check", os.path.getsize(out), {"yes": 1})
        print("%17s %11d %9.2f %9.1f %9.0f" % ("check", *columns), flush=True)


def main():
    ap = argparse.ArgumentParser(description="Measures a program on inputs of several sizes.")
    ap.add_argument("program", metavar="PROGRAM")
    ap.add_argument("--table", action="store_true", help="on whole tables of one peer")
    args = ap.parse_args()
    program = shutil.which(os.path.abspath(args.program)) or shutil.which(args.program)
    if program is None:
        sys.exit("no such program: " + args.program)
    with tempfile.TemporaryDirectory() as folder:
        (tables if args.table else peers)(program, folder, os.path.join(folder, "out"))
    print("cores: %s" % os.cpu_count())


if __name__ == "__main__":
    main()
