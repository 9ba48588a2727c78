#!/usr/bin/env python3
"""Measures a program beside the plain one of bench/plain.

Usage:  measure_plain.py PROGRAM PLAIN [--ipv4 N] [--ipv6 N] [--peers N] [--updates N] [--every K] [--runs N]

Makes a whole table as make_whole.py does, of several peers, with UPDATE messages to it as make_large.py's. Both programs
run on the dump alone, with the updates, and with a snapshot after each K-th event, in turns and with their output to
nothing; they must end with 0. Prints the least processor seconds, of user and system, and the peak of memory of each, and
how many times the plain one's they are; and whether both texts are the same, by a digest. No time and no memory is judged.
"""

import argparse
import hashlib
import os
import random
import shutil
import subprocess
import sys
import tempfile

import make_large
import make_whole
from measure import MIB, ROOM, peak, start

SEED = 1


def make(args, dump, updates):
    """Makes the dump and the updates to it."""
    routes = make_whole.Table(((4, args.ipv4), (6, args.ipv6)), SEED).routes
    with open(dump, "wb") as out:
        out.writelines(make_whole.dump(routes, args.peers))
    rng = random.Random(SEED)
    lists = [part for family in (4, 6) if (part := [route for route in routes if route[0] == family])]
    ranges = lists, [len(part) for part in lists]
    with open(updates, "wb") as out:
        out.writelines(make_large.update(ranges, args.peers, rng) for _ in range(args.updates))


def made(args, dump, updates, make=make):
    """The same in a process of its own, so that this one stays small: its size counts as the programs' too."""
    pid = os.fork()
    if pid == 0:
        try:
            make(args, dump, updates)
            os._exit(0)
        finally:
            os._exit(1)
    if os.waitstatus_to_exitcode(os.waitpid(pid, 0)[1]) != 0:
        sys.exit("the inputs couldn't be made")


def used(words, out):
    """The processor seconds of a run."""
    _, status, usage = os.wait4(start(words, out), 0)
    if os.waitstatus_to_exitcode(status) != 0:
        sys.exit("%s ended with %d" % (" ".join(words), os.waitstatus_to_exitcode(status)))
    return usage.ru_utime + usage.ru_stime


def digest(words):
    """What the text of a run comes to."""
    with subprocess.Popen(words, stdout=subprocess.PIPE) as run:
        text = hashlib.sha256()
        for piece in iter(lambda: run.stdout.read(1 << 20), b""):
            text.update(piece)
    return text.hexdigest(), run.returncode


def found(program):
    return shutil.which(os.path.abspath(program)) or shutil.which(program) or sys.exit("no such program: " + program)


def main():
    parser = argparse.ArgumentParser(description=__doc__.splitlines()[0])
    parser.add_argument("program", metavar="PROGRAM")
    parser.add_argument("plain", metavar="PLAIN")
    for name, count in (("ipv4", 1_000_000), ("ipv6", 220_000), ("peers", 4), ("updates", 200_000), ("every", 1000), ("runs", 3)):
        parser.add_argument("--" + name, type=int, default=count)
    args = parser.parse_args()
    programs = [found(args.program), found(args.plain)]
    with tempfile.TemporaryDirectory() as folder:
        dump, updates = os.path.join(folder, "dump.mrt"), os.path.join(folder, "updates.mrt")
        made(args, dump, updates)
        out = os.path.join(folder, "out")
        os.symlink(os.devnull, out)
        with_updates = ["--updates", updates]
        rows = (("dump alone", []), ("with updates", with_updates),
                ("--every %d" % args.every, [*with_updates, "--every", str(args.every)]))
        print("%-14s %25s %25s %15s %5s" % ("", "program", "plain", "times", "text"))
        print("%-14s %12s %12s %12s %12s %8s %6s" % ("", "seconds", "MiB", "seconds", "MiB", "seconds", "MiB"))
        for name, options in rows:
            runs = [[program, "run", dump, *options, *ROOM] for program in programs]
            same = len({digest(words) for words in runs}) == 1
            s, t = map(min, zip(*[[used(words, out) for words in runs] for _ in range(args.runs)]))
            m, n = [peak(words, out) for words in runs]
            print("%-14s %12.2f %12.1f %12.2f %12.1f %8.1f %6.1f %5s" % (
                name, s, m / MIB, t, n / MIB, s / t, m / n, "same" if same else "DIFFERS"), flush=True)
    print("cores: %s, load: %.1f" % (os.cpu_count(), os.getloadavg()[0]))


if __name__ == "__main__":
    main()
