#!/usr/bin/env python3
"""Counts the growths of runs in steps: which steps ask for memory.

Usage:  count_growths.py PROGRAM

Of the steps of a script `prepare` alone may ask for memory, beside the list of steps and the text of rows, which grow by doubling. So a run
asks for a block as often as the same run in which each other step is one that does nothing. Needs a C compiler (cc) and the GNU C library; bench/refuse.c
counts. The status is 1 if a run asks more often, or can't be made."""

import os
import subprocess
import sys
import tempfile

sys.path.append(os.path.join(os.path.dirname(os.path.dirname(os.path.abspath(__file__))), "tools"))
import common

HERE = os.path.dirname(os.path.abspath(__file__))
EXAMPLES = os.path.join(HERE, "..", "examples")
SMALL = ["--direct", "0", "--nodes", "1", "--leaves", "3"]
LARGER = ["--direct", "0", "--nodes", "2", "--leaves", "4"]

# What is counted, the arenas, a script, and the same with steps that do nothing.
PAIRS = [
    ("a lookup", SMALL, ["open 10.1.2.3", "go 0", "go 0", "go 0"], ["store", "store", "store", "store"]),
    ("a store of the selector", SMALL, ["prepare", "store"], ["prepare", "prepare"]),
    ("a store of a word", LARGER, ["prepare", "store"], ["prepare", "prepare"]),
    ("an end", SMALL, ["prepare", "store", "end"], ["prepare", "store", "store"]),
    ("an end of words", LARGER, ["prepare", "store", "end"], ["prepare", "store", "store"]),
    ("a cancel", SMALL, ["prepare", "cancel"], ["prepare", "prepare"]),
    ("a cancel of words", LARGER, ["prepare", "cancel"], ["prepare", "prepare"]),
    ("a lookup beside a store", LARGER, ["open 10.1.2.3", "go 0", "prepare", "store", "go 0"], ["store", "store", "prepare", "store", "store"]),
]


def growths(program, library, room, sizes, script):
    """How often a run in steps asks for a block of memory."""
    path = os.path.join(room, "script")
    with open(path, "w", encoding="ascii") as file:
        file.write("".join(step + "\n" for step in script))
    inputs = [os.path.join(EXAMPLES, name) for name in ("dump.mrt", "flap.mrt")]
    reader, writer = os.pipe()
    env = dict(os.environ, LD_PRELOAD=library, COUNTED=str(writer))
    done = subprocess.run(
        [program, "steps", *inputs, path, *sizes], env=env, pass_fds=[writer], capture_output=True, timeout=60
    )
    os.close(writer)
    count = os.read(reader, 32)
    os.close(reader)
    if done.returncode != 0 or not count:
        raise common.Refused("fib steps ended with status %d" % done.returncode)
    return int(count)


def main(words):
    program = os.path.abspath(words[0])
    with tempfile.TemporaryDirectory() as room:
        library = os.path.join(room, "refuse.so")
        subprocess.run(
            ["cc", "-O2", "-shared", "-fPIC", os.path.join(HERE, "refuse.c"), "-o", library],
            check=True,
        )
        for name, sizes, script, without in PAIRS:
            counts = [growths(program, library, room, sizes, each) for each in (script, without)]
            if counts[0] != counts[1]:
                raise common.Refused("%s: %d growths, and %d without" % (name, counts[0], counts[1]))
            print("%s: no growth of its own" % name)


if __name__ == "__main__":
    common.run(main, __doc__, least=1, most=1)
