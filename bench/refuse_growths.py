#!/usr/bin/env python3
"""Refuses each growth of some runs in turn.

Usage:  refuse_growths.py PROGRAM

Every run ends with status 9 and writes nothing to standard output, or it ends as it does where memory suffices. Needs a C compiler
(cc) and the GNU C library; bench/refuse.c is what refuses. The status is 1 where a run ends otherwise, or can't be made."""

import os
import subprocess
import sys
import tempfile

sys.path.append(os.path.join(os.path.dirname(os.path.dirname(os.path.abspath(__file__))), "tools"))
import common

HERE = os.path.dirname(os.path.abspath(__file__))
EXAMPLES = os.path.join(HERE, "..", "examples")
NO_MEMORY = 9

PEERS = "00000000000d000100000015000000000000000102c0000201c00002010000fbf4"
ROUTE = (
    "00000000000d0002000000240000000008 0a 0001 0000 00000000 0014"
    "40010100 400206 0201 0000fbf4 400304 c0000201"
)


def update(hop):
    """The peer announces 10.0.0.0/8 by 192.0.2.HOP (RFC 4271, section 4.3)."""
    attributes = "40010100 400206 0201 0000fbf4 400304 c00002%02x" % hop
    message = "ff" * 16 + "002d 02 0000 0014" + attributes + "08 0a"
    return "00000000 0010 0004 00000041 0000fbf4 0000fbff 0000 0001 c0000201 c00002fe" + message


def octets(*records):
    return bytes.fromhex("".join(records).replace(" ", ""))


def run(program, words, refused, library):
    """Status, output, and whether the growth of this number was reached; 0 refuses none."""
    reader, writer = os.pipe()
    env = dict(os.environ, LD_PRELOAD=library, REFUSE=str(refused), REFUSED=str(writer))
    done = subprocess.run(
        [program] + words, env=env, pass_fds=[writer], capture_output=True, timeout=60
    )
    os.close(writer)
    reached = os.read(reader, 1) == b"r"
    os.close(reader)
    return done.returncode, done.stdout, reached


def refuse_each(program, words, library):
    """The status of a run, how many growths it has, and how many of them end it for want of memory; each was refused in turn."""
    status, out, _ = run(program, words, 0, library)
    told = 0
    for number in range(1, 1 << 20):
        ended, printed, reached = run(program, words, number, library)
        if not reached:
            return status, number - 1, told
        if ended == NO_MEMORY and printed == b"":
            told += 1
        elif (ended, printed) != (status, out):
            raise common.Refused("growth %d of fib %s: status %d" % (number, " ".join(words), ended))
    raise common.Refused("there is no end")


def main(words):
    program = os.path.abspath(words[0])
    with tempfile.TemporaryDirectory() as room:
        library = os.path.join(room, "refuse.so")
        subprocess.run(
            ["cc", "-O2", "-shared", "-fPIC", os.path.join(HERE, "refuse.c"), "-o", library],
            check=True,
        )

        def held(name, content):
            path = os.path.join(room, name)
            with open(path, "wb") as file:
                file.write(content)
            return path

        def example(name):
            return os.path.join(EXAMPLES, name)

        dump = held("dump", octets(PEERS, ROUTE))
        updates = held("updates", octets(*(update(2 - i % 2) for i in range(100))))
        printed = held("printed", run(program, ["run", dump], 0, library)[1])
        small = ["--direct", "0", "--nodes", "1", "--leaves", "3"]
        runs = [
            ["run", example("dump.mrt"), "--ask", example("asks.txt")],
            ["run", example("two_peers.mrt"), "--updates", example("updates.mrt"), "--every", "1"],
            ["run", example("addpath.mrt"), "--updates", example("addpath_updates.mrt")],
            ["run", dump, "--updates", updates, "--every", "1"] + small,
            ["steps", dump, updates, example("script.txt")] + small,
            ["check", printed],
            ["make", "20", "--seed", "7"],
        ]
        for words in runs:
            status, growths, told = refuse_each(program, words, library)
            names = " ".join(os.path.basename(word) for word in words)
            print("fib %s: status %d; of %d growths %d end it with 9" % (names, status, growths, told))


if __name__ == "__main__":
    common.run(main, __doc__, least=1, most=1)
