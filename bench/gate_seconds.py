#!/usr/bin/env python3
"""Counts the processor seconds of the gate, crate by crate.

Usage:  gate_seconds.py

Runs `rt ci` in the folder that it is run in, looks twice a second at the provers that
it starts, and prints Markdown at the end: the processor seconds of each crate's proof, of its tests, and of its wrong bodies with
the proof that they begin with.  What a prover takes after the last look isn't counted, half a second at most.  Other runs of `rt`
on the machine aren't counted, but make these slower.  The status is the gate's.
"""

import collections
import os
import subprocess
import sys
import time

TICKS = os.sysconf("SC_CLK_TCK")
KINDS = ("proof", "tests", "edits")


def read(path):
    try:
        with open(path, "rb") as file:
            return file.read()
    except OSError:
        return b""


def is_prover(words):
    return len(words) > 2 and os.path.basename(words[0]) == "rattle" and words[1] in ("build", "check", "lib")


def is_below(pid, top, above):
    """Whether the process is the top one or one that it, or what it started, has started."""
    while pid in above and pid != top:
        pid = above[pid]
    return pid == top


def provers(top):
    """Each prover below this process that isn't another's: when it began, its crate, its kind, and the seconds that it and its ended parts took."""
    found, above = {}, {}
    for pid in filter(str.isdigit, os.listdir("/proc")):
        words = read(f"/proc/{pid}/cmdline").decode(errors="replace").split("\0")
        stat = read(f"/proc/{pid}/stat").rpartition(b")")[2].split()
        if stat:
            above[pid] = stat[1].decode()
            if is_prover(words):
                found[pid] = words, stat
    for pid, (words, stat) in found.items():
        if above[pid] in found or "--crate-name" not in words or not is_below(pid, top, above):
            continue
        try:
            folder = os.readlink(f"/proc/{pid}/cwd")
        except OSError:
            continue
        kind = "edits" if "/rt-edit-" in folder else "tests" if "--test" in words else "proof"
        seconds = sum(int(part) for part in stat[11:15]) / TICKS
        yield (pid, stat[19]), words[words.index("--crate-name") + 1], kind, seconds


def count(process):
    """The seconds of each crate and kind, once the process has ended."""
    last = {}
    while process.poll() is None:
        for key, crate, kind, seconds in provers(str(process.pid)):
            last[key] = crate, kind, seconds
        time.sleep(0.5)
    sums = collections.defaultdict(float)
    for crate, kind, seconds in last.values():
        sums[crate, kind] += seconds
    return sums


def edits_of(crate):
    folder = os.path.join("crates", crate, "must-fail")
    return len(os.listdir(folder)) if os.path.isdir(folder) else 0


def main(words):
    if words:
        sys.exit(__doc__)
    process = subprocess.Popen(["rt", "ci"])
    sums = count(process)
    crates = sorted({crate for crate, _ in sums}, key=lambda crate: -sum(sums[crate, kind] for kind in KINDS))
    print("| Crate | Proof | Tests | Wrong bodies | Their seconds | All |")
    print("|---|---|---|---|---|---|")
    for crate in crates:
        proof, tests, edits = (sums[crate, kind] for kind in KINDS)
        print(f"| `{crate}` | {proof:,.0f} | {tests:,.0f} | {edits_of(crate)} | {edits:,.0f} | {proof + tests + edits:,.0f} |")
    totals = [sum(sums[crate, kind] for crate in crates) for kind in KINDS]
    print(f"| all | {totals[0]:,.0f} | {totals[1]:,.0f} | {sum(map(edits_of, crates))} | {totals[2]:,.0f} | {sum(totals):,.0f} |")
    return process.returncode


if __name__ == "__main__":
    sys.exit(main(sys.argv[1:]))
