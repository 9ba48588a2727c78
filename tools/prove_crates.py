#!/usr/bin/env python3
"""Proves and builds a program and the crates that it stands on, side by side.

Usage:  prove_crates.py CRATE.. -- WORD..

The last CRATE is the program, and the others are all that it stands on.  `rt all check` in its folder proves these, each once those below
it are: as many at once as processors, and one for each 2.5 GiB of free memory, or as FIB_AT_ONCE says.  Then `rt run` proves and builds
the program, and runs it once by the words.

Standard error tells how many are proved of how many, and how long the rest took last time, where that is known: out/seconds has for
each crate how long after the one before it it was proved.  out/logs/all has what rt said of the crates, and out/logs/PROGRAM what it
said of the program.  What is proved stays so until a source changes: a call that was broken off is gone on with by the next.

The status is 0 if all is proved, and 1 if a crate isn't: then the others are ended, and the end of what rt said of it is shown.  SIGINT,
SIGTERM and SIGHUP end all that was started, and the status is 128 and the signal's number; so does the end of the process that called.
"""

import os
import pathlib
import re
import signal
import subprocess
import sys
import time

from common import Refused, run

ROOT = pathlib.Path(__file__).resolve().parent.parent
OUT = ROOT / "out"
SECONDS = OUT / "seconds"
MEMORY = 5 << 29                # of a crate's proof, in octets: most take less
SHOWN = 12                      # lines that are shown of a crate that isn't proved
CALLER = os.getppid()


# ---- how many at once

def number_in(file, pattern):
    try:
        found = re.search(pattern, pathlib.Path(file).read_text())
        return int(found[1]) if found else None
    except OSError:
        return None


def free_memory():
    """In octets, by the limit of the control group too."""
    free = 1024 * (number_in("/proc/meminfo", r"MemAvailable:\s+(\d+)") or 0)
    limit, held = number_in("/sys/fs/cgroup/memory.max", r"(\d+)"), number_in("/sys/fs/cgroup/memory.stat", r"anon (\d+)")
    return free if None in (limit, held) else min(free, limit - held)


def processors():
    """Those that this process may use, by the quota of the control group too."""
    quota = number_in("/sys/fs/cgroup/cpu.max", r"^(\d+)")
    period = number_in("/sys/fs/cgroup/cpu.max", r" (\d+)")
    found = len(os.sched_getaffinity(0))
    return min(found, max(quota // period, 1)) if quota and period else found


def at_once():
    told = os.environ.get("FIB_AT_ONCE", "")
    if told:
        if not re.fullmatch("[1-9][0-9]{0,3}", told):
            raise Refused("FIB_AT_ONCE is a number from 1 on")
        return int(told)
    return max(1, min(processors(), free_memory() // MEMORY))


# ---- what rt says

def said_of_crates(said):
    """What `rt all` said of each crate that it is done with, nothing where it found it proved, and its summary."""
    parts = re.split(r"^== (\w+)\n", said, flags=re.MULTILINE)
    crates = dict(zip(parts[1::2], parts[2::2]))
    return crates, crates.pop("summary", "")


def is_proof(said):
    return said == "" or re.search("^logic=proved ", said, re.MULTILINE) is not None


def failed_in(said):
    """The first crate that isn't proved, or isn't built, though rt is done with it, and what rt said of it; or None."""
    crates, summary = said_of_crates(said)
    failed = [name for name in crates if not is_proof(crates[name])] + re.findall(r"^(\w+): failed ", summary, re.MULTILINE)
    return next(((name, crates[name]) for name in failed), None)


# ---- what is told

def time_of(seconds):
    return f"{seconds / 60:.0f} minutes" if seconds >= 90 else f"{seconds:.0f} seconds"


def read_seconds():
    try:
        lines = [line.split() for line in SECONDS.read_text().splitlines()]
        return {name: float(seconds) for name, seconds in lines}
    except (OSError, ValueError):
        return {}


def write_seconds(seconds):
    new = SECONDS.with_suffix(".new")
    new.write_text("".join(f"{name} {took:.1f}\n" for name, took in sorted(seconds.items())))
    new.replace(SECONDS)


class Progress:
    """Which of these crates aren't proved yet, and what standard error is told of it: in one line on a terminal."""

    def __init__(self, names):
        self.count, self.left, self.seconds = len(names), set(names), read_seconds()
        self.last = time.time()
        self.front, self.back = ("\r", "\033[K") if sys.stderr.isatty() else ("", "\n")
        self.tell()

    def take(self, crates):
        """Takes these as proved, each with whether it is so anew: then it took the time since the one before."""
        new = [name for name in crates if name in self.left]
        for name in new:
            now = time.time()
            if crates[name]:
                self.seconds[name] = now - self.last
            self.last = now
            self.left.remove(name)
        if new:
            write_seconds(self.seconds)
            self.tell()

    def tell(self):
        is_known = self.left and self.left.issubset(self.seconds)
        about = f"; what is left took {time_of(sum(self.seconds[it] for it in self.left))} last time" if is_known else ""
        self.write(f"{self.front}fib: proving and building: {self.count - len(self.left)} of {self.count} crates proved{about}{self.back}")

    def end(self):
        """Ends the line on a terminal."""
        if self.front:
            self.write("\n")

    def write(self, text):
        sys.stderr.write(text)
        sys.stderr.flush()


def show_failed(name, said):
    lines = said.splitlines()[-SHOWN:]
    print(f"fib: {name} isn't proved{'; what rt said last:' if lines else ''}", file=sys.stderr)
    for line in lines:
        print(f"    {line}", file=sys.stderr)


# ---- doing it

class Ending:
    """The signal that told the script to end, if one did; its caller's end stands for one."""

    def __init__(self):
        self.number = 0
        for it in (signal.SIGINT, signal.SIGTERM, signal.SIGHUP):
            signal.signal(it, self.take)

    def take(self, number, _):
        self.number = number

    def is_told(self):
        if os.getppid() != CALLER:
            self.number = self.number or signal.SIGTERM
        return self.number != 0


class Call:
    """A call of rt in a crate's folder, which is ended with the block."""

    def __init__(self, log, crate, words):
        self.log = OUT / "logs" / log
        with open(self.log, "wb") as log:
            self.child = subprocess.Popen(["rt", *words], cwd=ROOT / "crates" / crate, stdin=subprocess.DEVNULL, stdout=log, stderr=log)

    def steps(self, ending):
        """What rt said by and by, as whole as when it was written and each time more, until it ends or the script is told to."""
        before, told, is_at_work = None, None, True
        while is_at_work and not ending.is_told():
            time.sleep(0.1)
            is_at_work = self.child.poll() is None
            said = self.log.read_text(errors="replace")
            if said == before != told or not is_at_work:
                told = said
                yield said
            before = said

    def __enter__(self):
        return self

    def __exit__(self, *_):
        self.child.terminate()          # rt ends all that it started
        try:
            self.child.wait(10)
        except subprocess.TimeoutExpired:
            self.child.kill()
            self.child.wait()


def prove_libraries(program, progress, ending):
    """Returns a crate that isn't proved, and what rt said, or None."""
    with Call("all", program, ["all", "check", "--jobs", str(at_once())]) as call:
        for said in call.steps(ending):
            progress.take({name: words != "" for name, words in said_of_crates(said)[0].items() if is_proof(words)})
            failed = failed_in(said)
            if failed or progress.left <= {program}:
                return failed
        return (program, said) if call.child.returncode else None


def prove_program(program, words, progress, ending):
    """The same of the program."""
    with Call(program, program, ["run", "--", *words]) as call:
        for said in call.steps(ending):
            pass
        if call.child.returncode == 0:
            progress.take({program: True})
        return (program, said) if call.child.returncode else None


def main(words):
    if "--" not in words[1:]:
        raise Refused("the crates are missing, or -- behind them")
    at = words.index("--")
    program = words[at - 1]
    (OUT / "logs").mkdir(parents=True, exist_ok=True)
    ending, progress = Ending(), Progress(words[:at])
    try:
        failed = prove_libraries(program, progress, ending)
        if not failed and not ending.is_told():
            failed = prove_program(program, words[at + 1:], progress, ending)
    finally:
        progress.end()
    if ending.number:
        return 128 + ending.number
    if failed:
        show_failed(*failed)
    return 1 if failed else 0


if __name__ == "__main__":
    run(main, __doc__)
