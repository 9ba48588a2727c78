#!/usr/bin/env python3
"""Measures the candidates and the choice among them in number.

Usage:  measure_choice.py

Copies the crates into a folder of its own, puts a program over `route_choice` beside them, proves and builds it, runs it
twice, and measures the second run: candidates of 200,000 prefixes from 8 peers loaded, peer by peer with the prefixes in no
order, and then prefix by prefix in their order; the loss of one of the peers; and one prefix with 60,000 candidates that
come, change twice and go. It prints the times and the peak of memory, and ends with the program's status. No time and no
memory is judged.
"""

import os
import shutil
import subprocess
import sys
import tempfile

ROOT = os.path.dirname(os.path.dirname(os.path.abspath(__file__)))
sys.path.append(os.path.join(ROOT, "tools"))
import common

PROGRAM = """\
//! Candidates in number, for time.
#![tactic(auto)]

use fib_prefix::{Addr, Elem, Event, Peer, Prefix, Via};
use route_choice::Candidates;
use std::alloc::AllocError;
use std::io;
use std::time::Instant;

fn scattered(n: u32) -> Prefix {
    Prefix::new(&Addr::v4(n.wrapping_mul(2_654_435_761)), 24)
}

fn ordered(n: u32) -> Prefix {
    Prefix::new(&Addr::v4(n.wrapping_mul(256)), 24)
}

fn peer(n: u32) -> Peer {
    Peer {
        addr: Addr::v4(n),
        asn: n,
    }
}

/// The way of a peer's routes without a path identifier.
fn via(n: u32) -> Via {
    Via {
        peer: peer(n),
        id: 0,
    }
}

fn put(held: &mut Candidates, q: u32, prefix: Prefix, path: u32) -> Result<(), AllocError> {
    held.apply(&Elem::Put(via(q), prefix, path, Addr::v4(q)))?;
    Ok(())
}

fn load(held: &mut Candidates, q: u32, prefix: Prefix, path: u32) -> Result<(), AllocError> {
    held.load(&Elem::Put(via(q), prefix, path, Addr::v4(q)))
}

fn fill(held: &mut Candidates) -> Result<(), AllocError> {
    for q in 0..8u32 {
        for n in 0..200_000u32 {
            load(held, q, scattered(n), n.wrapping_mul(q) % 7)?;
        }
    }
    Ok(())
}

fn fill_in_order(held: &mut Candidates) -> Result<(), AllocError> {
    for n in 0..200_000u32 {
        for q in 0..8u32 {
            load(held, q, ordered(n), n.wrapping_mul(q) % 7)?;
        }
    }
    Ok(())
}

fn lose(held: &mut Candidates, q: u32) -> Result<usize, AllocError> {
    let cuts = held.elementary(&Event::Down(peer(q)))?;
    for cut in &cuts {
        held.apply(cut)?;
    }
    Ok(cuts.len())
}

fn crowd(held: &mut Candidates) -> Result<(), AllocError> {
    for factor in [2_654_435_761u32, 40_503, 69_069] {
        for q in 0..60_000u32 {
            put(held, q, ordered(0), q.wrapping_mul(factor) % 1_000_003)?;
        }
    }
    for q in 0..60_000u32 {
        held.apply(&Elem::Cut(via(q), ordered(0)))?;
    }
    Ok(())
}

fn main(rt: HostRuntime) -> io::Result<()> {
    {
        let mut held = Candidates::new(rt.alloc());
        let start = Instant::now(&rt)?;
        fill(&mut held)?;
        println!(rt; "{} ms: 1,600,000 loaded, peer by peer", start.elapsed(&rt)?.as_millis())?;
        let start = Instant::now(&rt)?;
        let routes = held.routes()?.len();
        println!(rt; "{} ms: {routes} routes listed", start.elapsed(&rt)?.as_millis())?;
        let start = Instant::now(&rt)?;
        let cuts = lose(&mut held, 3)?;
        println!(rt; "{} ms: {cuts} cuts of a lost session", start.elapsed(&rt)?.as_millis())?;
    }
    {
        let mut held = Candidates::new(rt.alloc());
        let start = Instant::now(&rt)?;
        fill_in_order(&mut held)?;
        println!(rt; "{} ms: 1,600,000 loaded, prefix by prefix", start.elapsed(&rt)?.as_millis())?;
    }
    let mut held = Candidates::new(rt.alloc());
    let start = Instant::now(&rt)?;
    crowd(&mut held)?;
    println!(rt; "{} ms: 240,000 events of one prefix", start.elapsed(&rt)?.as_millis())?;
    Ok(())
}
"""


def main(_):
    if not shutil.which("rt"):
        raise common.Refused("the toolchain isn't in the path")
    with tempfile.TemporaryDirectory() as top:
        shutil.copytree(os.path.join(ROOT, "crates"), os.path.join(top, "crates"),
                        ignore=shutil.ignore_patterns("out"))
        shutil.copy(os.path.join(ROOT, "HANDLES"), top)
        with open(os.path.join(ROOT, "crates.txt")) as lines:
            listed = lines.read()
        with open(os.path.join(top, "crates.txt"), "w") as lines:
            lines.write(listed + "bench_choice: fib_prefix route_choice\n")
        crate = os.path.join(top, "crates", "bench_choice")
        for folder in ("src", "specs", "proofs"):
            os.makedirs(os.path.join(crate, folder))
        for folder in ("specs", "proofs"):
            open(os.path.join(crate, folder, "Lib.antt"), "w").close()
        with open(os.path.join(crate, "src", "main.rt"), "w") as source:
            source.write(PROGRAM)
        subprocess.run(["rt", "run"], cwd=crate, check=True, stdout=subprocess.DEVNULL)
        program = subprocess.Popen([os.path.join(crate, "out", "bench_choice")])
        _, status, used = os.wait4(program.pid, 0)
        status = os.waitstatus_to_exitcode(status)
        print(f"status {status}, {used.ru_utime:.1f} s of processor time, {used.ru_maxrss // 1024} MiB at the peak")
        return status


if __name__ == "__main__":
    common.run(main, __doc__, most=0)
