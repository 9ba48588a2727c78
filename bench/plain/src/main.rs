//! A plain program that prints what `fib run` prints, by hand and without proofs: the yardstick for its speed.
//!
//!     plain run DUMP [--updates F] [--ask F] [--every K] [--direct S] [--nodes N] [--leaves N]
//!
//! An input that can't be read ends it with a line to standard error and status 1.

mod addr;
mod bgp;
mod candidates;
mod cert;
mod hash;
mod hops;
mod kept;
mod mrt;
mod ortc;
mod poptrie;
mod router;
mod rows;
mod text;
mod trie;
mod wire;

use addr::Addr;
use mrt::Counts;
use poptrie::Need;
use router::Router;
use rows::{Rows, Writer};
use std::io::{self, Write};
use std::process::ExitCode;

/// The words of a run.
struct Words {
    dump: String,
    updates: Option<String>,
    ask: Option<String>,
    every: u64,
    /// How many bits choose a direct word.
    direct: u8,
    /// The orders of the arenas of nodes and of leaves: they have two to this many places.
    nodes: u32,
    leaves: u32,
}

impl Words {
    fn read(mut words: impl Iterator<Item = String>) -> Option<Words> {
        if words.next()? != "run" {
            return None;
        }
        let mut read = Words {
            dump: String::new(),
            updates: None,
            ask: None,
            every: 0,
            direct: 16,
            nodes: 16,
            leaves: 18,
        };
        while let Some(word) = words.next() {
            if !word.starts_with('-') && read.dump.is_empty() {
                read.dump = word;
                continue;
            }
            let (name, value) = match word.split_once('=') {
                Some((name, value)) => (name.to_string(), value.to_string()),
                None => (word, words.next()?),
            };
            match name.as_str() {
                "--updates" => read.updates = Some(value),
                "--ask" => read.ask = Some(value),
                "--every" => read.every = value.parse().ok()?,
                "--direct" => read.direct = value.parse().ok().filter(|&bits| bits <= 18)?,
                "--nodes" => read.nodes = value.parse().ok().filter(|&order| order <= 24)?,
                "--leaves" => read.leaves = value.parse().ok().filter(|&order| order <= 26)?,
                _ => return None,
            }
        }
        Some(read)
    }
}

/// The addresses that are asked for: one on each line that isn't empty.
fn asks(name: &str) -> Result<Vec<Addr>, String> {
    let text = std::fs::read_to_string(name).map_err(|error| format!("{name}: {error}"))?;
    let lines = text
        .lines()
        .enumerate()
        .filter(|(_, line)| !line.is_empty());
    lines
        .map(|(number, line)| {
            Addr::parse(line).ok_or_else(|| format!("{name}: line {}: no address", number + 1))
        })
        .collect()
}

/// Reads all inputs, and only then prints.
fn run(words: &Words) -> Result<(), String> {
    let asks = words.ask.as_deref().map_or(Ok(Vec::new()), asks)?;
    let mut counts = Counts::default();
    let mut router = Router::new(words.every);
    mrt::read(&words.dump, &mut counts, &mut router)?;
    router.end_load();
    if let Some(updates) = &words.updates {
        mrt::read(updates, &mut counts, &mut router)?;
    }
    let mut need = Need::default();
    for trie in &router.tries {
        let own = trie.need(words.direct);
        if own.nodes > 1 << words.nodes || own.leaves > 1 << words.leaves {
            return Err("a Poptrie has no room".to_string());
        }
        need += own;
    }
    let rows = &mut Rows::new(io::stdout().lock());
    print(words, &asks, &counts, &router, need, rows).map_err(|error| error.to_string())
}

fn print<W: Write>(
    words: &Words,
    asks: &[Addr],
    counts: &Counts,
    router: &Router,
    need: Need,
    rows: &mut Rows<W>,
) -> io::Result<()> {
    let (tries, hops) = (&router.tries, &router.hops);
    let (mut routes, mut entries) = (0, 0);
    for trie in tries {
        routes += Writer { trie, hops, rows }.route_rows()?;
    }
    rows.whole(&router.changes.text)?;
    for &addr in asks {
        answer(addr, words.direct, router, rows)?;
    }
    for trie in tries {
        entries += Writer { trie, hops, rows }.table_rows()?;
    }
    for trie in tries {
        Writer { trie, hops, rows }.least_rows()?;
    }
    for trie in tries {
        Writer { trie, hops, rows }.cert_rows()?;
    }
    rows.count(b"report,records,", counts.records)?;
    rows.count(b"report,skipped,", counts.skipped)?;
    rows.count(b"report,events,", router.events)?;
    rows.count(b"report,routes,", routes)?;
    rows.count(b"report,entries,", entries)?;
    rows.count(b"report,nodes,", need.nodes)?;
    rows.count(b"report,leaves,", need.leaves)?;
    rows.count(b"report,treated,", counts.treated)?;
    rows.flush()
}

/// Adds the rows of an address that is asked for.
fn answer<W: Write>(addr: Addr, direct: u8, router: &Router, rows: &mut Rows<W>) -> io::Result<()> {
    let trie = &router.tries[addr.family().index()];
    let row = rows.row();
    row.extend_from_slice(b"answer,");
    text::addr(row, addr);
    row.push(b',');
    row.extend_from_slice(router.hops.text(trie.answer(addr), b"none"));
    rows.end()?;
    let row = rows.row();
    row.extend_from_slice(b"visits,");
    text::addr(row, addr);
    row.push(b',');
    rows.count(b"", trie.visits(addr, direct))
}

fn main() -> ExitCode {
    let Some(words) = Words::read(std::env::args().skip(1)) else {
        eprintln!("usage: plain run DUMP [--updates F] [--ask F] [--every K] [--direct S] [--nodes N] [--leaves N]");
        return ExitCode::FAILURE;
    };
    match run(&words) {
        Ok(()) => ExitCode::SUCCESS,
        Err(why) => {
            eprintln!("plain: {why}");
            ExitCode::FAILURE
        }
    }
}
