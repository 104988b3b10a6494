//! verdict: traces by chance, and the search of `explain` in plain Rust, which is timed beside it (bench/verdict.py).
//!
//!     verdict large SEED                     writes the six traces of each row of the table of large ones
//!     verdict hot KIND WAY OPEN FIRST LAST   writes a trace of 2,000 operations of one granule, so many always open, for each seed
//!     verdict search                         reads traces and tells what the search finds of each, with the nanoseconds it took

mod breaking;
mod effect;
mod form;
mod kinds;
mod search;
mod simulation;
mod trace;

use crate::breaking::Way;
use crate::form::{read_traces, write_traces};
use crate::kinds::Kinds;
use crate::search::{Verdict, explain};
use crate::simulation::{Load, trace};
use crate::trace::Trace;
use plain::random::Random;
use std::io::{self, BufReader, BufWriter, Write};
use std::time::Instant;

const BUDGET: u64 = 1_000_000;
const HOT_OPERATIONS: usize = 2000;

/// How many granules a row of large traces has, and one in how many replies is not seen.
const ROWS: [(u64, u64); 4] = [(1, u64::MAX), (4, u64::MAX), (512, u64::MAX), (512, 20)];

fn large(seed: u64) -> Vec<Trace> {
    let mut random = Random::new(seed);
    let mut traces = Vec::new();
    for kinds in [Kinds::Whole, Kinds::Every] {
        for (granules, unseen) in ROWS {
            for way in [Way::Intact, Way::LostUpdate, Way::TurnedBits].repeat(2) {
                let load = Load {
                    requesters: 8,
                    operations: 500,
                    lengths: 20,
                    unseen,
                };
                traces.push(trace(&mut random, kinds, granules, way, load));
            }
        }
    }
    traces
}

fn hot(kinds: Kinds, way: Way, open: u8, seed: u64) -> Trace {
    let load = Load {
        requesters: open,
        operations: HOT_OPERATIONS / usize::from(open.max(1)),
        lengths: 2000,
        unseen: u64::MAX,
    };
    let mut random = Random::new(seed * 1000 + u64::from(open));
    trace(&mut random, kinds, 1, way, load)
}

/// Tells of each trace the verdict, how many nanoseconds it took, and the order that explains it or the granule that none does.
fn tell(to: &mut impl Write, traces: &[Trace]) -> io::Result<()> {
    for trace in traces {
        let start = Instant::now();
        let verdict = explain(trace, BUDGET);
        let taken = start.elapsed().as_nanos();
        match verdict {
            Verdict::Explained(order) => {
                write!(to, "explained {taken}")?;
                order.iter().try_for_each(|op| write!(to, " {op}"))?;
                writeln!(to)?;
            }
            Verdict::Unexplained(granule) => writeln!(to, "unexplained {taken} {granule}")?,
            Verdict::Undecided => writeln!(to, "undecided {taken}")?,
        }
    }
    to.flush()
}

/// Does what the words say, where they say something.
fn execute(words: &[&str], to: &mut impl Write) -> Option<io::Result<()>> {
    match words {
        ["large", seed] => Some(write_traces(to, &large(seed.parse().ok()?))),
        ["hot", kind, way, open, first, last] => {
            let (kinds, way) = (Kinds::named(kind)?, Way::named(way)?);
            let open = open.parse().ok()?;
            let seeds = first.parse::<u64>().ok()?..=last.parse().ok()?;
            let traces: Vec<Trace> = seeds.map(|seed| hot(kinds, way, open, seed)).collect();
            Some(write_traces(to, &traces))
        }
        ["search"] => Some(
            read_traces(&mut BufReader::new(io::stdin().lock()))
                .and_then(|traces| tell(to, &traces)),
        ),
        _ => None,
    }
}

fn main() -> io::Result<()> {
    let words: Vec<String> = std::env::args().skip(1).collect();
    let words: Vec<&str> = words.iter().map(String::as_str).collect();
    let mut to = BufWriter::new(io::stdout().lock());
    execute(&words, &mut to)
        .unwrap_or_else(|| Err(io::Error::other("no such words: see bench/verdict.py")))
}
