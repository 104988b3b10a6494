//! attempts: times so many AtomicLoad ADD of eight bytes by 1, 2 and 4 threads, on one granule or on own ones, by the bare loop
//! or by the store's call in plain Rust: attempts bare|row
//!
//! A line has the threads, the name of the granules, the nanoseconds, and how many attempts were done.

use plain::access::{Access, decode};
use plain::operation::Reply;
use plain::region::Region;
use plain::request::Request;
use plain::row::{Row, Served};
use std::hint::black_box;
use std::process::ExitCode;
use std::sync::atomic::{AtomicU64, Ordering::SeqCst};
use std::thread;
use std::time::Instant;

/// How many attempts each thread makes, as in the store's program.
const ATTEMPTS: u32 = 1_000_000;
/// How many granules the region has: four lines of eight.
const GRANULES: u16 = 32;
const BASE: u64 = 0x1000;
const MOST_TRIES: u8 = 16;

/// How far apart the threads' granules are: all work on one, each on its own beside the others', or each on its own on a line
/// of its own.
const APART: [(&str, usize); 3] = [("one", 0), ("own", 1), ("lines", 8)];

/// Times each case, on a home of its own: `work` is given the home, the thread's number and its granule, and answers how many
/// attempts were done.
fn time_all<H: Sync>(open: impl Fn() -> H, work: impl Fn(&H, usize, usize) -> u32 + Sync) {
    for threads in [1, 2, 4] {
        for (name, apart) in APART {
            let home = open();
            let work = |number| u64::from(work(&home, number, number * apart));
            let work = &work;
            let start = Instant::now();
            let done: u64 = thread::scope(|scope| {
                let others: Vec<_> = (1..threads)
                    .map(|number| scope.spawn(move || work(number)))
                    .collect();
                let own = work(0);
                let others = others
                    .into_iter()
                    .map(|other| other.join().expect("no thread panics"));
                own + others.sum::<u64>()
            });
            println!("{threads} {name} {} {done}", start.elapsed().as_nanos());
        }
    }
}

/// A load, and then exchanges of a word for its successor until one wins.
fn add_bare(word: &AtomicU64) -> u32 {
    let mut sum = 0_u64;
    for _ in 0..ATTEMPTS {
        let mut found = word.load(SeqCst);
        while let Err(now) = word.compare_exchange(found, found + 1, SeqCst, SeqCst) {
            found = now;
        }
        sum = sum.wrapping_add(found);
    }
    black_box(sum);
    ATTEMPTS
}

fn words() -> Vec<AtomicU64> {
    (0..GRANULES).map(|_| AtomicU64::new(0)).collect()
}

/// A fetch-and-add of 1 to the eight bytes of a granule.
fn fetch_add(granule: usize) -> Request {
    let first = 8 * (granule % 2);
    let mut lanes = [0; 16];
    lanes[first] = 1;
    Request {
        src: 0,
        txn: 0,
        opcode: 0x30,
        size: 3,
        addr: BASE + 8 * granule as u64,
        endian: false,
        be: 0x00ff << first,
        lanes,
    }
}

/// The same access over and over, each time as if it were another: how many attempts were done. The packets that
/// they answer are summed up.
fn add_by_row(row: &Row, src: u8, access: &Access) -> u32 {
    let mut done = 0;
    let mut sum = 0_u128;
    for _ in 0..ATTEMPTS {
        match row.attempt(src, black_box(access)) {
            Served::Done { reply, lost: _ } => {
                done += 1;
                if let Reply::CompData(lanes) = reply {
                    sum = sum.wrapping_add(u128::from_le_bytes(lanes));
                }
            }
            Served::Retry { src, lost: _ } => {
                black_box(src);
            }
        }
    }
    black_box(sum);
    done
}

fn main() -> ExitCode {
    let region = Region::new(BASE, GRANULES).expect("the region is one");
    match std::env::args().nth(1).as_deref() {
        Some("bare") => time_all(words, |words, _, granule| add_bare(&words[granule])),
        Some("row") => time_all(
            || Row::new(region, MOST_TRIES),
            |row, number, granule| {
                let access = decode(&fetch_add(granule), &region).expect("the request is accepted");
                add_by_row(row, number as u8, &access)
            },
        ),
        _ => {
            eprintln!("usage: attempts bare|row");
            return ExitCode::from(2);
        }
    }
    ExitCode::SUCCESS
}
