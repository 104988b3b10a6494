//! The work on a script by threads: requesters from 1 on at the same time, each in order, and then 0.

use crate::access::{Refusal, decode};
use crate::operation::Reply;
use crate::request::Request;
use crate::row::{Row, Served};
use crate::script::Script;
use crate::transcript::{write_line, write_memory, write_retry};
use std::io::{self, Write};
use std::iter;
use std::thread;

/// How many exchanges a request may lose before it is answered by RetryAck, as chihome's default.
const ATTEMPTS: u8 = 4;

/// What became of a request.
enum Line<'a> {
    Ended(&'a Request, Result<Reply, Refusal>),
    Retried(&'a Request),
}

/// Works the requests of one requester in order. After RetryAck a request is sent again until it is completed.
fn work<'a>(script: &'a Script, row: &Row, src: u8) -> Vec<Line<'a>> {
    let mut lines = Vec::new();
    for request in script.requests.iter().filter(|it| it.src == src) {
        let outcome = decode(request, &script.region).map(|access| {
            let mut served = row.attempt(src, &access);
            if matches!(served, Served::Retry { .. }) {
                lines.push(Line::Retried(request));
            }
            loop {
                match served {
                    Served::Done { reply, .. } => break reply,
                    Served::Retry { .. } => served = row.attempt(src, &access),
                }
            }
        });
        lines.push(Line::Ended(request, outcome));
    }
    lines
}

fn write_lines(to: &mut impl Write, lines: &[Line]) -> io::Result<()> {
    for line in lines {
        match line {
            Line::Ended(request, outcome) => write_line(to, request, outcome)?,
            Line::Retried(request) => write_retry(to, request)?,
        }
    }
    Ok(())
}

/// Works the requests of a script by so many threads, then those of 0, and writes its transcript.
pub fn race(script: &Script, workers: u8, to: &mut impl Write) -> io::Result<()> {
    let row = &Row::new(script.region, ATTEMPTS);
    let lists: Vec<Vec<Line>> = thread::scope(|scope| {
        let others: Vec<_> = (2..=workers)
            .map(|src| scope.spawn(move || work(script, row, src)))
            .collect();
        let first = work(script, row, 1);
        let others = others
            .into_iter()
            .map(|other| other.join().expect("no thread panics"));
        iter::once(first).chain(others).collect()
    });
    for lines in &lists {
        write_lines(to, lines)?;
    }
    write_lines(to, &work(script, row, 0))?;
    write_memory(to, &script.region, &row.words())
}
