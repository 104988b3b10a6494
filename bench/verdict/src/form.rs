//! Traces as numbers of eight bytes, the least significant byte first: how many there are, and then each.

use crate::trace::{Observed, Trace, access_of};
use plain::operation::Reply;
use plain::request::Request;
use std::collections::BTreeMap;
use std::io::{self, Read, Write};

fn write_number(to: &mut impl Write, number: u64) -> io::Result<()> {
    to.write_all(&number.to_le_bytes())
}

/// How many words there are, and of each the granule and the word.
fn write_words(to: &mut impl Write, words: &BTreeMap<u64, u64>) -> io::Result<()> {
    write_number(to, words.len() as u64)?;
    for (granule, word) in words {
        write_number(to, *granule)?;
        write_number(to, *word)?;
    }
    Ok(())
}

/// The times, the request, whether the reply was not seen, had no data, or had some (0, 1 or 2), and the data.
fn write_observed(to: &mut impl Write, op: &Observed) -> io::Result<()> {
    let request = &op.request;
    for number in [
        op.start,
        op.end,
        u64::from(request.opcode),
        u64::from(request.size),
        request.addr,
        u64::from(request.endian),
        u64::from(request.be),
    ] {
        write_number(to, number)?;
    }
    to.write_all(&request.lanes)?;
    let (kind, data) = match op.reply {
        None => (0, [0; 16]),
        Some(Reply::Comp) => (1, [0; 16]),
        Some(Reply::CompData(data)) => (2, data),
    };
    write_number(to, kind)?;
    to.write_all(&data)
}

fn write_trace(to: &mut impl Write, trace: &Trace) -> io::Result<()> {
    write_words(to, &trace.opening)?;
    write_words(to, &trace.finals)?;
    write_number(to, trace.ops.len() as u64)?;
    trace.ops.iter().try_for_each(|op| write_observed(to, op))
}

/// Writes how many traces there are, and the traces.
pub fn write_traces(to: &mut impl Write, traces: &[Trace]) -> io::Result<()> {
    write_number(to, traces.len() as u64)?;
    traces.iter().try_for_each(|trace| write_trace(to, trace))?;
    to.flush()
}

fn bytes<const N: usize>(from: &mut impl Read) -> io::Result<[u8; N]> {
    let mut bytes = [0; N];
    from.read_exact(&mut bytes)?;
    Ok(bytes)
}

fn number(from: &mut impl Read) -> io::Result<u64> {
    bytes(from).map(u64::from_le_bytes)
}

fn words(from: &mut impl Read) -> io::Result<BTreeMap<u64, u64>> {
    (0..number(from)?)
        .map(|_| Ok((number(from)?, number(from)?)))
        .collect()
}

fn observed(from: &mut impl Read) -> io::Result<Observed> {
    let start = number(from)?;
    let end = number(from)?;
    let request = Request {
        src: 0,
        txn: 0,
        opcode: number(from)? as u8,
        size: number(from)? as u8,
        addr: number(from)?,
        endian: number(from)? == 1,
        be: number(from)? as u16,
        lanes: bytes(from)?,
    };
    let kind = number(from)?;
    let data = bytes(from)?;
    let access = access_of(&request).ok_or_else(|| io::Error::other("a request is refused"))?;
    Ok(Observed {
        start,
        end,
        request,
        access,
        reply: [None, Some(Reply::Comp), Some(Reply::CompData(data))][kind.min(2) as usize],
    })
}

fn trace(from: &mut impl Read) -> io::Result<Trace> {
    let opening = words(from)?;
    let finals = words(from)?;
    let ops = (0..number(from)?)
        .map(|_| observed(from))
        .collect::<io::Result<_>>()?;
    Ok(Trace {
        opening,
        finals,
        ops,
    })
}

/// Reads how many traces there are, and the traces.
pub fn read_traces(from: &mut impl Read) -> io::Result<Vec<Trace>> {
    (0..number(from)?).map(|_| trace(from)).collect()
}
