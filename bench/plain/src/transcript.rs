//! The text of a transcript.

use crate::access::Refusal;
use crate::operation::Reply;
use crate::region::Region;
use crate::request::{Request, opcode_name};
use std::io::{self, Write};

/// Writes a request's own fields.
fn write_request(to: &mut impl Write, request: &Request) -> io::Result<()> {
    write!(
        to,
        "{} {} {:02x} {} {} {:016x} ",
        request.src,
        request.txn,
        request.opcode,
        opcode_name(request.opcode),
        request.size,
        request.addr
    )
}

/// Writes the line of a request that was answered by RetryAck.
pub fn write_retry(to: &mut impl Write, request: &Request) -> io::Result<()> {
    write_request(to, request)?;
    writeln!(to, "retry")
}

/// Writes the line of a request that was completed or refused.
pub fn write_line(
    to: &mut impl Write,
    request: &Request,
    outcome: &Result<Reply, Refusal>,
) -> io::Result<()> {
    write_request(to, request)?;
    match outcome {
        Ok(Reply::Comp) => writeln!(to, "comp"),
        Ok(Reply::CompData(lanes)) => writeln!(to, "data {:032x}", u128::from_be_bytes(*lanes)),
        Err(refusal) => writeln!(to, "refused {refusal}"),
    }
}

/// Writes a memory line for each granule.
pub fn write_memory(to: &mut impl Write, region: &Region, words: &[u64]) -> io::Result<()> {
    for (addr, word) in (region.base..).step_by(8).zip(words) {
        writeln!(to, "m {addr:016x} {:016x}", word.swap_bytes())?;
    }
    Ok(())
}
