//! From a request to the access that it describes, or to its refusal.

use crate::region::Region;
use crate::request::{Kind, Request};
use std::fmt;

/// An accepted request.
#[derive(Clone, Copy, Debug)]
pub struct Access {
    pub kind: Kind,
    pub addr: u64,
    /// 1, 2, 4 or 8 bytes.
    pub len: u8,
    pub endian: bool,
    pub enables: u16,
    pub lanes: [u8; 16],
}

/// Why a request is refused: the first of these that it meets.
#[derive(Clone, Copy, Debug)]
pub enum Refusal {
    UnknownOpcode,
    ReservedSize,
    SizeOutOfProfile,
    Misaligned,
    OutOfRegion,
    BadByteEnable,
}

/// The operand's length, where the profile has this size.
fn length(kind: Kind, size: u8) -> Option<u8> {
    let power = match kind {
        Kind::Compare => size.checked_sub(1)?,
        _ => size,
    };
    (power <= 3).then(|| 1 << power)
}

/// The byte enables of so many lanes from a first one on.
fn enables_of(first: u8, count: u8) -> u16 {
    (u16::MAX >> (16 - count)) << first
}

/// Whether the byte enables are as the window asks.
fn enables_fit(kind: Kind, lane: u8, len: u8, enables: u16) -> bool {
    match kind {
        Kind::Read => true,
        Kind::Write => enables & !enables_of(lane, len) == 0,
        Kind::Compare => enables == enables_of(lane - lane % (2 * len), 2 * len),
        _ => enables == enables_of(lane, len),
    }
}

/// The access that the request describes, or the first refusal that it meets.
pub fn decode(request: &Request, region: &Region) -> Result<Access, Refusal> {
    let kind = Kind::of(request.opcode).ok_or(Refusal::UnknownOpcode)?;
    if request.size >= 7 {
        return Err(Refusal::ReservedSize);
    }
    let len = length(kind, request.size).ok_or(Refusal::SizeOutOfProfile)?;
    if !request.addr.is_multiple_of(u64::from(len)) {
        return Err(Refusal::Misaligned);
    }
    if !region.has(request.addr, u64::from(len)) {
        return Err(Refusal::OutOfRegion);
    }
    if !enables_fit(kind, (request.addr % 16) as u8, len, request.be) {
        return Err(Refusal::BadByteEnable);
    }
    Ok(Access {
        kind,
        addr: request.addr,
        len,
        endian: request.endian,
        enables: request.be,
        lanes: request.lanes,
    })
}

impl fmt::Display for Refusal {
    fn fmt(&self, f: &mut fmt::Formatter<'_>) -> fmt::Result {
        f.write_str(match self {
            Refusal::UnknownOpcode => "UnknownOpcode",
            Refusal::ReservedSize => "ReservedSize",
            Refusal::SizeOutOfProfile => "SizeOutOfProfile",
            Refusal::Misaligned => "Misaligned",
            Refusal::OutOfRegion => "OutOfRegion",
            Refusal::BadByteEnable => "BadByteEnable",
        })
    }
}
