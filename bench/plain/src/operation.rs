//! An operation on the word of its granule, written apart from tests/oracle/memory.py, which judges by bytes. Byte `k` of a word is its bits `8k` to `8k + 7`.

use crate::access::Access;
use crate::request::{Kind, Op};

/// A completion, without data or with the packet that holds the original bytes.
#[derive(Clone, Copy, Debug, PartialEq, Eq)]
pub enum Reply {
    Comp,
    CompData([u8; 16]),
}

/// All ones in the lowest bytes.
#[inline]
fn ones(len: u32) -> u64 {
    u64::MAX >> (64 - 8 * len)
}

/// The little-endian number of `len` lanes of the packet.
#[inline]
fn number(lanes: &[u8; 16], lane: u32, len: u32) -> u64 {
    (u128::from_le_bytes(*lanes) >> (8 * lane)) as u64 & ones(len)
}

/// A value's `len` bytes in the other order.
#[inline]
fn swapped(value: u64, len: u32) -> u64 {
    value.swap_bytes() >> (64 - 8 * len)
}

/// A value of `len` bytes as a two's complement number.
#[inline]
fn signed(value: u64, len: u32) -> i64 {
    let above = 64 - 8 * len;
    (value << above) as i64 >> above
}

/// What an operation makes of two numbers of `len` bytes.
#[inline]
fn combined(op: Op, len: u32, old: u64, sent: u64) -> u64 {
    match op {
        Op::Add => old.wrapping_add(sent) & ones(len),
        Op::Clr => old & !sent,
        Op::Eor => old ^ sent,
        Op::Set => old | sent,
        Op::SMax if signed(old, len) < signed(sent, len) => sent,
        Op::SMin if signed(sent, len) < signed(old, len) => sent,
        Op::SMax | Op::SMin => old,
        Op::UMax => old.max(sent),
        Op::UMin => old.min(sent),
    }
}

/// The same of bytes, in the access's byte order.
#[inline]
fn combined_bytes(op: Op, access: &Access, old: u64, sent: u64) -> u64 {
    let len = u32::from(access.len);
    if access.endian {
        let number = combined(op, len, swapped(old, len), swapped(sent, len));
        swapped(number, len)
    } else {
        combined(op, len, old, sent)
    }
}

/// 255 in byte `k` where bit `k` is 1.
#[inline]
fn byte_mask(enables: u8) -> u64 {
    (0..8)
        .filter(|k| enables >> k & 1 == 1)
        .map(|k| 0xff << (8 * k))
        .sum()
}

/// The swap value of an AtomicCompare: the other half of its window.
#[inline]
fn swap_value(access: &Access, lane: u32, len: u32) -> u64 {
    let other = if lane.is_multiple_of(2 * len) {
        lane + len
    } else {
        lane - len
    };
    number(&access.lanes, other, len)
}

/// The word of the access's granule after the operation, and the reply.
#[inline]
pub fn apply(word: u64, access: &Access) -> (u64, Reply) {
    let len = u32::from(access.len);
    let lane = (access.addr % 16) as u32;
    let shift = 8 * (lane % 8);
    let mask = ones(len) << shift;
    let old = (word & mask) >> shift;
    let sent = number(&access.lanes, lane, len);
    let stored = |value: u64| word & !mask | value << shift;
    let returned = Reply::CompData((u128::from(old) << (8 * lane)).to_le_bytes());
    match access.kind {
        Kind::Read => (word, returned),
        Kind::Write => {
            let mask = byte_mask((access.enables >> (lane - lane % 8)) as u8);
            let half = number(&access.lanes, lane - lane % 8, 8);
            (word & !mask | half & mask, Reply::Comp)
        }
        Kind::Store(op) => (stored(combined_bytes(op, access, old, sent)), Reply::Comp),
        Kind::Load(op) => (stored(combined_bytes(op, access, old, sent)), returned),
        Kind::Swap => (stored(sent), returned),
        Kind::Compare if old == sent => (stored(swap_value(access, lane, len)), returned),
        Kind::Compare => (word, returned),
    }
}
