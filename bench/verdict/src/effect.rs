//! What is known of an operation before any order is searched.

use crate::trace::Observed;
use plain::operation::{Reply, apply};
use plain::request::{Kind, Op};

/// The word that it finds has the bits of `found` in `found_mask`; it changes bits of `changed` alone; and it leaves those of
/// `left` in `left_mask`, or, where it may stay, the word as it is.
#[derive(Clone, Copy)]
pub struct Effect {
    pub found: u64,
    pub found_mask: u64,
    pub changed: u64,
    pub left: u64,
    pub left_mask: u64,
    pub may_stay: bool,
}

/// The bits of the operand.
pub fn operand(op: &Observed) -> u64 {
    (u64::MAX >> (64 - 8 * u32::from(op.access.len))) << (8 * (op.access.addr % 8))
}

/// The word in the granule's lanes of a packet.
fn word_in(op: &Observed, lanes: &[u8; 16]) -> u64 {
    let first = (op.access.addr % 16) as usize / 8 * 8;
    u64::from_le_bytes(lanes[first..first + 8].try_into().expect("eight lanes"))
}

pub fn effect(op: &Observed) -> Effect {
    let mask = operand(op);
    let loose = Effect {
        found: 0,
        found_mask: 0,
        changed: mask,
        left: 0,
        left_mask: 0,
        may_stay: false,
    };
    if let Some(Reply::CompData(data)) = op.reply {
        let found = word_in(op, &data);
        return op.after(found).map_or(loose, |left| Effect {
            found,
            found_mask: mask,
            changed: found ^ left,
            left,
            left_mask: mask,
            may_stay: false,
        });
    }
    match op.access.kind {
        Kind::Read
        | Kind::Write
        | Kind::Swap
        | Kind::Store(Op::Clr | Op::Set)
        | Kind::Load(Op::Clr | Op::Set) => {
            let [least, greatest] = [0, u64::MAX].map(|word| apply(word, &op.access).0);
            let written = !(least ^ greatest);
            Effect {
                changed: written,
                left: least,
                left_mask: written,
                ..loose
            }
        }
        Kind::Store(Op::SMax | Op::SMin | Op::UMax | Op::UMin)
        | Kind::Load(Op::SMax | Op::SMin | Op::UMax | Op::UMin) => Effect {
            left: word_in(op, &op.access.lanes),
            left_mask: mask,
            may_stay: true,
            ..loose
        },
        _ => loose,
    }
}

/// Those bits of one word, or of the other one, that are 1 in `bits`.
pub struct Wanted {
    pub words: [u64; 2],
    pub bits: u64,
}

/// The word of which a sum leaves the operand of another word in the mask, with the bits of `rest` out of the mask.
fn difference(op: &Observed, word: u64, mask: u64, rest: u64) -> Option<u64> {
    let turned = op.after((!word & mask) | (rest & !mask))?;
    Some((!turned & mask) | (rest & !mask))
}

/// What the operation finds in the bits of the mask, that of a run of bytes, where it leaves these bits of the word.
pub fn wanted(op: &Observed, effect: &Effect, word: u64, bits: u64, mask: u64) -> Wanted {
    let operand = operand(op);
    let by_kind = match op.access.kind {
        _ if effect.found_mask != 0 => None,
        Kind::Store(Op::Eor) | Kind::Load(Op::Eor) => op.after(word).map(|found| [found, found]),
        Kind::Store(Op::Add) | Kind::Load(Op::Add) if operand & mask & !bits == 0 => {
            let differences = [0, u64::MAX].map(|rest| difference(op, word, mask, rest));
            match differences {
                [Some(low), Some(high)] => {
                    Some([low, high].map(|found| (found & operand) | (word & !operand)))
                }
                _ => None,
            }
        }
        _ => None,
    };
    by_kind.map_or_else(
        || {
            let found = (effect.found & effect.found_mask) | (word & !effect.found_mask);
            Wanted {
                words: [found, found],
                bits: (effect.found_mask & mask) | (bits & !effect.changed),
            }
        },
        |words| Wanted { words, bits },
    )
}

/// What the operation may leave of a word of which the bits of the mask are known, where that is two words at most.
pub fn outcomes(op: &Observed, effect: &Effect, mask: u64, word: u64) -> Option<[Option<u64>; 2]> {
    if operand(op) & !mask == 0 {
        return Some([op.after(word), None]);
    }
    if effect.changed & mask & !effect.left_mask == 0 {
        if (effect.found ^ word) & effect.found_mask & mask != 0 {
            return Some([None, None]);
        }
        let left = (word & !effect.left_mask) | (effect.left & effect.left_mask);
        return Some([Some(left), effect.may_stay.then_some(word)]);
    }
    match op.access.kind {
        Kind::Store(Op::Eor) | Kind::Load(Op::Eor) => Some([Some(op.after(word)?), None]),
        Kind::Store(Op::Add) | Kind::Load(Op::Add) => {
            Some([Some(op.after(word & mask)?), Some(op.after(word | !mask)?)])
        }
        _ => None,
    }
}
