//! Traces by chance, of operations that a memory executed, each at an instant between its start and its end.

use crate::breaking::{Way, break_trace};
use crate::kinds::Kinds;
use crate::trace::{Observed, Trace, access_of};
use plain::access::Access;
use plain::operation::apply;
use plain::random::Random;
use plain::request::{Kind, Request};
use std::collections::BTreeMap;

/// How many requesters are at work, and how many operations each of them has.
#[derive(Clone, Copy)]
pub struct Load {
    pub requesters: u8,
    pub operations: usize,
    /// Each operation takes less than so long.
    pub lengths: u64,
    /// One reply in so many is not seen, and one in three of these operations is still open.
    pub unseen: u64,
}

/// A request with the instant at which it is executed, between its start and its end.
struct Planned {
    start: u64,
    instant: u64,
    end: u64,
    request: Request,
}

/// The number of a granule, which keeps its half of the lanes: every other one lies at the end of the addresses.
fn granule(place: u64) -> u64 {
    if place.is_multiple_of(2) {
        512 + place
    } else {
        (1 << 49) - place
    }
}

/// What requesters ask that start each operation right after the last one ended, in the order of the instants.
fn planned(random: &mut Random, kinds: Kinds, granules: u64, load: Load) -> Vec<Planned> {
    let mut planned = Vec::with_capacity(usize::from(load.requesters) * load.operations);
    for _ in 0..load.requesters {
        let mut start = random.below(load.lengths);
        for _ in 0..load.operations {
            let mut request = kinds.request(random, granules);
            request.addr = granule(request.addr / 8) * 8 + request.addr % 8;
            let length = random.below(load.lengths);
            let end = start + length;
            planned.push(Planned {
                start,
                instant: start + random.below(length + 1),
                end,
                request,
            });
            start = end + 1;
        }
    }
    planned
}

/// Makes the bytes that an AtomicCompare finds its compare value.
fn compare_found(access: &mut Access, request: &mut Request, word: u64) {
    let (len, lane) = (usize::from(access.len), (access.addr % 16) as usize);
    let found = &word.to_le_bytes()[lane % 8..lane % 8 + len];
    access.lanes[lane..lane + len].copy_from_slice(found);
    request.lanes = access.lanes;
}

/// A trace that is broken in this way. Half of the compares are of the value that they find. Where an update is lost, it is what the
/// first operation from some step on that changes its granule made of it.
pub fn trace(random: &mut Random, kinds: Kinds, granules: u64, way: Way, load: Load) -> Trace {
    let mut planned = planned(random, kinds, granules, load);
    let lost = (way == Way::LostUpdate).then(|| random.below(planned.len() as u64) as usize);
    let opening: BTreeMap<u64, u64> = (0..granules)
        .map(|place| (granule(place), u64::from_le_bytes(kinds.bytes(random))))
        .collect();
    let mut words = opening.clone();
    let mut is_lost = lost.is_none();
    planned.sort_by_key(|it| it.instant);
    let mut ops = Vec::with_capacity(planned.len());
    for (step, it) in planned.into_iter().enumerate() {
        let mut request = it.request;
        let mut access = access_of(&request).expect("each request is accepted");
        let word = words
            .get_mut(&(access.addr / 8))
            .expect("each has its word");
        if access.kind == Kind::Compare && random.below(2) == 0 {
            compare_found(&mut access, &mut request, *word);
        }
        let (after, reply) = apply(*word, &access);
        if !is_lost && lost.is_some_and(|lost| lost <= step) && after != *word {
            is_lost = true;
        } else {
            *word = after;
        }
        ops.push(Observed {
            start: it.start,
            end: it.end,
            request,
            access,
            reply: Some(reply),
        });
    }
    let mut trace = Trace {
        opening,
        finals: words,
        ops,
    };
    break_trace(random, &mut trace, way, granule);
    trace.ops.sort_by_key(|op| op.end);
    for op in &mut trace.ops {
        if random.below(load.unseen) == 0 {
            op.reply = None;
            if random.below(3) == 0 {
                op.end = u64::MAX;
            }
        }
    }
    trace.ops.sort_by_key(|op| op.start);
    trace
}
