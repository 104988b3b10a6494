//! What was observed of operations at any address, with replies that were seen or not.

use plain::access::{Access, decode};
use plain::operation::{Reply, apply};
use plain::region::Region;
use plain::request::Request;
use std::collections::BTreeMap;

/// An operation. One that was open when the trace ended ends at `u64::MAX`.
#[derive(Clone, Copy, Debug)]
pub struct Observed {
    pub start: u64,
    pub end: u64,
    pub request: Request,
    pub access: Access,
    pub reply: Option<Reply>,
}

impl Observed {
    /// The number of its granule, counted from address 0.
    pub fn granule(&self) -> u64 {
        self.access.addr / 8
    }

    /// The word that it leaves of a word, where its reply, if it was seen, is the one that the word gives.
    pub fn after(&self, word: u64) -> Option<u64> {
        let (after, reply) = apply(word, &self.access);
        self.reply.is_none_or(|seen| seen == reply).then_some(after)
    }
}

/// The access of a request that its line of granules accepts.
pub fn access_of(request: &Request) -> Option<Access> {
    let line = Region::new(request.addr / 64 * 64, 8).ok()?;
    decode(request, &line).ok()
}

/// The operations in the order of their starts, the words of granules before them, and those that were observed after them.
#[derive(Clone, Debug)]
pub struct Trace {
    pub opening: BTreeMap<u64, u64>,
    pub finals: BTreeMap<u64, u64>,
    pub ops: Vec<Observed>,
}
