//! A row of granule words that threads serve requests on: what the lock-free store does, in plain Rust.

use crate::access::Access;
use crate::operation::{Reply, apply};
use crate::region::Region;
use std::sync::atomic::{AtomicU64, Ordering};

/// The answer to a request, with the number of exchanges that were lost.
#[derive(Debug)]
pub enum Served {
    Done { reply: Reply, lost: u8 },
    Retry { src: u8, lost: u8 },
}

/// A word for each granule of the region.
pub struct Row {
    region: Region,
    words: Vec<AtomicU64>,
    attempts: u8,
}

impl Row {
    pub fn new(region: Region, attempts: u8) -> Row {
        let words = (0..region.granules).map(|_| AtomicU64::new(0)).collect();
        Row {
            region,
            words,
            attempts,
        }
    }

    /// The words of all granules.
    pub fn words(&self) -> Vec<u64> {
        let words = self.words.iter();
        words.map(|word| word.load(Ordering::SeqCst)).collect()
    }

    /// Serves a request by at most so many tries, each a load and one exchange.
    #[inline]
    pub fn attempt(&self, src: u8, access: &Access) -> Served {
        let granule = ((access.addr - self.region.base) / 8) as usize;
        let word = &self.words[granule];
        for lost in 0..self.attempts {
            let found = word.load(Ordering::SeqCst);
            let (next, reply) = apply(found, access);
            let exchanged = word.compare_exchange(found, next, Ordering::SeqCst, Ordering::SeqCst);
            if exchanged.is_ok() {
                return Served::Done { reply, lost };
            }
        }
        Served::Retry {
            src,
            lost: self.attempts,
        }
    }
}
