//! The work on a script, one request after another.

use crate::access::{Access, Refusal, decode};
use crate::operation::{Reply, apply};
use crate::region::Region;
use crate::script::Script;
use crate::transcript::{write_line, write_memory};
use std::io::{self, Write};

fn execute(words: &mut [u64], region: &Region, access: &Access) -> Reply {
    let word = &mut words[((access.addr - region.base) / 8) as usize];
    let (after, reply) = apply(*word, access);
    *word = after;
    reply
}

/// Works the requests of a script in order, and writes its transcript.
pub fn work(script: &Script, to: &mut impl Write) -> io::Result<()> {
    let region = &script.region;
    let mut words = vec![0; usize::from(region.granules)];
    for request in &script.requests {
        let outcome: Result<Reply, Refusal> =
            decode(request, region).map(|access| execute(&mut words, region, &access));
        write_line(to, request, &outcome)?;
    }
    write_memory(to, region, &words)
}
