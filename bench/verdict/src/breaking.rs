//! Ways to break a trace.

use crate::trace::Trace;
use plain::operation::Reply;
use plain::random::Random;

/// What is done to a trace.
#[derive(Clone, Copy, Debug, PartialEq, Eq)]
pub enum Way {
    Intact,
    TurnedBits,
    ExchangedReplies,
    LostUpdate,
    MovedInterval,
    FinalBytes,
}

impl Way {
    /// The one of this name.
    pub fn named(name: &str) -> Option<Way> {
        match name {
            "intact" => Some(Way::Intact),
            "a reply's bits turned" => Some(Way::TurnedBits),
            "two replies exchanged" => Some(Way::ExchangedReplies),
            "an update lost" => Some(Way::LostUpdate),
            "an interval moved" => Some(Way::MovedInterval),
            "a final word changed" => Some(Way::FinalBytes),
            _ => None,
        }
    }
}

/// Turns bits of one byte of the operand in an operation's reply.
fn turn_bits(random: &mut Random, trace: &mut Trace) {
    let at = random.below(trace.ops.len() as u64) as usize;
    for op in trace.ops[at..].iter_mut() {
        if let Some(Reply::CompData(data)) = &mut op.reply {
            let lane = op.access.addr % 16 + random.below(u64::from(op.access.len));
            data[lane as usize] ^= 1 + random.below(255) as u8;
            return;
        }
    }
}

/// The first two operations on one granule, by the order of execution from some step on, of which the test holds.
/// The second is the granule's next one after the first.
fn neighbours(
    random: &mut Random,
    trace: &Trace,
    test: impl Fn(usize, usize) -> bool,
) -> Option<(usize, usize)> {
    let ops = &trace.ops;
    let from = random.below(ops.len() as u64) as usize;
    (from..ops.len()).find_map(|first| {
        let granule = ops[first].granule();
        let second = (first + 1..ops.len()).find(|op| ops[*op].granule() == granule)?;
        test(first, second).then_some((first, second))
    })
}

/// Exchanges two replies with data that differ.
fn exchange_replies(random: &mut Random, trace: &mut Trace) {
    let ops = &trace.ops;
    let found = neighbours(random, trace, |first, second| {
        let replies = [ops[first].reply, ops[second].reply];
        replies[0] != replies[1] && !replies.contains(&Some(Reply::Comp))
    });
    if let Some((first, second)) = found {
        let reply = trace.ops[first].reply;
        trace.ops[first].reply = trace.ops[second].reply;
        trace.ops[second].reply = reply;
    }
}

/// Moves an operation's interval past the one that was executed next on its granule.
fn move_interval(random: &mut Random, trace: &mut Trace) {
    if let Some((first, second)) = neighbours(random, trace, |_, _| true) {
        let after = trace.ops[second].end + 1;
        let op = &mut trace.ops[first];
        op.end = after + (op.end - op.start);
        op.start = after;
    }
}

/// Changes a byte of a word at the end; `granule` is the number of a granule by its place.
fn change_final(random: &mut Random, trace: &mut Trace, granule: impl Fn(u64) -> u64) {
    let granule = granule(random.below(trace.finals.len() as u64));
    let bits = 1 + random.below(255);
    let word = trace.finals.get_mut(&granule).expect("each has its word");
    *word ^= bits << (8 * random.below(8));
}

/// Breaks a trace in this way, if it has what is broken. An update is lost as the trace is simulated.
pub fn break_trace(random: &mut Random, trace: &mut Trace, way: Way, granule: impl Fn(u64) -> u64) {
    match way {
        Way::Intact | Way::LostUpdate => {}
        Way::TurnedBits => turn_bits(random, trace),
        Way::ExchangedReplies => exchange_replies(random, trace),
        Way::MovedInterval => move_interval(random, trace),
        Way::FinalBytes => change_final(random, trace, granule),
    }
}
