//! The search in plain Rust, by the same design and the same rules: the operations of a granule in the order of their ends, depth
//! first over which of them were settled and the word that they left, with a memo of the states from which no order goes on.

use crate::effect::{Effect, effect, outcomes, wanted as wanted_of};
use crate::trace::{Observed, Trace};
use plain::operation::Reply;
use plain::request::Kind;
use std::collections::{BTreeMap, HashSet};
use std::hash::{BuildHasherDefault, Hasher};

/// What is found of a trace: an order of its places, a granule whose operations no order explains, or neither.
#[derive(Debug)]
pub enum Verdict {
    Explained(Vec<usize>),
    Unexplained(u64),
    Undecided,
}

/// A hash of the numbers of a state.
#[derive(Default)]
struct Mixed {
    hash: u64,
}

impl Hasher for Mixed {
    fn write(&mut self, bytes: &[u8]) {
        bytes
            .iter()
            .for_each(|byte| self.write_u64(u64::from(*byte)));
    }

    fn write_u64(&mut self, number: u64) {
        self.hash = (self.hash ^ number).wrapping_mul(0x9e37_79b9_7f4a_7c15);
        self.hash ^= self.hash >> 29;
    }

    fn write_usize(&mut self, number: usize) {
        self.write_u64(number as u64);
    }

    fn finish(&self) -> u64 {
        self.hash.wrapping_mul(0xbf58_476d_1ce4_e5b9)
    }
}

type States<S> = HashSet<S, BuildHasherDefault<Mixed>>;

/// The operations before `first` are settled, and of those from it on the ones whose bit is 1. The word is what those that were
/// taken left.
#[derive(Clone, Default, PartialEq, Eq, Hash)]
struct State {
    first: usize,
    near: u64,
    beyond: Vec<u64>,
    word: u64,
}

impl State {
    fn is_settled(&self, place: usize) -> bool {
        let bit = place - self.first;
        if bit < 64 {
            return self.near >> bit & 1 == 1;
        }
        self.beyond
            .get(bit / 64 - 1)
            .is_some_and(|word| word >> (bit % 64) & 1 == 1)
    }

    /// The state after an operation was settled.
    fn settled(&self, place: usize, word: u64) -> State {
        let mut next = State {
            word,
            ..self.clone()
        };
        let bit = place - self.first;
        if bit < 64 {
            next.near |= 1 << bit;
        } else {
            if next.beyond.len() < bit / 64 {
                next.beyond.resize(bit / 64, 0);
            }
            next.beyond[bit / 64 - 1] |= 1 << (bit % 64);
        }
        next.trim();
        next
    }

    /// Moves `first` past what is settled.
    fn trim(&mut self) {
        while self.near & 1 == 1 {
            let by = self.near.trailing_ones();
            self.first += by as usize;
            let mut carry = 0;
            for word in self.beyond.iter_mut().rev() {
                let low = if by == 64 { *word } else { *word << (64 - by) };
                *word = if by == 64 { 0 } else { *word >> by } | carry;
                carry = low;
            }
            self.near = if by == 64 { 0 } else { self.near >> by } | carry;
            while self.beyond.last() == Some(&0) {
                self.beyond.pop();
            }
        }
    }
}

/// The states from which no order goes on: those with one word of bits, and the others.
#[derive(Default)]
struct Dead {
    narrow: States<(usize, u64, u64)>,
    wide: States<State>,
}

impl Dead {
    fn has(&self, state: &State) -> bool {
        if state.beyond.is_empty() {
            self.narrow.contains(&(state.first, state.near, state.word))
        } else {
            self.wide.contains(state)
        }
    }

    fn add(&mut self, state: &State) {
        if state.beyond.is_empty() {
            self.narrow.insert((state.first, state.near, state.word));
        } else {
            self.wide.insert(state.clone());
        }
    }
}

/// A step has the operation that was taken, unless the first was left out, the place before which all operations were tried,
/// and the state after it.
/// `Only` is a step beside which no other need be tried.
enum Choice {
    Ended,
    Step(Option<usize>, usize, State),
    Only(usize, State),
    Dead,
}

/// A step of a path: the state from which it was made, the operation, and the place before which all were tried.
type Step = (State, Option<usize>, usize);

/// A run of bytes of the word, with states from which no order goes on there, and states from which one does. Their words have
/// the bits of the mask alone.
struct Part {
    mask: u64,
    dead: Dead,
    alive: Dead,
}

/// `effects` is empty where the rules are not asked.
struct Search<'a> {
    ops: &'a [Observed],
    effects: Vec<Effect>,
    earliest: Vec<u64>,
    lower: Vec<usize>,
    last: Option<u64>,
    dead: Dead,
    left: u64,
}

/// How many states for each operation are looked at without the rules.
const PLAIN_STATES: u64 = 8;

/// Where no more operations than these lie between the first and the last that can come next, the plain search is the first.
const FEW_NEXT: usize = 28;

/// After how many states for each operation the search of a granule that is mostly written begins again.
const SPAN_STATES: u64 = 64;

/// How many operations are looked at for makers at a state, and before the search.
const LOOKED_AT: [usize; 2] = [64, 1000];

/// The operations before which a run has to stand, the next one first.
type Later = [Option<usize>; 4];

const NONE_LATER: Later = [None; 4];

/// How many operations a run is followed back beyond the last one, at a state.
const FOLLOWED: usize = 3;

/// Whether two operations do the same but for their times.
fn are_equal(a: &Observed, b: &Observed) -> bool {
    let (x, y) = (&a.access, &b.access);
    x.kind == y.kind
        && (x.addr, x.len, x.endian, x.enables, x.lanes)
            == (y.addr, y.len, y.endian, y.enables, y.lanes)
        && a.reply == b.reply
}

/// Whether one can come right before the other wherever it can come right after it.
fn moves_before(a: &Observed, b: &Observed) -> bool {
    let (x, y) = (&a.access, &b.access);
    if x.addr + u64::from(x.len) <= y.addr || y.addr + u64::from(y.len) <= x.addr {
        return true;
    }
    match (x.kind, y.kind) {
        (Kind::Store(op), Kind::Store(other)) => {
            op == other && (x.addr, x.len, x.endian) == (y.addr, y.len, y.endian)
        }
        (Kind::Write, Kind::Write) => (0..16)
            .all(|lane| (x.enables & y.enables) >> lane & 1 == 0 || x.lanes[lane] == y.lanes[lane]),
        _ => false,
    }
}

impl Search<'_> {
    /// The first place from one on whose operation starts by a time, or the number of operations where there is none.
    fn next(&self, from: usize, time: u64) -> usize {
        let mut place = from;
        if place >= self.ops.len() || self.earliest[place] > time {
            return self.ops.len();
        }
        while place < self.ops.len() && self.ops[place].start > time {
            place = self.lower[place];
        }
        place
    }

    /// All such places.
    fn starting(&self, from: usize, time: u64) -> impl Iterator<Item = usize> {
        let mut next = self.next(from, time);
        std::iter::from_fn(move || {
            let place = next;
            if place >= self.ops.len() {
                return None;
            }
            next = self.next(place + 1, time);
            Some(place)
        })
    }

    /// The places from one on whose operations can come next, whether or not they fit the word.
    fn places(&self, state: &State, from: usize) -> impl Iterator<Item = usize> {
        self.starting(from, self.ops[state.first].end)
            .filter(move |place| !state.is_settled(*place))
    }

    /// The word that an operation leaves, where it fits the word that it finds.
    fn after(&self, state: &State, place: usize) -> Option<u64> {
        self.ops[place].after(state.word)
    }

    /// An operation that can come next and is seen to change nothing.
    fn idle_next(&self, state: &State) -> Option<usize> {
        self.places(state, state.first).find(|place| {
            let is_told = matches!(self.ops[*place].reply, Some(Reply::CompData(_)));
            is_told && self.after(state, *place) == Some(state.word)
                || self.effects.get(*place).is_some_and(|it| {
                    it.changed == 0 && (it.found ^ state.word) & it.found_mask == 0
                })
        })
    }

    /// How many operations at most lie between the first that is left and the last that can come next, it among them. Each that was
    /// still open counts as one more.
    fn most_next(&self) -> usize {
        let open = self
            .ops
            .iter()
            .rev()
            .take_while(|op| op.end == u64::MAX)
            .count();
        let ended = self.ops.len() - open;
        let mut past = 0;
        let mut most: usize = 0;
        for place in 0..ended {
            let end = self.ops[place].end;
            past = self
                .starting(past, end)
                .take_while(|last| *last < ended)
                .last()
                .map_or(past, |last| last + 1);
            most = most.max(past.saturating_sub(place));
        }
        most + open
    }

    /// Whether an operation is seen at once to find what no other can leave, or the end to have it.
    fn is_hopeless(&mut self, word: u64) -> bool {
        let start = State {
            word,
            ..State::default()
        };
        self.effects = self.ops.iter().map(effect).collect();
        let is = self.lacks_maker(&start, u64::MAX, [u64::MAX; 2], LOOKED_AT[1], 0);
        self.effects.clear();
        is
    }

    fn is_left(&self, state: &State, place: usize) -> bool {
        place >= state.first && !state.is_settled(place)
    }

    /// Whether a run that stands before those that come later, the next one first, may lead to these bits of the word, as far as
    /// is seen from so many of its last operations.
    fn has_maker(
        &self,
        state: &State,
        later: Later,
        wanted: (u64, u64),
        mask: u64,
        depth: usize,
    ) -> bool {
        let (word, bits) = wanted;
        if (word ^ state.word) & bits == 0 {
            return true;
        }
        let bound = later[0].map_or(self.ops.len(), |next| {
            let end = self.ops[next].end;
            self.starting(next, end)
                .last()
                .map_or(next, |last| last + 1)
        });
        (state.first..bound).rev().any(|place| {
            let it = &self.effects[place];
            let op = &self.ops[place];
            let may_precede = |after: usize| after != place && op.start <= self.ops[after].end;
            it.changed & bits != 0
                && (it.left ^ word) & it.left_mask & bits == 0
                && later.iter().all(|after| after.is_none_or(may_precede))
                && self.is_left(state, place)
                && (depth == 0 || {
                    let before = [Some(place), later[0], later[1], later[2]];
                    let wanted = wanted_of(op, it, word, bits, mask);
                    let [one, other] = wanted.words;
                    let is_made =
                        |word| self.has_maker(state, before, (word, wanted.bits), mask, depth - 1);
                    is_made(one) || (other != one && is_made(other))
                })
        })
    }

    fn is_out_of_reach(
        &self,
        state: &State,
        later: Later,
        wanted: (u64, u64),
        mask: u64,
        depth: usize,
    ) -> bool {
        let (word, bits) = wanted;
        let differing = (word ^ state.word) & bits;
        differing != 0
            && (!self.has_maker(state, later, wanted, mask, depth)
                || (0..8).map(|byte| bits & (0xff << (8 * byte))).any(|part| {
                    differing & part != 0
                        && !self.has_maker(state, later, (word, part), mask, depth)
                }))
    }

    /// Whether, in the bits of the mask, an operation must find, or the end must have, what nothing can leave.
    /// Of the operations that are looked at those are asked that start by the second time, and a run is followed back from those
    /// that start by the first.
    fn lacks_maker(
        &self,
        state: &State,
        mask: u64,
        times: [u64; 2],
        count: usize,
        depth: usize,
    ) -> bool {
        let [time, until] = times;
        if self
            .last
            .is_some_and(|seen| self.is_out_of_reach(state, NONE_LATER, (seen, mask), mask, depth))
        {
            return true;
        }
        self.starting(state.first, until)
            .take_while(|place| place - state.first < count)
            .filter(|place| self.ops[*place].reply.is_some() && self.is_left(state, *place))
            .any(|place| {
                let it = &self.effects[place];
                let wanted = (it.found, it.found_mask & mask);
                let depth = if self.ops[place].start <= time {
                    depth
                } else {
                    0
                };
                self.is_out_of_reach(state, [Some(place), None, None, None], wanted, mask, depth)
            })
    }

    /// An operation that can be moved before all others.
    fn commuting_next(&self, state: &State) -> Option<usize> {
        self.places(state, state.first).find(|place| {
            let op = &self.ops[*place];
            op.reply.is_some()
                && self.starting(state.first, op.end).all(|other| {
                    other == *place
                        || !self.is_left(state, other)
                        || moves_before(op, &self.ops[other])
                })
        })
    }

    fn has_equal_before(&self, state: &State, place: usize) -> bool {
        self.places(state, state.first)
            .take_while(|before| *before < place)
            .any(|before| are_equal(&self.ops[before], &self.ops[place]))
    }

    /// Settles the operations that can come, keep the bits of the mask, and find those that are there.
    fn absorb(&self, mask: u64, mut state: State) -> State {
        loop {
            if state.first >= self.ops.len() {
                return state;
            }
            let kept = self.places(&state, state.first).find(|place| {
                let it = &self.effects[*place];
                it.changed & mask == 0 && (it.found ^ state.word) & it.found_mask & mask == 0
            });
            match kept {
                Some(place) => state = state.settled(place, state.word),
                None => return state,
            }
        }
    }

    /// What can be done at a state in a part.
    fn choose_within(&self, part: &Part, state: &State, tried: usize) -> Choice {
        if part.alive.has(state) {
            return Choice::Ended;
        }
        if state.first >= self.ops.len() {
            let differs = self
                .last
                .is_some_and(|last| (last ^ state.word) & part.mask != 0);
            return if differs { Choice::Dead } else { Choice::Ended };
        }
        let end = self.ops[state.first].end;
        let times = [end, u64::MAX];
        if tried <= state.first && self.lacks_maker(state, part.mask, times, LOOKED_AT[0], FOLLOWED)
        {
            return Choice::Dead;
        }
        for place in self.places(state, tried) {
            let op = &self.ops[place];
            let Some(words) = outcomes(op, &self.effects[place], part.mask, state.word) else {
                return Choice::Ended;
            };
            for word in words.into_iter().flatten() {
                let next = self.absorb(part.mask, state.settled(place, word & part.mask));
                if !part.dead.has(&next) {
                    return Choice::Step(Some(place), place, next);
                }
            }
        }
        if self.ops[state.first].reply.is_none() {
            let next = self.absorb(part.mask, state.settled(state.first, state.word));
            if !part.dead.has(&next) {
                return Choice::Step(None, self.ops.len(), next);
            }
        }
        Choice::Dead
    }

    /// Whether no order goes on from a state in a part.
    fn lacks_order(&mut self, part: &mut Part, from: &State) -> bool {
        let word = from.word & part.mask;
        let mut state = self.absorb(
            part.mask,
            State {
                word,
                ..from.clone()
            },
        );
        if part.dead.has(&state) {
            return true;
        }
        let mut path: Vec<Step> = Vec::new();
        let mut tried = state.first;
        while self.left > 0 {
            match self.choose_within(part, &state, tried) {
                Choice::Ended => {
                    path.iter().for_each(|step| part.alive.add(&step.0));
                    return false;
                }
                Choice::Step(op, place, next) => {
                    self.left -= 1;
                    tried = next.first;
                    path.push((std::mem::replace(&mut state, next), op, place));
                }
                Choice::Only(..) => unreachable!("a part has no such step"),
                Choice::Dead => {
                    part.dead.add(&state);
                    match path.pop() {
                        Some((before, _, place)) => (state, tried) = (before, place),
                        None => return true,
                    }
                }
            }
        }
        false
    }

    fn only(&self, next: State, place: usize) -> Choice {
        if self.dead.has(&next) {
            Choice::Dead
        } else {
            Choice::Only(place, next)
        }
    }

    /// The operation that changes the fewest bits, of those that lead to a state that is not known to be dead, and that state.
    fn narrowest_next(&self, state: &State) -> Option<(usize, State)> {
        let mut found = None;
        let mut least = u32::MAX;
        for place in self.places(state, state.first) {
            let bits = self.effects[place].changed.count_ones();
            if bits < least
                && let Some(after) = self.after(state, place)
            {
                let next = state.settled(place, after);
                if !self.dead.has(&next) && !self.has_equal_before(state, place) {
                    (least, found) = (bits, Some((place, next)));
                }
            }
        }
        found
    }

    /// What can be done at a state, of which the operations before a place were tried. `by_width` says whether what changes fewer
    /// bits is tried first.
    fn choose(&self, state: &State, tried: usize, by_width: bool) -> Choice {
        if state.first >= self.ops.len() {
            let has_ended = self.last.is_none_or(|last| last == state.word);
            return if has_ended {
                Choice::Ended
            } else {
                Choice::Dead
            };
        }
        let with_rules = !self.effects.is_empty();
        if tried <= state.first {
            if let Some(place) = self.idle_next(state) {
                return self.only(state.settled(place, state.word), place);
            }
            let end = self.ops[state.first].end;
            if with_rules && self.lacks_maker(state, u64::MAX, [end; 2], LOOKED_AT[0], FOLLOWED) {
                return Choice::Dead;
            }
            if with_rules && let Some(place) = self.commuting_next(state) {
                return match self.after(state, place) {
                    Some(after) => self.only(state.settled(place, after), place),
                    None => Choice::Dead,
                };
            }
        }
        if by_width && let Some((place, next)) = self.narrowest_next(state) {
            return Choice::Step(Some(place), tried, next);
        }
        for place in self.places(state, tried) {
            if let Some(after) = self.after(state, place) {
                let next = state.settled(place, after);
                if !self.dead.has(&next) && !(with_rules && self.has_equal_before(state, place)) {
                    return Choice::Step(Some(place), place, next);
                }
            }
        }
        if self.ops[state.first].reply.is_none() {
            let next = state.settled(state.first, state.word);
            if !self.dead.has(&next) {
                return Choice::Step(None, self.ops.len(), next);
            }
        }
        Choice::Dead
    }
}

/// Searches from a word on: an order, `None` within where there is none, and without where the budget was spent. After each `span`
/// states it begins again, and tries what changes fewer bits first every other time.
fn search(
    search: &mut Search,
    parts: &mut [Part],
    word: u64,
    span: u64,
) -> Option<Option<Vec<usize>>> {
    let mut state = State {
        word,
        ..State::default()
    };
    let mut path: Vec<Step> = Vec::new();
    let mut tried = 0;
    let mut is_new = true;
    let mut by_width = false;
    let mut due = search.left.saturating_sub(span);
    while search.left > 0 {
        let is_dead = is_new
            && parts
                .iter_mut()
                .any(|part| search.lacks_order(part, &state));
        let choice = if is_dead {
            Choice::Dead
        } else {
            search.choose(&state, tried, by_width)
        };
        let (op, place, next) = match choice {
            Choice::Ended => {
                return Some(Some(path.into_iter().filter_map(|step| step.1).collect()));
            }
            Choice::Step(op, place, next) => {
                is_new = true;
                (op, place, next)
            }
            Choice::Only(place, next) => {
                is_new = false;
                (Some(place), tried, next)
            }
            Choice::Dead => {
                search.dead.add(&state);
                is_new = false;
                match path.pop() {
                    Some((before, _, place)) => (state, tried) = (before, place),
                    None => return Some(None),
                }
                continue;
            }
        };
        search.left = search.left.saturating_sub(1);
        if search.left <= due {
            path.clear();
            state = State {
                word,
                ..State::default()
            };
            (tried, is_new, by_width) = (0, true, !by_width);
            due = search.left.saturating_sub(span);
            continue;
        }
        tried = next.first;
        path.push((std::mem::replace(&mut state, next), op, place));
    }
    None
}

fn are_mostly_writes(ops: &[Observed]) -> bool {
    let writes = ops.iter().filter(|op| op.access.kind == Kind::Write);
    writes.count() >= ops.len() / 2
}

/// The parts of a word that have so many bytes.
fn parts_of_length(len: usize) -> impl Iterator<Item = Part> {
    (0..8).step_by(len).map(move |byte| Part {
        mask: (u64::MAX >> (64 - 8 * len)) << (8 * byte),
        dead: Dead::default(),
        alive: Dead::default(),
    })
}

/// The parts of a word that are asked: of a byte where all but one in sixteen of the operations lie within one, else of two bytes
/// where at least a quarter lie within two, else none.
fn parts_of(ops: &[Observed]) -> Vec<Part> {
    let within = |len: u8| ops.iter().filter(|op| op.access.len <= len).count();
    if within(1) >= ops.len() - ops.len() / 16 {
        return parts_of_length(1).collect();
    }
    if within(2) >= ops.len() / 4 {
        return parts_of_length(2).collect();
    }
    Vec::new()
}

/// An order of a granule's operations, which stand by their ends; `None` within where there is none, and without where the budget
/// was spent.
fn order_of(
    ops: &[Observed],
    word: u64,
    last: Option<u64>,
    budget: u64,
) -> Option<Option<Vec<usize>>> {
    let mut earliest = vec![u64::MAX; ops.len()];
    let mut least = u64::MAX;
    for place in (0..ops.len()).rev() {
        least = least.min(ops[place].start);
        earliest[place] = least;
    }
    let mut lower = vec![ops.len(); ops.len()];
    for place in (0..ops.len()).rev() {
        let mut later = place + 1;
        while later < ops.len() && ops[later].start >= ops[place].start {
            later = lower[later];
        }
        lower[place] = later;
    }
    let mut it = Search {
        ops,
        effects: Vec::new(),
        earliest,
        lower,
        last,
        dead: Dead::default(),
        left: 0,
    };
    let is_hot = it.most_next() > FEW_NEXT;
    if is_hot && it.is_hopeless(word) {
        return Some(None);
    }
    let plain = budget.min(ops.len() as u64 * PLAIN_STATES);
    it.left = plain;
    if let Some(found) = search(&mut it, &mut [], word, u64::MAX) {
        return Some(found);
    }
    if !is_hot && it.is_hopeless(word) {
        return Some(None);
    }
    it.effects = ops.iter().map(effect).collect();
    it.left = budget - plain;
    it.dead = Dead::default();
    let mut parts = parts_of(ops);
    if !are_mostly_writes(ops) {
        return search(&mut it, &mut parts, word, u64::MAX);
    }
    let span = ops.len() as u64 * SPAN_STATES;
    let left = it.left;
    let short = span.min(left);
    it.left = short;
    if let Some(found) = search(&mut it, &mut parts, word, u64::MAX) {
        return Some(found);
    }
    it.left = left - short;
    it.dead = Dead::default();
    let mut more_parts = parts_of(ops);
    more_parts.extend(parts_of_length(4));
    search(&mut it, &mut more_parts, word, span)
}

/// Decides whether the trace can be explained, over at most so many states of each granule.
#[inline(never)]
pub fn explain(trace: &Trace, budget: u64) -> Verdict {
    let mut places: Vec<usize> = (0..trace.ops.len()).collect();
    places.sort_by_key(|op| (trace.ops[*op].granule(), trace.ops[*op].end));
    let mut runs: BTreeMap<u64, &[usize]> =
        trace.finals.keys().map(|it| (*it, [].as_slice())).collect();
    runs.extend(
        places
            .chunk_by(|a, b| trace.ops[*a].granule() == trace.ops[*b].granule())
            .map(|run| (trace.ops[run[0]].granule(), run)),
    );
    let mut points: Vec<(u64, usize)> = Vec::with_capacity(places.len());
    let mut is_decided = true;
    for (granule, run) in runs {
        let own: Vec<Observed> = run.iter().map(|op| trace.ops[*op]).collect();
        let word = trace.opening.get(&granule).copied().unwrap_or(0);
        match order_of(&own, word, trace.finals.get(&granule).copied(), budget) {
            Some(Some(order)) => {
                let mut time = 0;
                points.extend(order.into_iter().map(|place| {
                    time = time.max(own[place].start);
                    (time, run[place])
                }));
            }
            Some(None) => return Verdict::Unexplained(granule),
            None => is_decided = false,
        }
    }
    if !is_decided {
        return Verdict::Undecided;
    }
    points.sort_by_key(|point| point.0);
    Verdict::Explained(points.into_iter().map(|point| point.1).collect())
}
