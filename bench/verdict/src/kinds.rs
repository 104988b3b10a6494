//! Requests by chance: whole granules of a few kinds, or every kind, size and byte order.

use plain::random::Random;
use plain::request::Request;

const READ: u64 = 0x04;
const WRITE: u64 = 0x1c;
const STORE: u64 = 0x28;
const LOAD: u64 = 0x30;
const SWAP: u64 = 0x38;
const COMPARE: u64 = 0x39;

/// What the requests of a trace are. Those of `Mixed` to `Writes` meet in one granule, and half of their bytes are 0, 1, 0x80 or
/// 0xff. Sizes are 1, 2, 4 and 8 bytes, and byte orders both, where nothing else is said.
#[derive(Clone, Copy, PartialEq, Eq)]
pub enum Kinds {
    /// 8 bytes each, little-endian, words 0 to 3: 30 in a hundred reads, 15 swaps, 15 compares, 10 AtomicStore ADD, and the rest
    /// AtomicLoad ADD.
    Whole,
    /// Reads, writes, swaps, compares, AtomicStore and AtomicLoad of each operation, as often as one another.
    Every,
    /// The same.
    Mixed,
    /// The same, of 8 bytes.
    Words,
    /// Nine AtomicStore in ten, the others reads.
    Stores,
    /// Nine writes in ten, the others reads.
    Writes,
}

impl Kinds {
    /// Those of a hot granule that have this name.
    pub fn named(name: &str) -> Option<Kinds> {
        match name {
            "every" => Some(Kinds::Mixed),
            "words" => Some(Kinds::Words),
            "stores" => Some(Kinds::Stores),
            "writes" => Some(Kinds::Writes),
            _ => None,
        }
    }

    fn opcode(self, random: &mut Random) -> u64 {
        match self {
            Kinds::Whole => match random.below(100) {
                0..30 => READ,
                30..45 => SWAP,
                45..60 => COMPARE,
                60..70 => STORE,
                _ => LOAD,
            },
            Kinds::Stores if random.below(10) > 0 => STORE + random.below(8),
            Kinds::Writes if random.below(10) > 0 => WRITE,
            Kinds::Stores | Kinds::Writes => READ,
            Kinds::Every | Kinds::Mixed | Kinds::Words => match random.below(6) {
                0 => READ,
                1 => WRITE,
                2 => SWAP,
                3 => COMPARE,
                4 => STORE + random.below(8),
                _ => LOAD + random.below(8),
            },
        }
    }

    /// Eight bytes of a granule or of a packet.
    pub fn bytes(self, random: &mut Random) -> [u8; 8] {
        match self {
            Kinds::Whole => random.below(4).to_le_bytes(),
            Kinds::Every => std::array::from_fn(|_| match random.below(8) {
                0..4 => 0,
                4..6 => 1,
                6 => [0x7f, 0x80, 0xff][random.below(3) as usize],
                _ => random.next() as u8,
            }),
            _ => std::array::from_fn(|_| match random.below(8) {
                it @ 0..4 => [0, 1, 0x80, 0xff][it as usize],
                _ => random.next() as u8,
            }),
        }
    }

    /// A request to so many granules from address 0 on, which is not refused.
    pub fn request(self, random: &mut Random, granules: u64) -> Request {
        let op = self.opcode(random);
        let power = match self {
            Kinds::Whole | Kinds::Words => 3,
            _ => random.below(4),
        };
        let len = 1 << power;
        let addr = len * random.below(8 * granules / len);
        let lane = addr % 16;
        let window = ((1_u64 << len) - 1) << lane;
        let be = match op {
            READ => random.below(1 << 16),
            WRITE => window & random.below(1 << 16),
            COMPARE => ((1 << (2 * len)) - 1) << (lane - lane % (2 * len)),
            _ => window,
        };
        let mut lanes = [0; 16];
        lanes[..8].copy_from_slice(&self.bytes(random));
        lanes[8..].copy_from_slice(&self.bytes(random));
        Request {
            src: 0,
            txn: 0,
            opcode: op as u8,
            size: (power + u64::from(op == COMPARE)) as u8,
            addr,
            endian: self != Kinds::Whole && random.below(2) == 1,
            be: be as u16,
            lanes,
        }
    }
}
