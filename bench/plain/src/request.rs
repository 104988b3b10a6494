//! What a requester sends, and what its opcode asks for.

/// A request with its data packet.
#[derive(Clone, Copy, Debug)]
pub struct Request {
    pub src: u8,
    pub txn: u8,
    pub opcode: u8,
    pub size: u8,
    pub addr: u64,
    /// Whether the data are big-endian.
    pub endian: bool,
    pub be: u16,
    pub lanes: [u8; 16],
}

/// What an atomic makes of the old bytes and the sent ones.
#[derive(Clone, Copy, Debug, PartialEq, Eq)]
pub enum Op {
    Add,
    Clr,
    Eor,
    Set,
    SMax,
    SMin,
    UMax,
    UMin,
}

/// The kind of a request.
#[derive(Clone, Copy, Debug, PartialEq, Eq)]
pub enum Kind {
    Read,
    Write,
    Store(Op),
    Load(Op),
    Swap,
    Compare,
}

const OPS: [Op; 8] = [
    Op::Add,
    Op::Clr,
    Op::Eor,
    Op::Set,
    Op::SMax,
    Op::SMin,
    Op::UMax,
    Op::UMin,
];

impl Kind {
    /// The kind that an opcode names.
    pub fn of(opcode: u8) -> Option<Kind> {
        match opcode {
            0x04 => Some(Kind::Read),
            0x1c => Some(Kind::Write),
            0x28..=0x2f => Some(Kind::Store(OPS[usize::from(opcode - 0x28)])),
            0x30..=0x37 => Some(Kind::Load(OPS[usize::from(opcode - 0x30)])),
            0x38 => Some(Kind::Swap),
            0x39 => Some(Kind::Compare),
            _ => None,
        }
    }
}

/// The name of an opcode in a transcript.
pub fn opcode_name(opcode: u8) -> &'static str {
    match opcode {
        0x04 => "ReadNoSnp",
        0x1c => "WriteNoSnpPtl",
        0x28 => "AtomicStore.ADD",
        0x29 => "AtomicStore.CLR",
        0x2a => "AtomicStore.EOR",
        0x2b => "AtomicStore.SET",
        0x2c => "AtomicStore.SMAX",
        0x2d => "AtomicStore.SMIN",
        0x2e => "AtomicStore.UMAX",
        0x2f => "AtomicStore.UMIN",
        0x30 => "AtomicLoad.ADD",
        0x31 => "AtomicLoad.CLR",
        0x32 => "AtomicLoad.EOR",
        0x33 => "AtomicLoad.SET",
        0x34 => "AtomicLoad.SMAX",
        0x35 => "AtomicLoad.SMIN",
        0x36 => "AtomicLoad.UMAX",
        0x37 => "AtomicLoad.UMIN",
        0x38 => "AtomicSwap",
        0x39 => "AtomicCompare",
        _ => "Unknown",
    }
}
