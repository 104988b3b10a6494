//! Why the program ends early, and with which status.

use crate::script::ScriptFault;
use std::fmt;

#[derive(Debug)]
pub enum Fault {
    Read,
    TooLong,
    Script(ScriptFault),
    Write,
}

impl Fault {
    pub fn status(&self) -> u8 {
        match self {
            Fault::TooLong | Fault::Script(_) => 3,
            Fault::Read | Fault::Write => 5,
        }
    }
}

impl From<ScriptFault> for Fault {
    fn from(fault: ScriptFault) -> Fault {
        Fault::Script(fault)
    }
}

impl fmt::Display for Fault {
    fn fmt(&self, f: &mut fmt::Formatter<'_>) -> fmt::Result {
        match self {
            Fault::Read => write!(f, "input could not be read"),
            Fault::TooLong => write!(f, "script is over 4194304 bytes"),
            Fault::Script(fault) => write!(f, "{fault}"),
            Fault::Write => write!(f, "output could not be written"),
        }
    }
}
