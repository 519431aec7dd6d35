//! The starts: what the registers and the memory hold before the first event,
//! and the call that puts it there.

use crate::event::lent;
use crate::memory::{MEMORY_LENGTH, Memory};
use crate::refusal::TAKEN;
use crate::registers::Registers;

/// Where the listing program and the start call begin.
#[derive(Clone, Copy, PartialEq, Eq, Debug)]
pub enum Start {
    /// Order 3's, taken unless another is named.
    UpsideDown,
    /// The old one, document 01's.
    Upright,
}

/// The memory of every start.
pub const ZERO_MEMORY: Memory = [0; MEMORY_LENGTH];

impl Start {
    /// Every start there is.
    pub const ALL: [Start; 2] = [Start::UpsideDown, Start::Upright];

    /// The registers of this start. The reset pin knows no other than
    /// power-on's.
    #[must_use]
    pub const fn registers(self) -> Registers {
        match self {
            Start::UpsideDown => Registers {
                columns_reversed: true,
                rows_reversed: true,
                ..Registers::POWER_ON
            },
            Start::Upright => Registers::POWER_ON,
        }
    }

    /// The start that is not this one.
    #[must_use]
    pub const fn other(self) -> Start {
        match self {
            Start::UpsideDown => Start::Upright,
            Start::Upright => Start::UpsideDown,
        }
    }

    /// The start in words.
    #[must_use]
    pub const fn name(self) -> &'static str {
        match self {
            Start::UpsideDown => "upside down",
            Start::Upright => "upright",
        }
    }
}

/// The start call on lent state and memory, whatever they held. Refused, it
/// leaves both untouched.
pub fn call(start: Start, state: &mut [u8], memory: &mut [u8]) -> u8 {
    match lent(state, memory) {
        Ok((image, memory)) => {
            *image = start.registers().image();
            *memory = ZERO_MEMORY;
            TAKEN
        }
        Err(refusal) => refusal.number(),
    }
}
