//! The four event calls of the wide terminal.

use crate::event::{Event, Stored, Taken, asked_at, meaning};
use crate::refusal::{Refusal, TAKEN};
use crate::wide::{Lent, Selection, leave_in_chips, lent_chips, obey_selected};

/// The answer of an event call on a pair of chips.
#[derive(Clone, Copy, PartialEq, Eq, Debug)]
pub struct WideAnswer {
    /// 0 for taken, else the refusal.
    pub number: u8,
    pub byte: u8,
    pub dummy: bool,
    /// What was stored in the left memory and in the right; not itself
    /// answered.
    pub stored: [Option<Stored>; 2],
}

/// The call of a single event on the chips that a byte selects. A refused
/// event leaves all four buffers untouched.
#[must_use]
pub fn call(pair: [Lent; 2], selection: u8, event: Event) -> WideAnswer {
    match call_or_refusal(pair, selection, event) {
        Ok(taken) => {
            // Only a read answers a byte, and only one chip can be read.
            let read = taken.iter().flatten().next();
            WideAnswer {
                number: TAKEN,
                byte: read.map_or(0, |taken| taken.byte),
                dummy: read.is_some_and(|taken| taken.dummy),
                stored: taken.map(|taken| taken.and_then(|taken| taken.stored)),
            }
        }
        Err(refusal) => WideAnswer {
            number: refusal.number(),
            byte: 0,
            dummy: false,
            stored: [None; 2],
        },
    }
}

fn call_or_refusal(
    pair: [Lent; 2],
    selection: u8,
    event: Event,
) -> Result<[Option<Taken>; 2], Refusal> {
    let (images, mut chips) = lent_chips(pair, |image| asked_at(event, image))?;
    let selection = Selection::from_byte(selection)?;
    let taken = obey_selected(&chips, selection, event, |registers, memory| {
        meaning(registers, memory, event)
    })?;
    leave_in_chips(taken, &mut chips);
    // The image of a chip not selected may be illegal, and stays.
    for (image, taken) in images.into_iter().zip(taken) {
        if let Some(taken) = taken {
            *image = taken.registers.image();
        }
    }
    Ok(taken)
}
