//! Page calls: every page of both memories, with every length of both.

use std::io;

use super::right_memory;
use crate::cases::Case;
use crate::cases::wide::PageCall;
use crate::generate::MEMORY_LENGTHS;
use crate::sweep::{Sink, cut_or_lengthened, uneven_memory};
use crate::wide::Side;

/// Gives every page call of this sweep to the sink.
pub fn pages(sink: &mut Sink) -> io::Result<()> {
    for side in Side::ALL {
        for page in (0..=10).chain([0x80, 0xFF]) {
            for left_length in MEMORY_LENGTHS {
                for right_length in MEMORY_LENGTHS {
                    let memories = [
                        cut_or_lengthened(&uneven_memory(), left_length),
                        cut_or_lengthened(&right_memory(), right_length),
                    ];
                    sink(Case::PageCall(PageCall::new(side, memories, page)))?;
                }
            }
        }
    }
    Ok(())
}
