//! The wide frame: each row the left chip's and then the right's.

use crate::event::{asked, lent_to_read};
use crate::frame::{self, FRAME_LENGTH};
use crate::memory::{COLUMNS, Memory};
use crate::refusal::{Refusal, TAKEN};
use crate::registers::Registers;
use crate::wide::Side;

/// Dots across both chips.
pub const WIDE_COLUMNS: usize = 264;

/// Bytes of a wide frame.
pub const WIDE_FRAME_LENGTH: usize = 17_160;

/// A lent state and a lent memory that are only read.
pub type LentToRead<'a> = (&'a [u8], &'a [u8]);

/// The whole frame of two chips with legal registers: 0 dark, 1 lit.
#[must_use]
pub fn drawn(registers: [Registers; 2], memories: [&Memory; 2]) -> Vec<u8> {
    let [left, right] = Side::ALL.map(|side| {
        let mut half = [0; FRAME_LENGTH];
        frame::draw(registers[side.index()], memories[side.index()], &mut half);
        half
    });
    let rows = left.chunks_exact(COLUMNS).zip(right.chunks_exact(COLUMNS));
    rows.flat_map(|(left, right)| [left, right].concat())
        .collect()
}

/// The call of drawing both chips on a lent frame: 0, 1 or 2. A refused
/// drawing writes nothing.
pub fn call(pair: [LentToRead; 2], frame: &mut [u8]) -> u8 {
    match call_or_refusal(pair, frame) {
        Ok(()) => TAKEN,
        Err(refusal) => refusal.number(),
    }
}

fn call_or_refusal([left, right]: [LentToRead; 2], frame: &mut [u8]) -> Result<(), Refusal> {
    let (left_image, left_memory) = lent_to_read(left.0, left.1)?;
    let (right_image, right_memory) = lent_to_read(right.0, right.1)?;
    let frame = frame
        .get_mut(..WIDE_FRAME_LENGTH)
        .ok_or(Refusal::LentTooShort)?;
    let registers = [asked(left_image)?, asked(right_image)?];
    frame.copy_from_slice(&drawn(registers, [left_memory, right_memory]));
    Ok(())
}
