//! Wide drawings: each half with its own registers, and every length.

use std::io;

use super::{LEFT, RIGHT, cut_pair, legal_or_not, lengths, pair_of, pair_with};
use crate::cases::Case;
use crate::cases::wide::{Pair, WideDraw};
use crate::generate::wide::WIDE_FRAME_LENGTHS;
use crate::memory::MEMORY_LENGTH;
use crate::registers::{IMAGE_LENGTH, Registers};
use crate::sweep::Sink;
use crate::wide::frame::WIDE_FRAME_LENGTH;

/// Gives every drawing of this sweep to the sink.
pub fn drawings(sink: &mut Sink) -> io::Result<()> {
    let mut give = |pair: Pair, frame_length: usize| {
        sink(Case::WideDraw(WideDraw::new(pair, frame_length, 0x5D)))
    };
    for change in [light, directions, rows] {
        for left in 0..8 {
            for right in 0..8 {
                let pair = pair_with([change(LEFT, left), change(RIGHT, right)]);
                give(pair, WIDE_FRAME_LENGTH)?;
            }
        }
    }
    for lengths in lengths() {
        for images in legal_or_not().into_iter().skip(lengths[0] % 2 * 2) {
            give(cut_pair(pair_of(images), lengths), WIDE_FRAME_LENGTH)?;
        }
    }
    frame_lengths(&mut give)
}

/// One of the eight lights.
fn light(registers: Registers, number: u8) -> Registers {
    Registers {
        display_on: number & 1 == 1,
        entire_on: number & 2 == 2,
        reverse: number & 4 == 4,
        ..registers
    }
}

/// One of the four directions, reversed or not, display on.
fn directions(registers: Registers, number: u8) -> Registers {
    Registers {
        columns_reversed: number & 1 == 1,
        rows_reversed: number & 2 == 2,
        reverse: number & 4 == 4,
        entire_on: false,
        display_on: true,
        ..registers
    }
}

/// One of eight numbers of rows in use and offsets, display on.
fn rows(registers: Registers, number: u8) -> Registers {
    Registers {
        multiplex: [0, 1, 15, 16, 40, 61, 62, 63][usize::from(number)],
        offset: 9 * number,
        entire_on: false,
        display_on: true,
        ..registers
    }
}

/// Frames of every length, with no other buffer too short, with one of them,
/// and with illegal images.
fn frame_lengths(give: &mut dyn FnMut(Pair, usize) -> io::Result<()>) -> io::Result<()> {
    let exact = [IMAGE_LENGTH, MEMORY_LENGTH, IMAGE_LENGTH, MEMORY_LENGTH];
    for frame_length in WIDE_FRAME_LENGTHS {
        for images in legal_or_not() {
            give(pair_of(images), frame_length)?;
            for buffer in 0..exact.len() {
                let mut lengths = exact;
                lengths[buffer] -= 1;
                give(cut_pair(pair_of(images), lengths), frame_length)?;
            }
        }
    }
    Ok(())
}
