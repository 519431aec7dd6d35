//! Drawings and listings that are the same for every seed: the band of every
//! M in the middle and at the edges of the panel.

use std::io;

use crate::cases::{Case, Draw, Listing};
use crate::frame::{DOT_ROWS, FRAME_LENGTH, rows_above_band};
use crate::memory::{ICON_PAGE, MEMORY_LENGTH};
use crate::random::Random;
use crate::registers::Registers;
use crate::start::Start;
use crate::sweep::records::{numbered_rows, push_record};
use crate::sweep::{FLAGS, Sink, UNLIKE_POWER_ON};

/// How many places a band is drawn at.
const PLACES: usize = 6;

/// The panel rows at which a band begins that is in the middle, one row below
/// it, at the top, at the bottom, and over the edge with one row at the bottom
/// or one at the top.
fn first_rows(rows_in_use: usize, middle: usize) -> [usize; PLACES] {
    [
        middle,
        middle + 1,
        0,
        DOT_ROWS - rows_in_use,
        DOT_ROWS - 1,
        DOT_ROWS + 1 - rows_in_use,
    ]
}

/// Registers that show the band of this multiplex at one of its places; what
/// does not move it is drawn by lot.
fn showing(random: &mut Random, multiplex: u8, place: usize) -> Registers {
    let registers = Registers {
        multiplex,
        start_line: random.up_to(63),
        columns_reversed: random.flag(),
        entire_on: random.one_in(4),
        reverse: random.flag(),
        display_on: true,
        ..UNLIKE_POWER_ON
    };
    let middle = rows_above_band(registers);
    let first_row = first_rows(usize::from(registers.rows_in_use()), middle)[place];
    let offset = (DOT_ROWS + middle - first_row) % DOT_ROWS;
    Registers {
        offset: u8::try_from(offset).expect("below 64"),
        ..registers
    }
}

/// The band of every M at each of its places, the row directions in turn.
pub fn drawings(sink: &mut Sink) -> io::Result<()> {
    let mut random = Random::new(0, 8);
    let mut memory = vec![0; MEMORY_LENGTH];
    random.fill(&mut memory);
    for multiplex in 0..=63 {
        for place in 0..PLACES {
            let registers = Registers {
                rows_reversed: (usize::from(multiplex / 2) + place) % 2 == 1,
                ..showing(&mut random, multiplex, place)
            };
            sink(Case::Draw(Draw::new(
                registers.image().to_vec(),
                memory.clone(),
                FRAME_LENGTH,
                random.byte(),
            )))?;
        }
    }
    Ok(())
}

/// The band of every M in both row directions, at one of its places.
pub fn listings(sink: &mut Sink) -> io::Result<()> {
    let mut random = Random::new(0, 9);
    for rows_reversed in FLAGS {
        for multiplex in 0..=63 {
            let registers = Registers {
                rows_reversed,
                ..showing(&mut random, multiplex, usize::from(multiplex) % PLACES)
            };
            sink(Case::Listing(Listing::new(
                Start::Upright,
                trace_to(registers),
            )))?;
        }
    }
    Ok(())
}

/// A trace that writes the number of each RAM row into it and then brings
/// about these settings.
fn trace_to(registers: Registers) -> Vec<u8> {
    let mut trace = numbered_rows(0..=ICON_PAGE);
    let settings = [
        0xAE | u8::from(registers.display_on),
        0x40 | registers.start_line,
        0xA0 | u8::from(registers.columns_reversed),
        0xA4 | u8::from(registers.entire_on),
        0xA6 | u8::from(registers.reverse),
        if registers.rows_reversed { 0xC8 } else { 0xC0 },
        0xA8,
        registers.multiplex,
        0xD3,
        registers.offset,
    ];
    push_record(&mut trace, 1, &settings);
    trace
}
