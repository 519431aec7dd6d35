//! Pairs of frames that are the same for every seed.

use std::io;

use crate::cases::{Case, Comparison};
use crate::compare::{self, FRAME_ENTRY};
use crate::frame::{self, FRAME_LENGTH, Frame};
use crate::generate::frame_pairs::ABOVE_1;
use crate::generate::{COMPARED_FRAME_LENGTHS, LONGEST_LIST, list_lengths};
use crate::memory::{COLUMNS, Memory, place};
use crate::registers::Registers;
use crate::sweep::{Sink, UNLIKE_POWER_ON, cut_or_lengthened, uneven_memory};

/// Gives every pair of frames of the sweep to the sink.
pub fn compared_frames(sink: &mut Sink) -> io::Result<()> {
    equal_pairs(sink)?;
    single_places(sink)?;
    over_the_ends_of_rows(sink)?;
    side_by_side(sink)?;
    rows_alike(sink)?;
    whole_frames(sink)?;
    bytes_above_1(sink)?;
    lengths(sink)?;
    refusals_together(sink)?;
    lists(sink)?;
    drawn_again(sink)
}

const DARK: Frame = [0; FRAME_LENGTH];

const LIT: Frame = [1; FRAME_LENGTH];

const LAST_PLACE: usize = FRAME_LENGTH - 1;

/// What the lists hold before begins with this.
const FILL: u8 = 0x3C;

/// Registers that show the whole memory.
const ALL_SHOWN: Registers = Registers {
    multiplex: 63,
    entire_on: false,
    reverse: false,
    ..UNLIKE_POWER_ON
};

/// Gives two frames and a list of this length to the sink.
fn compare_with(
    sink: &mut Sink,
    first: &[u8],
    second: &[u8],
    list_length: usize,
) -> io::Result<()> {
    sink(Case::ComparedFrames(Comparison::of_frames(
        first.to_vec(),
        second.to_vec(),
        list_length,
        FILL,
    )))
}

/// Gives two frames and a list of just the length they need to the sink.
fn compare(sink: &mut Sink, first: &[u8], second: &[u8]) -> io::Result<()> {
    let count = compare::frame_entries(first, second).map_or(0, |entries| entries.len());
    compare_with(sink, first, second, FRAME_ENTRY * count)
}

/// Two frames, one way and the other way round.
fn compare_both_ways(sink: &mut Sink, first: &[u8], second: &[u8]) -> io::Result<()> {
    compare(sink, first, second)?;
    compare(sink, second, first)
}

/// The frame of registers and memory.
fn drawn(registers: Registers, memory: &Memory) -> Frame {
    let mut frame = DARK;
    frame::draw(registers, memory, &mut frame);
    frame
}

/// A frame without a pattern that could hide a shift.
fn uneven_frame() -> Frame {
    drawn(ALL_SHOWN, &uneven_memory())
}

/// The frame with every dark place lit and every lit one dark.
fn turned(frame: &Frame) -> Frame {
    frame.map(|dot| 1 - dot)
}

/// The frame with these places lit, counted on from row to row.
fn lit_from_to(frame: &Frame, first: usize, last: usize) -> Frame {
    let mut changed = *frame;
    changed[first..=last].fill(1);
    changed
}

/// The frame with one byte put into it.
fn with_byte(frame: &Frame, place: usize, byte: u8) -> Frame {
    let mut changed = *frame;
    changed[place] = byte;
    changed
}

/// Frames that are alike, with no list and with one.
fn equal_pairs(sink: &mut Sink) -> io::Result<()> {
    for frame in [&DARK, &LIT, &uneven_frame()] {
        for list_length in [0, FRAME_ENTRY] {
            compare_with(sink, frame, frame, list_length)?;
        }
    }
    Ok(())
}

/// One differing place at and beside the edges of rows, either way.
fn single_places(sink: &mut Sink) -> io::Result<()> {
    for row in [0, 32, 64] {
        for column in [0, 1, 66, 130, 131] {
            let place = COLUMNS * row + column;
            compare_both_ways(sink, &DARK, &with_byte(&DARK, place, 1))?;
        }
    }
    let uneven = uneven_frame();
    for place in [0, COLUMNS - 1, COLUMNS, LAST_PLACE] {
        compare(sink, &uneven, &with_byte(&uneven, place, 1 - uneven[place]))?;
    }
    Ok(())
}

/// Stretches over the end of a row: each of its last places to each of the
/// next row's first ones, the same way and with the ways parted at the end.
fn over_the_ends_of_rows(sink: &mut Sink) -> io::Result<()> {
    for next_row in [1, 32, 64] {
        let end = COLUMNS * next_row;
        for first in end - 3..end {
            for last in end..end + 3 {
                compare(sink, &DARK, &lit_from_to(&DARK, first, last))?;
            }
        }
        compare(sink, &lit_from_to(&DARK, end - 1, end), &DARK)?;
        compare_both_ways(
            sink,
            &lit_from_to(&DARK, end - 2, end - 1),
            &lit_from_to(&DARK, end, end + 1),
        )?;
        // A whole row with a place of the row before or after it.
        compare(sink, &DARK, &lit_from_to(&DARK, end - COLUMNS, end))?;
        compare(
            sink,
            &LIT,
            &turned(&lit_from_to(&DARK, end - 1, end + COLUMNS - 1)),
        )?;
    }
    Ok(())
}

/// Runs of both ways with nothing between them, and runs parted by one place.
fn side_by_side(sink: &mut Sink) -> io::Result<()> {
    // Where the row's run of one way begins, where the other way begins, and
    // where that ends.
    for (row, begin, change, end) in [
        (0, 0, 1, 2),
        (0, 0, 66, 132),
        (31, 0, 131, 132),
        (32, 0, 1, 132),
        (33, 60, 63, 70),
        (63, 129, 130, 132),
        (64, 0, 2, 3),
        (64, 130, 131, 132),
    ] {
        let row = COLUMNS * row;
        let first = lit_from_to(&DARK, row + begin, row + change - 1);
        let second = lit_from_to(&DARK, row + change, row + end - 1);
        compare_both_ways(sink, &first, &second)?;
    }
    let parted = lit_from_to(&lit_from_to(&DARK, 132, 140), 142, 263);
    compare_both_ways(sink, &DARK, &parted)?;
    // Parted by a place that is lit in both, and the ways not the same.
    compare_both_ways(
        sink,
        &lit_from_to(&DARK, 132, 140),
        &lit_from_to(&DARK, 140, 150),
    )?;
    // Three side by side.
    compare_both_ways(
        sink,
        &lit_from_to(&DARK, 5, 7),
        &lit_from_to(&lit_from_to(&DARK, 2, 4), 8, 8),
    )
}

/// The same runs in rows below one another, and rows of the same content.
fn rows_alike(sink: &mut Sink) -> io::Result<()> {
    let block = |top: usize, bottom: usize, left: usize, right: usize| {
        (top..=bottom).fold(DARK, |frame, row| {
            lit_from_to(&frame, COLUMNS * row + left, COLUMNS * row + right)
        })
    };
    for (top, bottom, left, right) in [
        (0, 1, 40, 44),
        (62, 64, 0, 0),
        (10, 12, 131, 131),
        (0, 64, 7, 124),
    ] {
        compare_both_ways(sink, &DARK, &block(top, bottom, left, right))?;
    }
    let uneven = uneven_frame();
    let first_row = &uneven[..COLUMNS];
    compare(sink, &first_row.repeat(65), &turned(&uneven))?;
    compare(sink, &first_row.repeat(65), &LIT)
}

/// Frames that differ all over: as few runs as can be, and as many.
fn whole_frames(sink: &mut Sink) -> io::Result<()> {
    compare_both_ways(sink, &DARK, &LIT)?;
    let uneven = uneven_frame();
    compare_both_ways(sink, &uneven, &turned(&uneven))?;
    compare_both_ways(sink, &uneven, &DARK)?;
    let stripes: Frame = std::array::from_fn(|place| u8::from(place % 2 == 1));
    let squares: Frame = std::array::from_fn(|place| u8::from((place + place / COLUMNS) % 2 == 1));
    let pairs: Frame = std::array::from_fn(|place| u8::from(place / 2 % 2 == 1));
    for frame in [&stripes, &squares, &pairs] {
        compare_both_ways(sink, frame, &turned(frame))?;
        compare_both_ways(sink, frame, &DARK)?;
    }
    compare_both_ways(sink, &stripes, &squares)
}

/// Bytes above 1 at both ends and in the middle of either frame and of both,
/// with lists of several lengths; and just past the frame, where they are
/// allowed.
fn bytes_above_1(sink: &mut Sink) -> io::Result<()> {
    let uneven = uneven_frame();
    for (index, byte) in ABOVE_1.into_iter().enumerate() {
        for place in [0, FRAME_LENGTH / 2, LAST_PLACE] {
            let wrong = with_byte(&uneven, place, byte);
            let list_length = [0, FRAME_ENTRY, 42_900, LONGEST_LIST][index];
            compare_with(sink, &wrong, &uneven, list_length)?;
            compare_with(sink, &uneven, &wrong, list_length)?;
            compare_with(sink, &wrong, &wrong, list_length)?;
        }
        let mut longer = uneven.to_vec();
        longer.push(byte);
        compare(sink, &longer, &uneven)?;
        compare(sink, &uneven, &longer)?;
        compare(sink, &longer, &longer)?;
    }
    Ok(())
}

/// Each length of the first frame with each of the second.
fn lengths(sink: &mut Sink) -> io::Result<()> {
    let first = uneven_frame();
    let second = with_byte(&first, 77, 1 - first[77]);
    for first_length in COMPARED_FRAME_LENGTHS {
        for second_length in COMPARED_FRAME_LENGTHS {
            compare_with(
                sink,
                &cut_or_lengthened(&first, first_length),
                &cut_or_lengthened(&second, second_length),
                FRAME_ENTRY,
            )?;
        }
    }
    Ok(())
}

/// Every mixture of short frames, bytes above 1 and a list too small.
fn refusals_together(sink: &mut Sink) -> io::Result<()> {
    let good = uneven_frame();
    let different = with_byte(&good, 77, 1 - good[77]);
    let needed = FRAME_LENGTH;
    for (first_length, second_length) in [
        (needed - 1, needed),
        (needed, needed - 1),
        (needed - 1, needed - 1),
        (needed, needed),
    ] {
        for (wrong_first, wrong_second) in [(0, 0), (2, 0), (0, 2), (255, 255)] {
            let spoiled = |frame: &Frame, byte: u8, length: usize| {
                let byte = if byte == 0 { frame[1] } else { byte };
                cut_or_lengthened(&with_byte(frame, 1, byte), length)
            };
            for list_length in [0, FRAME_ENTRY - 1, FRAME_ENTRY] {
                compare_with(
                    sink,
                    &spoiled(&good, wrong_first, first_length),
                    &spoiled(&different, wrong_second, second_length),
                    list_length,
                )?;
            }
        }
    }
    Ok(())
}

/// Lists around the length needed, for few entries and for many.
fn lists(sink: &mut Sink) -> io::Result<()> {
    let uneven = uneven_frame();
    let stripes: Frame = std::array::from_fn(|place| u8::from(place % 2 == 1));
    for (first, second) in [
        (&DARK, &with_byte(&DARK, LAST_PLACE, 1)),
        (&DARK, &LIT),
        (&uneven, &turned(&uneven)),
        (&stripes, &turned(&stripes)),
    ] {
        let count = compare::frame_entries(first, second).map_or(0, |entries| entries.len());
        for list_length in list_lengths(FRAME_ENTRY, count) {
            compare_with(sink, first, second, list_length)?;
        }
    }
    Ok(())
}

/// A picture, and the picture after one register or one memory bit changed.
fn drawn_again(sink: &mut Sink) -> io::Result<()> {
    let memory = uneven_memory();
    let base = ALL_SHOWN;
    let picture = drawn(base, &memory);
    let mut against = |changed: Registers| compare(sink, &picture, &drawn(changed, &memory));
    against(Registers {
        start_line: base.start_line + 1,
        ..base
    })?;
    against(Registers {
        offset: base.offset + 1,
        ..base
    })?;
    against(Registers {
        multiplex: 15,
        ..base
    })?;
    against(Registers {
        columns_reversed: !base.columns_reversed,
        ..base
    })?;
    against(Registers {
        rows_reversed: !base.rows_reversed,
        ..base
    })?;
    against(Registers {
        entire_on: true,
        ..base
    })?;
    against(Registers {
        reverse: true,
        ..base
    })?;
    against(Registers {
        display_on: false,
        ..base
    })?;
    for (page, column, bit) in [(0, 0, 0), (3, 66, 4), (7, 131, 7), (8, 0, 0), (8, 131, 0)] {
        let mut changed = memory;
        changed[place(page, column)] ^= 1 << bit;
        compare(sink, &picture, &drawn(base, &changed))?;
    }
    Ok(())
}
