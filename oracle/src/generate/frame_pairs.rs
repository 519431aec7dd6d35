//! Random pairs of frames, from alike to wholly different.

use crate::frame::{self, FRAME_LENGTH, FRAME_ROWS, Frame};
use crate::generate::{memories, states};
use crate::memory::{COLUMNS, Memory};
use crate::random::Random;
use crate::registers::Registers;

/// Bytes no frame has, at the ends of their range and where a signed byte or
/// a low bit would deceive.
pub const ABOVE_1: [u8; 4] = [2, 3, 128, 255];

/// Two frames of dark and lit places.
#[must_use]
pub fn pair(random: &mut Random) -> (Frame, Frame) {
    if random.one_in(4) {
        return drawn_again(random);
    }
    let first = frame(random);
    let mut second = first;
    match random.below(12) {
        0 => {}
        1 | 2 => turn(&mut second, place(random)),
        3 | 4 => {
            for _ in 0..random.between(2, 12) {
                turn(&mut second, place(random));
            }
        }
        5 => turn_stretch(random, &mut second),
        6 => set_stretch(random, &mut second),
        7 => turn_block(random, &mut second),
        8 => turn_some(random, &mut second),
        9 => second = frame(random),
        10 => second.iter_mut().for_each(|dot| *dot = 1 - *dot),
        _ => return alternating(random),
    }
    (first, second)
}

/// Puts bytes above 1 into one frame or both.
pub fn spoil(random: &mut Random, first: &mut Frame, second: &mut Frame) {
    let place = match random.below(4) {
        0 => 0,
        1 => FRAME_LENGTH - 1,
        _ => random.below(FRAME_LENGTH),
    };
    let byte = if random.one_in(4) {
        u8::try_from(random.between(2, 255)).expect("at most 255")
    } else {
        random.pick(&ABOVE_1)
    };
    match random.below(5) {
        0 | 1 => first[place] = byte,
        2 | 3 => second[place] = byte,
        _ => {
            first[place] = byte;
            second[place] = byte;
        }
    }
}

/// A frame: even, drawn, of some density, or striped.
fn frame(random: &mut Random) -> Frame {
    match random.below(6) {
        0 => [0; FRAME_LENGTH],
        1 => [1; FRAME_LENGTH],
        2 | 3 => drawn(states::drawn_registers(random), &memories::memory(random)),
        4 => {
            let mut frame = [0; FRAME_LENGTH];
            turn_some(random, &mut frame);
            frame
        }
        _ => striped(random.between(1, 140)),
    }
}

/// The frame of registers and memory.
fn drawn(registers: Registers, memory: &Memory) -> Frame {
    let mut frame = [0; FRAME_LENGTH];
    frame::draw(registers, memory, &mut frame);
    frame
}

/// A frame whose places change from dark to lit and back after so many.
fn striped(width: usize) -> Frame {
    std::array::from_fn(|place| u8::from(place / width % 2 == 1))
}

/// A picture, and the picture after one memory bit or one register has
/// changed.
fn drawn_again(random: &mut Random) -> (Frame, Frame) {
    let registers = states::drawn_registers(random);
    let memory = memories::memory(random);
    let mut other_registers = registers;
    let mut other_memory = memory;
    if random.flag() {
        let byte = random.below(memory.len());
        other_memory[byte] ^= 1 << random.below(8);
    } else {
        other_registers = one_register_changed(random, registers);
    }
    (
        drawn(registers, &memory),
        drawn(other_registers, &other_memory),
    )
}

/// Registers with another value in one of those that drawing asks.
fn one_register_changed(random: &mut Random, registers: Registers) -> Registers {
    let mut changed = registers;
    match random.below(8) {
        0 => changed.start_line = random.up_to(63),
        1 => changed.offset = random.up_to(63),
        2 => changed.multiplex = random.up_to(63),
        3 => changed.columns_reversed ^= true,
        4 => changed.rows_reversed ^= true,
        5 => changed.entire_on ^= true,
        6 => changed.reverse ^= true,
        _ => changed.display_on ^= true,
    }
    changed
}

/// As many runs as there can be: each place differs, and not as the one
/// beside it.
fn alternating(random: &mut Random) -> (Frame, Frame) {
    let shift = random.below(2);
    let first: Frame = if random.flag() {
        std::array::from_fn(|place| u8::from((place + shift).is_multiple_of(2)))
    } else {
        // Turned round from row to row, so that a row's end and the next
        // row's beginning differ in the same way.
        std::array::from_fn(|place| u8::from((place + place / COLUMNS + shift).is_multiple_of(2)))
    };
    (first, first.map(|dot| 1 - dot))
}

/// A place, often at the edge of a row or of the frame.
fn place(random: &mut Random) -> usize {
    let row = if random.flag() {
        random.pick(&[0, 1, 31, 32, 63, 64])
    } else {
        random.below(FRAME_ROWS)
    };
    let column = if random.flag() {
        random.pick(&[0, 1, 130, 131])
    } else {
        random.below(COLUMNS)
    };
    COLUMNS * row + column
}

/// Makes a dark place lit, a lit one dark.
fn turn(frame: &mut Frame, place: usize) {
    frame[place] = 1 - frame[place];
}

/// Places one after the other, rows joined: often over a row's end.
fn stretch<'a>(random: &mut Random, frame: &'a mut Frame) -> &'a mut [u8] {
    let first = place(random);
    let length = random.between(1, 3 * COLUMNS);
    let end = FRAME_LENGTH.min(first + length);
    &mut frame[first..end]
}

/// Turns every place of a stretch.
fn turn_stretch(random: &mut Random, frame: &mut Frame) {
    for dot in stretch(random, frame) {
        *dot = 1 - *dot;
    }
}

/// Makes every place of a stretch dark, or lit.
fn set_stretch(random: &mut Random, frame: &mut Frame) {
    let dot = u8::from(random.flag());
    stretch(random, frame).fill(dot);
}

/// Turns the same columns of some rows.
fn turn_block(random: &mut Random, frame: &mut Frame) {
    let top = random.below(FRAME_ROWS);
    let bottom = random.between(top, FRAME_ROWS - 1);
    let left = random.below(COLUMNS);
    let right = random.between(left, COLUMNS - 1);
    for row in top..=bottom {
        for column in left..=right {
            turn(frame, COLUMNS * row + column);
        }
    }
}

/// Turns some places all over the frame, from a few to nearly all.
fn turn_some(random: &mut Random, frame: &mut Frame) {
    let in_256 = random.pick(&[1, 4, 16, 64, 128, 192, 252]);
    for place in 0..FRAME_LENGTH {
        if random.below(256) < in_256 {
            turn(frame, place);
        }
    }
}
