//! Random events, chosen with an eye on the registers they meet.

use crate::command::TEST_MODE;
use crate::event::Event;
use crate::memory::LAST_COLUMN;
use crate::random::Random;
use crate::registers::{Awaited, Registers};

/// An event for registers, or for an illegal image.
#[must_use]
pub fn event(random: &mut Random, registers: Option<Registers>) -> Event {
    let Some(registers) = registers else {
        return match random.below(4) {
            0 => Event::Command(random.byte()),
            1 => Event::Write(random.byte()),
            2 => Event::Read,
            _ => Event::Reset,
        };
    };
    if random.one_in(150) {
        return Event::Reset;
    }
    if registers.awaited.is_some() {
        return match random.below(10) {
            0 => Event::Write(random.byte()),
            1 => Event::Read,
            _ => Event::Command(command_byte(random, registers)),
        };
    }
    if !registers.fresh && random.flag() {
        return Event::Read;
    }
    match random.below(10) {
        0..=4 => Event::Command(command_byte(random, registers)),
        5..=7 => Event::Write(random.byte()),
        _ => Event::Read,
    }
}

/// A command byte for registers: n if a code is awaited.
#[must_use]
pub fn command_byte(random: &mut Random, registers: Registers) -> u8 {
    match registers.awaited {
        Some(code) => n(random, code),
        None => first_byte(random, registers),
    }
}

/// An n; half of the time one that is allowed.
fn n(random: &mut Random, code: Awaited) -> u8 {
    match (code, random.flag()) {
        (Awaited::Offset, true) => random.up_to(0x3F),
        (Awaited::FramePhases, true) => random.pick(&[0x00, 0x10, 0x20, 0x30]),
        _ => random.byte(),
    }
}

/// A command byte with no code awaited.
fn first_byte(random: &mut Random, registers: Registers) -> u8 {
    if registers.column > LAST_COLUMN && random.one_in(3) {
        // Brings the column back to where data can go.
        return 0x10 | random.up_to(7);
    }
    if random.one_in(24) {
        return test_mode_byte(random);
    }
    match random.below(16) {
        0 | 1 => random.byte(),
        2 => random.up_to(0x0F),
        3 => 0x10 | random.up_to(8),
        4 => 0xA0 | random.up_to(0x0F),
        5 => 0x40 | random.up_to(0x3F),
        6 => random.pick(&Awaited::ALL).code(),
        7 | 8 => 0xB0 + random.up_to(8),
        9 => 0xC0 | random.up_to(0x0F),
        10 | 11 => 0xE0,
        12 | 13 => 0xEE,
        14 => random.pick(&[0xE2, 0xE3, 0xE3, 0xE3]),
        _ => to_the_last_column(random, registers),
    }
}

/// A byte that would put a real chip in test mode.
pub fn test_mode_byte(random: &mut Random) -> u8 {
    TEST_MODE.start() + random.up_to(TEST_MODE.end() - TEST_MODE.start())
}

/// A step towards column 131, so that the column wraps soon.
fn to_the_last_column(random: &mut Random, registers: Registers) -> u8 {
    if registers.column & 0xF0 == 0x80 {
        random.up_to(3)
    } else {
        0x18
    }
}
