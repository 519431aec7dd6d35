//! What a command byte does to the registers.

use std::ops::RangeInclusive;

use crate::refusal::Refusal;
use crate::registers::{Awaited, Registers};

/// The bytes that would put a real chip in test mode, where no code is awaited.
pub const TEST_MODE: RangeInclusive<u8> = 0xF0..=0xFF;

const FIRST_TEST_MODE: u8 = *TEST_MODE.start();
const LAST_TEST_MODE: u8 = *TEST_MODE.end();

/// The registers after a command byte. A byte taken sets fresh; a byte
/// refused leaves the caller with the registers it had.
///
/// # Errors
/// 5 for an n not allowed while D3 or D4 is awaited; with no code awaited,
/// 4 for B9-BF, 15 for F0-FF and 3 for any other byte outside the table.
pub fn take(registers: Registers, byte: u8) -> Result<Registers, Refusal> {
    let later = match registers.awaited {
        Some(code) => take_n(registers, code, byte)?,
        None => take_first(registers, byte)?,
    };
    Ok(Registers {
        fresh: true,
        ..later
    })
}

/// The effect of n, the command byte after an awaited code.
fn take_n(registers: Registers, code: Awaited, n: u8) -> Result<Registers, Refusal> {
    let mut later = registers;
    match code {
        Awaited::Contrast => later.contrast = n % 64,
        Awaited::Multiplex => later.multiplex = n % 64,
        Awaited::ByteOfA9 => later.byte_of_a9 = n,
        Awaited::Indicator => {
            later.indicator_on = true;
            later.indicator_mode = n % 4;
        }
        Awaited::Offset => match n {
            0x00..=0x3F => later.offset = n,
            _ => return Err(Refusal::NNotAllowed),
        },
        Awaited::FramePhases => match n {
            0x00 | 0x10 | 0x20 | 0x30 => later.frame_phases = n / 16,
            _ => return Err(Refusal::NNotAllowed),
        },
    }
    later.awaited = None;
    Ok(later)
}

/// The effect of a command byte with no code awaited.
fn take_first(registers: Registers, byte: u8) -> Result<Registers, Refusal> {
    let mut later = registers;
    let lowest_bit = byte & 1 == 1;
    match byte {
        0x00..=0x0F => later.column = (registers.column & 0xF0) | byte,
        0x10..=0x1F => later.column = (registers.column & 0x0F) | ((byte & 0x0F) << 4),
        0x20..=0x27 => later.resistor_ratio = byte & 0x07,
        0x28..=0x2F => later.power_control = byte & 0x07,
        0x40..=0x7F => later.start_line = byte & 0x3F,
        0x81 => later.awaited = Some(Awaited::Contrast),
        0xA0..=0xA1 => later.columns_reversed = lowest_bit,
        0xA2..=0xA3 => later.bias = lowest_bit,
        0xA4..=0xA5 => later.entire_on = lowest_bit,
        0xA6..=0xA7 => later.reverse = lowest_bit,
        0xA8 => later.awaited = Some(Awaited::Multiplex),
        0xA9 => later.awaited = Some(Awaited::ByteOfA9),
        0xAA..=0xAB => later.quarter_bias = lowest_bit,
        0xAC => {
            later.indicator_on = false;
            later.indicator_mode = 0;
        }
        0xAD => later.awaited = Some(Awaited::Indicator),
        0xAE..=0xAF => later.display_on = lowest_bit,
        0xB0..=0xB8 => later.page = byte & 0x0F,
        0xB9..=0xBF => return Err(Refusal::NoSuchPage),
        0xC0..=0xC7 => later.rows_reversed = false,
        0xC8..=0xCF => later.rows_reversed = true,
        0xD3 => later.awaited = Some(Awaited::Offset),
        0xD4 => later.awaited = Some(Awaited::FramePhases),
        0xE0 => {
            if registers.read_modify_write.is_none() {
                later.read_modify_write = Some(registers.column);
            }
        }
        0xE2 => later = software_reset(registers),
        0xE3 => {}
        0xEE => {
            if let Some(saved_column) = registers.read_modify_write {
                later.column = saved_column;
                later.read_modify_write = None;
            }
        }
        0x30..=0x3F
        | 0x80
        | 0x82..=0x9F
        | 0xD0..=0xD2
        | 0xD5..=0xDF
        | 0xE1
        | 0xE4..=0xED
        | 0xEF => return Err(Refusal::OutsideTheTable),
        FIRST_TEST_MODE..=LAST_TEST_MODE => return Err(Refusal::TestMode),
    }
    Ok(later)
}

/// E2: the registers it names go to their given values, the rest stays.
fn software_reset(registers: Registers) -> Registers {
    Registers {
        page: 0,
        column: 0,
        start_line: 0,
        rows_reversed: false,
        resistor_ratio: 4,
        contrast: 32,
        indicator_on: false,
        indicator_mode: 0,
        read_modify_write: None,
        ..registers
    }
}
