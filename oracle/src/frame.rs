//! The frame on the glass: which bit shows where.

use crate::event::{asked, lent_to_read};
use crate::memory::{self, COLUMNS, Memory};
use crate::refusal::{Refusal, TAKEN};
use crate::registers::Registers;

/// Panel rows of dots.
pub const DOT_ROWS: usize = 64;

/// Rows of the frame: the dot rows, then the icon line.
pub const FRAME_ROWS: usize = 65;

/// Bytes of a frame.
pub const FRAME_LENGTH: usize = 8580;

/// A frame: 0 dark, 1 lit.
pub type Frame = [u8; FRAME_LENGTH];

/// A row of dots on the glass, 0 to 63 from the top.
#[derive(Clone, Copy, PartialEq, Eq, Debug)]
pub struct PanelRow(pub usize);

/// A COM number, 0 to 63.
#[derive(Clone, Copy, PartialEq, Eq, Debug)]
pub struct Com(pub usize);

/// A row of the display memory, 0 to 63, and 64 for the icons.
#[derive(Clone, Copy, PartialEq, Eq, Debug)]
pub struct RamRow(pub usize);

/// The RAM row of the icons.
pub const ICON_ROW: RamRow = RamRow(64);

/// The dark rows above the band of the rows in use while the offset is 0:
/// Order 2's t.
#[must_use]
pub fn rows_above_band(registers: Registers) -> usize {
    (DOT_ROWS - usize::from(registers.rows_in_use())) / 2
}

/// The COM a panel row belongs to.
#[must_use]
pub fn com_of(registers: Registers, panel_row: PanelRow) -> Com {
    // Without the 64, which modulo 64 is nothing, this could be below 0.
    let sum = DOT_ROWS + panel_row.0 + usize::from(registers.offset) - rows_above_band(registers);
    Com(sum % DOT_ROWS)
}

/// The RAM row a COM shows; none if the COM is not in use.
#[must_use]
pub fn ram_row_of(registers: Registers, com: Com) -> Option<RamRow> {
    let rows_in_use = usize::from(registers.rows_in_use());
    let start_line = usize::from(registers.start_line);
    if com.0 >= rows_in_use {
        return None;
    }
    Some(RamRow(if registers.rows_reversed {
        (start_line + rows_in_use - 1 - com.0) % DOT_ROWS
    } else {
        (start_line + com.0) % DOT_ROWS
    }))
}

/// The RAM row a panel row shows; none if the row is dark.
#[must_use]
pub fn shown_on(registers: Registers, panel_row: PanelRow) -> Option<RamRow> {
    ram_row_of(registers, com_of(registers, panel_row))
}

/// The RAM column a segment shows.
#[must_use]
pub fn ram_column_of(registers: Registers, segment: usize) -> usize {
    if registers.columns_reversed {
        COLUMNS - 1 - segment
    } else {
        segment
    }
}

/// Whether a dot of a row in use, or of the icon line, is lit with the
/// display on.
fn dot(registers: Registers, memory: &Memory, ram_row: RamRow, segment: usize) -> bool {
    registers.entire_on
        || memory::bit(memory, ram_row.0, ram_column_of(registers, segment)) != registers.reverse
}

/// The whole frame of legal registers and memory.
pub fn draw(registers: Registers, memory: &Memory, frame: &mut Frame) {
    for (row, dots) in frame.chunks_exact_mut(COLUMNS).enumerate() {
        let shown = if !registers.display_on {
            None
        } else if row == ICON_ROW.0 {
            Some(ICON_ROW)
        } else {
            shown_on(registers, PanelRow(row))
        };
        for (segment, place) in dots.iter_mut().enumerate() {
            *place = match shown {
                Some(ram_row) => u8::from(dot(registers, memory, ram_row, segment)),
                None => 0,
            };
        }
    }
}

/// The call of drawing on lent state, memory and frame: 0, 1 or 2. A refused
/// drawing writes nothing.
pub fn call(state: &[u8], memory: &[u8], frame: &mut [u8]) -> u8 {
    match call_or_refusal(state, memory, frame) {
        Ok(()) => TAKEN,
        Err(refusal) => refusal.number(),
    }
}

fn call_or_refusal(state: &[u8], memory: &[u8], frame: &mut [u8]) -> Result<(), Refusal> {
    let (image, memory) = lent_to_read(state, memory)?;
    let frame = frame.first_chunk_mut().ok_or(Refusal::LentTooShort)?;
    draw(asked(image)?, memory, frame);
    Ok(())
}
