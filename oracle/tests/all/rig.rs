//! A state and a memory, lent to the model again and again.

use oracle::event::{self, Answer, Event};
use oracle::frame;
use oracle::trace::{self, RunAnswer};

// Places in the state image, counted along document 01's list.
pub const PAGE: usize = 0;
pub const COLUMN: usize = 1;
pub const START_LINE: usize = 2;
pub const OFFSET: usize = 3;
pub const MULTIPLEX: usize = 4;
pub const CONTRAST: usize = 5;
pub const RESISTOR_RATIO: usize = 6;
pub const POWER_CONTROL: usize = 7;
pub const BIAS: usize = 8;
pub const QUARTER_BIAS: usize = 9;
pub const BYTE_OF_A9: usize = 10;
pub const FRAME_PHASES: usize = 11;
pub const COLUMN_DIRECTION: usize = 12;
pub const ROW_DIRECTION: usize = 13;
pub const ENTIRE_ON: usize = 14;
pub const REVERSE: usize = 15;
pub const DISPLAY_ON: usize = 16;
pub const INDICATOR_ON: usize = 17;
pub const INDICATOR_MODE: usize = 18;
pub const AWAITED: usize = 19;
pub const READ_MODIFY_WRITE: usize = 20;
pub const SAVED_COLUMN: usize = 21;
pub const FRESH: usize = 22;

/// Power-on: multiplex 63, contrast 32, ratio 4, fresh 1, else 0.
pub const POWER_ON: [u8; 23] = [
    0, 0, 0, 0, 63, 32, 4, 0, 0, 0, 0, 0, 0, 0, 0, 0, 0, 0, 0, 0, 0, 0, 1,
];

/// Order 3's start: column direction and row direction 1, else power-on.
pub const UPSIDE_DOWN: [u8; 23] = [
    0, 0, 0, 0, 63, 32, 4, 0, 0, 0, 0, 0, 1, 1, 0, 0, 0, 0, 0, 0, 0, 0, 1,
];

/// The trace whose listing document 01 prints whole: AF, then 03 and 01 written.
pub const DOCUMENT_TRACE: [u8; 11] = [
    0x01, 0x00, 0x01, 0x00, 0xAF, 0x02, 0x00, 0x02, 0x00, 0x03, 0x01,
];

/// Legal, and unlike power-on in each field.
pub const BUSY: [u8; 23] = [
    6, 0x5A, 21, 9, 40, 50, 1, 6, 1, 1, 0xC4, 3, 1, 1, 1, 1, 1, 1, 2, 0, 1, 0x33, 0,
];

#[derive(Clone, PartialEq, Eq, Debug)]
pub struct Rig {
    pub state: Vec<u8>,
    pub memory: Vec<u8>,
}

impl Rig {
    pub fn power_on() -> Rig {
        Rig::with(POWER_ON)
    }

    pub fn upside_down() -> Rig {
        Rig::with(UPSIDE_DOWN)
    }

    pub fn with(image: [u8; 23]) -> Rig {
        Rig {
            state: image.to_vec(),
            memory: vec![0; 1188],
        }
    }

    /// Power-on after these commands, all taken.
    pub fn after(commands: &[u8]) -> Rig {
        let mut rig = Rig::power_on();
        rig.commands(commands);
        rig
    }

    pub fn event(&mut self, event: Event) -> Answer {
        event::call(&mut self.state, &mut self.memory, event)
    }

    /// The number of a command.
    pub fn command(&mut self, byte: u8) -> u8 {
        let answer = self.event(Event::Command(byte));
        assert_eq!((answer.byte, answer.dummy), (0, false));
        answer.number
    }

    /// Commands that must be taken.
    pub fn commands(&mut self, bytes: &[u8]) {
        for &byte in bytes {
            assert_eq!(self.command(byte), 0, "command {byte:02X}");
        }
    }

    /// The number of a write.
    pub fn write(&mut self, byte: u8) -> u8 {
        let answer = self.event(Event::Write(byte));
        assert_eq!((answer.byte, answer.dummy), (0, false));
        answer.number
    }

    /// Number, byte and dummy of a read.
    pub fn read(&mut self) -> (u8, u8, bool) {
        let answer = self.event(Event::Read);
        (answer.number, answer.byte, answer.dummy)
    }

    /// The number of a pulse on the reset pin.
    pub fn reset(&mut self) -> u8 {
        let answer = self.event(Event::Reset);
        assert_eq!((answer.byte, answer.dummy), (0, false));
        answer.number
    }

    pub fn run(&mut self, trace: &[u8]) -> (u8, usize, usize) {
        let RunAnswer {
            number,
            offset,
            count,
        } = trace::call(&mut self.state, &mut self.memory, trace);
        (number, offset, count)
    }

    pub fn frame(&self) -> Vec<u8> {
        let mut frame = vec![7; 8580];
        assert_eq!(frame::call(&self.state, &self.memory, &mut frame), 0);
        frame
    }

    /// The 132 places of a panel row, or of the icon line (64).
    pub fn row(&self, row: usize) -> Vec<u8> {
        self.frame()[132 * row..132 * (row + 1)].to_vec()
    }

    /// The panel rows with anything lit.
    pub fn lit_rows(&self) -> Vec<usize> {
        let frame = self.frame();
        (0..65)
            .filter(|row| frame[132 * row..132 * (row + 1)].contains(&1))
            .collect()
    }

    /// The only RAM row whose dots the panel row shows, found by lighting
    /// one RAM row after the other; none if the row stays dark.
    pub fn ram_row_shown(&self, panel_row: usize) -> Option<usize> {
        let mut shown = None;
        for ram_row in 0..65 {
            let mut rig = self.clone();
            rig.memory.fill(0);
            for byte in &mut rig.memory[132 * (ram_row / 8)..132 * (ram_row / 8 + 1)] {
                *byte = 1 << (ram_row % 8);
            }
            let row = rig.row(panel_row);
            if row == vec![1; 132] {
                assert_eq!(shown, None, "two RAM rows on panel row {panel_row}");
                shown = Some(ram_row);
            } else {
                assert_eq!(row, vec![0; 132]);
            }
        }
        shown
    }
}
