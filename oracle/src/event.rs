//! The four bus events: their meaning, and the calls on lent buffers.

use crate::command;
use crate::memory::{self, LAST_COLUMN, MEMORY_LENGTH, Memory};
use crate::refusal::{Refusal, TAKEN};
use crate::registers::{IMAGE_LENGTH, Image, Registers};

/// One bus event.
#[derive(Clone, Copy, PartialEq, Eq, Debug)]
pub enum Event {
    /// A command byte.
    Command(u8),
    /// A data byte written.
    Write(u8),
    /// A data byte read.
    Read,
    /// A pulse on the reset pin.
    Reset,
}

/// The one byte of memory a write stored.
#[derive(Clone, Copy, PartialEq, Eq, Debug)]
pub struct Stored {
    /// Index in the display memory.
    pub place: usize,
    /// What lies there now.
    pub byte: u8,
}

/// What a taken event leaves and answers.
#[derive(Clone, Copy, PartialEq, Eq, Debug)]
pub struct Taken {
    pub registers: Registers,
    /// The byte a read answers, else 0.
    pub byte: u8,
    /// A dummy read.
    pub dummy: bool,
    /// What a write stored.
    pub stored: Option<Stored>,
}

impl Taken {
    /// An event that only changes registers.
    fn quietly(registers: Registers) -> Taken {
        Taken {
            registers,
            byte: 0,
            dummy: false,
            stored: None,
        }
    }

    /// Puts what the event leaves where it belongs.
    pub fn leave_in(self, registers: &mut Registers, memory: &mut Memory) {
        *registers = self.registers;
        if let Some(stored) = self.stored {
            memory[stored.place] = stored.byte;
        }
    }
}

/// The answer of an event call.
#[derive(Clone, Copy, PartialEq, Eq, Debug)]
pub struct Answer {
    /// 0 for taken, else the refusal.
    pub number: u8,
    pub byte: u8,
    pub dummy: bool,
    /// What was stored in the lent memory; not itself answered.
    pub stored: Option<Stored>,
}

/// What an event does to legal registers and memory.
///
/// # Errors
/// The refusals 3 to 7 as document 01 gives them, and Order 6's 15.
pub fn meaning(registers: Registers, memory: &Memory, event: Event) -> Result<Taken, Refusal> {
    match event {
        Event::Command(byte) => command::take(registers, byte).map(Taken::quietly),
        Event::Write(byte) => write(registers, byte),
        Event::Read => read(registers, memory),
        Event::Reset => Ok(Taken::quietly(Registers::POWER_ON)),
    }
}

/// What stands in the way of any data write or read.
fn ask_data_allowed(registers: Registers) -> Result<(), Refusal> {
    if registers.awaited.is_some() {
        Err(Refusal::CodeAwaited)
    } else if registers.column > LAST_COLUMN {
        Err(Refusal::ColumnAbove131)
    } else {
        Ok(())
    }
}

/// A data byte written.
fn write(registers: Registers, byte: u8) -> Result<Taken, Refusal> {
    ask_data_allowed(registers)?;
    Ok(Taken {
        registers: Registers {
            column: memory::column_after(registers.column),
            fresh: true,
            ..registers
        },
        byte: 0,
        dummy: false,
        stored: Some(Stored {
            place: memory::place(registers.page, registers.column),
            byte: memory::bits_of_page(registers.page, byte),
        }),
    })
}

/// A data byte read, or the dummy read.
fn read(registers: Registers, memory: &Memory) -> Result<Taken, Refusal> {
    ask_data_allowed(registers)?;
    if registers.fresh {
        return Ok(Taken {
            registers: Registers {
                fresh: false,
                ..registers
            },
            byte: 0,
            dummy: true,
            stored: None,
        });
    }
    let byte = memory[memory::place(registers.page, registers.column)];
    let column = match registers.read_modify_write {
        Some(_) => registers.column,
        None => memory::column_after(registers.column),
    };
    Ok(Taken {
        registers: Registers {
            column,
            ..registers
        },
        byte: memory::bits_of_page(registers.page, byte),
        dummy: false,
        stored: None,
    })
}

/// The parts of lent state and memory the model uses.
///
/// # Errors
/// 1 if either is too short.
pub fn lent<'a>(
    state: &'a mut [u8],
    memory: &'a mut [u8],
) -> Result<(&'a mut Image, &'a mut Memory), Refusal> {
    match (
        state.first_chunk_mut::<IMAGE_LENGTH>(),
        memory.first_chunk_mut::<MEMORY_LENGTH>(),
    ) {
        (Some(image), Some(memory)) => Ok((image, memory)),
        _ => Err(Refusal::LentTooShort),
    }
}

/// The same parts of buffers that are only read.
///
/// # Errors
/// 1 if either is too short.
pub fn lent_to_read<'a>(
    state: &'a [u8],
    memory: &'a [u8],
) -> Result<(&'a Image, &'a Memory), Refusal> {
    match (
        state.first_chunk::<IMAGE_LENGTH>(),
        memory.first_chunk::<MEMORY_LENGTH>(),
    ) {
        (Some(image), Some(memory)) => Ok((image, memory)),
        _ => Err(Refusal::LentTooShort),
    }
}

/// The registers of an image.
///
/// # Errors
/// 2 if the image is out of its ranges.
pub fn asked(image: &Image) -> Result<Registers, Refusal> {
    Registers::from_image(image).ok_or(Refusal::ImageOutOfRange)
}

/// The registers that a single event meets.
///
/// # Errors
/// 2 if the image is out of its ranges, but at the reset pin.
pub fn asked_at(event: Event, image: &Image) -> Result<Registers, Refusal> {
    match event {
        // The reset pin does not ask what the image was.
        Event::Reset => Ok(Registers::POWER_ON),
        Event::Command(_) | Event::Write(_) | Event::Read => asked(image),
    }
}

/// The call of a single event on lent state and memory. A refused event
/// leaves both untouched.
pub fn call(state: &mut [u8], memory: &mut [u8], event: Event) -> Answer {
    match call_or_refusal(state, memory, event) {
        Ok(taken) => Answer {
            number: TAKEN,
            byte: taken.byte,
            dummy: taken.dummy,
            stored: taken.stored,
        },
        Err(refusal) => Answer {
            number: refusal.number(),
            byte: 0,
            dummy: false,
            stored: None,
        },
    }
}

fn call_or_refusal(state: &mut [u8], memory: &mut [u8], event: Event) -> Result<Taken, Refusal> {
    let (image, memory) = lent(state, memory)?;
    let mut registers = asked_at(event, image)?;
    let taken = meaning(registers, memory, event)?;
    taken.leave_in(&mut registers, memory);
    *image = registers.image();
    Ok(taken)
}
