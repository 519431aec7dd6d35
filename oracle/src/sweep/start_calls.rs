//! Start calls that are the same for every seed: all lengths of both buffers,
//! and whatever they can hold.

use std::io;

use crate::cases::{Case, StartCall};
use crate::generate::{START_MEMORY_LENGTHS, START_STATE_LENGTHS};
use crate::memory::{ICON_PAGE, MEMORY_LENGTH, Memory, place};
use crate::registers::{IMAGE_LENGTH, Image, Registers};
use crate::start::{Start, ZERO_MEMORY};
use crate::sweep::{Sink, UNLIKE_POWER_ON, cut_or_lengthened, uneven_memory};

/// Gives every start call of the sweep to the sink.
pub fn start_calls(sink: &mut Sink) -> io::Result<()> {
    lengths(sink)?;
    for start in Start::ALL {
        for image in whole_images() {
            start_with(sink, start, &image, &uneven_memory())?;
            start_with(sink, start, &image, &uneven_memory()[1..])?;
        }
        images_with_extremes(&mut |image| start_with(sink, start, image, &uneven_memory()))?;
        memories(&mut |memory| start_with(sink, start, &ANY_IMAGE, memory))?;
    }
    Ok(())
}

/// An image that is out of range in nearly every field, with no 00 and no FF.
const ANY_IMAGE: Image = [0x5A; IMAGE_LENGTH];

/// Gives one start call on a state of just the needed length to the sink.
fn start_with(sink: &mut Sink, start: Start, image: &Image, memory: &[u8]) -> io::Result<()> {
    sink(Case::StartCall(StartCall::new(
        start,
        image.to_vec(),
        memory.to_vec(),
    )))
}

/// Lent buffers of every length, with a legal image and one out of range.
fn lengths(sink: &mut Sink) -> io::Result<()> {
    for start in Start::ALL {
        for image in [UNLIKE_POWER_ON.image(), ANY_IMAGE] {
            for state_length in START_STATE_LENGTHS {
                for memory_length in START_MEMORY_LENGTHS {
                    sink(Case::StartCall(StartCall::new(
                        start,
                        cut_or_lengthened(&image, state_length),
                        cut_or_lengthened(&uneven_memory(), memory_length),
                    )))?;
                }
            }
        }
    }
    Ok(())
}

/// Both starts' own images, and images of which all bytes are alike.
fn whole_images() -> Vec<Image> {
    let of_starts = Start::ALL.map(|start| start.registers().image());
    let alike = [0x00, 0x01, 0x80, 0xFF].map(|byte| [byte; IMAGE_LENGTH]);
    [&of_starts[..], &alike].concat()
}

/// Images legal and out of range, as they are and with each byte in turn at
/// its extremes.
fn images_with_extremes(give: &mut dyn FnMut(&Image) -> io::Result<()>) -> io::Result<()> {
    let outside = Registers {
        read_modify_write: None,
        ..UNLIKE_POWER_ON
    };
    for image in [UNLIKE_POWER_ON.image(), outside.image(), ANY_IMAGE] {
        give(&image)?;
        for field in 0..IMAGE_LENGTH {
            for extreme in [0x00, 0xFF] {
                let mut changed = image;
                changed[field] = extreme;
                give(&changed)?;
            }
        }
    }
    Ok(())
}

/// Zero, all bytes alike, and single bytes and page 8 by themselves.
fn memories(give: &mut dyn FnMut(&Memory) -> io::Result<()>) -> io::Result<()> {
    for byte in [0x00, 0x01, 0x80, 0xFF] {
        give(&[byte; MEMORY_LENGTH])?;
    }
    let icons = place(ICON_PAGE, 0);
    for place in [0, 131, 132, 255, 256, icons - 1, icons, MEMORY_LENGTH - 1] {
        for byte in [0x01, 0xFE, 0xFF] {
            let mut memory = ZERO_MEMORY;
            memory[place] = byte;
            give(&memory)?;
        }
    }
    for byte in [0x01, 0xFE, 0xFF] {
        let mut memory = ZERO_MEMORY;
        memory[icons..].fill(byte);
        give(&memory)?;
    }
    Ok(())
}
