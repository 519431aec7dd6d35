//! What buffers hold before a start call: anything.

use crate::generate::{memories, states};
use crate::memory::{ICON_PAGE, MEMORY_LENGTH, Memory, place};
use crate::random::Random;
use crate::registers::{IMAGE_LENGTH, Image};
use crate::start::{Start, ZERO_MEMORY};

/// The image before: legal, out of range, of a start, or no image at all.
#[must_use]
pub fn image_before(random: &mut Random) -> Image {
    match random.below(8) {
        0 => [random.pick(&[0x00, 0xFF]); IMAGE_LENGTH],
        1 => random.pick(&Start::ALL).registers().image(),
        2 => {
            let mut image = [random.between(1, 0xFE).to_le_bytes()[0]; IMAGE_LENGTH];
            image[random.below(IMAGE_LENGTH)] = random.pick(&[0x00, 0xFF]);
            image
        }
        3 => {
            let mut image = [0; IMAGE_LENGTH];
            random.fill(&mut image);
            image
        }
        4 | 5 => states::legal_registers(random).image(),
        _ => states::hostile_image(random),
    }
}

/// The memory before: any, now and then with nothing in it but a byte at an
/// end, or but page 8.
#[must_use]
pub fn memory_before(random: &mut Random) -> Memory {
    let mut memory = ZERO_MEMORY;
    match random.below(8) {
        0 => memory[0] = random.byte(),
        1 => memory[MEMORY_LENGTH - 1] = random.byte(),
        2 => {
            let bits = random.pick(&[0x01, 0xFE, 0xFF]);
            for byte in &mut memory[place(ICON_PAGE, 0)..] {
                *byte = random.byte() & bits;
            }
        }
        _ => memory = memories::memory(random),
    }
    memory
}
