//! Random display memories.

use crate::memory::{COLUMNS, ICON_PAGE, MEMORY_LENGTH, Memory, place};
use crate::random::Random;

/// A display memory; page 8 may hold junk above bit 0.
#[must_use]
pub fn memory(random: &mut Random) -> Memory {
    let mut memory = [0; MEMORY_LENGTH];
    match random.below(8) {
        0 => {}
        1 => memory = [0xFF; MEMORY_LENGTH],
        2 => {
            let byte = random.between(0, MEMORY_LENGTH - 1);
            memory[byte] = 1 << random.below(8);
        }
        3 => {
            random.fill(&mut memory);
            for icons in &mut memory[place(ICON_PAGE, 0)..] {
                *icons &= 1;
            }
        }
        4 => {
            // Every byte of a page alike, every page another.
            for page in memory.chunks_exact_mut(COLUMNS) {
                page.fill(random.byte());
            }
        }
        _ => random.fill(&mut memory),
    }
    memory
}
