//! Random pairs of memories, from alike to wholly different.

use crate::generate::memories;
use crate::memory::{COLUMNS, ICON_PAGE, MEMORY_LENGTH, Memory, place};
use crate::random::Random;

/// Two memories; page 8 of either may hold junk above bit 0.
#[must_use]
pub fn pair(random: &mut Random) -> (Memory, Memory) {
    let mut first = memories::memory(random);
    let mut second = first;
    match random.below(12) {
        0 => {}
        1 => second[some_place(random)] ^= 1 << random.below(8),
        2 => second[some_place(random)] ^= 1 | random.byte(),
        3 | 4 => {
            for _ in 0..random.between(2, 12) {
                second[some_place(random)] = random.byte();
            }
        }
        5 => change_stretch(random, &mut second),
        6 | 7 => change_some(random, &mut second),
        8 => second = memories::memory(random),
        9 => second.iter_mut().for_each(|byte| *byte = !*byte),
        10 => {
            let shift = random.below(2);
            for byte in second.iter_mut().skip(shift).step_by(2) {
                *byte = !*byte;
            }
        }
        _ => random.fill(icons(&mut second)),
    }
    match random.below(8) {
        0 => put_junk(random, &mut first),
        1 => put_junk(random, &mut second),
        2 => {
            put_junk(random, &mut first);
            put_junk(random, &mut second);
        }
        _ => {}
    }
    (first, second)
}

/// A place, often at the edge of a page.
fn some_place(random: &mut Random) -> usize {
    if random.flag() {
        let column = random.pick(&[0, COLUMNS - 1]);
        COLUMNS * random.between(0, ICON_PAGE.into()) + column
    } else {
        random.below(MEMORY_LENGTH)
    }
}

/// Puts any bytes into a part of the memory.
fn change_stretch(random: &mut Random, memory: &mut Memory) {
    let first = some_place(random);
    let end = MEMORY_LENGTH.min(first + random.between(1, 2 * COLUMNS));
    random.fill(&mut memory[first..end]);
}

/// Changes some bytes all over the memory, from a few to nearly all.
fn change_some(random: &mut Random, memory: &mut Memory) {
    let in_256 = random.pick(&[1, 4, 16, 64, 128, 192, 252]);
    for byte in memory {
        if random.below(256) < in_256 {
            *byte ^= random.byte();
        }
    }
}

/// Page 8.
fn icons(memory: &mut Memory) -> &mut [u8] {
    &mut memory[place(ICON_PAGE, 0)..]
}

/// Changes what is above bit 0 in page 8, and nothing else.
fn put_junk(random: &mut Random, memory: &mut Memory) {
    for byte in icons(memory) {
        *byte = random.byte() & 0xFE | *byte & 1;
    }
}
