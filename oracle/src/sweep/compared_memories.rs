//! Pairs of memories that are the same for every seed.

use std::io;

use crate::cases::{Case, Comparison};
use crate::compare::{self, MEMORY_ENTRY};
use crate::generate::{COMPARED_MEMORY_LENGTHS, LONGEST_LIST, list_lengths};
use crate::memory::{COLUMNS, ICON_PAGE, LAST_COLUMN, MEMORY_LENGTH, Memory, place};
use crate::sweep::{Sink, cut_or_lengthened, uneven_memory};

/// Gives every pair of memories of the sweep to the sink.
pub fn compared_memories(sink: &mut Sink) -> io::Result<()> {
    equal_pairs(sink)?;
    single_bytes(sink)?;
    page_8(sink)?;
    whole_memories(sink)?;
    lengths(sink)?;
    lists(sink)
}

const ZERO: Memory = [0; MEMORY_LENGTH];

/// What the lists hold before begins with this.
const FILL: u8 = 0xA7;

/// Contents with and without bit 0, with and without something above it.
const CONTENTS: [u8; 5] = [0x00, 0x01, 0x80, 0xFE, 0xFF];

/// Gives two memories and a list of this length to the sink.
fn compare_with(
    sink: &mut Sink,
    first: &[u8],
    second: &[u8],
    list_length: usize,
) -> io::Result<()> {
    sink(Case::ComparedMemories(Comparison::of_memories(
        first.to_vec(),
        second.to_vec(),
        list_length,
        FILL,
    )))
}

/// Gives two memories and a list of just the length they need to the sink.
fn compare(sink: &mut Sink, first: &[u8], second: &[u8]) -> io::Result<()> {
    let count = compare::memory_entries(first, second).map_or(0, |entries| entries.len());
    compare_with(sink, first, second, MEMORY_ENTRY * count)
}

/// The memory with one byte put into it.
fn with_byte(memory: &Memory, place: usize, byte: u8) -> Memory {
    let mut changed = *memory;
    changed[place] = byte;
    changed
}

/// Memories that are alike, with no list and with one.
fn equal_pairs(sink: &mut Sink) -> io::Result<()> {
    for memory in [ZERO, [0xFF; MEMORY_LENGTH], uneven_memory()] {
        for list_length in [0, MEMORY_ENTRY] {
            compare_with(sink, &memory, &memory, list_length)?;
        }
    }
    Ok(())
}

/// One differing byte: at the edges and in the middle of every page, at each
/// bit, and where the place's two bytes part.
fn single_bytes(sink: &mut Sink) -> io::Result<()> {
    let uneven = uneven_memory();
    for page in 0..=ICON_PAGE {
        for column in [0, 1, 66, LAST_COLUMN] {
            let place = place(page, column);
            for bit in 0..8 {
                compare(
                    sink,
                    &uneven,
                    &with_byte(&uneven, place, uneven[place] ^ 1 << bit),
                )?;
            }
        }
    }
    for place in [255, 256, 257, 511, 512, 513, 767, 768, 1023, 1024] {
        compare(sink, &ZERO, &with_byte(&ZERO, place, 0xFF))?;
        compare(sink, &with_byte(&ZERO, place, 0xFF), &ZERO)?;
    }
    Ok(())
}

/// Every two contents at the edges of page 8, before it, and all over it.
fn page_8(sink: &mut Sink) -> io::Result<()> {
    let icons = place(ICON_PAGE, 0);
    for in_first in CONTENTS {
        for in_second in CONTENTS {
            for place in [icons - 1, icons, MEMORY_LENGTH - 1] {
                compare(
                    sink,
                    &with_byte(&ZERO, place, in_first),
                    &with_byte(&ZERO, place, in_second),
                )?;
            }
            let filled = |content: u8| {
                let mut memory = uneven_memory();
                memory[icons..].fill(content);
                memory
            };
            compare(sink, &filled(in_first), &filled(in_second))?;
        }
    }
    Ok(())
}

/// Memories that differ all over, in every second byte, and in every second
/// page.
fn whole_memories(sink: &mut Sink) -> io::Result<()> {
    let uneven = uneven_memory();
    let ones = [0xFF; MEMORY_LENGTH];
    let all_turned = uneven.map(|byte| !byte);
    for (first, second) in [(ZERO, ones), (uneven, all_turned)] {
        compare(sink, &first, &second)?;
        compare(sink, &second, &first)?;
    }
    for width in [1, COLUMNS] {
        for turn in [0, 1] {
            let mut turned = uneven;
            for part in turned.chunks_mut(width).skip(turn).step_by(2) {
                for byte in part {
                    *byte = !*byte;
                }
            }
            compare(sink, &uneven, &turned)?;
            compare(sink, &turned, &uneven)?;
        }
    }
    Ok(())
}

/// Each length of the first memory with each of the second, alike and not,
/// and with a list too small.
fn lengths(sink: &mut Sink) -> io::Result<()> {
    let first = uneven_memory();
    let different = with_byte(&first, 0, !first[0]);
    for first_length in COMPARED_MEMORY_LENGTHS {
        for second_length in COMPARED_MEMORY_LENGTHS {
            for (second, list_length) in [
                (first, 0),
                (different, 0),
                (different, MEMORY_ENTRY - 1),
                (different, MEMORY_ENTRY),
            ] {
                let mut second = cut_or_lengthened(&second, second_length);
                // What is past the second memory is not what is past the
                // first.
                second.iter_mut().skip(MEMORY_LENGTH).for_each(|byte| {
                    *byte = !*byte;
                });
                let first = cut_or_lengthened(&first, first_length);
                compare_with(sink, &first, &second, list_length)?;
            }
        }
    }
    Ok(())
}

/// Lists around the length needed, for few entries and for many.
fn lists(sink: &mut Sink) -> io::Result<()> {
    let uneven = uneven_memory();
    let mut page_changed = uneven;
    for byte in &mut page_changed[COLUMNS..2 * COLUMNS] {
        *byte = !*byte;
    }
    for second in [
        with_byte(&uneven, 0, !uneven[0]),
        with_byte(&uneven, MEMORY_LENGTH - 1, !uneven[MEMORY_LENGTH - 1]),
        page_changed,
        uneven.map(|byte| !byte),
    ] {
        let count = compare::memory_entries(&uneven, &second).map_or(0, |entries| entries.len());
        for list_length in list_lengths(MEMORY_ENTRY, count) {
            compare_with(sink, &uneven, &second, list_length)?;
        }
    }
    // Junk alone needs no list.
    let mut junk = uneven;
    for byte in &mut junk[place(ICON_PAGE, 0)..] {
        *byte ^= 0xFE;
    }
    for list_length in [0, 1, MEMORY_ENTRY, LONGEST_LIST] {
        compare_with(sink, &uneven, &junk, list_length)?;
    }
    Ok(())
}
