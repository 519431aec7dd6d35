//! Listings that are the same for every seed: each trace from both starts.

use std::io;

use crate::cases::{Case, Listing};
use crate::command::TEST_MODE;
use crate::generate::traces::lengthen;
use crate::listing::LONGEST_TRACE;
use crate::memory::ICON_PAGE;
use crate::start::Start;
use crate::sweep::records::{numbered_rows, push_record};
use crate::sweep::{ALL_KINDS, DOCUMENT_TRACE, Give, Sink};

/// Gives every trace of this sweep to the sink, from both starts.
pub fn listings(sink: &mut Sink) -> io::Result<()> {
    let mut from_both = |trace: &[u8]| {
        for start in Start::ALL {
            sink(Case::Listing(Listing::new(start, trace.to_vec())))?;
        }
        Ok(())
    };
    known_traces(&mut from_both)?;
    turned_pictures(&mut from_both)?;
    single_commands(&mut from_both)?;
    bands(&mut from_both)?;
    icons(&mut from_both)?;
    refusals(&mut from_both)?;
    test_mode(&mut from_both)?;
    longest_traces(&mut from_both)
}

/// Display on, start line 5.
const SHOW: [u8; 6] = [0x02, 0x00, 0x01, 0x00, 0xAF, 0x45];

const RESET_RECORD: [u8; 4] = [0x00, 0x00, 0x04, 0x00];
const SOFTWARE_RESET: [u8; 5] = [0x01, 0x00, 0x01, 0x00, 0xE2];
const COLUMNS: [[u8; 5]; 2] = [
    [0x01, 0x00, 0x01, 0x00, 0xA0],
    [0x01, 0x00, 0x01, 0x00, 0xA1],
];
const ROWS: [[u8; 5]; 2] = [
    [0x01, 0x00, 0x01, 0x00, 0xC0],
    [0x01, 0x00, 0x01, 0x00, 0xC8],
];

/// What can settle a direction, and E2 as an n, which cannot.
pub const TURNS: [&[u8]; 7] = [
    &COLUMNS[0],
    &COLUMNS[1],
    &ROWS[0],
    &ROWS[1],
    &SOFTWARE_RESET,
    &RESET_RECORD,
    &[0x02, 0x00, 0x01, 0x00, 0x81, 0xE2],
];

/// No turn, and each of the turns.
fn one_turn_at_most() -> Vec<Vec<u8>> {
    let mut turns = vec![Vec::new()];
    turns.extend(TURNS.map(<[u8]>::to_vec));
    turns
}

/// No turn, each turn, every two of them, and both directions on either side
/// of a reset.
fn turns() -> Vec<Vec<u8>> {
    let mut turns = one_turn_at_most();
    for first in TURNS {
        for second in TURNS {
            turns.push([first, second].concat());
        }
    }
    for columns in &COLUMNS {
        for rows in &ROWS {
            for reset in [&SOFTWARE_RESET[..], &RESET_RECORD] {
                turns.push([columns, rows, reset].concat());
                turns.push([reset, columns, rows].concat());
            }
        }
    }
    turns
}

/// All RAM rows with their numbers.
fn picture() -> Vec<u8> {
    numbered_rows(0..=ICON_PAGE)
}

/// The traces of the base, document 01's cut at each byte too.
fn known_traces(give: &mut Give) -> io::Result<()> {
    for cut in 0..=DOCUMENT_TRACE.len() {
        give(&DOCUMENT_TRACE[..cut])?;
    }
    give(&RESET_RECORD)?;
    give(&[&RESET_RECORD[..], &DOCUMENT_TRACE].concat())?;
    give(&ALL_KINDS)?;
    // Without its reset record.
    give(&ALL_KINDS[RESET_RECORD.len()..])
}

/// Turns before, amid and after the drawing, and after all.
fn turned_pictures(give: &mut Give) -> io::Result<()> {
    let upper = numbered_rows(0..=4);
    let lower = numbered_rows(5..=ICON_PAGE);
    for turns in turns() {
        give(&[&turns[..], &upper, &lower, &SHOW].concat())?;
        give(&[&upper[..], &turns, &lower, &SHOW].concat())?;
        give(&[&upper[..], &lower, &turns, &SHOW].concat())?;
        give(&[&SHOW[..], &upper, &lower, &turns].concat())?;
    }
    Ok(())
}

/// Every command byte that sets a direction, and every code with one as n.
fn single_commands(give: &mut Give) -> io::Result<()> {
    let picture = picture();
    for byte in (0xA0..=0xA1).chain(0xC0..=0xCF) {
        let mut trace = [&picture[..], &SHOW].concat();
        push_record(&mut trace, 1, &[byte]);
        give(&trace)?;
    }
    for code in [0x81, 0xA8, 0xA9, 0xAD] {
        for n in [0xA0, 0xA1, 0xC0, 0xC8, 0xE2] {
            let mut trace = [&picture[..], &SHOW].concat();
            push_record(&mut trace, 1, &[code, n]);
            give(&trace)?;
        }
    }
    Ok(())
}

/// Every M in the middle and moved, with the directions of the start.
fn bands(give: &mut Give) -> io::Result<()> {
    let picture = picture();
    for multiplex in 0..=63 {
        for offset in [0, (3 * multiplex + 5) % 64] {
            let mut trace = picture.clone();
            push_record(&mut trace, 1, &[0xAF, 0xA8, multiplex, 0xD3, offset]);
            give(&trace)?;
        }
    }
    Ok(())
}

/// The icon line alone, plain, reversed and all lit.
fn icons(give: &mut Give) -> io::Result<()> {
    for light in [0xA6, 0xA7, 0xA5] {
        for turn in one_turn_at_most() {
            let mut trace = turn;
            push_record(&mut trace, 1, &[0xAF, light, 0xB8, 0x00, 0x10]);
            push_record(&mut trace, 2, &[0xFF, 0xFE, 0x01, 0x03]);
            give(&trace)?;
        }
    }
    Ok(())
}

/// Records that are refused, with each number of a run and in each way, after
/// the picture and before it.
pub const REFUSED: [&[u8]; 14] = [
    &[0x01, 0x00, 0x01, 0x00, 0x80],
    &[0x04, 0x00, 0x01, 0x00, 0xA9, 0xF0, 0xFF, 0xE2],
    &[0x01, 0x00, 0x01, 0x00, 0xB9],
    &[0x02, 0x00, 0x01, 0x00, 0xD3, 0x40],
    &[0x02, 0x00, 0x01, 0x00, 0xD4, 0xE2],
    &[0x01, 0x00, 0x01, 0x00, 0x81, 0x01, 0x00, 0x02, 0x00, 0xE2],
    &[0x01, 0x00, 0x01, 0x00, 0xAD, 0x01, 0x00, 0x03, 0x00, 0x00],
    &[
        0x02, 0x00, 0x01, 0x00, 0x04, 0x18, 0x01, 0x00, 0x02, 0x00, 0xFF,
    ],
    &[
        0x02, 0x00, 0x01, 0x00, 0x0F, 0x1F, 0x01, 0x00, 0x03, 0x00, 0x00,
    ],
    // The payload is past the end, a direction and a reset in it.
    &[0xFF, 0xFF, 0x01, 0x00, 0xA0, 0xE2],
    &[0x00, 0x00, 0x05, 0x00],
    &[0x01, 0x00, 0x01, 0x01, 0xE2],
    &[0x01, 0x00, 0x04, 0x00, 0x00],
    // A dummy read, then 99 compared with what is not 99.
    &[
        0x03, 0x00, 0x01, 0x00, 0xB0, 0x00, 0x10, 0x02, 0x00, 0x03, 0x00, 0x99, 0x99,
    ],
];

/// Refused records after each turn; a reset record and E2 follow and are not
/// obeyed.
fn refusals(give: &mut Give) -> io::Result<()> {
    let picture = picture();
    let resets = [&SOFTWARE_RESET[..], &RESET_RECORD].concat();
    for refused in REFUSED {
        give(&[refused, &SHOW, &picture].concat())?;
        for turn in one_turn_at_most() {
            give(&[&picture[..], &turn, &SHOW, refused, &resets].concat())?;
        }
    }
    for left in 1..RESET_RECORD.len() {
        give(&[&picture[..], &SHOW, &RESET_RECORD[..left]].concat())?;
    }
    Ok(())
}

/// Each byte of test mode amid commands that turn the picture.
fn test_mode(give: &mut Give) -> io::Result<()> {
    let picture = picture();
    for byte in TEST_MODE {
        let mut trace = [&SHOW[..], &picture].concat();
        push_record(&mut trace, 1, &[0xA7, byte, 0xA6, 0xE2]);
        give(&trace)?;
    }
    Ok(())
}

/// As long as may be, and longer by one and by many.
fn longest_traces(give: &mut Give) -> io::Result<()> {
    let mut trace = [&SHOW[..], &DOCUMENT_TRACE].concat();
    lengthen(&mut trace, LONGEST_TRACE);
    give(&trace)?;
    trace.push(0x00);
    give(&trace)?;
    trace.resize(LONGEST_TRACE + 4000, 0x00);
    give(&trace)
}
