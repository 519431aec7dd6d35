//! Where two screens differ: two frames, or two memories, compared.

use crate::frame::{FRAME_LENGTH, FRAME_ROWS, Frame};
use crate::memory::{self, COLUMNS, MEMORY_LENGTH, Memory};
use crate::refusal::{Refusal, TAKEN};

/// Bytes of an entry in the list of two frames.
pub const FRAME_ENTRY: usize = 5;

/// Bytes of an entry in the list of two memories.
pub const MEMORY_ENTRY: usize = 4;

/// The answer of a comparison.
#[derive(Clone, Copy, PartialEq, Eq, Debug)]
pub struct Compared {
    /// 0 for taken, else the refusal.
    pub number: u8,
    /// Entries written; 0 if refused.
    pub count: usize,
}

/// The two ways in which a place of two frames can differ.
#[derive(Clone, Copy, PartialEq, Eq, Debug)]
pub enum Way {
    /// Dark in the first frame, lit in the second.
    DarkToLit,
    /// Lit in the first frame, dark in the second.
    LitToDark,
}

/// Places of one row side by side that differ in the same way, as many as
/// there are.
#[derive(Clone, Copy, PartialEq, Eq, Debug)]
pub struct DifferingRun {
    pub row: usize,
    pub first_column: usize,
    pub last_column: usize,
    pub way: Way,
}

impl DifferingRun {
    /// Row, first column, last column, lit in the first, lit in the second.
    #[must_use]
    pub fn entry(self) -> [u8; FRAME_ENTRY] {
        let (lit_in_first, lit_in_second) = match self.way {
            Way::DarkToLit => (0, 1),
            Way::LitToDark => (1, 0),
        };
        [
            byte_of(self.row),
            byte_of(self.first_column),
            byte_of(self.last_column),
            lit_in_first,
            lit_in_second,
        ]
    }
}

/// A byte that two memories hold with different contents.
#[derive(Clone, Copy, PartialEq, Eq, Debug)]
pub struct DifferingByte {
    pub place: u16,
    pub in_first: u8,
    pub in_second: u8,
}

impl DifferingByte {
    /// Place, low byte first, then the two contents.
    #[must_use]
    pub fn entry(self) -> [u8; MEMORY_ENTRY] {
        let [low, high] = self.place.to_le_bytes();
        [low, high, self.in_first, self.in_second]
    }
}

/// A row or a column as it stands in an entry.
fn byte_of(number: usize) -> u8 {
    u8::try_from(number).expect("rows and columns are below 256")
}

/// How a place differs; none if it is alike in both frames.
fn way_at(first: &Frame, second: &Frame, row: usize, column: usize) -> Option<Way> {
    let place = COLUMNS * row + column;
    match (first[place], second[place]) {
        (0, 1) => Some(Way::DarkToLit),
        (1, 0) => Some(Way::LitToDark),
        _ => None,
    }
}

/// The run that begins at this place; none if no run begins here.
fn run_from(
    first: &Frame,
    second: &Frame,
    row: usize,
    first_column: usize,
) -> Option<DifferingRun> {
    let way = way_at(first, second, row, first_column)?;
    let goes_this_way = |column: usize| way_at(first, second, row, column) == Some(way);
    if first_column > 0 && goes_this_way(first_column - 1) {
        return None;
    }
    let mut last_column = first_column;
    while last_column + 1 < COLUMNS && goes_this_way(last_column + 1) {
        last_column += 1;
    }
    Some(DifferingRun {
        row,
        first_column,
        last_column,
        way,
    })
}

/// Every run of differing places of two frames of dark and lit places, row by
/// row, left to right.
#[must_use]
pub fn differing_runs(first: &Frame, second: &Frame) -> Vec<DifferingRun> {
    let mut runs = Vec::new();
    for row in 0..FRAME_ROWS {
        for column in 0..COLUMNS {
            runs.extend(run_from(first, second, row, column));
        }
    }
    runs
}

/// What a memory holds at a place: on page 8 bit 0 alone.
fn content(memory: &Memory, page: u8, column: u8) -> u8 {
    memory::bits_of_page(page, memory[memory::place(page, column)])
}

/// Every byte in which two memories differ, in rising order.
#[must_use]
pub fn differing_bytes(first: &Memory, second: &Memory) -> Vec<DifferingByte> {
    let mut bytes = Vec::new();
    for page in 0..=memory::ICON_PAGE {
        for column in 0..=memory::LAST_COLUMN {
            let in_first = content(first, page, column);
            let in_second = content(second, page, column);
            if in_first != in_second {
                bytes.push(DifferingByte {
                    place: place_in_list(page, column),
                    in_first,
                    in_second,
                });
            }
        }
    }
    bytes
}

/// The place of a page and column as it stands in an entry.
fn place_in_list(page: u8, column: u8) -> u16 {
    u16::try_from(memory::place(page, column)).expect("places are below 1,188")
}

/// The call that compares two lent frames: each run of differing places goes
/// into the list as an entry of five bytes. A refusal writes nothing.
pub fn frames(first: &[u8], second: &[u8], list: &mut [u8]) -> Compared {
    answer(frame_entries(first, second).and_then(|entries| put_all(&entries, list)))
}

/// The call that compares two lent memories: each differing byte goes into
/// the list as an entry of four bytes. A refusal writes nothing.
pub fn memories(first: &[u8], second: &[u8], list: &mut [u8]) -> Compared {
    answer(memory_entries(first, second).and_then(|entries| put_all(&entries, list)))
}

/// The entries of two lent frames.
///
/// # Errors
/// 1 if either is too short, else 12 if either has a byte above 1.
pub fn frame_entries(first: &[u8], second: &[u8]) -> Result<Vec<[u8; FRAME_ENTRY]>, Refusal> {
    let (Some(first), Some(second)) = (
        first.first_chunk::<FRAME_LENGTH>(),
        second.first_chunk::<FRAME_LENGTH>(),
    ) else {
        return Err(Refusal::LentTooShort);
    };
    if first.iter().chain(second).any(|&byte| byte > 1) {
        return Err(Refusal::FrameByteAbove1);
    }
    let runs = differing_runs(first, second);
    Ok(runs.into_iter().map(DifferingRun::entry).collect())
}

/// The entries of two lent memories.
///
/// # Errors
/// 1 if either is too short.
pub fn memory_entries(first: &[u8], second: &[u8]) -> Result<Vec<[u8; MEMORY_ENTRY]>, Refusal> {
    let (Some(first), Some(second)) = (
        first.first_chunk::<MEMORY_LENGTH>(),
        second.first_chunk::<MEMORY_LENGTH>(),
    ) else {
        return Err(Refusal::LentTooShort);
    };
    let bytes = differing_bytes(first, second);
    Ok(bytes.into_iter().map(DifferingByte::entry).collect())
}

/// Puts all the entries at the beginning of the list, and tells how many.
fn put_all<const ENTRY: usize>(entries: &[[u8; ENTRY]], list: &mut [u8]) -> Result<usize, Refusal> {
    let bytes = entries.as_flattened();
    let Some(used) = list.get_mut(..bytes.len()) else {
        return Err(Refusal::ListTooSmall);
    };
    used.copy_from_slice(bytes);
    Ok(entries.len())
}

/// The answer of a comparison that was taken or refused.
fn answer(outcome: Result<usize, Refusal>) -> Compared {
    match outcome {
        Ok(count) => Compared {
            number: TAKEN,
            count,
        },
        Err(refusal) => Compared {
            number: refusal.number(),
            count: 0,
        },
    }
}
