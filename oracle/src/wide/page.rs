//! One page of one chip, handed back as a part of the caller's memory.

use crate::memory::{COLUMNS, ICON_PAGE, MEMORY_LENGTH, place};
use crate::refusal::{Refusal, TAKEN};
use crate::wide::Side;

/// The answer of a page call.
#[derive(Clone, Copy, PartialEq, Eq, Debug)]
pub struct PageAnswer<'a> {
    /// 0 for taken, else the refusal.
    pub number: u8,
    /// The page where it lies; empty if refused.
    pub part: &'a [u8],
}

/// The call that hands back a page of the left memory or of the right.
#[must_use]
pub fn call<'a>(left: &'a [u8], right: &'a [u8], side: Side, page: u8) -> PageAnswer<'a> {
    match part_or_refusal([left, right], side, page) {
        Ok(part) => PageAnswer {
            number: TAKEN,
            part,
        },
        Err(refusal) => PageAnswer {
            number: refusal.number(),
            part: &[],
        },
    }
}

fn part_or_refusal(memories: [&[u8]; 2], side: Side, page: u8) -> Result<&[u8], Refusal> {
    if memories.iter().any(|memory| memory.len() < MEMORY_LENGTH) {
        return Err(Refusal::LentTooShort);
    }
    if page > ICON_PAGE {
        return Err(Refusal::NoSuchPage);
    }
    let first = place(page, 0);
    Ok(&memories[side.index()][first..first + COLUMNS])
}
