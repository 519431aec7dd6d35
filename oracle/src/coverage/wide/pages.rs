//! Counts of the page calls.

use super::super::{Group, mixture, mixtures};
use super::SIDES;
use crate::cases::wide::PageCall;
use crate::generate::MEMORY_LENGTHS;
use crate::memory::{ICON_PAGE, MEMORY_LENGTH};
use crate::refusal::TAKEN;

/// Which memories are too short.
const MEMORIES: [&str; 4] = [
    "neither too short",
    "the left too short",
    "the right too short",
    "both too short",
];

/// The pages that can be asked for and the others.
const PAGES: [&str; 4] = ["page up to 8", "page 9", "page 10 to 254", "page 255"];

/// The counts of page calls.
#[derive(Clone, PartialEq, Eq, Debug)]
pub struct PageCoverage {
    numbers: Group,
    taken: Group,
    lengths: Group,
    refused: Group,
}

impl PageCoverage {
    /// Nothing reached yet.
    pub fn new() -> PageCoverage {
        let pages: Vec<String> = (0..=ICON_PAGE).map(|page| page.to_string()).collect();
        let pages: Vec<&str> = pages.iter().map(String::as_str).collect();
        let lengths = MEMORY_LENGTHS.map(|length| length.to_string());
        let lengths = lengths.each_ref().map(String::as_str);
        PageCoverage {
            numbers: Group::numbers("numbers of page calls", &[0, 1, 4]),
            taken: Group::new("page calls taken", mixtures(&[&SIDES, &pages])),
            lengths: Group::new(
                "page calls, lengths",
                mixtures(&[&SIDES, &lengths, &lengths]),
            ),
            refused: Group::new("page calls refused", mixtures(&[&SIDES, &MEMORIES, &PAGES]))
                .without(&mixture(&[MEMORIES[0], PAGES[0]])),
        }
    }

    /// Every group.
    pub fn groups(&self) -> [&Group; 4] {
        [&self.numbers, &self.taken, &self.lengths, &self.refused]
    }

    /// Counts what a page call reaches.
    pub fn see(&mut self, call: &PageCall) {
        let side = SIDES[call.side.index()];
        self.numbers.hit(call.number);
        let [left, right] = call.memories.each_ref().map(Vec::len);
        self.lengths
            .hit_label(&mixture(&[side, &left.to_string(), &right.to_string()]));
        if call.number == TAKEN {
            self.taken
                .hit_label(&mixture(&[side, &call.page.to_string()]));
            return;
        }
        let short = usize::from(left < MEMORY_LENGTH) + 2 * usize::from(right < MEMORY_LENGTH);
        let [within, nine, above, last] = PAGES;
        let page = match call.page {
            0..=ICON_PAGE => within,
            9 => nine,
            0xFF => last,
            _ => above,
        };
        self.refused
            .hit_label(&mixture(&[side, MEMORIES[short], page]));
    }
}
