//! Counts of what compared frames and memories have reached.

use super::Group;
use crate::cases::Comparison;
use crate::compare::{self, FRAME_ENTRY, MEMORY_ENTRY};
use crate::frame::{FRAME_LENGTH, FRAME_ROWS};
use crate::generate::frame_pairs::ABOVE_1;
use crate::generate::{COMPARED_FRAME_LENGTHS, COMPARED_MEMORY_LENGTHS};
use crate::memory::{COLUMNS, ICON_PAGE, MEMORY_LENGTH, place};
use crate::refusal::TAKEN;

/// Which of two lent things are too short.
const SHORT: [&str; 3] = ["the first alone", "the second alone", "both"];

/// How long a list can be beside what its entries need.
const LISTS: [&str; 11] = [
    "no entry, empty",
    "no entry, with room",
    "empty",
    "one entry less",
    "one byte less",
    "otherwise too small",
    "exact",
    "one byte more",
    "one entry more",
    "otherwise more",
    "as long as may be",
];

/// How many places can differ.
const DIFFERING_PLACES: [&str; 6] = [
    "none",
    "1",
    "2 to 20",
    "21 to 4,289",
    "4,290 to 8,579",
    "8,580",
];

/// How many runs there can be.
const RUNS: [&str; 6] = ["none", "1", "2 to 64", "65 to 255", "256 to 8,579", "8,580"];

/// How many bytes can differ.
const DIFFERING_BYTES: [&str; 5] = ["none", "1", "2 to 255", "256 to 1,187", "1,188"];

/// How runs can lie to one another.
const SITUATIONS: [&str; 15] = [
    "dark to lit",
    "lit to dark",
    "one place",
    "whole row",
    "lit to dark right after dark to lit",
    "dark to lit right after lit to dark",
    "three side by side",
    "parted by one place, the same way",
    "parted by one place, not the same way",
    "over the end of a row, the same way",
    "over the end of a row, not the same way",
    "to the end of a row, not on in the next",
    "from the beginning of a row, not from the row before",
    "the same columns in the next row, the same way",
    "the same columns in the next row, not the same way",
];

/// What page 8 can meet.
const PAGE_8: [&str; 8] = [
    "alike but for junk",
    "nothing but junk differs, so no entry",
    "bit 0 differs, no junk",
    "bit 0 differs, junk in the first",
    "bit 0 differs, junk in the second",
    "bit 0 differs, other junk in both",
    "bit 0 differs, the same junk in both",
    "last byte of page 7 differs, not in bit 0",
];

/// All the counts of comparisons.
#[derive(Clone, PartialEq, Eq, Debug)]
pub struct ComparedCoverage {
    frame_numbers: Group,
    first_frame_lengths: Group,
    second_frame_lengths: Group,
    short_frames: Group,
    frame_lists: Group,
    frame_refusals_together: Group,
    bytes_above_1: Group,
    places_above_1: Group,
    bytes_past_the_frame: Group,
    differing_places: Group,
    runs: Group,
    single_places: Group,
    rows_of_runs: Group,
    first_columns: Group,
    last_columns: Group,
    situations: Group,
    memory_numbers: Group,
    first_memory_lengths: Group,
    second_memory_lengths: Group,
    short_memories: Group,
    memory_lists: Group,
    memory_refusals_together: Group,
    differing_bytes: Group,
    places_listed: Group,
    single_bytes: Group,
    single_bits: Group,
    page_8: Group,
    bytes_past_the_memory: Group,
}

impl ComparedCoverage {
    /// Nothing reached yet.
    pub fn new() -> ComparedCoverage {
        let in_frames =
            |what: &str| ["first", "second"].map(|frame| format!("{what} in the {frame}"));
        ComparedCoverage {
            frame_numbers: Group::numbers("compared frames, numbers", &[0, 1, 11, 12]),
            first_frame_lengths: Group::new(
                "compared frames, lengths of the first",
                COMPARED_FRAME_LENGTHS,
            ),
            second_frame_lengths: Group::new(
                "compared frames, lengths of the second",
                COMPARED_FRAME_LENGTHS,
            ),
            short_frames: Group::new("compared frames, too short", SHORT),
            frame_lists: Group::new("compared frames, lists", LISTS),
            frame_refusals_together: Group::new(
                "compared frames, refusals together",
                ["1 and 12", "1 and 11", "1, 12 and 11", "12 and 11"],
            ),
            bytes_above_1: Group::new(
                "compared frames, bytes above 1",
                ABOVE_1.iter().flat_map(|byte| in_frames(&byte.to_string())),
            ),
            places_above_1: Group::new(
                "compared frames, places of bytes above 1",
                ["first place", "last place", "another place"]
                    .into_iter()
                    .flat_map(in_frames)
                    .chain(["the same in both".to_string()]),
            ),
            bytes_past_the_frame: Group::new(
                "compared frames, bytes above 1 just past them, not refused for it",
                ["the first", "the second", "both"],
            ),
            differing_places: Group::new("compared frames, differing places", DIFFERING_PLACES),
            runs: Group::new("compared frames, runs listed", RUNS),
            single_places: Group::new(
                "compared frames, places that alone differ",
                ["first row", "a middle row", "last row"]
                    .iter()
                    .flat_map(|row| {
                        ["first", "last", "another"].map(|place| format!("{row}, {place} place"))
                    }),
            ),
            rows_of_runs: Group::new("compared frames, rows of runs", 0..FRAME_ROWS),
            first_columns: Group::new("compared frames, first columns of runs", 0..COLUMNS),
            last_columns: Group::new("compared frames, last columns of runs", 0..COLUMNS),
            situations: Group::new("compared frames, situations of runs", SITUATIONS),
            memory_numbers: Group::numbers("compared memories, numbers", &[0, 1, 11]),
            first_memory_lengths: Group::new(
                "compared memories, lengths of the first",
                COMPARED_MEMORY_LENGTHS,
            ),
            second_memory_lengths: Group::new(
                "compared memories, lengths of the second",
                COMPARED_MEMORY_LENGTHS,
            ),
            short_memories: Group::new("compared memories, too short", SHORT),
            memory_lists: Group::new("compared memories, lists", LISTS),
            memory_refusals_together: Group::new(
                "compared memories, refusals together",
                ["1 and 11"],
            ),
            differing_bytes: Group::new("compared memories, differing bytes", DIFFERING_BYTES),
            places_listed: Group::new("compared memories, places listed", 0..MEMORY_LENGTH),
            single_bytes: Group::new(
                "compared memories, bytes that alone differ",
                (0..=ICON_PAGE).flat_map(|page| {
                    ["first", "last"].map(|byte| format!("page {page}, {byte} byte"))
                }),
            ),
            single_bits: Group::new(
                "compared memories, bits that alone differ before page 8",
                0..8,
            ),
            page_8: Group::new("compared memories, page 8", PAGE_8),
            bytes_past_the_memory: Group::new(
                "compared memories, bytes past them",
                ["differ, and nothing else"],
            ),
        }
    }

    /// Every group.
    pub fn groups(&self) -> [&Group; 28] {
        [
            &self.frame_numbers,
            &self.first_frame_lengths,
            &self.second_frame_lengths,
            &self.short_frames,
            &self.frame_lists,
            &self.frame_refusals_together,
            &self.bytes_above_1,
            &self.places_above_1,
            &self.bytes_past_the_frame,
            &self.differing_places,
            &self.runs,
            &self.single_places,
            &self.rows_of_runs,
            &self.first_columns,
            &self.last_columns,
            &self.situations,
            &self.memory_numbers,
            &self.first_memory_lengths,
            &self.second_memory_lengths,
            &self.short_memories,
            &self.memory_lists,
            &self.memory_refusals_together,
            &self.differing_bytes,
            &self.places_listed,
            &self.single_bytes,
            &self.single_bits,
            &self.page_8,
            &self.bytes_past_the_memory,
        ]
    }

    /// Counts what two compared frames reach.
    pub fn see_frames(&mut self, case: &Comparison<FRAME_ENTRY>) {
        self.frame_numbers.hit(case.number);
        self.first_frame_lengths.hit_number(case.first.len());
        self.second_frame_lengths.hit_number(case.second.len());
        see_short(&mut self.short_frames, case, FRAME_LENGTH);
        self.see_frame_refusals(case);
        self.see_bytes_above_1(case);
        let Ok(entries) = compare::frame_entries(&case.first, &case.second) else {
            return;
        };
        see_list(&mut self.frame_lists, case, entries.len());
        self.see_past_the_frames(case);
        if case.number == TAKEN {
            self.see_differing_places(case);
            self.see_runs(&case.entries);
        }
    }

    fn see_frame_refusals(&mut self, case: &Comparison<FRAME_ENTRY>) {
        let short = is_short(case, FRAME_LENGTH);
        let wrong = [&case.first, &case.second]
            .into_iter()
            .any(|frame| above_1(frame).next().is_some());
        let label = match (short, wrong, has_no_room(case)) {
            (true, true, false) => "1 and 12",
            (true, false, true) => "1 and 11",
            (true, true, true) => "1, 12 and 11",
            (false, true, true) => "12 and 11",
            _ => return,
        };
        self.frame_refusals_together.hit_label(label);
    }

    fn see_bytes_above_1(&mut self, case: &Comparison<FRAME_ENTRY>) {
        if is_short(case, FRAME_LENGTH) {
            return;
        }
        for (frame, name) in [(&case.first, "first"), (&case.second, "second")] {
            for (place, byte) in above_1(frame) {
                if ABOVE_1.contains(&byte) {
                    self.bytes_above_1
                        .hit_label(&format!("{byte} in the {name}"));
                }
                let where_it_is = match place {
                    0 => "first",
                    _ if place == FRAME_LENGTH - 1 => "last",
                    _ => "another",
                };
                self.places_above_1
                    .hit_label(&format!("{where_it_is} place in the {name}"));
            }
        }
        let in_second: Vec<(usize, u8)> = above_1(&case.second).collect();
        if above_1(&case.first).any(|found| in_second.contains(&found)) {
            self.places_above_1.hit_label("the same in both");
        }
    }

    fn see_past_the_frames(&mut self, case: &Comparison<FRAME_ENTRY>) {
        let past = |frame: &[u8]| frame.get(FRAME_LENGTH).is_some_and(|&byte| byte > 1);
        let label = match (past(&case.first), past(&case.second)) {
            (true, true) => "both",
            (true, false) => "the first",
            (false, true) => "the second",
            (false, false) => return,
        };
        self.bytes_past_the_frame.hit_label(label);
    }

    fn see_differing_places(&mut self, case: &Comparison<FRAME_ENTRY>) {
        let differing: Vec<usize> = (0..FRAME_LENGTH)
            .filter(|&place| case.first[place] != case.second[place])
            .collect();
        self.differing_places.hit_label(match differing.len() {
            0 => "none",
            1 => "1",
            2..=20 => "2 to 20",
            21..=4289 => "21 to 4,289",
            4290..=8579 => "4,290 to 8,579",
            _ => "8,580",
        });
        if let [place] = differing[..] {
            let row = match place / COLUMNS {
                0 => "first row",
                64 => "last row",
                _ => "a middle row",
            };
            let column = match place % COLUMNS {
                0 => "first",
                131 => "last",
                _ => "another",
            };
            self.single_places
                .hit_label(&format!("{row}, {column} place"));
        }
    }

    fn see_runs(&mut self, entries: &[[u8; FRAME_ENTRY]]) {
        self.runs.hit_label(match entries.len() {
            0 => "none",
            1 => "1",
            2..=64 => "2 to 64",
            65..=255 => "65 to 255",
            256..=8579 => "256 to 8,579",
            _ => "8,580",
        });
        let runs: Vec<Listed> = entries.iter().copied().map(Listed::of).collect();
        for run in &runs {
            self.rows_of_runs.hit(run.row);
            self.first_columns.hit(run.first_column);
            self.last_columns.hit(run.last_column);
            self.see_run(*run);
        }
        for two in runs.windows(2) {
            self.see_two_runs(two[0], two[1]);
        }
        for three in runs.windows(3) {
            if three[0].touches(three[1]) && three[1].touches(three[2]) {
                self.situations.hit_label("three side by side");
            }
        }
        self.see_ends_of_rows(&runs);
        self.see_columns_again(&runs);
    }

    fn see_run(&mut self, run: Listed) {
        let situations = &mut self.situations;
        situations.hit_label(if run.goes_lit {
            "dark to lit"
        } else {
            "lit to dark"
        });
        if run.first_column == run.last_column {
            situations.hit_label("one place");
        }
        if run.first_column == 0 && run.ends_its_row() {
            situations.hit_label("whole row");
        }
    }

    /// Counts how a run lies to the next one of its row.
    fn see_two_runs(&mut self, run: Listed, next: Listed) {
        let same_way = run.goes_lit == next.goes_lit;
        if run.touches(next) {
            self.situations.hit_label(if run.goes_lit {
                "lit to dark right after dark to lit"
            } else {
                "dark to lit right after lit to dark"
            });
        } else if run.row == next.row && run.last_column + 2 == next.first_column {
            self.situations.hit_label(if same_way {
                "parted by one place, the same way"
            } else {
                "parted by one place, not the same way"
            });
        }
    }

    /// Counts what lies at the ends of rows and the beginnings of the next.
    fn see_ends_of_rows(&mut self, runs: &[Listed]) {
        for row in 0..FRAME_ROWS - 1 {
            let at_the_end = runs.iter().find(|run| run.row == row && run.ends_its_row());
            let at_the_beginning = runs
                .iter()
                .find(|run| run.row == row + 1 && run.first_column == 0);
            let label = match (at_the_end, at_the_beginning) {
                (Some(run), Some(next)) if run.goes_lit == next.goes_lit => {
                    "over the end of a row, the same way"
                }
                (Some(_), Some(_)) => "over the end of a row, not the same way",
                (Some(_), None) => "to the end of a row, not on in the next",
                (None, Some(_)) => "from the beginning of a row, not from the row before",
                (None, None) => continue,
            };
            self.situations.hit_label(label);
        }
    }

    /// Counts runs that the next row has at the same columns.
    fn see_columns_again(&mut self, runs: &[Listed]) {
        let mut below = 0;
        for run in runs {
            let place = (run.row + 1, run.first_column);
            while below < runs.len() && (runs[below].row, runs[below].first_column) < place {
                below += 1;
            }
            let Some(other) = runs.get(below) else {
                return;
            };
            if (other.row, other.first_column) == place && other.last_column == run.last_column {
                self.situations
                    .hit_label(if other.goes_lit == run.goes_lit {
                        "the same columns in the next row, the same way"
                    } else {
                        "the same columns in the next row, not the same way"
                    });
            }
        }
    }

    /// Counts what two compared memories reach.
    pub fn see_memories(&mut self, case: &Comparison<MEMORY_ENTRY>) {
        self.memory_numbers.hit(case.number);
        self.first_memory_lengths.hit_number(case.first.len());
        self.second_memory_lengths.hit_number(case.second.len());
        see_short(&mut self.short_memories, case, MEMORY_LENGTH);
        if is_short(case, MEMORY_LENGTH) && has_no_room(case) {
            self.memory_refusals_together.hit_label("1 and 11");
        }
        let Ok(entries) = compare::memory_entries(&case.first, &case.second) else {
            return;
        };
        see_list(&mut self.memory_lists, case, entries.len());
        if case.number == TAKEN {
            self.see_listed_bytes(&case.entries);
            self.see_page_8(case);
            self.see_past_the_memories(case);
        }
    }

    fn see_listed_bytes(&mut self, entries: &[[u8; MEMORY_ENTRY]]) {
        self.differing_bytes.hit_label(match entries.len() {
            0 => "none",
            1 => "1",
            2..=255 => "2 to 255",
            256..=1187 => "256 to 1,187",
            _ => "1,188",
        });
        for &entry in entries {
            self.places_listed.hit(place_of(entry));
        }
        let [entry] = *entries else {
            return;
        };
        let page = place_of(entry) / COLUMNS;
        match place_of(entry) % COLUMNS {
            0 => self.single_bytes.hit(2 * page),
            131 => self.single_bytes.hit(2 * page + 1),
            _ => {}
        }
        let differing_bits = entry[2] ^ entry[3];
        if page < usize::from(ICON_PAGE) && differing_bits.is_power_of_two() {
            self.single_bits
                .hit(differing_bits.trailing_zeros() as usize);
        }
    }

    fn see_page_8(&mut self, case: &Comparison<MEMORY_ENTRY>) {
        let icons = place(ICON_PAGE, 0);
        let pairs = |from: usize, end: usize| {
            let first = case.first[from..end].iter().copied();
            first.zip(case.second[from..end].iter().copied())
        };
        for (in_first, in_second) in pairs(icons, MEMORY_LENGTH) {
            if in_first == in_second {
                continue;
            }
            let label = match ((in_first ^ in_second) & 1, in_first >> 1, in_second >> 1) {
                (0, _, _) => "alike but for junk",
                (_, 0, 0) => "bit 0 differs, no junk",
                (_, _, 0) => "bit 0 differs, junk in the first",
                (_, 0, _) => "bit 0 differs, junk in the second",
                (_, junk, other) if junk == other => "bit 0 differs, the same junk in both",
                _ => "bit 0 differs, other junk in both",
            };
            self.page_8.hit_label(label);
        }
        if case.entries.is_empty() && pairs(0, MEMORY_LENGTH).any(|(byte, other)| byte != other) {
            self.page_8
                .hit_label("nothing but junk differs, so no entry");
        }
        for (in_first, in_second) in pairs(icons - 1, icons) {
            if in_first != in_second && (in_first ^ in_second) & 1 == 0 {
                self.page_8
                    .hit_label("last byte of page 7 differs, not in bit 0");
            }
        }
    }

    fn see_past_the_memories(&mut self, case: &Comparison<MEMORY_ENTRY>) {
        let alike = case.first[..MEMORY_LENGTH] == case.second[..MEMORY_LENGTH];
        let mut past = case.first.iter().zip(&case.second).skip(MEMORY_LENGTH);
        if alike && past.any(|(byte, other)| byte != other) {
            self.bytes_past_the_memory
                .hit_label("differ, and nothing else");
        }
    }
}

/// A run as an entry tells it.
#[derive(Clone, Copy, PartialEq, Eq, Debug)]
struct Listed {
    row: usize,
    first_column: usize,
    last_column: usize,
    goes_lit: bool,
}

impl Listed {
    fn of(entry: [u8; FRAME_ENTRY]) -> Listed {
        let [row, first_column, last_column, _, lit_in_second] = entry;
        Listed {
            row: row.into(),
            first_column: first_column.into(),
            last_column: last_column.into(),
            goes_lit: lit_in_second == 1,
        }
    }

    fn ends_its_row(self) -> bool {
        self.last_column == COLUMNS - 1
    }

    /// Whether the other run follows at once in the same row.
    fn touches(self, next: Listed) -> bool {
        self.row == next.row && self.last_column + 1 == next.first_column
    }
}

/// The place of an entry of two memories.
fn place_of(entry: [u8; MEMORY_ENTRY]) -> usize {
    u16::from_le_bytes([entry[0], entry[1]]).into()
}

/// The bytes above 1 of a frame, as far as it is there, with their places.
fn above_1(frame: &[u8]) -> impl Iterator<Item = (usize, u8)> {
    let places = frame.iter().copied().enumerate().take(FRAME_LENGTH);
    places.filter(|(_, byte)| *byte > 1)
}

fn is_short<const ENTRY: usize>(case: &Comparison<ENTRY>, needed: usize) -> bool {
    case.first.len().min(case.second.len()) < needed
}

/// Whether something differs in what both have, and the list has no room for
/// one entry.
fn has_no_room<const ENTRY: usize>(case: &Comparison<ENTRY>) -> bool {
    let mut both = case.first.iter().zip(&case.second);
    case.list_length < ENTRY && both.any(|(byte, other)| byte != other)
}

fn see_short<const ENTRY: usize>(short: &mut Group, case: &Comparison<ENTRY>, needed: usize) {
    match (case.first.len() < needed, case.second.len() < needed) {
        (true, false) => short.hit_label("the first alone"),
        (false, true) => short.hit_label("the second alone"),
        (true, true) => short.hit_label("both"),
        (false, false) => {}
    }
}

/// Counts how long the list is beside what so many entries need.
fn see_list<const ENTRY: usize>(lists: &mut Group, case: &Comparison<ENTRY>, count: usize) {
    let needed = ENTRY * count;
    let length = case.list_length;
    lists.hit_label(match (count, length) {
        (0, 0) => "no entry, empty",
        (0, _) => "no entry, with room",
        (_, 0) => "empty",
        _ if length == needed => "exact",
        _ if length + 1 == needed => "one byte less",
        _ if length + ENTRY == needed => "one entry less",
        _ if length < needed => "otherwise too small",
        _ if length == needed + 1 => "one byte more",
        _ if length == needed + ENTRY => "one entry more",
        (_, 65_535) => "as long as may be",
        _ => "otherwise more",
    });
}
