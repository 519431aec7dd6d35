//! Counts of what the wide terminal has reached.

mod events;
mod pages;
mod pairs;
mod runs;

use super::starts::STARTS;
use super::{DIRECTIONS, Group, direction, mixture, mixtures, refused_number};
use crate::cases::Listing;
use crate::cases::wide::{PageCall, WideDraw, WideRun, WideSingle};
use crate::event::Event;
use crate::generate::wide::WIDE_FRAME_LENGTHS;
use crate::listing::LONGEST_TRACE;
use crate::memory::{COLUMNS, LAST_COLUMN};
use crate::refusal::TAKEN;
use crate::registers::Registers;
use crate::wide::frame::WIDE_FRAME_LENGTH;
use crate::wide::{Selection, Side};
use events::WideEventCoverage;
use pages::PageCoverage;
use pairs::{IMAGES, PairCoverage, images_of, is_short};
use runs::WideRunCoverage;

/// The two chips.
const SIDES: [&str; 2] = ["left", "right"];

/// The selections, in the order of their bytes.
const SELECTIONS: [&str; 3] = ["left selected", "right selected", "both selected"];

/// The selection in words.
fn selection_name(selection: Selection) -> &'static str {
    SELECTIONS[usize::from(selection.byte() - 1)]
}

/// The event in a word.
fn event_name(event: Event) -> &'static str {
    match event {
        Event::Command(_) => "command",
        Event::Write(_) => "write",
        Event::Read => "read",
        Event::Reset => "reset pin",
    }
}

/// Who of the selected chips can refuse.
const REFUSING: [&str; 6] = [
    "left selected, it refuses",
    "right selected, it refuses",
    "both selected, the left refuses",
    "both selected, the right refuses",
    "both selected, both refuse alike",
    "both selected, both refuse, not alike",
];

/// Who refuses, by the number that each chip would give.
fn refusing(selection: Selection, numbers: [u8; 2]) -> Option<&'static str> {
    let [left_alone, right_alone, left, right, alike, not_alike] = REFUSING;
    match (selection, numbers) {
        (Selection::Left, [TAKEN, _])
        | (Selection::Right, [_, TAKEN])
        | (Selection::Both, [TAKEN, TAKEN]) => None,
        (Selection::Left, _) => Some(left_alone),
        (Selection::Right, _) => Some(right_alone),
        (Selection::Both, [_, TAKEN]) => Some(left),
        (Selection::Both, [TAKEN, _]) => Some(right),
        (Selection::Both, [first, second]) if first == second => Some(alike),
        (Selection::Both, _) => Some(not_alike),
    }
}

/// What a byte of test mode can be to a chip.
const TEST_MODE_IS: [&str; 3] = ["taken", "5", "15"];

/// What bytes of test mode can be to both selected chips, left and right.
fn test_mode_to_both(name: &'static str) -> Group {
    Group::new(name, mixtures(&[&TEST_MODE_IS, &TEST_MODE_IS]))
}

/// Counts what a byte of test mode is to both chips, by the number that each
/// would give.
fn see_test_mode_to_both(group: &mut Group, numbers: [u8; 2]) {
    let [taken, ..] = TEST_MODE_IS;
    let [left, right] = numbers.map(|number| match number {
        TAKEN => taken.to_string(),
        _ => number.to_string(),
    });
    group.hit_label(&mixture(&[&left, &right]));
}

/// What can be in the way of data.
const IN_THE_WAY: [&str; 3] = ["nothing", "code awaited", "column above 131"];

/// Whether the next read is the dummy read.
const FRESH: [&str; 2] = ["fresh 0", "fresh 1"];

/// What these registers have in the way of data.
fn in_the_way(registers: Registers) -> &'static str {
    let [nothing, code, column] = IN_THE_WAY;
    if registers.awaited.is_some() {
        code
    } else if registers.column > LAST_COLUMN {
        column
    } else {
        nothing
    }
}

/// What each chip has in the way of a read of both.
fn reads_of_both(name: &'static str) -> Group {
    Group::new(name, mixtures(&[&SIDES, &IN_THE_WAY, &FRESH]))
}

/// Counts what a read of both meets in each chip.
fn see_read_of_both(group: &mut Group, registers: [Registers; 2]) {
    for (side, registers) in SIDES.iter().zip(registers) {
        let fresh = FRESH[usize::from(registers.fresh)];
        group.hit_label(&mixture(&[side, in_the_way(registers), fresh]));
    }
}

/// What a wide listing can be.
const LISTINGS: [&str; 8] = [
    "all dark",
    "left half lit alone",
    "right half lit alone",
    "both halves lit",
    "a run over the middle",
    "refused, lit places",
    "input as long as may be",
    "input too long",
];

/// The numbers of runs that are printed.
const LISTED_NUMBERS: [&str; 12] = [
    "0", "3", "4", "5", "6", "7", "8", "9", "10", "13", "14", "15",
];

/// The counts of the wide terminal.
#[derive(Clone, PartialEq, Eq, Debug)]
pub struct WideCoverage {
    events: WideEventCoverage,
    runs: WideRunCoverage,
    draw_numbers: Group,
    draw_pairs: PairCoverage,
    draw_frames: Group,
    draw_refusals: Group,
    draw_displays: Group,
    draw_directions: Group,
    pages: PageCoverage,
    listing_numbers: Group,
    listings: Group,
}

impl WideCoverage {
    /// Nothing reached yet.
    pub fn new() -> WideCoverage {
        let displays = [["left off", "left on"], ["right off", "right on"]];
        WideCoverage {
            events: WideEventCoverage::new(),
            runs: WideRunCoverage::new(),
            draw_numbers: Group::numbers("numbers of wide draws", &[0, 1, 2]),
            draw_pairs: PairCoverage::new([
                "wide draws, lengths",
                "wide draws, too short",
                "wide draws, images",
            ]),
            draw_frames: Group::new("wide draws, frame lengths", WIDE_FRAME_LENGTHS),
            draw_refusals: Group::new(
                "wide draws, refusals together",
                mixtures(&[&FRAMES, &OTHERS, &IMAGES]),
            ),
            draw_displays: Group::new(
                "wide draws, displays",
                mixtures(&displays.each_ref().map(<[&str; 2]>::as_slice)),
            ),
            draw_directions: Group::new(
                "wide draws, directions",
                mixtures(&[&DIRECTIONS, &DIRECTIONS]),
            ),
            pages: PageCoverage::new(),
            listing_numbers: Group::new(
                "numbers of wide listings",
                mixtures(&[&STARTS, &LISTED_NUMBERS]),
            ),
            listings: Group::new("wide listings", mixtures(&[&STARTS, &LISTINGS])),
        }
    }

    /// Every group.
    pub fn groups(&self) -> Vec<&Group> {
        let mut groups = self.events.groups();
        groups.extend(self.runs.groups());
        groups.push(&self.draw_numbers);
        groups.extend(self.draw_pairs.groups());
        groups.extend([
            &self.draw_frames,
            &self.draw_refusals,
            &self.draw_displays,
            &self.draw_directions,
        ]);
        groups.extend(self.pages.groups());
        groups.extend([&self.listing_numbers, &self.listings]);
        groups
    }

    /// Counts what a single event reaches.
    pub fn see_single(&mut self, single: &WideSingle) {
        self.events.see(single);
    }

    /// Counts what a run reaches.
    pub fn see_run(&mut self, run: &WideRun) {
        self.runs.see(run);
    }

    /// Counts what a drawing reaches.
    pub fn see_draw(&mut self, draw: &WideDraw) {
        self.draw_numbers.hit(draw.number);
        self.draw_pairs.see(&draw.pair);
        self.draw_frames.hit_number(draw.frame_length);
        self.draw_refusals.hit_label(&mixture(&[
            FRAMES[usize::from(draw.frame_length < WIDE_FRAME_LENGTH)],
            OTHERS[usize::from(is_short(&draw.pair).contains(&true))],
            images_of(&draw.pair),
        ]));
        if draw.number != TAKEN {
            return;
        }
        let [left, right] = draw.pair.each_ref().map(|buffers| {
            let image = buffers.state.first_chunk();
            Registers::from_image(image.expect("a drawing that was taken"))
                .expect("a drawing that was taken")
        });
        let display = 2 * usize::from(left.display_on) + usize::from(right.display_on);
        self.draw_displays.hit(display);
        if left.display_on && right.display_on {
            self.draw_directions
                .hit(DIRECTIONS.len() * direction(left) + direction(right));
        }
    }

    /// Counts what a page call reaches.
    pub fn see_page(&mut self, call: &PageCall) {
        self.pages.see(call);
    }

    /// Counts what a listing reaches.
    pub fn see_listing(&mut self, listing: &Listing) {
        let [dark, left, right, both, middle, refused, longest, too_long] = LISTINGS;
        let start = listing.start.name();
        let mut hit = |situation: &str| self.listings.hit_label(&mixture(&[start, situation]));
        if listing.trace.len() > LONGEST_TRACE {
            hit(too_long);
            return;
        }
        if listing.trace.len() == LONGEST_TRACE {
            hit(longest);
        }
        let number = refused_number(&listing.text);
        let runs = lit_runs(&listing.text);
        hit(match Side::ALL.map(|side| is_lit(&runs, side)) {
            [false, false] => dark,
            [true, false] => left,
            [false, true] => right,
            [true, true] => both,
        });
        if runs
            .iter()
            .any(|[first, last]| *first < COLUMNS && *last >= COLUMNS)
        {
            hit(middle);
        }
        if number != TAKEN && !runs.is_empty() {
            hit(refused);
        }
        self.listing_numbers
            .hit_label(&mixture(&[start, &number.to_string()]));
    }
}

/// Whether the frame of a drawing is long enough.
const FRAMES: [&str; 2] = ["frame long enough", "frame too short"];

/// Whether the other buffers of a drawing are.
const OTHERS: [&str; 2] = ["others long enough", "others too short"];

/// First and last place of each run of lit places, whatever its row.
fn lit_runs(text: &str) -> Vec<[usize; 2]> {
    let rows = text.lines().filter(|line| line.contains('-'));
    rows.flat_map(|line| line.split(' ').skip(1))
        .map(|run| {
            let places = run.split_once('-').expect("a run has two places");
            [places.0, places.1].map(|place| place.parse().expect("a place is a number"))
        })
        .collect()
}

/// Whether a run is in the half of this side, or in both.
fn is_lit(runs: &[[usize; 2]], side: Side) -> bool {
    runs.iter().any(|[first, last]| match side {
        Side::Left => *first < COLUMNS,
        Side::Right => *last >= COLUMNS,
    })
}
