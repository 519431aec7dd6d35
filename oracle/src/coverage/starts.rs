//! Counts of what start calls meet, and listings after each of the starts.

use super::start_calls::StartCallCoverage;
use super::{DIRECTIONS, Group, direction, mixture, mixtures};
use crate::cases::{Listing, StartCall};
use crate::event::Event;
use crate::listing::LONGEST_TRACE;
use crate::refusal::TAKEN;
use crate::registers::Registers;
use crate::start::Start;
use crate::sweep::DOCUMENT_TRACE;
use crate::trace::{HEADER_LENGTH, RunAnswer, run_from, run_watched};

/// The starts in words.
pub const STARTS: [&str; 2] = [Start::ALL[0].name(), Start::ALL[1].name()];

/// How a run from a start can end.
const ENDS: [&str; 10] = ["0", "3", "4", "5", "6", "7", "8", "9", "10", "15"];

const RESET_RECORD: &str = "reset record";
const SOFTWARE_RESET: &str = "E2";
const SOFTWARE_RESET_AS_N: &str = "E2 as n";
const DIRECTION_AS_N: &str = "direction command as n";
const WRITTEN: &str = "data written";
const OTHER: &str = "other";

/// What makes a direction 0 without being a direction command.
const RESETS: [&str; 2] = [RESET_RECORD, SOFTWARE_RESET];

/// The direction commands, C0 and C8 with those that do the same.
const TURNS: [&str; 4] = ["A0", "A1", "C0", "C8"];

/// Where in a trace a reset can be.
const PLACES: [&str; 4] = ["first", "in the middle", "last", "after a refusal"];

/// On which side of a reset something can be.
const SIDES: [&str; 2] = ["before", "after"];

/// What else a listing from a start can meet.
const SITUATIONS: [&str; 11] = [
    "empty trace",
    "document 01's trace",
    "as long as may be",
    SOFTWARE_RESET_AS_N,
    DIRECTION_AS_N,
    "data written before a direction command",
    "data written after a direction command",
    "band of even M, directions of the start",
    "band of odd M, directions of the start",
    "icons lit, columns of the start",
    "refused, lit, directions of the start",
];

/// What one trace can print from both starts.
const PAIRS: [&str; 7] = [
    "too long",
    "both dark",
    "lit, no direction differs",
    "lit, columns differ",
    "lit, rows differ",
    "lit, both differ",
    "refused and lit, both differ",
];

/// The counts of listings by their starts, and of start calls.
#[derive(Clone, PartialEq, Eq, Debug)]
pub struct StartCoverage {
    ends: Group,
    resets: Group,
    beside_resets: Group,
    directions: Group,
    situations: Group,
    pairs: Group,
    /// The listing before.
    last: Option<Listing>,
    calls: StartCallCoverage,
}

impl StartCoverage {
    /// Nothing reached yet.
    pub fn new() -> StartCoverage {
        StartCoverage {
            ends: Group::new(
                "listings from each start, numbers",
                mixtures(&[&STARTS, &ENDS]),
            ),
            resets: Group::new(
                "listings from each start, resets",
                mixtures(&[&STARTS, &RESETS, &PLACES]),
            ),
            beside_resets: Group::new(
                "listings from each start, direction commands beside resets",
                mixtures(&[&STARTS, &RESETS, &SIDES, &TURNS]),
            ),
            directions: Group::new(
                "listings from each start with lit places, directions left",
                mixtures(&[&STARTS, &DIRECTIONS]),
            ),
            situations: Group::new(
                "listings from each start, situations",
                mixtures(&[&STARTS, &SITUATIONS]),
            ),
            pairs: Group::new("listings of one trace from both starts", PAIRS),
            last: None,
            calls: StartCallCoverage::new(),
        }
    }

    /// Every group.
    pub fn groups(&self) -> Vec<&Group> {
        let mut groups = vec![
            &self.ends,
            &self.resets,
            &self.beside_resets,
            &self.directions,
            &self.situations,
            &self.pairs,
        ];
        groups.extend(self.calls.groups());
        groups
    }

    /// Counts what a start call reaches.
    pub fn see_call(&mut self, call: &StartCall) {
        self.calls.see(call);
    }

    /// Counts what a listing that is not too long reaches; the registers that
    /// its run leaves.
    pub fn see_run(&mut self, listing: &Listing) -> Registers {
        let mut deeds = Vec::new();
        let (registers, _, answer) =
            run_watched(listing.start, &listing.trace, &mut |registers, event| {
                deeds.push(deed(registers, event));
            });
        let start = listing.start.name();
        self.ends
            .hit_label(&mixture(&[start, &answer.number.to_string()]));
        self.see_resets(start, &deeds, answer.number == TAKEN);
        self.see_not_obeyed(listing, answer);
        for situation in situations_of(listing, &deeds) {
            self.situations.hit_label(&mixture(&[start, situation]));
        }
        if is_lit(listing) {
            let left = DIRECTIONS[direction(registers)];
            self.directions.hit_label(&mixture(&[start, left]));
            for situation in lit_situations_of(listing, registers, answer) {
                self.situations.hit_label(&mixture(&[start, situation]));
            }
        }
        registers
    }

    /// Counts where the resets that were obeyed stand, and the direction
    /// commands beside them.
    fn see_resets(&mut self, start: &str, deeds: &[&str], to_the_end: bool) {
        let [first, middle, last, _] = PLACES;
        let [before, after] = SIDES;
        for reset in RESETS {
            let mut hit_place =
                |place: &str| self.resets.hit_label(&mixture(&[start, reset, place]));
            if deeds.first() == Some(&reset) {
                hit_place(first);
            }
            if deeds.len() > 2 && deeds[1..deeds.len() - 1].contains(&reset) {
                hit_place(middle);
            }
            if to_the_end && deeds.len() > 1 && deeds.last() == Some(&reset) {
                hit_place(last);
            }
            for turn in TURNS {
                let mut hit_side =
                    |side| (self.beside_resets).hit_label(&mixture(&[start, reset, side, turn]));
                if comes_before(deeds, turn, reset) {
                    hit_side(before);
                }
                if comes_before(deeds, reset, turn) {
                    hit_side(after);
                }
            }
        }
    }

    /// Counts resets after a refusal, which are not obeyed.
    fn see_not_obeyed(&mut self, listing: &Listing, answer: RunAnswer) {
        if answer.number == TAKEN {
            return;
        }
        let [.., after_refusal] = PLACES;
        let rest = &listing.trace[answer.offset + 1..];
        let reset_record = rest.windows(HEADER_LENGTH).any(|four| four == [0, 0, 4, 0]);
        let there = [reset_record, rest.contains(&0xE2)];
        for (reset, _) in RESETS.iter().zip(there).filter(|(_, there)| *there) {
            let label = mixture(&[listing.start.name(), reset, after_refusal]);
            self.resets.hit_label(&label);
        }
    }

    /// Counts what a trace prints that was listed from the other start just
    /// before.
    pub fn see_pair(&mut self, listing: &Listing) {
        let last = self.last.replace(listing.clone());
        if let Some(last) = last
            && (last.start.other(), &last.trace) == (listing.start, &listing.trace)
        {
            self.pairs.hit_label(pair(&last, listing));
        }
    }
}

/// What an event is that is taken.
fn deed(registers: Registers, event: Event) -> &'static str {
    let [columns_normal, columns_turned, rows_normal, rows_turned] = TURNS;
    match (event, registers.awaited) {
        (Event::Reset, _) => RESET_RECORD,
        (Event::Write(_), _) => WRITTEN,
        (Event::Command(0xE2), None) => SOFTWARE_RESET,
        (Event::Command(0xE2), Some(_)) => SOFTWARE_RESET_AS_N,
        (Event::Command(0xA0 | 0xA1 | 0xC0..=0xCF), Some(_)) => DIRECTION_AS_N,
        (Event::Command(0xA0), None) => columns_normal,
        (Event::Command(0xA1), None) => columns_turned,
        (Event::Command(0xC0..=0xC7), None) => rows_normal,
        (Event::Command(0xC8..=0xCF), None) => rows_turned,
        _ => OTHER,
    }
}

/// Whether the one deed is done before the other is.
fn comes_before(deeds: &[&str], earlier: &str, later: &str) -> bool {
    let first = deeds.iter().position(|deed| *deed == earlier);
    let last = deeds.iter().rposition(|deed| *deed == later);
    matches!((first, last), (Some(first), Some(last)) if first < last)
}

/// Whether any place of the frame is lit.
fn is_lit(listing: &Listing) -> bool {
    !listing.text.ends_with("frame 132 65\nend\n")
}

/// The situations that ask the trace and the events alone.
fn situations_of(listing: &Listing, deeds: &[&str]) -> Vec<&'static str> {
    let [
        empty,
        document,
        longest,
        reset_as_n,
        direction_as_n,
        before,
        after,
        ..,
    ] = SITUATIONS;
    let of_turns = |is: &dyn Fn(&str) -> bool| TURNS.iter().any(|turn| is(turn));
    let met = [
        (empty, listing.trace.is_empty()),
        (document, listing.trace == DOCUMENT_TRACE),
        (longest, listing.trace.len() == LONGEST_TRACE),
        (reset_as_n, deeds.contains(&SOFTWARE_RESET_AS_N)),
        (direction_as_n, deeds.contains(&DIRECTION_AS_N)),
        (before, of_turns(&|turn| comes_before(deeds, WRITTEN, turn))),
        (after, of_turns(&|turn| comes_before(deeds, turn, WRITTEN))),
    ];
    only_met(met)
}

/// The situations of a frame with lit places.
fn lit_situations_of(
    listing: &Listing,
    registers: Registers,
    answer: RunAnswer,
) -> Vec<&'static str> {
    let [.., even, odd, icons, refused] = SITUATIONS;
    let start = listing.start.registers();
    let as_begun = direction(registers) == direction(start);
    let rows_in_use = registers.rows_in_use();
    let met = [
        (
            even,
            as_begun && rows_in_use < 64 && rows_in_use.is_multiple_of(2),
        ),
        (odd, as_begun && rows_in_use % 2 == 1),
        (
            icons,
            listing.text.contains("\n64 ") && registers.columns_reversed == start.columns_reversed,
        ),
        (refused, as_begun && answer.number != TAKEN),
    ];
    only_met(met)
}

/// The situations that are met.
fn only_met<const COUNT: usize>(met: [(&'static str, bool); COUNT]) -> Vec<&'static str> {
    let met = met.into_iter().filter(|(_, met)| *met);
    met.map(|(situation, _)| situation).collect()
}

/// What two listings of one trace are, from one start and from the other.
fn pair(first: &Listing, second: &Listing) -> &'static str {
    let [too_long, dark, alike, columns, rows, both, both_refused] = PAIRS;
    if first.trace.len() > LONGEST_TRACE {
        return too_long;
    }
    if !is_lit(first) && !is_lit(second) {
        return dark;
    }
    let (first_left, _, answer) = run_from(first.start, &first.trace);
    let (second_left, _, _) = run_from(second.start, &second.trace);
    match (
        first_left.columns_reversed == second_left.columns_reversed,
        first_left.rows_reversed == second_left.rows_reversed,
    ) {
        (true, true) => alike,
        (false, true) => columns,
        (true, false) => rows,
        (false, false) if answer.number == TAKEN => both,
        (false, false) => both_refused,
    }
}
