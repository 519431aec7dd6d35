//! Counts of the wide trace runs.

use super::super::{Group, mixture, mixtures, records_done};
use super::pairs::PairCoverage;
use super::{
    REFUSING, SELECTIONS, SIDES, reads_of_both, refusing, see_read_of_both, see_test_mode_to_both,
    selection_name, test_mode_to_both,
};
use crate::cases::wide::WideRun;
use crate::command::TEST_MODE;
use crate::refusal::{Refusal, TAKEN};
use crate::registers::Registers;
use crate::trace::{HEADER_LENGTH, Payload, Record, first_parts, obey};
use crate::wide::trace::{FIRST_SELECTION, WideRecord, wide_record_of};
use crate::wide::{Selection, Side};

/// The records that are obeyed.
const RECORDS: [&str; 7] = [
    "commands",
    "no command",
    "data written",
    "nothing written",
    "nothing read",
    "reset pin",
    "reads",
];

/// Payloads of kind 5 that select nothing.
const NOT_SELECTING: [&str; 8] = [
    "no byte",
    "byte 0",
    "byte 4",
    "byte 5 to 254",
    "byte 255",
    "two bytes, the first of 1 to 3",
    "two bytes, the first not of 1 to 3",
    "three bytes or more",
];

/// Records that are not all there.
const CUT: [&str; 4] = [
    "the header",
    "a select record of one byte",
    "a longer select record",
    "another record",
];

/// Kinds that no record has.
const WRONG_KINDS: [&str; 5] = ["0", "6", "0105", "4 with a payload", "another"];

/// What a run that is taken can end with.
const ENDS: [&str; 5] = [
    "nothing at all",
    "left selected",
    "right selected",
    "both selected",
    "another record",
];

/// Where in its record the refused byte is.
const PLACES: [&str; 2] = ["first byte", "later byte"];

/// How far past 65,535 a run can go.
const PAST: [&str; 4] = ["refused 13", "refused 14", "refused 15", "all taken"];

/// The counts of runs.
#[derive(Clone, PartialEq, Eq, Debug)]
pub struct WideRunCoverage {
    numbers: Group,
    pairs: PairCoverage,
    done: Group,
    selected: Group,
    not_selecting: Group,
    cut: Group,
    wrong_kinds: Group,
    refused: Group,
    reads_refused: Group,
    reads_of_both: Group,
    ends: Group,
    past: Group,
    test_mode_to_both: Group,
}

impl WideRunCoverage {
    /// Nothing reached yet.
    pub fn new() -> WideRunCoverage {
        let done = [
            mixtures(&[&SELECTIONS, &RECORDS[..6]]),
            mixtures(&[&SELECTIONS[..2], &RECORDS[6..]]),
        ];
        WideRunCoverage {
            numbers: Group::numbers(
                "numbers of wide runs",
                &[0, 1, 2, 3, 4, 5, 6, 7, 8, 9, 10, 13, 14, 15],
            ),
            pairs: PairCoverage::new([
                "wide runs, lengths",
                "wide runs, too short",
                "wide runs, images",
            ]),
            done: Group::new("wide runs, records done", done.concat()),
            selected: Group::new(
                "wide runs, selections before and after",
                mixtures(&[&SELECTIONS, &SELECTIONS]),
            ),
            not_selecting: Group::new("wide runs, refused 13", NOT_SELECTING),
            cut: Group::new("wide runs, cut short", CUT),
            wrong_kinds: Group::new("wide runs, wrong kinds", WRONG_KINDS),
            refused: Group::new("wide runs, refused bytes", refused_bytes()),
            reads_refused: Group::new(
                "wide runs, reads refused",
                mixtures(&[&SIDES, &["6", "7", "10"]]),
            ),
            reads_of_both: reads_of_both("wide runs, reads of both"),
            ends: Group::new("wide runs taken that end with", ENDS),
            past: Group::new("wide runs past offset 65,535", PAST),
            // Only a byte that stops the run is counted.
            test_mode_to_both: test_mode_to_both("wide runs, test mode to both")
                .without("taken, taken"),
        }
    }

    /// Every group.
    pub fn groups(&self) -> Vec<&Group> {
        let mut groups = vec![&self.numbers];
        groups.extend(self.pairs.groups());
        groups.extend([
            &self.done,
            &self.selected,
            &self.not_selecting,
            &self.cut,
            &self.wrong_kinds,
            &self.refused,
            &self.reads_refused,
            &self.reads_of_both,
            &self.ends,
            &self.past,
            &self.test_mode_to_both,
        ]);
        groups
    }

    /// Counts what a run reaches.
    pub fn see(&mut self, run: &WideRun) {
        self.numbers.hit(run.answer.number);
        self.pairs.see(&run.pair);
        if matches!(run.answer.number, 1 | 2) {
            return;
        }
        let (done, place) = records_done(&run.trace, run.answer.count);
        let mut selection = FIRST_SELECTION;
        let mut end = ENDS[0];
        for (kind, payload) in done {
            match wide_record_of(kind, payload).expect("a record that was done") {
                WideRecord::Select(selected) => {
                    self.selected.hit_label(&mixture(&[
                        selection_name(selection),
                        selection_name(selected),
                    ]));
                    selection = selected;
                    end = selection_name(selected);
                }
                WideRecord::ForSelected(record) => {
                    let name = record_name(record);
                    self.done
                        .hit_label(&mixture(&[selection_name(selection), name]));
                    end = ENDS[4];
                }
            }
        }
        if run.answer.number == TAKEN {
            self.ends.hit_label(end);
        } else {
            self.see_stop(run, place, selection);
        }
        self.see_past(run);
    }

    /// Counts how far a long run goes.
    fn see_past(&mut self, run: &WideRun) {
        let [wrong_selection, read_of_both, test_mode, all] = PAST;
        if u16::try_from(run.answer.offset).is_ok() {
            return;
        }
        match run.answer.number {
            13 => self.past.hit_label(wrong_selection),
            14 => self.past.hit_label(read_of_both),
            15 => self.past.hit_label(test_mode),
            TAKEN => self.past.hit_label(all),
            _ => {}
        }
    }

    /// Counts what stops a run at the record that begins at this place.
    fn see_stop(&mut self, run: &WideRun, place: usize, selection: Selection) {
        let rest = &run.trace[place..];
        let Ok((kind, payload)) = first_parts(rest) else {
            self.cut.hit_label(cut_record(rest));
            return;
        };
        match wide_record_of(kind, payload) {
            Err(Refusal::WrongSelection) => self.not_selecting.hit_label(not_selecting(payload)),
            Err(_) => self.wrong_kinds.hit_label(wrong_kind(kind)),
            Ok(WideRecord::ForSelected(Record::Bytes(kind, bytes))) => {
                let byte = run.answer.offset - place - HEADER_LENGTH;
                self.see_refused_byte(run, selection, kind, byte, bytes[byte]);
            }
            Ok(_) => unreachable!("selections and reset pins are taken"),
        }
    }

    /// Counts who refuses a payload byte; the chips are as they were before it.
    fn see_refused_byte(
        &mut self,
        run: &WideRun,
        selection: Selection,
        payload: Payload,
        place: usize,
        byte: u8,
    ) {
        if run.answer.number == Refusal::ReadOfBoth.number() {
            see_read_of_both(&mut self.reads_of_both, registers_left(run));
            return;
        }
        let numbers = numbers_of_chips(run, payload, byte);
        let who = refusing(selection, numbers).expect("a byte that was refused");
        let name = match payload {
            Payload::Commands => "commands",
            Payload::Written => "written",
            Payload::Read => "read",
        };
        let label = mixture(&[name, who, PLACES[usize::from(place > 0)]]);
        self.refused.hit_label(&label);
        let is_command = payload == Payload::Commands;
        if is_command && TEST_MODE.contains(&byte) && selection == Selection::Both {
            see_test_mode_to_both(&mut self.test_mode_to_both, numbers);
        }
        if let (Payload::Read, &[side]) = (payload, selection.sides()) {
            let number = run.answer.number.to_string();
            let label = mixture(&[SIDES[side.index()], &number]);
            self.reads_refused.hit_label(&label);
        }
    }
}

/// Who can refuse a payload byte, and where in its record.
fn refused_bytes() -> Vec<String> {
    let [left_alone, right_alone, ..] = REFUSING;
    // Nothing in a record of data can come in the way of its later bytes.
    let refused = [
        mixtures(&[&["commands"], &REFUSING, &PLACES]),
        mixtures(&[&["written"], &REFUSING, &PLACES[..1]]),
        mixtures(&[&["read"], &[left_alone, right_alone], &PLACES]),
    ];
    refused.concat()
}

/// The registers of both chips after a run.
fn registers_left(run: &WideRun) -> [Registers; 2] {
    run.pair_after.each_ref().map(|buffers| {
        let image = buffers.state.first_chunk();
        let registers = image.and_then(Registers::from_image);
        registers.expect("a run leaves legal images")
    })
}

/// The number that each chip would give a payload byte after a run.
fn numbers_of_chips(run: &WideRun, payload: Payload, byte: u8) -> [u8; 2] {
    let registers = registers_left(run);
    Side::ALL.map(|side| {
        let memory = run.pair_after[side.index()].memory.first_chunk();
        let memory = memory.expect("memories that are long enough");
        let obeyed = obey(registers[side.index()], memory, payload, byte);
        obeyed.map_or_else(Refusal::number, |_| TAKEN)
    })
}

/// The record in words.
fn record_name(record: Record) -> &'static str {
    let [
        commands,
        no_command,
        written,
        nothing_written,
        nothing_read,
        reset,
        reads,
    ] = RECORDS;
    match record {
        Record::ResetPin => reset,
        Record::Bytes(Payload::Commands, []) => no_command,
        Record::Bytes(Payload::Commands, _) => commands,
        Record::Bytes(Payload::Written, []) => nothing_written,
        Record::Bytes(Payload::Written, _) => written,
        Record::Bytes(Payload::Read, []) => nothing_read,
        Record::Bytes(Payload::Read, _) => reads,
    }
}

/// What is not all there.
fn cut_record(rest: &[u8]) -> &'static str {
    let [header, one_byte, longer, another] = CUT;
    match rest {
        [] | [_] | [_, _] | [_, _, _] => header,
        [1, 0, 5, 0, ..] => one_byte,
        [_, _, 5, 0, ..] => longer,
        _ => another,
    }
}

/// Why a payload selects nothing.
fn not_selecting(payload: &[u8]) -> &'static str {
    let [none, zero, four, others, last, good, not_good, many] = NOT_SELECTING;
    match payload {
        [] => none,
        [0] => zero,
        [4] => four,
        [0xFF] => last,
        [_] => others,
        [1..=3, _] => good,
        [_, _] => not_good,
        _ => many,
    }
}

/// Which of the wrong kinds it is.
fn wrong_kind(kind: u16) -> &'static str {
    let [zero, six, ends_like_five, reset, another] = WRONG_KINDS;
    match kind {
        0 => zero,
        6 => six,
        0x0105 => ends_like_five,
        4 => reset,
        _ => another,
    }
}
