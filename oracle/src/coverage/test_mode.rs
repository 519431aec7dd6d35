//! Counts of the bytes of Order 6's test mode: which were refused for it, where,
//! and what came of the others.

use super::{Group, kind_of, mixture, mixtures, records_done};
use crate::cases::wide::{WideRun, WideSingle};
use crate::cases::{Case, Run, Sequence, Single};
use crate::command::TEST_MODE;
use crate::event::{Answer, Event};
use crate::refusal::{Refusal, TAKEN};
use crate::trace::{HEADER_LENGTH, RunAnswer};
use crate::wide::trace::{FIRST_SELECTION, SELECT_KIND};
use crate::wide::{Selection, Side};

/// The kinds of cases that can be refused for test mode.
const KINDS: [&str; 7] = [
    "single",
    "sequence",
    "run",
    "listing",
    "wide single",
    "wide run",
    "wide listing",
];

/// The kinds of cases that have single events on buffers of any length.
const SINGLES: [&str; 2] = ["single", "wide single"];

/// What else can come of these bytes as single commands.
const INSTEAD: [&str; 4] = ["1", "2", "taken as n", "5 as n"];

/// What can come after a refused one in a sequence.
const NEXT: [&str; 10] = [
    "the same again",
    "command taken",
    "command refused",
    "write taken",
    "write refused",
    "dummy read",
    "read",
    "read refused",
    "reset pin",
    "nothing",
];

/// Where in a run the refused byte can be.
const PLACES: [&str; 6] = [
    "alone in its record",
    "first of its record",
    "amid its record",
    "last of its record",
    "after such a byte as n",
    "after whole records",
];

/// The counts of bytes of test mode.
#[derive(Clone, PartialEq, Eq, Debug)]
pub struct TestModeCoverage {
    kinds: Group,
    bytes: Group,
    instead: Group,
    next: Group,
    places: Group,
    selections: Group,
}

impl TestModeCoverage {
    /// Nothing reached yet.
    pub fn new() -> TestModeCoverage {
        let bytes: Vec<String> = TEST_MODE.map(|byte| format!("{byte:02X}")).collect();
        let bytes: Vec<&str> = bytes.iter().map(String::as_str).collect();
        let mut instead = mixtures(&[&SINGLES, &INSTEAD]);
        instead.push(mixture(&[SINGLES[1], "13"]));
        let in_runs = mixtures(&[&["run", "wide run"], &PLACES]);
        let selected = ["left selected", "right selected", "both selected"];
        TestModeCoverage {
            kinds: Group::new("test mode, refused 15", KINDS),
            bytes: Group::new("test mode, bytes refused 15", mixtures(&[&KINDS, &bytes])),
            instead: Group::new("test mode, bytes not refused 15", instead),
            next: Group::new("test mode, after a refused byte", NEXT),
            places: Group::new("test mode, places of refused bytes", in_runs),
            selections: Group::new(
                "test mode, refused bytes under selections",
                mixtures(&[&["wide single", "wide run"], &selected]),
            ),
        }
    }

    /// Every group.
    pub fn groups(&self) -> [&Group; 6] {
        [
            &self.kinds,
            &self.bytes,
            &self.instead,
            &self.next,
            &self.places,
            &self.selections,
        ]
    }

    /// Counts what a case reaches.
    pub fn see(&mut self, case: &Case) {
        match case {
            Case::Single(single) => self.see_single(single),
            Case::Sequence(sequence) => self.see_sequence(sequence),
            Case::Run(run) => self.see_run(run),
            Case::WideSingle(single) => self.see_wide_single(single),
            Case::WideRun(run) => self.see_wide_run(run),
            Case::Listing(listing) | Case::WideListing(listing) => {
                if let Some(offset) = refused_at(&listing.text) {
                    self.hit(kind_of(case), listing.trace[offset]);
                }
            }
            Case::Draw(_)
            | Case::ComparedFrames(_)
            | Case::ComparedMemories(_)
            | Case::StartCall(_)
            | Case::WideDraw(_)
            | Case::PageCall(_) => {}
        }
    }

    /// Counts a byte that is refused for test mode in a case of this kind.
    fn hit(&mut self, kind: &str, byte: u8) {
        self.kinds.hit_label(kind);
        self.bytes
            .hit_label(&mixture(&[kind, &format!("{byte:02X}")]));
    }

    /// Counts what comes of a single command.
    fn see_command(&mut self, kind: &str, event: Event, number: u8) {
        let Event::Command(byte) = event else {
            return;
        };
        if is_refused(number) {
            self.hit(kind, byte);
        } else if TEST_MODE.contains(&byte) {
            let [_, _, taken, not_allowed] = INSTEAD;
            let instead = match number {
                TAKEN => taken.to_string(),
                5 => not_allowed.to_string(),
                _ => number.to_string(),
            };
            self.instead.hit_label(&mixture(&[kind, &instead]));
        }
    }

    fn see_single(&mut self, single: &Single) {
        self.see_command("single", single.event, single.answer.number);
    }

    fn see_sequence(&mut self, sequence: &Sequence) {
        let mut steps = sequence.steps.iter().peekable();
        while let Some(step) = steps.next() {
            if let Event::Command(byte) = step.event
                && is_refused(step.answer.number)
            {
                self.hit("sequence", byte);
                let next = steps.peek().map(|next| (next.event, next.answer));
                self.next.hit_label(next_name(step.event, next));
            }
        }
    }

    fn see_run(&mut self, run: &Run) {
        if is_refused(run.answer.number) {
            self.hit("run", run.trace[run.answer.offset]);
            self.see_place("run", &run.trace, run.answer);
        }
    }

    fn see_wide_single(&mut self, single: &WideSingle) {
        let number = single.answer.number;
        self.see_command("wide single", single.event, number);
        if is_refused(number)
            && let Ok(selection) = Selection::from_byte(single.selection)
        {
            self.see_selection("wide single", selection);
        }
    }

    fn see_wide_run(&mut self, run: &WideRun) {
        if is_refused(run.answer.number) {
            self.hit("wide run", run.trace[run.answer.offset]);
            self.see_place("wide run", &run.trace, run.answer);
            let (done, _) = records_done(&run.trace, run.answer.count);
            let selected = done.iter().rfind(|(kind, _)| *kind == SELECT_KIND);
            let selection = selected.map_or(FIRST_SELECTION, |(_, payload)| {
                Selection::from_byte(payload[0]).expect("a record that was done")
            });
            self.see_selection("wide run", selection);
        }
    }

    /// Counts who is selected when a byte is refused.
    fn see_selection(&mut self, kind: &str, selection: Selection) {
        let selected = match selection.sides() {
            [Side::Left] => "left selected",
            [Side::Right] => "right selected",
            _ => "both selected",
        };
        self.selections.hit_label(&mixture(&[kind, selected]));
    }

    /// Counts where in its trace the byte is at which a run was refused.
    fn see_place(&mut self, kind: &str, trace: &[u8], answer: RunAnswer) {
        let [alone, first, amid, last, after_n, after_records] = PLACES;
        let (_, record) = records_done(trace, answer.count);
        let length = usize::from(u16::from_le_bytes([trace[record], trace[record + 1]]));
        let place = answer.offset - record - HEADER_LENGTH;
        let mut hit = |label: &str| self.places.hit_label(&mixture(&[kind, label]));
        hit(match (place, length - place) {
            (0, 1) => alone,
            (0, _) => first,
            (_, 1) => last,
            (_, _) => amid,
        });
        if place > 0 && TEST_MODE.contains(&trace[answer.offset - 1]) {
            hit(after_n);
        }
        if answer.count > 0 {
            hit(after_records);
        }
    }
}

/// Whether this is the number of test mode.
fn is_refused(number: u8) -> bool {
    number == Refusal::TestMode.number()
}

/// Where a listing says that its run was refused for test mode.
fn refused_at(text: &str) -> Option<usize> {
    let said = format!("refused {} at ", Refusal::TestMode.number());
    let offset = text.lines().next()?.strip_prefix(&said)?;
    Some(offset.parse().expect("an offset is a number"))
}

/// What comes after a refused command in a sequence.
fn next_name(refused: Event, next: Option<(Event, Answer)>) -> &'static str {
    let [
        same,
        taken,
        not_taken,
        write,
        no_write,
        dummy,
        read,
        no_read,
        reset,
        nothing,
    ] = NEXT;
    let Some((event, answer)) = next else {
        return nothing;
    };
    match (event, answer.number == TAKEN) {
        (Event::Command(_), _) if event == refused => same,
        (Event::Command(_), true) => taken,
        (Event::Command(_), false) => not_taken,
        (Event::Write(_), true) => write,
        (Event::Write(_), false) => no_write,
        (Event::Read, true) if answer.dummy => dummy,
        (Event::Read, true) => read,
        (Event::Read, false) => no_read,
        (Event::Reset, _) => reset,
    }
}
