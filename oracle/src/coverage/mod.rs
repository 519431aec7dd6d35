//! Counts of what a stream of cases has reached.

mod bands;
mod compared;
mod start_calls;
mod starts;
mod test_mode;
mod wide;

use std::fmt;

use crate::cases::{Case, Draw, Listing, Run, Sequence, Single};
use crate::event::{Answer, Event};
use crate::generate::{FRAME_LENGTHS, MEMORY_LENGTHS, STATE_LENGTHS};
use crate::listing::LONGEST_TRACE;
use crate::memory::{COLUMNS, ICON_PAGE, LAST_COLUMN, MEMORY_LENGTH, place};
use crate::refusal::{LAST_NUMBER, TAKEN};
use crate::registers::{Awaited, FIELDS, IMAGE_LENGTH, Image, Registers};
use crate::trace::{HEADER_LENGTH, Payload, Record, first_parts, record_of};
use bands::BandCoverage;
use compared::ComparedCoverage;
use starts::StartCoverage;
use test_mode::TestModeCoverage;
use wide::WideCoverage;

/// Counts of things of one sort.
#[derive(Clone, PartialEq, Eq, Debug)]
pub struct Group {
    name: &'static str,
    labels: Vec<String>,
    /// Whether the model can reach it at all.
    possible: Vec<bool>,
    counts: Vec<u64>,
}

impl Group {
    fn new(name: &'static str, labels: impl IntoIterator<Item = impl ToString>) -> Group {
        let labels: Vec<String> = labels.into_iter().map(|label| label.to_string()).collect();
        Group {
            name,
            possible: vec![true; labels.len()],
            counts: vec![0; labels.len()],
            labels,
        }
    }

    /// All the numbers there are, of which only these can be answered.
    fn numbers(name: &'static str, possible: &[u8]) -> Group {
        let numbers = TAKEN..=LAST_NUMBER;
        Group {
            possible: numbers.clone().map(|n| possible.contains(&n)).collect(),
            ..Group::new(name, numbers)
        }
    }

    /// The same group, of which the labels that end so cannot be reached.
    fn without(mut self, ending: &str) -> Group {
        for (label, possible) in self.labels.iter().zip(&mut self.possible) {
            *possible &= !label.ends_with(ending);
        }
        self
    }

    fn hex_bytes(name: &'static str) -> Group {
        Group::new(name, (0..=0xFF).map(|byte| format!("{byte:02X}")))
    }

    fn codes(name: &'static str, possible: &[Awaited]) -> Group {
        Group {
            possible: Awaited::ALL
                .iter()
                .map(|code| possible.contains(code))
                .collect(),
            ..Group::new(
                name,
                Awaited::ALL
                    .iter()
                    .map(|code| format!("{:02X}", code.code())),
            )
        }
    }

    fn hit(&mut self, index: impl Into<usize>) {
        self.counts[index.into()] += 1;
    }

    fn hit_label(&mut self, label: &str) {
        let index = self.labels.iter().position(|known| known == label);
        self.hit(index.expect("every label is in the list of its group"));
    }

    fn hit_number(&mut self, number: usize) {
        self.hit_label(&number.to_string());
    }

    /// What was not reached but could be, or was reached but should not.
    fn faults(&self) -> Vec<String> {
        self.labels
            .iter()
            .zip(self.possible.iter().zip(&self.counts))
            .filter(|(_, (possible, count))| **possible == (**count == 0))
            .map(|(label, (possible, _))| {
                let what = if *possible {
                    "not reached"
                } else {
                    "impossible"
                };
                format!("{}: {label} {what}", self.name)
            })
            .collect()
    }
}

impl fmt::Display for Group {
    fn fmt(&self, formatter: &mut fmt::Formatter) -> fmt::Result {
        let possible = self.possible.iter().filter(|possible| **possible).count();
        let reached = self.counts.iter().filter(|count| **count > 0).count();
        write!(formatter, "{}: {reached} of {possible}", self.name)?;
        if possible > 32 {
            let counts = self.counts.iter().zip(&self.possible);
            let least = counts
                .filter(|(_, possible)| **possible)
                .map(|(count, _)| count)
                .min();
            let least = least.copied().unwrap_or(0);
            return write!(formatter, ", the rarest {least} times");
        }
        for ((label, count), possible) in self.labels.iter().zip(&self.counts).zip(&self.possible) {
            if *possible {
                write!(formatter, "\n  {count:>9}  {label}")?;
            }
        }
        Ok(())
    }
}

/// A label of one word from each of some lists.
fn mixture(words: &[&str]) -> String {
    words.join(", ")
}

/// Every label of these lists.
fn mixtures(lists: &[&[&str]]) -> Vec<String> {
    let Some((first, others)) = lists.split_first() else {
        return Vec::new();
    };
    let words = first.iter().map(ToString::to_string).collect();
    others.iter().fold(words, |labels: Vec<String>, list| {
        let longer = |label: &String| list.iter().map(|word| mixture(&[label, word])).collect();
        labels.iter().flat_map::<Vec<String>, _>(longer).collect()
    })
}

/// The column and row directions together.
const DIRECTIONS: [&str; 4] = [
    "columns normal, rows normal",
    "columns normal, rows reversed",
    "columns reversed, rows normal",
    "columns reversed, rows reversed",
];

/// Which of the directions these registers have.
fn direction(registers: Registers) -> usize {
    2 * usize::from(registers.columns_reversed) + usize::from(registers.rows_reversed)
}

/// What a single event can meet.
const SITUATIONS: [&str; 27] = [
    "dummy read",
    "dummy read in read-modify-write",
    "read, column moved on",
    "read, 0 after 131",
    "read in read-modify-write, column stays",
    "read of page 8 with junk above bit 0",
    "write with fresh 0",
    "write, 0 after 131",
    "write in read-modify-write, column moved on",
    "write to page 8 of more than bit 0",
    "dummy read refused with column above 131",
    "read refused with fresh 0",
    "data refused 6 with column above 131 too",
    "command taken with fresh 0",
    "command refused with fresh 0",
    "n refused with fresh 0",
    "E0 outside read-modify-write",
    "E0 in read-modify-write, column moved since",
    "EE outside read-modify-write",
    "EE in read-modify-write, column moved since",
    "EE to a saved column above 131",
    "E2 in read-modify-write",
    "reset pin in read-modify-write",
    "reset pin while a code is awaited",
    "reset pin on an illegal image",
    "refused 1 with an illegal image too",
    "command that uses no memory refused for short memory",
];

/// What a run can meet.
const RUN_SITUATIONS: [&str; 22] = [
    "empty trace",
    "commands done",
    "data written done",
    "reads compared and right",
    "reset pin done",
    "no command in the record",
    "nothing written in the record",
    "nothing read in the record",
    "more than 255 commands in the record",
    "more than 255 written in the record",
    "more than 255 read in the record",
    "1 byte left for a header",
    "2 bytes left for a header",
    "3 bytes left for a header",
    "payload past the end",
    "payload past the end, and a wrong kind",
    "wrong kind that ends like a right one",
    "reset pin with a payload",
    "stopped after part of a record",
    "stopped after whole records",
    "stopped past offset 65,535",
    "all of more than 65,535 bytes taken",
];

/// What a listing can be.
const LISTING_SITUATIONS: [&str; 5] = [
    "all dark",
    "lit places",
    "refused, lit places",
    "input as long as may be",
    "input too long",
];

/// The kinds of cases.
const KINDS: [&str; 13] = [
    "single",
    "sequence",
    "run",
    "draw",
    "listing",
    "compared frames",
    "compared memories",
    "start call",
    "wide single",
    "wide run",
    "wide draw",
    "page call",
    "wide listing",
];

/// All the counts.
#[derive(Clone, PartialEq, Eq, Debug)]
pub struct Coverage {
    cases: Group,
    command_numbers: Group,
    write_numbers: Group,
    read_numbers: Group,
    reset_numbers: Group,
    run_numbers: Group,
    draw_numbers: Group,
    listing_numbers: Group,
    command_bytes: Group,
    n_taken: Group,
    n_refused: Group,
    n_values: Group,
    data_while_awaited: Group,
    pages_written: Group,
    pages_read: Group,
    columns_written: Group,
    columns_read: Group,
    columns_refused: Group,
    situations: Group,
    hostile_fields: Group,
    state_lengths: Group,
    memory_lengths: Group,
    frame_lengths: Group,
    rows_in_use_normal: Group,
    rows_in_use_reversed: Group,
    offsets: Group,
    start_lines: Group,
    directions: Group,
    lights: Group,
    run_situations: Group,
    listing_situations: Group,
    compared: ComparedCoverage,
    bands: BandCoverage,
    starts: StartCoverage,
    wide: WideCoverage,
    test_mode: TestModeCoverage,
}

impl Default for Coverage {
    fn default() -> Coverage {
        Coverage::new()
    }
}

impl Coverage {
    /// Nothing reached yet.
    #[must_use]
    pub fn new() -> Coverage {
        let codes_and_bytes = Awaited::ALL
            .iter()
            .flat_map(|code| (0..=0xFF).map(|n| format!("{:02X} {n:02X}", code.code())));
        let awaited_data = Awaited::ALL.iter().flat_map(|code| {
            ["write", "read"].map(|event| format!("{:02X}, {event}", code.code()))
        });
        Coverage {
            cases: Group::new("cases", KINDS),
            command_numbers: Group::numbers("numbers of commands", &[0, 1, 2, 3, 4, 5, 15]),
            write_numbers: Group::numbers("numbers of writes", &[0, 1, 2, 6, 7]),
            read_numbers: Group::numbers("numbers of reads", &[0, 1, 2, 6, 7]),
            reset_numbers: Group::numbers("numbers of resets", &[0, 1]),
            run_numbers: Group::numbers("numbers of runs", &[0, 1, 2, 3, 4, 5, 6, 7, 8, 9, 10, 15]),
            draw_numbers: Group::numbers("numbers of draws", &[0, 1, 2]),
            listing_numbers: Group::numbers(
                "numbers of listings",
                &[0, 3, 4, 5, 6, 7, 8, 9, 10, 15],
            ),
            command_bytes: Group::hex_bytes("command bytes with no code awaited"),
            n_taken: Group::codes("n taken", &Awaited::ALL),
            n_refused: Group::codes("n refused", &[Awaited::Offset, Awaited::FramePhases]),
            n_values: Group::new("values of n", codes_and_bytes),
            data_while_awaited: Group::new("data refused while awaited", awaited_data),
            pages_written: Group::new("pages written", 0..=8),
            pages_read: Group::new("pages read", 0..=8),
            columns_written: Group::new("columns written", 0..COLUMNS),
            columns_read: Group::new("columns read", 0..COLUMNS),
            columns_refused: Group::new("columns refused", COLUMNS..=255),
            situations: Group::new("situations of events", SITUATIONS),
            hostile_fields: Group {
                possible: FIELDS
                    .iter()
                    .map(|field| !["column", "byte of A9"].contains(field))
                    .collect(),
                ..Group::new("fields alone out of range", FIELDS)
            },
            state_lengths: Group::new("state lengths", STATE_LENGTHS),
            memory_lengths: Group::new("memory lengths", MEMORY_LENGTHS),
            frame_lengths: Group::new("frame lengths", FRAME_LENGTHS),
            rows_in_use_normal: Group::new("M drawn, rows normal", 1..=64),
            rows_in_use_reversed: Group::new("M drawn, rows reversed", 1..=64),
            offsets: Group::new("offsets drawn", 0..=63),
            start_lines: Group::new("start lines drawn", 0..=63),
            directions: Group::new("directions drawn", DIRECTIONS),
            lights: Group::new(
                "lights drawn",
                [
                    "display off",
                    "display off, reverse",
                    "display off, entire on",
                    "display off, entire on, reverse",
                    "display on",
                    "display on, reverse",
                    "display on, entire on",
                    "display on, entire on, reverse",
                ],
            ),
            run_situations: Group::new("situations of runs", RUN_SITUATIONS),
            listing_situations: Group::new("situations of listings", LISTING_SITUATIONS),
            compared: ComparedCoverage::new(),
            bands: BandCoverage::new(),
            starts: StartCoverage::new(),
            wide: WideCoverage::new(),
            test_mode: TestModeCoverage::new(),
        }
    }

    /// Every group.
    #[must_use]
    pub fn groups(&self) -> Vec<&Group> {
        let mut groups = vec![
            &self.cases,
            &self.command_numbers,
            &self.write_numbers,
            &self.read_numbers,
            &self.reset_numbers,
            &self.run_numbers,
            &self.draw_numbers,
            &self.listing_numbers,
            &self.command_bytes,
            &self.n_taken,
            &self.n_refused,
            &self.n_values,
            &self.data_while_awaited,
            &self.pages_written,
            &self.pages_read,
            &self.columns_written,
            &self.columns_read,
            &self.columns_refused,
            &self.situations,
            &self.hostile_fields,
            &self.state_lengths,
            &self.memory_lengths,
            &self.frame_lengths,
            &self.rows_in_use_normal,
            &self.rows_in_use_reversed,
            &self.offsets,
            &self.start_lines,
            &self.directions,
            &self.lights,
            &self.run_situations,
            &self.listing_situations,
        ];
        groups.extend(self.groups_of_orders());
        groups
    }

    /// Every group that the orders of document 02 brought.
    fn groups_of_orders(&self) -> Vec<&Group> {
        let mut groups = self.compared.groups().to_vec();
        groups.extend(self.bands.groups());
        groups.extend(self.starts.groups());
        groups.extend(self.wide.groups());
        groups.extend(self.test_mode.groups());
        groups
    }

    /// What was not reached but could be, or was reached but should not.
    #[must_use]
    pub fn faults(&self) -> Vec<String> {
        self.groups().into_iter().flat_map(Group::faults).collect()
    }

    /// Counts what a case reaches.
    pub fn see(&mut self, case: &Case) {
        self.cases.hit_label(kind_of(case));
        self.test_mode.see(case);
        match case {
            Case::Single(single) => self.see_single(single),
            Case::Sequence(sequence) => self.see_sequence(sequence),
            Case::Run(run) => self.see_run(run),
            Case::Draw(draw) => self.see_draw(draw),
            Case::Listing(listing) => self.see_listing(listing),
            Case::ComparedFrames(frames) => self.compared.see_frames(frames),
            Case::ComparedMemories(memories) => self.compared.see_memories(memories),
            Case::StartCall(start_call) => self.starts.see_call(start_call),
            Case::WideSingle(single) => self.wide.see_single(single),
            Case::WideRun(run) => self.wide.see_run(run),
            Case::WideDraw(draw) => self.wide.see_draw(draw),
            Case::PageCall(page_call) => self.wide.see_page(page_call),
            Case::WideListing(listing) => self.wide.see_listing(listing),
        }
    }

    fn see_single(&mut self, single: &Single) {
        self.state_lengths.hit_number(single.state.len());
        self.memory_lengths.hit_number(single.memory.len());
        self.see_event(&single.state, &single.memory, single.event, single.answer);
    }

    fn see_sequence(&mut self, sequence: &Sequence) {
        let mut image = sequence.image;
        let mut memory = sequence.memory;
        for step in &sequence.steps {
            self.see_event(&image, &memory, step.event, step.answer);
            image = step.image_after;
            if let Some(stored) = step.answer.stored {
                memory[stored.place] = stored.byte;
            }
        }
    }

    fn see_event(&mut self, state: &[u8], memory: &[u8], event: Event, answer: Answer) {
        let numbers = match event {
            Event::Command(_) => &mut self.command_numbers,
            Event::Write(_) => &mut self.write_numbers,
            Event::Read => &mut self.read_numbers,
            Event::Reset => &mut self.reset_numbers,
        };
        numbers.hit(answer.number);
        let Some(image) = state.first_chunk::<IMAGE_LENGTH>() else {
            return;
        };
        let registers = Registers::from_image(image);
        if memory.len() < MEMORY_LENGTH {
            if registers.is_none() {
                self.situations
                    .hit_label("refused 1 with an illegal image too");
            } else if matches!(event, Event::Command(_)) {
                self.situations
                    .hit_label("command that uses no memory refused for short memory");
            }
            return;
        }
        let Some(registers) = registers else {
            self.see_illegal(image, event);
            return;
        };
        match event {
            Event::Command(byte) => self.see_command(registers, byte, answer),
            Event::Write(byte) => self.see_write(registers, byte, answer),
            Event::Read => self.see_read(registers, memory, answer),
            Event::Reset => self.see_reset(registers),
        }
    }

    fn see_illegal(&mut self, image: &Image, event: Event) {
        if event == Event::Reset {
            self.situations.hit_label("reset pin on an illegal image");
            return;
        }
        let power_on = Registers::POWER_ON.image();
        for field in 0..IMAGE_LENGTH {
            let mut mended = *image;
            mended[field] = power_on[field];
            if Registers::from_image(&mended).is_some() {
                self.hostile_fields.hit(field);
            }
        }
    }

    fn see_command(&mut self, registers: Registers, byte: u8, answer: Answer) {
        let taken = answer.number == TAKEN;
        if !registers.fresh {
            self.situations.hit_label(if taken {
                "command taken with fresh 0"
            } else {
                "command refused with fresh 0"
            });
        }
        if let Some(code) = registers.awaited {
            let index = index_of(code);
            self.n_values.hit(index * 256 + usize::from(byte));
            if taken {
                self.n_taken.hit(index);
            } else {
                self.n_refused.hit(index);
                if !registers.fresh {
                    self.situations.hit_label("n refused with fresh 0");
                }
            }
            return;
        }
        self.command_bytes.hit(byte);
        let situation = match (byte, registers.read_modify_write) {
            (0xE0, None) => "E0 outside read-modify-write",
            (0xE0, Some(saved)) if saved != registers.column => {
                "E0 in read-modify-write, column moved since"
            }
            (0xE2, Some(_)) => "E2 in read-modify-write",
            (0xEE, None) => "EE outside read-modify-write",
            (0xEE, Some(saved)) if saved > LAST_COLUMN => "EE to a saved column above 131",
            (0xEE, Some(saved)) if saved != registers.column => {
                "EE in read-modify-write, column moved since"
            }
            _ => return,
        };
        self.situations.hit_label(situation);
    }

    fn see_write(&mut self, registers: Registers, byte: u8, answer: Answer) {
        if answer.number != TAKEN {
            self.see_refused_data(registers, "write");
            return;
        }
        self.pages_written.hit(registers.page);
        self.columns_written.hit(registers.column);
        if !registers.fresh {
            self.situations.hit_label("write with fresh 0");
        }
        if registers.column == LAST_COLUMN {
            self.situations.hit_label("write, 0 after 131");
        }
        if registers.read_modify_write.is_some() {
            self.situations
                .hit_label("write in read-modify-write, column moved on");
        }
        if registers.page == ICON_PAGE && byte > 1 {
            self.situations
                .hit_label("write to page 8 of more than bit 0");
        }
    }

    fn see_read(&mut self, registers: Registers, memory: &[u8], answer: Answer) {
        let in_read_modify_write = registers.read_modify_write.is_some();
        if answer.number != TAKEN {
            self.see_refused_data(registers, "read");
            if !registers.fresh {
                self.situations.hit_label("read refused with fresh 0");
            } else if registers.awaited.is_none() {
                self.situations
                    .hit_label("dummy read refused with column above 131");
            }
            return;
        }
        if answer.dummy {
            self.situations.hit_label(if in_read_modify_write {
                "dummy read in read-modify-write"
            } else {
                "dummy read"
            });
            return;
        }
        self.pages_read.hit(registers.page);
        self.columns_read.hit(registers.column);
        if registers.page == ICON_PAGE && memory[place(registers.page, registers.column)] > 1 {
            self.situations
                .hit_label("read of page 8 with junk above bit 0");
        }
        self.situations.hit_label(if in_read_modify_write {
            "read in read-modify-write, column stays"
        } else if registers.column == LAST_COLUMN {
            "read, 0 after 131"
        } else {
            "read, column moved on"
        });
    }

    fn see_refused_data(&mut self, registers: Registers, event: &str) {
        let Some(code) = registers.awaited else {
            self.columns_refused
                .hit(usize::from(registers.column) - COLUMNS);
            return;
        };
        let label = format!("{:02X}, {event}", code.code());
        self.data_while_awaited.hit_label(&label);
        if registers.column > LAST_COLUMN {
            self.situations
                .hit_label("data refused 6 with column above 131 too");
        }
    }

    fn see_reset(&mut self, registers: Registers) {
        if registers.read_modify_write.is_some() {
            self.situations.hit_label("reset pin in read-modify-write");
        }
        if registers.awaited.is_some() {
            self.situations
                .hit_label("reset pin while a code is awaited");
        }
    }

    fn see_run(&mut self, run: &Run) {
        self.run_numbers.hit(run.answer.number);
        if matches!(run.answer.number, 1 | 2) {
            return;
        }
        let situations = &mut self.run_situations;
        if run.trace.is_empty() {
            situations.hit_label("empty trace");
        }
        let (done, place) = records_done(&run.trace, run.answer.count);
        for (kind, payload) in done {
            let record = record_of(kind, payload).expect("a record that was done");
            see_record_done(situations, record);
        }
        let rest = &run.trace[place..];
        match (run.answer.number, rest) {
            (8, [_]) => situations.hit_label("1 byte left for a header"),
            (8, [_, _]) => situations.hit_label("2 bytes left for a header"),
            (8, [_, _, _]) => situations.hit_label("3 bytes left for a header"),
            (8, [_, _, 1..=4, 0, ..]) => situations.hit_label("payload past the end"),
            (8, _) => situations.hit_label("payload past the end, and a wrong kind"),
            (9, [_, _, 4, 0, ..]) => situations.hit_label("reset pin with a payload"),
            (9, [_, _, 1..=4, ..]) => {
                situations.hit_label("wrong kind that ends like a right one");
            }
            _ => {}
        }
        if run.answer.number != TAKEN && run.answer.offset > place + HEADER_LENGTH {
            situations.hit_label("stopped after part of a record");
        }
        if run.answer.number != TAKEN && run.answer.count > 0 {
            situations.hit_label("stopped after whole records");
        }
        if run.answer.offset > usize::from(u16::MAX) {
            situations.hit_label(if run.answer.number == TAKEN {
                "all of more than 65,535 bytes taken"
            } else {
                "stopped past offset 65,535"
            });
        }
    }

    fn see_draw(&mut self, draw: &Draw) {
        self.draw_numbers.hit(draw.number);
        self.frame_lengths.hit_number(draw.frame_length);
        if draw.number != TAKEN {
            return;
        }
        let image = draw.state.first_chunk().expect("a drawing that was taken");
        let registers = Registers::from_image(image).expect("a drawing that was taken");
        let light = 4 * usize::from(registers.display_on)
            + 2 * usize::from(registers.entire_on)
            + usize::from(registers.reverse);
        self.lights.hit(light);
        if !registers.display_on {
            return;
        }
        self.directions.hit(direction(registers));
        if registers.rows_reversed {
            self.rows_in_use_reversed.hit(registers.multiplex);
        } else {
            self.rows_in_use_normal.hit(registers.multiplex);
        }
        self.offsets.hit(registers.offset);
        self.start_lines.hit(registers.start_line);
        self.bands.see_draw(registers);
    }

    fn see_listing(&mut self, listing: &Listing) {
        self.starts.see_pair(listing);
        if listing.trace.len() > LONGEST_TRACE {
            self.listing_situations.hit_label("input too long");
            return;
        }
        if listing.trace.len() == LONGEST_TRACE {
            self.listing_situations.hit_label("input as long as may be");
        }
        let number = refused_number(&listing.text);
        self.listing_numbers.hit(number);
        let all_dark = listing.text.ends_with("frame 132 65\nend\n");
        self.listing_situations.hit_label(match (all_dark, number) {
            (true, _) => "all dark",
            (false, TAKEN) => "lit places",
            (false, _) => "refused, lit places",
        });
        let registers = self.starts.see_run(listing);
        if registers.display_on {
            self.bands.see_listing(registers);
        }
    }
}

impl fmt::Display for Coverage {
    fn fmt(&self, formatter: &mut fmt::Formatter) -> fmt::Result {
        for group in self.groups() {
            writeln!(formatter, "{group}")?;
        }
        for fault in self.faults() {
            writeln!(formatter, "FAULT {fault}")?;
        }
        Ok(())
    }
}

/// The number that a listing prints, or that of a run that was not refused.
fn refused_number(text: &str) -> u8 {
    text.strip_prefix("refused ").map_or(TAKEN, |rest| {
        let digits = rest.split(' ').next().unwrap_or("");
        digits.parse().expect("a refusal has a number")
    })
}

fn index_of(code: Awaited) -> usize {
    Awaited::ALL
        .iter()
        .position(|known| *known == code)
        .expect("every code is in the list")
}

/// The kind of a case.
fn kind_of(case: &Case) -> &'static str {
    KINDS[match case {
        Case::Single(_) => 0,
        Case::Sequence(_) => 1,
        Case::Run(_) => 2,
        Case::Draw(_) => 3,
        Case::Listing(_) => 4,
        Case::ComparedFrames(_) => 5,
        Case::ComparedMemories(_) => 6,
        Case::StartCall(_) => 7,
        Case::WideSingle(_) => 8,
        Case::WideRun(_) => 9,
        Case::WideDraw(_) => 10,
        Case::PageCall(_) => 11,
        Case::WideListing(_) => 12,
    }]
}

/// Kind and payload of each record that was done, and where the next begins.
fn records_done(trace: &[u8], count: usize) -> (Vec<(u16, &[u8])>, usize) {
    let mut place = 0;
    let mut done = Vec::new();
    for _ in 0..count {
        let (kind, payload) = first_parts(&trace[place..]).expect("a record that was done");
        place += HEADER_LENGTH + payload.len();
        done.push((kind, payload));
    }
    (done, place)
}

fn see_record_done(situations: &mut Group, record: Record) {
    let (payload, bytes) = match record {
        Record::ResetPin => {
            situations.hit_label("reset pin done");
            return;
        }
        Record::Bytes(payload, bytes) => (payload, bytes),
    };
    let label = match (payload, bytes.len()) {
        (Payload::Commands, 0) => "no command in the record",
        (Payload::Written, 0) => "nothing written in the record",
        (Payload::Read, 0) => "nothing read in the record",
        (Payload::Commands, 256..) => "more than 255 commands in the record",
        (Payload::Written, 256..) => "more than 255 written in the record",
        (Payload::Read, 256..) => "more than 255 read in the record",
        (Payload::Commands, _) => "commands done",
        (Payload::Written, _) => "data written done",
        // One of several reads may be the dummy, not all.
        (Payload::Read, 2..) => "reads compared and right",
        (Payload::Read, 1) => return,
    };
    situations.hit_label(label);
}
