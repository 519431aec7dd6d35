//! Counts of the buffers that start calls were lent.

use super::starts::STARTS;
use super::{Group, mixture, mixtures};
use crate::cases::StartCall;
use crate::generate::{START_MEMORY_LENGTHS, START_STATE_LENGTHS};
use crate::memory::{ICON_PAGE, MEMORY_LENGTH, Memory, place};
use crate::refusal::TAKEN;
use crate::registers::{FIELDS, IMAGE_LENGTH, Image, Registers};
use crate::start::{Start, ZERO_MEMORY};

/// Which of the two buffers something is said of.
const BUFFERS: [&str; 4] = ["neither", "the state alone", "the memory alone", "both"];

/// What a state of the needed length can hold before.
const IMAGES: [&str; 6] = [
    "that of the same start",
    "that of the other start",
    "all 00",
    "all FF",
    "another legal one",
    "another one out of range",
];

/// What a memory of the needed length can hold before.
const MEMORIES: [&str; 8] = [
    "zero",
    "zero but for the first byte",
    "zero but for the last byte",
    "zero but for page 8, bit 0 alone",
    "zero but for page 8, nothing in bit 0",
    "zero but for page 8, any bits",
    "no zero in it",
    "another",
];

/// The counts of start calls.
#[derive(Clone, PartialEq, Eq, Debug)]
pub struct StartCallCoverage {
    numbers: Group,
    short: Group,
    lengths: Group,
    images_refused: Group,
    images_taken: Group,
    fields_00: Group,
    fields_ff: Group,
    memories_taken: Group,
    past: Group,
}

impl StartCallCoverage {
    /// Nothing reached yet.
    pub fn new() -> StartCallCoverage {
        let state_lengths = START_STATE_LENGTHS.map(|length| length.to_string());
        let memory_lengths = START_MEMORY_LENGTHS.map(|length| length.to_string());
        let images = mixtures(&[&STARTS, &IMAGES]);
        let fields = mixtures(&[&STARTS, &FIELDS]);
        StartCallCoverage {
            numbers: Group::numbers("numbers of start calls", &[0, 1]),
            short: Group::new("start calls, too short", mixtures(&[&STARTS, &BUFFERS])),
            lengths: Group::new(
                "start calls, lengths",
                mixtures(&[
                    &STARTS,
                    &state_lengths.each_ref().map(String::as_str),
                    &memory_lengths.each_ref().map(String::as_str),
                ]),
            ),
            images_refused: Group::new("start calls refused, image before", images.clone()),
            images_taken: Group::new("start calls taken, image before", images),
            fields_00: Group::new("start calls taken, field alone 00", fields.clone()),
            fields_ff: Group::new("start calls taken, field alone FF", fields),
            memories_taken: Group::new(
                "start calls taken, memory before",
                mixtures(&[&STARTS, &MEMORIES]),
            ),
            past: Group::new(
                "start calls taken, bytes past what is needed, not all 00",
                mixtures(&[&STARTS, &BUFFERS]),
            ),
        }
    }

    /// Every group.
    pub fn groups(&self) -> Vec<&Group> {
        vec![
            &self.numbers,
            &self.short,
            &self.lengths,
            &self.images_refused,
            &self.images_taken,
            &self.fields_00,
            &self.fields_ff,
            &self.memories_taken,
            &self.past,
        ]
    }

    /// Counts what a start call reaches.
    pub fn see(&mut self, call: &StartCall) {
        let start = call.start.name();
        self.numbers.hit(call.number);
        let image = call.state.first_chunk();
        let memory = call.memory.first_chunk();
        let short = buffers(image.is_none(), memory.is_none());
        self.short.hit_label(&mixture(&[start, short]));
        self.lengths.hit_label(&mixture(&[
            start,
            &call.state.len().to_string(),
            &call.memory.len().to_string(),
        ]));
        let Some(image) = image else {
            return;
        };
        let image_label = mixture(&[start, image_before(call.start, image)]);
        let (Some(memory), TAKEN) = (memory, call.number) else {
            self.images_refused.hit_label(&image_label);
            return;
        };
        self.images_taken.hit_label(&image_label);
        self.memories_taken
            .hit_label(&mixture(&[start, memory_before(memory)]));
        self.see_fields(start, image);
        let past = buffers(
            call.state[IMAGE_LENGTH..].iter().any(|&byte| byte != 0),
            call.memory[MEMORY_LENGTH..].iter().any(|&byte| byte != 0),
        );
        self.past.hit_label(&mixture(&[start, past]));
    }

    /// Counts the field that is the only one with one of the extremes.
    fn see_fields(&mut self, start: &str, image: &Image) {
        for (extreme, group) in [(0x00, &mut self.fields_00), (0xFF, &mut self.fields_ff)] {
            let mut fields = (0..IMAGE_LENGTH).filter(|&field| image[field] == extreme);
            if let (Some(field), None) = (fields.next(), fields.next()) {
                group.hit_label(&mixture(&[start, FIELDS[field]]));
            }
        }
    }
}

/// Which of the buffers it is.
fn buffers(state: bool, memory: bool) -> &'static str {
    BUFFERS[usize::from(state) + 2 * usize::from(memory)]
}

/// Which image it is.
fn image_before(start: Start, image: &Image) -> &'static str {
    let [same, other, zeros, ones, legal, out_of_range] = IMAGES;
    if *image == start.registers().image() {
        same
    } else if *image == start.other().registers().image() {
        other
    } else if *image == [0x00; IMAGE_LENGTH] {
        zeros
    } else if *image == [0xFF; IMAGE_LENGTH] {
        ones
    } else if Registers::from_image(image).is_some() {
        legal
    } else {
        out_of_range
    }
}

/// Which memory it is.
fn memory_before(memory: &Memory) -> &'static str {
    let [zero, first, last, bit_0, junk, page_8, no_zero, another] = MEMORIES;
    let icons = &memory[place(ICON_PAGE, 0)..];
    if *memory == ZERO_MEMORY {
        zero
    } else if memory[1..] == ZERO_MEMORY[1..] {
        first
    } else if memory[..MEMORY_LENGTH - 1] == ZERO_MEMORY[1..] {
        last
    } else if memory[..place(ICON_PAGE, 0)].iter().all(|&byte| byte == 0) {
        match icons.iter().fold(0, |bits, byte| bits | byte) {
            1 => bit_0,
            bits if bits & 1 == 0 => junk,
            _ => page_8,
        }
    } else if !memory.contains(&0) {
        no_zero
    } else {
        another
    }
}
