//! Random inputs, bent towards the places where models go wrong.

pub mod events;
pub mod frame_pairs;
pub mod memories;
pub mod memory_pairs;
pub mod starts;
pub mod states;
pub mod traces;
pub mod wide;
pub mod wide_traces;

use crate::cases::{Comparison, Draw, Listing, Run, Sequence, Single, StartCall};
use crate::compare::{self, FRAME_ENTRY, MEMORY_ENTRY};
use crate::frame::FRAME_LENGTH;
use crate::listing::LONGEST_TRACE;
use crate::memory::MEMORY_LENGTH;
use crate::random::Random;
use crate::registers::{IMAGE_LENGTH, Image, Registers};
use crate::start::Start;

/// State lengths lent, around the 23 needed.
pub const STATE_LENGTHS: [usize; 6] = [0, 1, 22, 23, 24, 40];

/// Memory lengths lent, around the 1,188 needed.
pub const MEMORY_LENGTHS: [usize; 6] = [0, 1, 1187, 1188, 1189, 1300];

/// Frame lengths lent, around the 8,580 needed.
pub const FRAME_LENGTHS: [usize; 4] = [0, 8579, 8580, 8600];

/// Lengths of frames lent to be compared, around the 8,580 needed.
pub const COMPARED_FRAME_LENGTHS: [usize; 6] = [0, 1, 8579, 8580, 8581, 10_000];

/// Lengths of memories lent to be compared, around the 1,188 needed.
pub const COMPARED_MEMORY_LENGTHS: [usize; 6] = [0, 1, 1187, 1188, 1189, 3000];

/// State lengths lent to start calls: around the 23 needed, what a memory
/// needs, and far more.
pub const START_STATE_LENGTHS: [usize; 8] = [0, 1, 22, 23, 24, 40, 1188, 3000];

/// Memory lengths lent to start calls: what a state needs, around the 1,188
/// needed, and far more.
pub const START_MEMORY_LENGTHS: [usize; 8] = [0, 1, 23, 1187, 1188, 1189, 1300, 10_000];

/// The longest list lent.
pub const LONGEST_LIST: usize = 65_535;

/// The longest sequence of events in one case.
pub const LONGEST_SEQUENCE: usize = 1000;

/// A length: mostly the one needed, now and then another.
fn length(random: &mut Random, needed: usize, lengths: &[usize]) -> usize {
    if random.one_in(8) {
        random.pick(lengths)
    } else {
        needed
    }
}

/// A buffer of this length that begins with the contents; what is past them
/// is any bytes.
fn lent(random: &mut Random, contents: &[u8], length: usize) -> Vec<u8> {
    let mut buffer = vec![0; length];
    random.fill(&mut buffer);
    let shared = length.min(contents.len());
    buffer[..shared].copy_from_slice(&contents[..shared]);
    buffer
}

fn lent_state(random: &mut Random, image: &Image) -> Vec<u8> {
    let length = length(random, IMAGE_LENGTH, &STATE_LENGTHS);
    lent(random, image, length)
}

fn lent_memory(random: &mut Random) -> Vec<u8> {
    let contents = memories::memory(random);
    let length = length(random, MEMORY_LENGTH, &MEMORY_LENGTHS);
    lent(random, &contents, length)
}

/// An image, hostile once in so many times.
fn image(random: &mut Random, hostile_one_in: usize) -> Image {
    if random.one_in(hostile_one_in) {
        states::hostile_image(random)
    } else {
        states::legal_registers(random).image()
    }
}

/// A single event.
#[must_use]
pub fn single(random: &mut Random) -> Single {
    let image = image(random, 6);
    let event = events::event(random, Registers::from_image(&image));
    Single::new(lent_state(random, &image), lent_memory(random), event)
}

/// A sequence of at most so many events.
#[must_use]
pub fn sequence(random: &mut Random, most: usize) -> Sequence {
    let image = if random.one_in(3) {
        Registers::POWER_ON.image()
    } else {
        image(random, 10)
    };
    let steps = random
        .between(LONGEST_SEQUENCE / 4, LONGEST_SEQUENCE)
        .min(most);
    let mut sequence = Sequence::new(image, &memories::memory(random));
    for _ in 0..steps {
        let registers = Registers::from_image(&sequence.image_after());
        sequence.push(events::event(random, registers));
    }
    sequence
}

/// A trace run.
#[must_use]
pub fn run(random: &mut Random) -> Run {
    let image = image(random, 12);
    let state = lent_state(random, &image);
    let memory = lent_memory(random);
    let registers = Registers::from_image(&image).unwrap_or(Registers::POWER_ON);
    let contents = memory.first_chunk().copied().unwrap_or([0; MEMORY_LENGTH]);
    let trace = traces::trace(random, registers, &contents);
    Run::new(state, memory, trace)
}

/// A drawing.
#[must_use]
pub fn draw(random: &mut Random) -> Draw {
    let image = if random.one_in(12) {
        states::hostile_image(random)
    } else {
        states::drawn_registers(random).image()
    };
    let frame_length = length(random, FRAME_LENGTHS[2], &FRAME_LENGTHS);
    let fill = random.byte();
    Draw::new(
        lent_state(random, &image),
        lent_memory(random),
        frame_length,
        fill,
    )
}

/// A listing from either start.
#[must_use]
pub fn listing(random: &mut Random) -> Listing {
    let trace = traces::drawing_trace(random);
    let trace = lengthened_or_not(random, trace);
    Listing::new(random.pick(&Start::ALL), trace)
}

/// The trace, now and then as long as may be or longer.
fn lengthened_or_not(random: &mut Random, mut trace: Vec<u8>) -> Vec<u8> {
    match random.below(50) {
        0 => trace.resize(LONGEST_TRACE + random.between(1, 300), 0),
        1 => traces::lengthen(&mut trace, LONGEST_TRACE),
        _ => {}
    }
    trace
}

/// Lengths of lists around what so many entries need.
#[must_use]
pub fn list_lengths(entry: usize, count: usize) -> [usize; 9] {
    let needed = entry * count;
    [
        0,
        1,
        needed.saturating_sub(entry),
        needed.saturating_sub(1),
        needed,
        needed + 1,
        needed + entry,
        needed + 500,
        LONGEST_LIST,
    ]
}

/// A length of list: half of the time just what the entries need.
fn list_length(random: &mut Random, entry: usize, count: usize) -> usize {
    if random.flag() {
        entry * count
    } else {
        random.pick(&list_lengths(entry, count))
    }
}

/// The lengths of two things: now and then both the same other one.
fn two_lengths(random: &mut Random, needed: usize, lengths: &[usize]) -> (usize, usize) {
    if random.one_in(16) {
        let both = random.pick(lengths);
        (both, both)
    } else {
        (
            length(random, needed, lengths),
            length(random, needed, lengths),
        )
    }
}

/// Two frames compared.
#[must_use]
pub fn compared_frames(random: &mut Random) -> Comparison<FRAME_ENTRY> {
    let (mut first, mut second) = frame_pairs::pair(random);
    if random.one_in(8) {
        frame_pairs::spoil(random, &mut first, &mut second);
    }
    let (first_length, second_length) = two_lengths(random, FRAME_LENGTH, &COMPARED_FRAME_LENGTHS);
    let first = lent(random, &first, first_length);
    let second = lent(random, &second, second_length);
    let count = compare::frame_entries(&first, &second).map_or(1, |entries| entries.len());
    let list_length = list_length(random, FRAME_ENTRY, count);
    Comparison::of_frames(first, second, list_length, random.byte())
}

/// Two memories compared.
#[must_use]
pub fn compared_memories(random: &mut Random) -> Comparison<MEMORY_ENTRY> {
    let (first, second) = memory_pairs::pair(random);
    let (first_length, second_length) =
        two_lengths(random, MEMORY_LENGTH, &COMPARED_MEMORY_LENGTHS);
    let first = lent(random, &first, first_length);
    let second = lent(random, &second, second_length);
    let count = compare::memory_entries(&first, &second).map_or(1, |entries| entries.len());
    let list_length = list_length(random, MEMORY_ENTRY, count);
    Comparison::of_memories(first, second, list_length, random.byte())
}

/// A start call: half of the time on buffers of just the needed length.
#[must_use]
pub fn start_call(random: &mut Random) -> StartCall {
    let start = random.pick(&Start::ALL);
    let image = starts::image_before(random);
    let memory = starts::memory_before(random);
    let (state_length, memory_length) = if random.flag() {
        (IMAGE_LENGTH, MEMORY_LENGTH)
    } else {
        (
            random.pick(&START_STATE_LENGTHS),
            random.pick(&START_MEMORY_LENGTHS),
        )
    };
    let state = lent(random, &image, state_length);
    let memory = lent(random, &memory, memory_length);
    StartCall::new(start, state, memory)
}
