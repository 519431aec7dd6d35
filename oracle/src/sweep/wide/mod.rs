//! Cases of the wide terminal that are the same for every seed.

mod drawings;
mod events;
mod listings;
mod pages;
mod runs;

use std::io;

use crate::cases::wide::{Buffers, Pair};
use crate::generate::{MEMORY_LENGTHS, STATE_LENGTHS};
use crate::memory::{MEMORY_LENGTH, Memory};
use crate::registers::{Awaited, IMAGE_LENGTH, Image, Registers};
use crate::sweep::{Sink, UNLIKE_POWER_ON, awaited_or_none, cut_or_lengthened, uneven_memory};

/// Gives every case of the wide terminal to the sink.
pub fn wide(sink: &mut Sink) -> io::Result<()> {
    events::events(sink)?;
    runs::runs(sink)?;
    drawings::drawings(sink)?;
    pages::pages(sink)?;
    listings::listings(sink)
}

/// The left chip's registers, with nothing in the way of data.
const LEFT: Registers = Registers {
    read_modify_write: None,
    ..UNLIKE_POWER_ON
};

/// The right chip's registers, unlike the left's wherever they can be.
const RIGHT: Registers = Registers {
    page: 5,
    column: 20,
    start_line: 44,
    offset: 50,
    multiplex: 22,
    contrast: 61,
    resistor_ratio: 6,
    power_control: 3,
    bias: false,
    quarter_bias: false,
    byte_of_a9: 0xA7,
    frame_phases: 1,
    columns_reversed: false,
    rows_reversed: false,
    entire_on: false,
    reverse: false,
    display_on: true,
    indicator_on: false,
    indicator_mode: 3,
    awaited: None,
    read_modify_write: None,
    fresh: true,
};

/// The right chip's memory, unlike the left's.
fn right_memory() -> Memory {
    uneven_memory().map(|byte| !byte.rotate_left(3))
}

/// Buffers of just the needed lengths with these images.
fn pair_of([left, right]: [Image; 2]) -> Pair {
    [(left, uneven_memory()), (right, right_memory())].map(|(image, memory)| Buffers {
        state: image.to_vec(),
        memory: memory.to_vec(),
    })
}

/// Buffers of just the needed lengths with these registers.
fn pair_with(registers: [Registers; 2]) -> Pair {
    pair_of(registers.map(Registers::image))
}

/// The image out of its ranges in its multiplex alone.
fn spoilt(registers: Registers) -> Image {
    let mut image = registers.image();
    image[4] = 64;
    image
}

/// Images that are legal, the left or the right out of its ranges, or both.
fn legal_or_not() -> [[Image; 2]; 4] {
    [
        [LEFT.image(), RIGHT.image()],
        [spoilt(LEFT), RIGHT.image()],
        [LEFT.image(), spoilt(RIGHT)],
        [spoilt(LEFT), spoilt(RIGHT)],
    ]
}

/// Lengths of left state, left memory, right state and right memory: each of
/// them too short by one, exact or longer by one, in every mixture, and each of
/// them alone of every other length.
fn lengths() -> Vec<[usize; 4]> {
    let exact = [IMAGE_LENGTH, MEMORY_LENGTH, IMAGE_LENGTH, MEMORY_LENGTH];
    let mut all = vec![exact];
    for buffer in 0..exact.len() {
        let around = |lengths: [usize; 4]| {
            [lengths[buffer] - 1, lengths[buffer], lengths[buffer] + 1].map(|length| {
                let mut lengths = lengths;
                lengths[buffer] = length;
                lengths
            })
        };
        all = all.into_iter().flat_map(around).collect();
    }
    for buffer in 0..exact.len() {
        let others = [STATE_LENGTHS, MEMORY_LENGTHS][buffer % 2];
        for length in others {
            let mut lengths = exact;
            lengths[buffer] = length;
            all.push(lengths);
        }
    }
    all
}

/// The buffers with these lengths.
fn cut_pair([left, right]: Pair, lengths: [usize; 4]) -> Pair {
    let cut = |buffers: Buffers, state_length: usize, memory_length: usize| Buffers {
        state: cut_or_lengthened(&buffers.state, state_length),
        memory: cut_or_lengthened(&buffers.memory, memory_length),
    };
    [
        cut(left, lengths[0], lengths[1]),
        cut(right, lengths[2], lengths[3]),
    ]
}

/// Every mixture of what the two chips can await.
fn awaiting() -> Vec<[Registers; 2]> {
    let with = |registers: Registers, awaited: Option<Awaited>| Registers {
        awaited,
        ..registers
    };
    awaited_or_none()
        .flat_map(|left| awaited_or_none().map(move |right| [with(LEFT, left), with(RIGHT, right)]))
        .collect()
}

/// Registers with nothing in the way of data, fresh or not, and with each thing
/// that can be in the way.
fn obstacles(registers: Registers) -> [Registers; 7] {
    let free = Registers {
        fresh: false,
        ..registers
    };
    [
        free,
        Registers {
            fresh: true,
            ..free
        },
        Registers {
            awaited: Some(Awaited::Contrast),
            fresh: true,
            ..free
        },
        Registers {
            awaited: Some(Awaited::Offset),
            ..free
        },
        Registers {
            column: 132,
            ..free
        },
        Registers {
            column: 255,
            fresh: true,
            ..free
        },
        Registers {
            column: 200,
            awaited: Some(Awaited::FramePhases),
            ..free
        },
    ]
}
