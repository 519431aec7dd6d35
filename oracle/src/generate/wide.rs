//! Random cases of the wide terminal.

use crate::cases::Listing;
use crate::cases::wide::{Buffers, PageCall, Pair, WideDraw, WideRun, WideSingle};
use crate::generate::{
    MEMORY_LENGTHS, STATE_LENGTHS, events, length, lengthened_or_not, lent, lent_memory,
    lent_state, memories, states, wide_traces,
};
use crate::memory::{ICON_PAGE, MEMORY_LENGTH};
use crate::random::Random;
use crate::registers::{Image, Registers};
use crate::start::Start;
use crate::wide::Side;
use crate::wide::frame::WIDE_FRAME_LENGTH;

/// Lengths of wide frames lent, around the 17,160 needed; one chip's is among
/// them.
pub const WIDE_FRAME_LENGTHS: [usize; 6] = [0, 8580, 17_159, 17_160, 17_161, 17_300];

/// Two images: now and then alike, and once in so many times one of them or
/// both hostile.
fn images(
    random: &mut Random,
    registers: fn(&mut Random) -> Registers,
    hostile_one_in: usize,
) -> [Image; 2] {
    let left = registers(random).image();
    let right = if random.one_in(4) {
        left
    } else {
        registers(random).image()
    };
    let mut images = [left, right];
    if random.one_in(hostile_one_in) {
        let hostile = random.pick(&[&[0][..], &[1], &[0, 1]]);
        for &side in hostile {
            images[side] = states::hostile_image(random);
        }
    }
    images
}

/// The buffers of two chips: mostly of just the needed lengths, now and then
/// all of any length.
fn pair(random: &mut Random, images: [Image; 2]) -> Pair {
    let lengths = random.below(12);
    images.map(|image| match lengths {
        0 => {
            let state_length = random.pick(&STATE_LENGTHS);
            Buffers {
                state: lent(random, &image, state_length),
                memory: memory_of_any_length(random),
            }
        }
        1..=3 => Buffers {
            state: lent_state(random, &image),
            memory: lent_memory(random),
        },
        _ => Buffers {
            state: image.to_vec(),
            memory: memories::memory(random).to_vec(),
        },
    })
}

/// A memory of one of the lengths lent, each as likely.
fn memory_of_any_length(random: &mut Random) -> Vec<u8> {
    let contents = memories::memory(random);
    let length = random.pick(&MEMORY_LENGTHS);
    lent(random, &contents, length)
}

/// A selection as a byte, now and then none.
fn selection(random: &mut Random) -> u8 {
    match random.below(16) {
        0 => random.byte(),
        1 => random.pick(&[0, 4, 0xFF]),
        _ => random.pick(&[1, 2, 3]),
    }
}

/// A single event of the wide terminal.
#[must_use]
pub fn wide_single(random: &mut Random) -> WideSingle {
    let images = images(random, states::legal_registers, 8);
    let met = random.pick(&images);
    let event = events::event(random, Registers::from_image(&met));
    WideSingle::new(selection(random), event, pair(random, images))
}

/// A wide trace run.
#[must_use]
pub fn wide_run(random: &mut Random) -> WideRun {
    let images = images(random, states::legal_registers, 16);
    let pair = pair(random, images);
    let registers =
        images.map(|image| Registers::from_image(&image).unwrap_or(Registers::POWER_ON));
    let memories = pair.each_ref().map(|buffers| {
        let contents = buffers.memory.first_chunk();
        contents.copied().unwrap_or([0; MEMORY_LENGTH])
    });
    let trace = wide_traces::wide_trace(random, registers, &memories);
    WideRun::new(pair, trace)
}

/// A drawing of the wide terminal.
#[must_use]
pub fn wide_draw(random: &mut Random) -> WideDraw {
    let images = images(random, states::drawn_registers, 12);
    let frame_length = length(random, WIDE_FRAME_LENGTH, &WIDE_FRAME_LENGTHS);
    let fill = random.byte();
    WideDraw::new(pair(random, images), frame_length, fill)
}

/// A page asked for.
#[must_use]
pub fn page_call(random: &mut Random) -> PageCall {
    let side = random.pick(&Side::ALL);
    let memories = if random.flag() {
        [memory_of_any_length(random), memory_of_any_length(random)]
    } else {
        [lent_memory(random), lent_memory(random)]
    };
    let page = match random.below(8) {
        0 => random.byte(),
        1 => random.pick(&[ICON_PAGE + 1, 0x80, 0xFF]),
        _ => random.up_to(ICON_PAGE),
    };
    PageCall::new(side, memories, page)
}

/// A wide listing from either start.
#[must_use]
pub fn wide_listing(random: &mut Random) -> Listing {
    let trace = wide_traces::wide_drawing_trace(random);
    let trace = lengthened_or_not(random, trace);
    Listing::wide(random.pick(&Start::ALL), trace)
}
