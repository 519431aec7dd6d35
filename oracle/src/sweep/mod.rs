//! Cases that are the same for every seed: the small spaces, gone through
//! value by value.

mod bands;
mod compared_frames;
mod compared_memories;
mod listings;
mod records;
mod start_calls;
mod test_mode;
mod wide;

use std::io;

use crate::cases::{Case, Draw, Listing, Run, Sequence, Single};
use crate::event::Event;
use crate::generate::traces::lengthen;
use crate::generate::{FRAME_LENGTHS, MEMORY_LENGTHS, STATE_LENGTHS};
use crate::listing::LONGEST_TRACE;
use crate::memory::{MEMORY_LENGTH, Memory};
use crate::registers::{Awaited, IMAGE_LENGTH, Image, Registers};
use crate::start::Start;

/// Takes the cases one by one.
pub type Sink<'a> = dyn FnMut(Case) -> io::Result<()> + 'a;

/// Gives every case of the sweep of the base to the sink, and after them those
/// of Order 6's test mode.
///
/// # Errors
/// Those of the sink.
pub fn sweep(sink: &mut Sink) -> io::Result<()> {
    samples(sink)?;
    commands(sink)?;
    data(sink)?;
    image_fields(sink)?;
    lengths(sink)?;
    pictures(sink)?;
    traces(sink)?;
    test_mode::test_mode(sink)
}

/// Gives every pair of frames and of memories of the sweep to the sink.
///
/// # Errors
/// Those of the sink.
pub fn sweep_of_comparisons(sink: &mut Sink) -> io::Result<()> {
    compared_frames::compared_frames(sink)?;
    compared_memories::compared_memories(sink)
}

/// Gives every band of the sweep, drawn or listed, to the sink.
///
/// # Errors
/// Those of the sink.
pub fn sweep_of_bands(sink: &mut Sink) -> io::Result<()> {
    bands::drawings(sink)?;
    bands::listings(sink)
}

/// Gives every listing of Order 3's sweep, each trace from both starts, to the
/// sink, and after them every start call.
///
/// # Errors
/// Those of the sink.
pub fn sweep_of_starts(sink: &mut Sink) -> io::Result<()> {
    listings::listings(sink)?;
    start_calls::start_calls(sink)
}

/// Gives every case of Order 4's sweep to the sink.
///
/// # Errors
/// Those of the sink.
pub fn sweep_of_wide(sink: &mut Sink) -> io::Result<()> {
    wide::wide(sink)
}

/// Registers of which each differs from power-on.
const UNLIKE_POWER_ON: Registers = Registers {
    page: 3,
    column: 77,
    start_line: 19,
    offset: 7,
    multiplex: 40,
    contrast: 9,
    resistor_ratio: 2,
    power_control: 5,
    bias: true,
    quarter_bias: true,
    byte_of_a9: 0x5A,
    frame_phases: 2,
    columns_reversed: true,
    rows_reversed: true,
    entire_on: true,
    reverse: true,
    display_on: true,
    indicator_on: true,
    indicator_mode: 2,
    awaited: None,
    read_modify_write: Some(33),
    fresh: false,
};

/// A memory without a pattern that could hide a shift, with junk in page 8.
fn uneven_memory() -> Memory {
    let mut memory = [0; MEMORY_LENGTH];
    let mut byte = 1_u8;
    for (index, place) in memory.iter_mut().enumerate() {
        byte = byte.wrapping_mul(13).wrapping_add(7);
        *place = byte ^ index.to_le_bytes()[1] ^ (index / 132).to_le_bytes()[0].wrapping_mul(29);
    }
    memory
}

/// The buffer cut, or lengthened with bytes that must stay.
fn cut_or_lengthened(contents: &[u8], length: usize) -> Vec<u8> {
    let mut buffer = contents.to_vec();
    buffer.resize(length, 0xC3);
    buffer
}

fn awaited_or_none() -> impl Iterator<Item = Option<Awaited>> {
    std::iter::once(None).chain(Awaited::ALL.into_iter().map(Some))
}

const FLAGS: [bool; 2] = [false, true];

/// The event samples of document 01.
fn samples(sink: &mut Sink) -> io::Result<()> {
    use Event::{Command, Read, Reset, Write};
    let samples: [&[Event]; 9] = [
        &[Write(0x03), Read, Read],
        &[Command(0x03), Command(0x18), Write(0xAA)],
        &[Command(0x0F), Command(0x18), Write(0xAA), Read],
        &[Command(0xB8), Command(0xB9)],
        &[Command(0xB8), Write(0xFF)],
        &[
            Command(0x05),
            Command(0xE0),
            Write(0x11),
            Write(0x22),
            Command(0xEE),
            Write(0x33),
            Write(0x44),
        ],
        &[Command(0x81), Write(0x00), Command(0xC5)],
        &[Command(0xD3), Command(0x40), Command(0x3F)],
        &[Command(0xAD), Reset, Command(0xE3)],
    ];
    for sample in samples {
        let mut sequence = Sequence::new(Registers::POWER_ON.image(), &[0; MEMORY_LENGTH]);
        for &event in sample {
            sequence.push(event);
        }
        sink(Case::Sequence(Box::new(sequence)))?;
    }
    Ok(())
}

/// Every command byte with every awaited code, fresh or not, in and outside
/// read-modify-write.
fn commands(sink: &mut Sink) -> io::Result<()> {
    let memory = uneven_memory();
    for awaited in awaited_or_none() {
        for fresh in FLAGS {
            for read_modify_write in [None, Some(33)] {
                let state = Registers {
                    awaited,
                    read_modify_write,
                    fresh,
                    ..UNLIKE_POWER_ON
                }
                .image();
                for byte in 0..=0xFF {
                    sink(Case::Single(Single::new(
                        state.to_vec(),
                        memory.to_vec(),
                        Event::Command(byte),
                    )))?;
                }
            }
        }
    }
    Ok(())
}

/// Writes and reads at every page and at the columns that matter, with every
/// awaited code, fresh or not, in and outside read-modify-write.
fn data(sink: &mut Sink) -> io::Result<()> {
    let memory = uneven_memory();
    for event in [Event::Write(0xB7), Event::Read] {
        for awaited in awaited_or_none() {
            for fresh in FLAGS {
                for read_modify_write in [None, Some(33)] {
                    for page in 0..=8 {
                        for column in [0, 1, 130, 131, 132, 255] {
                            let state = Registers {
                                page,
                                column,
                                awaited,
                                read_modify_write,
                                fresh,
                                ..UNLIKE_POWER_ON
                            }
                            .image();
                            sink(Case::Single(Single::new(
                                state.to_vec(),
                                memory.to_vec(),
                                event,
                            )))?;
                        }
                    }
                }
            }
        }
    }
    Ok(())
}

/// Every value in every field of the image, met by each of the four events.
fn image_fields(sink: &mut Sink) -> io::Result<()> {
    const READ_MODIFY_WRITE: usize = 20;
    const SAVED_COLUMN: usize = 21;
    let memory = uneven_memory();
    let outside = Registers {
        read_modify_write: None,
        ..UNLIKE_POWER_ON
    }
    .image();
    let inside = UNLIKE_POWER_ON.image();
    let mut every_value = |image: Image, field: usize| {
        for value in 0..=0xFF {
            let mut changed = image;
            changed[field] = value;
            for event in [
                Event::Command(0xE3),
                Event::Write(0x96),
                Event::Read,
                Event::Reset,
            ] {
                sink(Case::Single(Single::new(
                    changed.to_vec(),
                    memory.to_vec(),
                    event,
                )))?;
            }
        }
        io::Result::Ok(())
    };
    for field in 0..IMAGE_LENGTH {
        every_value(outside, field)?;
    }
    every_value(inside, READ_MODIFY_WRITE)?;
    every_value(inside, SAVED_COLUMN)
}

/// Lent buffers of every length, with legal and illegal images.
fn lengths(sink: &mut Sink) -> io::Result<()> {
    let memory = uneven_memory();
    let legal = UNLIKE_POWER_ON.image();
    let mut illegal = legal;
    illegal[0] = 9;
    for image in [legal, illegal] {
        for state_length in STATE_LENGTHS {
            for memory_length in MEMORY_LENGTHS {
                let state = cut_or_lengthened(&image, state_length);
                let memory = cut_or_lengthened(&memory, memory_length);
                for event in [
                    Event::Command(0xE2),
                    Event::Write(0x69),
                    Event::Read,
                    Event::Reset,
                ] {
                    sink(Case::Single(Single::new(
                        state.clone(),
                        memory.clone(),
                        event,
                    )))?;
                }
                for trace in [&[][..], &DOCUMENT_TRACE, &DOCUMENT_TRACE[..3]] {
                    sink(Case::Run(Run::new(
                        state.clone(),
                        memory.clone(),
                        trace.to_vec(),
                    )))?;
                }
                for frame_length in FRAME_LENGTHS {
                    sink(Case::Draw(Draw::new(
                        state.clone(),
                        memory.clone(),
                        frame_length,
                        0x3C,
                    )))?;
                }
            }
        }
    }
    Ok(())
}

/// Every number of rows in use, every offset and every start line, in all
/// directions; every mixture of display on, entire on and reverse.
fn pictures(sink: &mut Sink) -> io::Result<()> {
    let memory = uneven_memory();
    let base = Registers {
        entire_on: false,
        reverse: false,
        ..UNLIKE_POWER_ON
    };
    let mut draw = |registers: Registers| {
        sink(Case::Draw(Draw::new(
            registers.image().to_vec(),
            memory.to_vec(),
            FRAME_LENGTHS[2],
            registers.multiplex,
        )))
    };
    for rows_reversed in FLAGS {
        for columns_reversed in FLAGS {
            let base = Registers {
                columns_reversed,
                rows_reversed,
                ..base
            };
            for value in 0..=63 {
                draw(Registers {
                    multiplex: value,
                    ..base
                })?;
                draw(Registers {
                    offset: value,
                    ..base
                })?;
                draw(Registers {
                    start_line: value,
                    ..base
                })?;
            }
            for multiplex in [0, 15, 62, 63] {
                for display_on in FLAGS {
                    for entire_on in FLAGS {
                        for reverse in FLAGS {
                            draw(Registers {
                                multiplex,
                                entire_on,
                                reverse,
                                display_on,
                                ..base
                            })?;
                        }
                    }
                }
            }
        }
    }
    Ok(())
}

/// The trace whose listing document 01 prints whole.
pub const DOCUMENT_TRACE: [u8; 11] = [
    0x01, 0x00, 0x01, 0x00, 0xAF, 0x02, 0x00, 0x02, 0x00, 0x03, 0x01,
];

/// A trace with every kind, an empty record of each, a right compared read
/// and a command split between two records.
const ALL_KINDS: [u8; 56] = [
    0x00, 0x00, 0x04, 0x00, // reset pin
    0x02, 0x00, 0x01, 0x00, 0xAF, 0x81, // the code is awaited
    0x00, 0x00, 0x01, 0x00, // no command
    0x01, 0x00, 0x01, 0x00, 0xC5, // its n
    0x03, 0x00, 0x02, 0x00, 0x11, 0x22, 0x33, // three bytes written
    0x00, 0x00, 0x02, 0x00, // nothing written
    0x01, 0x00, 0x01, 0x00, 0x01, // column 1
    0x03, 0x00, 0x03, 0x00, 0x99, 0x22, 0x33, // dummy, then two compared
    0x00, 0x00, 0x03, 0x00, // nothing read
    0x02, 0x00, 0x01, 0x00, 0xA1, 0x41, // columns turned, start line 1
    0x00, 0x00, 0x03, 0x00, // nothing read
];

/// Traces cut at each byte, and each kind and payload length by itself; listed
/// from the old start, as they were before there was another.
fn traces(sink: &mut Sink) -> io::Result<()> {
    let legal = Registers {
        read_modify_write: None,
        ..UNLIKE_POWER_ON
    }
    .image();
    let memory = uneven_memory();
    let mut run_and_list = |trace: &[u8]| {
        sink(Case::Run(Run::new(
            legal.to_vec(),
            memory.to_vec(),
            trace.to_vec(),
        )))?;
        sink(Case::Listing(Listing::new(Start::Upright, trace.to_vec())))
    };
    for trace in [&DOCUMENT_TRACE[..], &ALL_KINDS[..]] {
        for cut in 0..=trace.len() {
            run_and_list(&trace[..cut])?;
        }
        // Each byte in turn damaged.
        for place in 0..trace.len() {
            for damage in [0x01, 0x04, 0x80, 0xFF] {
                let mut damaged = trace.to_vec();
                damaged[place] ^= damage;
                run_and_list(&damaged)?;
            }
        }
    }
    kinds_and_lengths(&mut run_and_list)?;
    // More records than two bytes can count.
    let resets = [0x00, 0x00, 0x04, 0x00].repeat(65_537);
    sink(Case::Run(Run::new(legal.to_vec(), memory.to_vec(), resets)))?;
    let mut list = |trace: &[u8]| sink(Case::Listing(Listing::new(Start::Upright, trace.to_vec())));
    let mut longest = DOCUMENT_TRACE.to_vec();
    lengthen(&mut longest, LONGEST_TRACE);
    list(&longest)?;
    longest.push(0);
    list(&longest)
}

/// Takes the traces one by one.
type Give<'a> = dyn FnMut(&[u8]) -> io::Result<()> + 'a;

/// Display on, then each kind and payload length with payloads of each length.
fn kinds_and_lengths(give: &mut Give) -> io::Result<()> {
    for kind in (0..=8_u16).chain([0x100, 0x101, 0x102, 0x103, 0x104, 0x401, 0xFFFF]) {
        for length in [0_u16, 1, 2, 3, 0x100, 0x101, 0xFFFF] {
            for there in [0, 1, 2, 3, 0x100, 0x101] {
                let mut trace = vec![0x01, 0x00, 0x01, 0x00, 0xAF];
                trace.extend(length.to_le_bytes());
                trace.extend(kind.to_le_bytes());
                trace.resize(trace.len() + there, 0x00);
                give(&trace)?;
            }
        }
    }
    Ok(())
}
