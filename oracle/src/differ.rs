//! Where the screens that two traces leave differ, as text.

use std::fmt::Write;

use crate::compare::{self, FRAME_ENTRY, MEMORY_ENTRY};
use crate::frame::{self, FRAME_LENGTH, Frame};
use crate::memory::MEMORY_LENGTH;
use crate::start::Start;
use crate::trace::run_from;

/// The runs in which the frames of two traces differ, each run from the same
/// start.
#[must_use]
pub fn differing_frames(start: Start, first_trace: &[u8], second_trace: &[u8]) -> String {
    // No frame has more runs than places.
    let mut list = vec![0; FRAME_ENTRY * FRAME_LENGTH];
    let first = frame_left_by(start, first_trace);
    let second = frame_left_by(start, second_trace);
    let answer = compare::frames(&first, &second, &mut list);
    runs_text(&list.as_chunks().0[..answer.count])
}

/// The bytes in which the memories of two traces differ, each run from the
/// same start.
#[must_use]
pub fn differing_memories(start: Start, first_trace: &[u8], second_trace: &[u8]) -> String {
    // No memory has more bytes that differ than bytes.
    let mut list = vec![0; MEMORY_ENTRY * MEMORY_LENGTH];
    let (_, first, _) = run_from(start, first_trace);
    let (_, second, _) = run_from(start, second_trace);
    let answer = compare::memories(&first, &second, &mut list);
    bytes_text(&list.as_chunks().0[..answer.count])
}

/// The frame a trace leaves, where it ended or stopped.
fn frame_left_by(start: Start, trace: &[u8]) -> Frame {
    let (registers, memory, _) = run_from(start, trace);
    let mut frame = [0; FRAME_LENGTH];
    frame::draw(registers, &memory, &mut frame);
    frame
}

/// A line for each entry of two frames: its five numbers.
#[must_use]
pub fn runs_text(entries: &[[u8; FRAME_ENTRY]]) -> String {
    lines(entries.iter().map(|entry| entry.map(u16::from)))
}

/// A line for each entry of two memories: the place and its two contents.
#[must_use]
pub fn bytes_text(entries: &[[u8; MEMORY_ENTRY]]) -> String {
    lines(entries.iter().map(|&[low, high, in_first, in_second]| {
        [
            u16::from_le_bytes([low, high]),
            u16::from(in_first),
            u16::from(in_second),
        ]
    }))
}

/// Numbers in decimal, a line for each group of them, single spaces between.
fn lines<const COUNT: usize>(groups: impl Iterator<Item = [u16; COUNT]>) -> String {
    groups.fold(String::new(), |mut text, group| {
        let words = group.map(|number| number.to_string());
        writeln!(text, "{}", words.join(" ")).expect("a String takes all text");
        text
    })
}
