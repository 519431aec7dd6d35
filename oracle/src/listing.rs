//! The listing program: a trace in, the text of the final frame out.

use std::fmt::Write;

use crate::frame::{self, FRAME_LENGTH, FRAME_ROWS, Frame};
use crate::memory::COLUMNS;
use crate::refusal::TAKEN;
use crate::start::Start;
use crate::trace::{self, RunAnswer};
use crate::wide;
use crate::wide::frame::WIDE_COLUMNS;

/// The longest trace that is read.
pub const LONGEST_TRACE: usize = 65_536;

/// What the listing program prints for a trace, begun with this start.
#[must_use]
pub fn listing(start: Start, trace: &[u8]) -> String {
    listed(trace, || {
        let (registers, memory, answer) = trace::run_from(start, trace);
        let mut frame = [0; FRAME_LENGTH];
        frame::draw(registers, &memory, &mut frame);
        (answer, frame_text(&frame))
    })
}

/// What it prints for a wide trace, both chips begun with this start.
#[must_use]
pub fn wide_listing(start: Start, trace: &[u8]) -> String {
    listed(trace, || {
        let (registers, memories, answer) = wide::trace::run_from(start, trace);
        let frame = wide::frame::drawn(registers, memories.each_ref());
        (answer, wide_frame_text(&frame))
    })
}

/// The listing of a trace that is not too long: how its run ended, and the
/// lines of the frame it leaves.
fn listed(trace: &[u8], run: impl Fn() -> (RunAnswer, String)) -> String {
    if trace.len() > LONGEST_TRACE {
        return "input too long\n".to_string();
    }
    let (answer, frame_lines) = run();
    let mut text = String::new();
    if answer.number != TAKEN {
        line(
            &mut text,
            format_args!("refused {} at {}", answer.number, answer.offset),
        );
    }
    text + &frame_lines
}

/// The lines of a frame: its size, its rows with lit places, its end.
#[must_use]
pub fn frame_text(frame: &Frame) -> String {
    rows_text(COLUMNS, frame)
}

/// The same lines of a wide frame.
#[must_use]
pub fn wide_frame_text(frame: &[u8]) -> String {
    rows_text(WIDE_COLUMNS, frame)
}

/// The lines of rows of this width.
fn rows_text(width: usize, frame: &[u8]) -> String {
    let mut text = String::new();
    line(&mut text, format_args!("frame {width} {FRAME_ROWS}"));
    for (row, dots) in frame.chunks_exact(width).enumerate() {
        let runs = lit_runs(dots);
        if !runs.is_empty() {
            line(&mut text, format_args!("{row} {}", runs.join(" ")));
        }
    }
    line(&mut text, format_args!("end"));
    text
}

/// The runs of lit places of a row, left to right, each `first-last`.
fn lit_runs(dots: &[u8]) -> Vec<String> {
    let mut runs = Vec::new();
    let mut first = None;
    for (place, &dot) in dots.iter().chain(&[0]).enumerate() {
        match (first, dot) {
            (None, 1) => first = Some(place),
            (Some(from), 0) => {
                runs.push(format!("{from}-{}", place - 1));
                first = None;
            }
            _ => {}
        }
    }
    runs
}

fn line(text: &mut String, contents: std::fmt::Arguments) {
    writeln!(text, "{contents}").expect("a String takes all text");
}
