//! A case as text, for a person who looks into a difference.

mod wide;

use std::fmt::Write;

use crate::cases::{Case, Comparison, Draw, Listing, Run, Sequence, Single, StartCall};
use crate::differ::{bytes_text, runs_text};
use crate::event::{Answer, Event, Stored};
use crate::listing::frame_text;
use crate::start::Start;
use crate::text::{fnv1a, hex};
use crate::trace::RunAnswer;

/// The text of a case.
#[must_use]
pub fn show(case: &Case) -> String {
    match case {
        Case::Single(single) => show_single(single),
        Case::Sequence(sequence) => show_sequence(sequence),
        Case::Run(run) => show_run(run),
        Case::Draw(draw) => show_draw(draw),
        Case::Listing(listing) => show_listing("listing", listing),
        Case::ComparedFrames(frames) => show_comparison("frame", frames, runs_text),
        Case::ComparedMemories(memories) => show_comparison("memory", memories, bytes_text),
        Case::StartCall(start_call) => show_start_call(start_call),
        Case::WideSingle(single) => wide::show_single(single),
        Case::WideRun(run) => wide::show_run(run),
        Case::WideDraw(draw) => wide::show_draw(draw),
        Case::PageCall(page_call) => wide::show_page_call(page_call),
        Case::WideListing(listing) => show_listing("wide listing", listing),
    }
}

/// The event as it is written in a script.
#[must_use]
pub fn event_text(event: Event) -> String {
    match event {
        Event::Command(byte) => format!("command {byte:02X}"),
        Event::Write(byte) => format!("write {byte:02X}"),
        Event::Read => "read".to_string(),
        Event::Reset => "reset".to_string(),
    }
}

/// Number, byte and whether dummy.
#[must_use]
pub fn answer_text(answer: Answer) -> String {
    numbers_text(answer.number, answer.byte, answer.dummy)
}

fn numbers_text(number: u8, byte: u8, dummy: bool) -> String {
    format!("{number} {byte:02X} {}", u8::from(dummy))
}

/// Number, offset and count of a run.
#[must_use]
pub fn run_answer_text(answer: RunAnswer) -> String {
    format!("{} {} {}", answer.number, answer.offset, answer.count)
}

/// A state image, or as much of it as there is.
#[must_use]
pub fn image_text(name: &str, image: &[u8]) -> String {
    format!("{name} {}\n", hex(image))
}

/// A memory by its length and hash.
#[must_use]
pub fn memory_text(name: &str, memory: &[u8]) -> String {
    format!("{name} {} bytes {:016X}\n", memory.len(), fnv1a(memory))
}

fn stored_text(stored: Stored) -> String {
    format!(" stored {:02X} at {}", stored.byte, stored.place)
}

fn show_single(single: &Single) -> String {
    format!(
        "single event\n{}{}{} -> {}{}\n{}",
        image_text("state", &single.state),
        memory_text("memory", &single.memory),
        event_text(single.event),
        answer_text(single.answer),
        single.answer.stored.map_or(String::new(), stored_text),
        image_text("state after", &single.state_after),
    )
}

fn show_sequence(sequence: &Sequence) -> String {
    let mut text = format!(
        "sequence of {} events\n{}{}",
        sequence.steps.len(),
        image_text("state", &sequence.image),
        memory_text("memory", &sequence.memory),
    );
    for (index, step) in sequence.steps.iter().enumerate() {
        writeln!(
            text,
            "{index}: {} -> {}{} state after {}",
            event_text(step.event),
            answer_text(step.answer),
            step.answer.stored.map_or(String::new(), stored_text),
            hex(&step.image_after),
        )
        .expect("a String takes all text");
    }
    text + &memory_text("memory after", &sequence.memory_after)
}

fn show_run(run: &Run) -> String {
    format!(
        "run\n{}{}{}answer {}\n{}{}",
        image_text("state", &run.state),
        memory_text("memory", &run.memory),
        image_text("trace", &run.trace),
        run_answer_text(run.answer),
        image_text("state after", &run.state_after),
        memory_text("memory after", &run.memory_after),
    )
}

fn show_draw(draw: &Draw) -> String {
    let frame = draw
        .frame
        .as_ref()
        .and_then(|frame| frame.first_chunk())
        .map_or(String::new(), frame_text);
    format!(
        "draw\n{}{}frame of {} bytes, fill {}\nanswer {}\n{frame}",
        image_text("state", &draw.state),
        memory_text("memory", &draw.memory),
        draw.frame_length,
        draw.fill,
        draw.number,
    )
}

fn show_listing(kind: &str, listing: &Listing) -> String {
    format!(
        "{kind}\n{}{}{}",
        start_text(listing.start),
        image_text("trace", &listing.trace),
        listing.text,
    )
}

/// A start in words.
fn start_text(start: Start) -> String {
    format!("start {}\n", start.name())
}

fn show_start_call(start_call: &StartCall) -> String {
    format!(
        "start call\n{}{}{}answer {}\n{}{}",
        start_text(start_call.start),
        image_text("state", &start_call.state),
        memory_text("memory", &start_call.memory),
        start_call.number,
        image_text("state after", &start_call.state_after),
        memory_text("memory after", &start_call.memory_after),
    )
}

/// Two things compared, with a line for each entry.
fn show_comparison<const ENTRY: usize>(
    thing: &str,
    comparison: &Comparison<ENTRY>,
    entries_text: fn(&[[u8; ENTRY]]) -> String,
) -> String {
    format!(
        "{thing} compared with {thing}\n{}{}list of {} bytes, fill {}\nanswer {} {}\n{}",
        memory_text("first", &comparison.first),
        memory_text("second", &comparison.second),
        comparison.list_length,
        comparison.fill,
        comparison.number,
        comparison.entries.len(),
        entries_text(&comparison.entries),
    )
}
