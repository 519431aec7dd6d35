//! The wide trace: its select records, and the run over both chips.

use crate::event::{Event, Taken, asked, meaning};
use crate::memory::Memory;
use crate::refusal::Refusal;
use crate::registers::Registers;
use crate::start::{Start, ZERO_MEMORY};
use crate::trace::{Record, RunAnswer, Stop, each_byte, each_record, obey, record_of};
use crate::wide::{Chip, Chips, Lent, Selection, leave_in_chips, lent_chips, obey_selected};

/// The kind of the records that select.
pub const SELECT_KIND: u16 = 5;

/// What every run starts with.
pub const FIRST_SELECTION: Selection = Selection::Both;

/// A record of a wide trace whose header was found right.
#[derive(Clone, Copy, PartialEq, Eq, Debug)]
pub enum WideRecord<'a> {
    /// Kind 5.
    Select(Selection),
    /// Kinds 1 to 4, for each selected chip.
    ForSelected(Record<'a>),
}

/// The record of a kind and a payload in a wide trace.
///
/// # Errors
/// 13 if a select record does not select, 9 if no record has such a header.
pub fn wide_record_of(kind: u16, payload: &[u8]) -> Result<WideRecord<'_>, Refusal> {
    match (kind, payload) {
        (SELECT_KIND, &[byte]) => Selection::from_byte(byte).map(WideRecord::Select),
        (SELECT_KIND, _) => Err(Refusal::WrongSelection),
        _ => record_of(kind, payload).map(WideRecord::ForSelected),
    }
}

/// The call of a run on the buffers of both chips. It stops at the first
/// refused event or header, and what came before stands.
#[must_use]
pub fn call(pair: [Lent; 2], trace: &[u8]) -> RunAnswer {
    match lent_chips(pair, asked) {
        Ok((images, mut chips)) => {
            let answer = run(&mut chips, trace);
            for (image, chip) in images.into_iter().zip(chips) {
                *image = chip.registers.image();
            }
            answer
        }
        Err(refusal) => RunAnswer::refused_at_once(refusal),
    }
}

/// The run with both chips begun with a start: the registers and the memories
/// it leaves, and its answer.
#[must_use]
pub fn run_from(start: Start, trace: &[u8]) -> ([Registers; 2], [Memory; 2], RunAnswer) {
    let mut memories = [ZERO_MEMORY; 2];
    let mut chips = memories.each_mut().map(|memory| Chip {
        registers: start.registers(),
        memory,
    });
    let answer = run(&mut chips, trace);
    let registers = chips.map(|chip| chip.registers);
    (registers, memories, answer)
}

/// The run over two chips.
pub fn run(chips: &mut Chips, trace: &[u8]) -> RunAnswer {
    let mut selection = FIRST_SELECTION;
    each_record(
        trace,
        &mut |kind, payload| match wide_record_of(kind, payload).map_err(Stop::AtHeader)? {
            WideRecord::Select(selected) => {
                selection = selected;
                Ok(())
            }
            WideRecord::ForSelected(record) => obey_record(chips, selection, record),
        },
    )
}

/// Obeys a record in each selected chip.
fn obey_record(chips: &mut Chips, selection: Selection, record: Record) -> Result<(), Stop> {
    let mut obey_event =
        |event: Event, obey_one: &dyn Fn(Registers, &Memory) -> Result<Taken, Refusal>| {
            let taken = obey_selected(chips, selection, event, obey_one)?;
            leave_in_chips(taken, chips);
            Ok(())
        };
    match record {
        Record::Bytes(payload, bytes) => each_byte(bytes, &mut |byte| {
            obey_event(payload.event(byte), &|registers, memory| {
                obey(registers, memory, payload, byte)
            })
        }),
        Record::ResetPin => obey_event(Event::Reset, &|registers, memory| {
            meaning(registers, memory, Event::Reset)
        })
        .map_err(Stop::AtHeader),
    }
}
