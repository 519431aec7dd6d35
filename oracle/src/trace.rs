//! The trace: its records, and the run that obeys them.

use crate::event::{Event, Taken, asked, lent, meaning};
use crate::memory::Memory;
use crate::refusal::{Refusal, TAKEN};
use crate::registers::Registers;
use crate::start::{Start, ZERO_MEMORY};

/// Bytes of a record's header: payload length, then kind.
pub const HEADER_LENGTH: usize = 4;

/// What the payload bytes of a record are.
#[derive(Clone, Copy, PartialEq, Eq, Debug)]
pub enum Payload {
    /// Kind 1: command bytes.
    Commands,
    /// Kind 2: data written.
    Written,
    /// Kind 3: bytes the firmware read, one read event each.
    Read,
}

impl Payload {
    /// The event of one byte; of a read the byte is only compared.
    #[must_use]
    pub fn event(self, byte: u8) -> Event {
        match self {
            Payload::Commands => Event::Command(byte),
            Payload::Written => Event::Write(byte),
            Payload::Read => Event::Read,
        }
    }
}

/// A record whose header was found right.
#[derive(Clone, Copy, PartialEq, Eq, Debug)]
pub enum Record<'a> {
    /// Kinds 1 to 3.
    Bytes(Payload, &'a [u8]),
    /// Kind 4: the reset pin.
    ResetPin,
}

/// The answer of a run.
#[derive(Clone, Copy, PartialEq, Eq, Debug)]
pub struct RunAnswer {
    /// 0 when all is taken, else the refusal that stopped it.
    pub number: u8,
    /// Where it stopped.
    pub offset: usize,
    /// Whole records done.
    pub count: usize,
}

impl RunAnswer {
    /// The answer of a run that is refused before its first header.
    #[must_use]
    pub fn refused_at_once(refusal: Refusal) -> RunAnswer {
        RunAnswer {
            number: refusal.number(),
            offset: 0,
            count: 0,
        }
    }
}

/// What stops a run at a record that is all there.
#[derive(Clone, Copy, PartialEq, Eq, Debug)]
pub enum Stop {
    /// The header is refused.
    AtHeader(Refusal),
    /// The payload byte at this place is refused.
    AtByte(usize, Refusal),
}

/// Kind and payload of the record that begins a part of the trace, which is
/// not empty.
///
/// # Errors
/// 8 if the header or the payload is not all there.
pub fn first_parts(rest: &[u8]) -> Result<(u16, &[u8]), Refusal> {
    let Some((&[length_low, length_high, kind_low, kind_high], after)) =
        rest.split_first_chunk::<HEADER_LENGTH>()
    else {
        return Err(Refusal::TraceCut);
    };
    let length = usize::from(u16::from_le_bytes([length_low, length_high]));
    let Some(payload) = after.get(..length) else {
        return Err(Refusal::TraceCut);
    };
    Ok((u16::from_le_bytes([kind_low, kind_high]), payload))
}

/// The record of a kind and a payload.
///
/// # Errors
/// 9 if no record has such a header.
pub fn record_of(kind: u16, payload: &[u8]) -> Result<Record<'_>, Refusal> {
    match kind {
        1 => Ok(Record::Bytes(Payload::Commands, payload)),
        2 => Ok(Record::Bytes(Payload::Written, payload)),
        3 => Ok(Record::Bytes(Payload::Read, payload)),
        4 if payload.is_empty() => Ok(Record::ResetPin),
        _ => Err(Refusal::WrongKind),
    }
}

/// The event of one payload byte.
///
/// # Errors
/// The refusals of the event, and 10 if a read that is no dummy answers
/// another byte than the recorded one.
pub fn obey(
    registers: Registers,
    memory: &Memory,
    payload: Payload,
    byte: u8,
) -> Result<Taken, Refusal> {
    let taken = meaning(registers, memory, payload.event(byte))?;
    if payload == Payload::Read && !taken.dummy && taken.byte != byte {
        return Err(Refusal::ReadDiffers);
    }
    Ok(taken)
}

/// The call of a run on lent state and memory. It stops at the first refused
/// event or header, and what came before stands.
pub fn call(state: &mut [u8], memory: &mut [u8], trace: &[u8]) -> RunAnswer {
    let (image, memory) = match lent(state, memory) {
        Ok(parts) => parts,
        Err(refusal) => return RunAnswer::refused_at_once(refusal),
    };
    let mut registers = match asked(image) {
        Ok(registers) => registers,
        Err(refusal) => return RunAnswer::refused_at_once(refusal),
    };
    let answer = run(&mut registers, memory, trace, &mut |_, _| ());
    *image = registers.image();
    answer
}

/// The run from a start: the registers and the memory it leaves, and its
/// answer.
#[must_use]
pub fn run_from(start: Start, trace: &[u8]) -> (Registers, Memory, RunAnswer) {
    run_watched(start, trace, &mut |_, _| ())
}

/// The same, and each event that is taken is told, with the registers that it
/// meets.
pub fn run_watched(
    start: Start,
    trace: &[u8],
    watch: &mut dyn FnMut(Registers, Event),
) -> (Registers, Memory, RunAnswer) {
    let mut registers = start.registers();
    let mut memory = ZERO_MEMORY;
    let answer = run(&mut registers, &mut memory, trace, watch);
    (registers, memory, answer)
}

/// Obeys the bytes of a payload one by one.
///
/// # Errors
/// The first byte that is refused.
pub fn each_byte(
    bytes: &[u8],
    obey_byte: &mut dyn FnMut(u8) -> Result<(), Refusal>,
) -> Result<(), Stop> {
    for (place, &byte) in bytes.iter().enumerate() {
        obey_byte(byte).map_err(|refusal| Stop::AtByte(place, refusal))?;
    }
    Ok(())
}

/// Obeys a record of a kind and a payload.
pub type ObeyRecord<'a> = dyn FnMut(u16, &[u8]) -> Result<(), Stop> + 'a;

/// Obeys the records of a trace one by one, up to the first stop.
pub fn each_record(trace: &[u8], obey_record: &mut ObeyRecord) -> RunAnswer {
    let mut offset = 0;
    let mut count = 0;
    while offset < trace.len() {
        let stopped = |refusal: Refusal, offset: usize| RunAnswer {
            number: refusal.number(),
            offset,
            count,
        };
        let (kind, payload) = match first_parts(&trace[offset..]) {
            Ok(parts) => parts,
            Err(refusal) => return stopped(refusal, offset),
        };
        match obey_record(kind, payload) {
            Ok(()) => {}
            Err(Stop::AtHeader(refusal)) => return stopped(refusal, offset),
            Err(Stop::AtByte(place, refusal)) => {
                return stopped(refusal, offset + HEADER_LENGTH + place);
            }
        }
        offset += HEADER_LENGTH + payload.len();
        count += 1;
    }
    RunAnswer {
        number: TAKEN,
        offset,
        count,
    }
}

/// The run over legal registers and memory; each event that is taken is told,
/// with the registers that it meets.
pub fn run(
    registers: &mut Registers,
    memory: &mut Memory,
    trace: &[u8],
    watch: &mut dyn FnMut(Registers, Event),
) -> RunAnswer {
    each_record(trace, &mut |kind, payload| match record_of(kind, payload)
        .map_err(Stop::AtHeader)?
    {
        Record::Bytes(payload, bytes) => each_byte(bytes, &mut |byte| {
            let taken = obey(*registers, memory, payload, byte)?;
            watch(*registers, payload.event(byte));
            taken.leave_in(registers, memory);
            Ok(())
        }),
        Record::ResetPin => {
            watch(*registers, Event::Reset);
            *registers = Registers::POWER_ON;
            Ok(())
        }
    })
}
