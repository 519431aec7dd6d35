//! Bytes of Order 6's test mode that are the same for every seed: refused with
//! no code awaited, n with one, in events and in runs.

use std::io;

use super::{Sink, UNLIKE_POWER_ON, awaited_or_none, cut_or_lengthened, uneven_memory};
use crate::cases::{Case, Run, Sequence, Single};
use crate::command::TEST_MODE;
use crate::event::Event::{self, Command, Read, Reset, Write};
use crate::generate::{MEMORY_LENGTHS, STATE_LENGTHS};
use crate::registers::{Awaited, Registers};
use crate::sweep::records::push_record;

/// Gives every case of this sweep to the sink.
pub fn test_mode(sink: &mut Sink) -> io::Result<()> {
    sequences(sink)?;
    runs(sink)?;
    lengths(sink)
}

/// Registers with nothing in the way of data, and none of them as at power-on
/// but read-modify-write.
const FREE: Registers = Registers {
    read_modify_write: None,
    ..UNLIKE_POWER_ON
};

/// Each byte again and again: what follows it is met as if it had not come, and
/// after a code it is n.
fn sequences(sink: &mut Sink) -> io::Result<()> {
    let above_131 = Registers {
        column: 132,
        ..FREE
    };
    for byte in TEST_MODE {
        let refused = Command(byte);
        give_sequence(sink, UNLIKE_POWER_ON, &[refused, Read, refused, refused])?;
        let as_n = [Command(0x81), refused, refused, Read];
        give_sequence(sink, UNLIKE_POWER_ON, &as_n)?;
        let not_allowed = [Command(0xD3), refused, refused, Command(0x07), refused];
        give_sequence(sink, UNLIKE_POWER_ON, &not_allowed)?;
        let others = [refused, Write(byte), refused, Command(0xB9), refused, Reset];
        give_sequence(sink, UNLIKE_POWER_ON, &others)?;
        let in_the_way = [refused, Write(byte), refused, Read, refused, Command(0x10)];
        give_sequence(sink, above_131, &in_the_way)?;
    }
    Ok(())
}

/// Gives a sequence of these events from these registers.
fn give_sequence(sink: &mut Sink, registers: Registers, events: &[Event]) -> io::Result<()> {
    let mut sequence = Sequence::new(registers.image(), &uneven_memory());
    for &event in events {
        sequence.push(event);
    }
    sink(Case::Sequence(Box::new(sequence)))
}

/// Runs that meet each byte at the beginning of a record, amid it and at its
/// end, the code of which it is n in the same record, in an earlier one, or
/// awaited before the run.
fn runs(sink: &mut Sink) -> io::Result<()> {
    let codes = Awaited::ALL.map(Awaited::code);
    for byte in TEST_MODE {
        let code = codes[usize::from(byte) % codes.len()];
        let traces = [
            trace_of(&[&[byte]]),
            trace_of(&[&[byte, 0x46], &[0x47]]),
            trace_of(&[&[0xAF], &[], &[0x45, byte, 0x46], &[0x47]]),
            trace_of(&[&[0x45], &[0x46, 0xA9, byte, byte]]),
            trace_of(&[&[0x45, code], &[byte, 0x10, byte]]),
        ];
        for trace in traces {
            give_run(sink, FREE, trace)?;
        }
    }
    for (awaited, byte) in awaited_or_none().zip(TEST_MODE.rev()) {
        let registers = Registers { awaited, ..FREE };
        give_run(sink, registers, trace_of(&[&[byte, 0x10, byte]]))?;
    }
    Ok(())
}

/// Gives a run from these registers.
fn give_run(sink: &mut Sink, registers: Registers, trace: Vec<u8>) -> io::Result<()> {
    let state = registers.image().to_vec();
    sink(Case::Run(Run::new(state, uneven_memory().to_vec(), trace)))
}

/// A trace of these records of commands.
fn trace_of(records: &[&[u8]]) -> Vec<u8> {
    let mut trace = Vec::new();
    for payload in records {
        push_record(&mut trace, 1, payload);
    }
    trace
}

/// Lent buffers of every length, with legal and illegal images, codes awaited
/// and none.
fn lengths(sink: &mut Sink) -> io::Result<()> {
    let mut bytes = TEST_MODE.cycle();
    for awaited in [None, Some(Awaited::ByteOfA9)] {
        let legal = Registers { awaited, ..FREE }.image();
        let mut illegal = legal;
        illegal[4] = 64;
        for image in [legal, illegal] {
            for state_length in STATE_LENGTHS {
                for memory_length in MEMORY_LENGTHS {
                    let byte = bytes.next().expect("a cycle has no end");
                    let state = cut_or_lengthened(&image, state_length);
                    let memory = cut_or_lengthened(&uneven_memory(), memory_length);
                    let trace = trace_of(&[&[byte]]);
                    sink(Case::Run(Run::new(state.clone(), memory.clone(), trace)))?;
                    sink(Case::Single(Single::new(state, memory, Command(byte))))?;
                }
            }
        }
    }
    Ok(())
}
