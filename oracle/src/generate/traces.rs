//! Random traces: most of them obeyed to the end, many of them damaged.

use crate::event::{Event, meaning};
use crate::generate::{events, states};
use crate::memory::Memory;
use crate::random::Random;
use crate::registers::Registers;
use crate::start::ZERO_MEMORY;
use crate::trace::{HEADER_LENGTH, Payload, obey};

/// A trace for these registers and this memory.
#[must_use]
pub fn trace(random: &mut Random, registers: Registers, memory: &Memory) -> Vec<u8> {
    if random.one_in(60) {
        return garbage(random);
    }
    let mut maker = Maker::new(OneChip {
        registers,
        memory: *memory,
    });
    if random.one_in(150) {
        maker.push_many_written(random);
    }
    for _ in 0..random.below(16) {
        maker.push_record(random);
    }
    maker.push_now_and_then_test_mode(random);
    if random.one_in(3) {
        maker.damage(random);
    }
    maker.trace
}

/// A trace that draws something from a start. No byte of it is chosen by the
/// directions, in which alone the starts differ.
#[must_use]
pub fn drawing_trace(random: &mut Random) -> Vec<u8> {
    let mut maker = Maker::new(OneChip {
        registers: Registers::POWER_ON,
        memory: ZERO_MEMORY,
    });
    maker.push_now_and_then_a_reset(random);
    if !random.one_in(10) {
        maker.push_commands(&picture_commands(random));
    }
    for _ in 0..random.below(24) {
        maker.push_record(random);
    }
    if !random.one_in(4) {
        maker.push_commands(&[0xAF]);
    }
    maker.push_now_and_then_a_reset(random);
    maker.push_now_and_then_test_mode(random);
    if random.one_in(4) {
        maker.damage(random);
    }
    maker.trace
}

/// Lengthens a trace to this length, if that can be done, by one record of
/// data written.
pub fn lengthen(trace: &mut Vec<u8>, length: usize) {
    if let Some(payload) = length.checked_sub(trace.len() + HEADER_LENGTH)
        && let Ok(payload) = u16::try_from(payload)
    {
        trace.extend(payload.to_le_bytes());
        trace.extend(2_u16.to_le_bytes());
        trace.resize(length, 0x5A);
    }
}

/// Commands that bring about random settings of the picture.
pub(super) fn picture_commands(random: &mut Random) -> Vec<u8> {
    let wanted = states::drawn_registers(random);
    let mut commands = vec![
        0xAE | u8::from(wanted.display_on),
        0x40 | wanted.start_line,
        0xA6 | u8::from(wanted.reverse),
    ];
    if random.flag() {
        commands.push(0xA0 | u8::from(wanted.columns_reversed));
    }
    if random.flag() {
        commands.push(if wanted.rows_reversed { 0xC8 } else { 0xC0 });
    }
    if random.flag() {
        commands.extend([0xA8, wanted.multiplex]);
    }
    if random.flag() {
        commands.extend([0xD3, wanted.offset]);
    }
    if random.one_in(8) {
        commands.push(0xA5);
    }
    commands
}

/// The bytes of a record drawn by lot; none is the reset pin.
pub(super) fn any_payload(random: &mut Random) -> Option<Payload> {
    match random.below(20) {
        0 => None,
        1..=8 => Some(Payload::Commands),
        9..=14 => Some(Payload::Written),
        _ => Some(Payload::Read),
    }
}

/// Any bytes at all.
pub(super) fn garbage(random: &mut Random) -> Vec<u8> {
    let mut trace = vec![0; random.below(40)];
    random.fill(&mut trace);
    if random.flag() {
        // Small numbers make some of it look like records.
        for byte in &mut trace {
            *byte %= 6;
        }
    }
    trace
}

/// What a trace is made for.
pub(super) trait Machine {
    /// Kinds of records to put in the place of right ones.
    const WRONG_KINDS: &'static [u16];

    /// A chip that the next byte goes to.
    fn chip(&self, random: &mut Random) -> (Registers, &Memory);

    /// The effect of the reset pin.
    fn reset(&mut self);

    /// Whether the byte is taken; then its effect stands.
    fn obey(&mut self, payload: Payload, byte: u8) -> bool;
}

/// One chip.
struct OneChip {
    registers: Registers,
    memory: Memory,
}

impl Machine for OneChip {
    /// The low byte alone of some would be a kind.
    const WRONG_KINDS: &'static [u16] = &[
        0, 5, 6, 0x0100, 0x0101, 0x0102, 0x0203, 0x0104, 0x8001, 0xFFFF,
    ];

    fn chip(&self, _: &mut Random) -> (Registers, &Memory) {
        (self.registers, &self.memory)
    }

    fn reset(&mut self) {
        self.registers = Registers::POWER_ON;
    }

    fn obey(&mut self, payload: Payload, byte: u8) -> bool {
        match obey(self.registers, &self.memory, payload, byte) {
            Ok(taken) => {
                taken.leave_in(&mut self.registers, &mut self.memory);
                true
            }
            Err(_) => false,
        }
    }
}

/// A trace in the making, and what obeying it has led to.
pub(super) struct Maker<M: Machine> {
    pub machine: M,
    pub trace: Vec<u8>,
    /// Where each record begins.
    records: Vec<usize>,
}

impl<M: Machine> Maker<M> {
    pub fn new(machine: M) -> Maker<M> {
        Maker {
            machine,
            trace: Vec::new(),
            records: Vec::new(),
        }
    }

    /// Adds a record of any kind.
    fn push_record(&mut self, random: &mut Random) {
        let payload = any_payload(random);
        self.push_record_of(random, payload);
    }

    /// Adds a record of this payload, or of the reset pin.
    pub fn push_record_of(&mut self, random: &mut Random, payload: Option<Payload>) {
        match payload {
            None => self.push_reset(),
            Some(payload) => self.push_bytes(random, payload),
        }
    }

    /// Adds a record of the reset pin.
    fn push_reset(&mut self) {
        self.push_header(0, 4);
        self.machine.reset();
    }

    /// Adds, one time in eight, a record of the reset pin or of E2.
    fn push_now_and_then_a_reset(&mut self, random: &mut Random) {
        match random.below(16) {
            0 => self.push_reset(),
            1 => self.push_commands(&[0xE2]),
            _ => {}
        }
    }

    /// Adds, one time in sixteen, a record of commands with a byte of test mode
    /// among them or two, of which one is not obeyed if no code is awaited.
    pub fn push_now_and_then_test_mode(&mut self, random: &mut Random) {
        if random.one_in(16) {
            // The first of two is n.
            let mut commands = vec![0xA7, 0xA9, events::test_mode_byte(random)];
            commands.truncate(random.pick(&[0, 1, 3]));
            commands.push(events::test_mode_byte(random));
            if random.flag() {
                commands.extend([0xAE, 0xA5]);
            }
            self.push_commands(&commands);
        }
    }

    /// Adds a record of just these commands.
    pub fn push_commands(&mut self, commands: &[u8]) {
        self.push_header(commands.len(), 1);
        for &byte in commands {
            self.machine.obey(Payload::Commands, byte);
            self.trace.push(byte);
        }
    }

    /// Adds so much written data that offsets no longer fit in two bytes.
    fn push_many_written(&mut self, random: &mut Random) {
        self.push_reset();
        let mut bytes = vec![0; random.between(65_530, 65_535)];
        random.fill(&mut bytes);
        self.push_header(bytes.len(), 2);
        for byte in bytes {
            self.machine.obey(Payload::Written, byte);
            self.trace.push(byte);
        }
    }

    /// Adds a record of random bytes, with few of them refused.
    fn push_bytes(&mut self, random: &mut Random, payload: Payload) {
        let wanted = match random.below(40) {
            0..=2 => 0,
            3 => random.between(256, 700),
            _ => random.between(1, 12),
        };
        let mut bytes = Vec::new();
        while bytes.len() < wanted {
            let byte = self.byte_for(random, payload);
            let kept = match payload {
                Payload::Commands => random.one_in(30),
                Payload::Written | Payload::Read => random.one_in(3),
            };
            if self.machine.obey(payload, byte) || kept {
                bytes.push(byte);
            } else if payload != Payload::Commands {
                break;
            }
        }
        let kind = match payload {
            Payload::Commands => 1,
            Payload::Written => 2,
            Payload::Read => 3,
        };
        self.push_header(bytes.len(), kind);
        self.trace.extend(bytes);
    }

    /// A payload byte; for reads mostly the right one.
    fn byte_for(&self, random: &mut Random, payload: Payload) -> u8 {
        let (registers, memory) = self.machine.chip(random);
        match payload {
            Payload::Commands => events::command_byte(random, registers),
            Payload::Written => random.byte(),
            Payload::Read if random.one_in(60) => random.byte(),
            Payload::Read => match meaning(registers, memory, Event::Read) {
                Ok(taken) if !taken.dummy => taken.byte,
                _ => random.byte(),
            },
        }
    }

    pub fn push_header(&mut self, length: usize, kind: u16) {
        self.records.push(self.trace.len());
        let length = u16::try_from(length).expect("payloads are short");
        self.trace.extend(length.to_le_bytes());
        self.trace.extend(kind.to_le_bytes());
    }

    /// Spoils the trace in one way.
    pub fn damage(&mut self, random: &mut Random) {
        let end = self.trace.len();
        match random.below(10) {
            0 | 1 => self.trace.truncate(random.below(end + 1)),
            2 => self.push_garbage(random, 1, 3),
            3 => self.push_garbage(random, 4, 12),
            4 => {
                // A reset pin with a payload.
                let length = random.between(1, 3);
                self.push_header(length, 4);
                self.push_garbage(random, length, length + 4);
            }
            5 => {
                // A wrong kind, and its payload past the end.
                self.push_header(random.between(2, 300), random.pick(M::WRONG_KINDS));
                self.push_garbage(random, 0, 1);
            }
            6 => self.change_header(random, |random, _, kind| {
                *kind = random.pick(M::WRONG_KINDS);
            }),
            7 => self.change_header(random, |random, length, _| {
                *length = random.pick(&[
                    length.wrapping_add(1),
                    length.wrapping_add(0x100),
                    length.saturating_sub(1),
                    0xFFFF,
                    0,
                ]);
            }),
            8 if end > 0 => {
                let place = random.below(end);
                self.trace[place] = random.byte();
            }
            _ if end > 0 => {
                let place = random.below(end);
                if random.flag() {
                    self.trace.remove(place);
                } else {
                    self.trace.insert(place, random.byte());
                }
            }
            _ => {}
        }
    }

    fn push_garbage(&mut self, random: &mut Random, least: usize, most: usize) {
        let mut bytes = vec![0; random.between(least, most)];
        random.fill(&mut bytes);
        self.trace.extend(bytes);
    }

    /// Changes the payload length or the kind of one record.
    fn change_header(
        &mut self,
        random: &mut Random,
        change: impl Fn(&mut Random, &mut u16, &mut u16),
    ) {
        if self.records.is_empty() {
            return;
        }
        let place = random.pick(&self.records);
        let header = &mut self.trace[place..place + HEADER_LENGTH];
        let mut length = u16::from_le_bytes([header[0], header[1]]);
        let mut kind = u16::from_le_bytes([header[2], header[3]]);
        change(random, &mut length, &mut kind);
        header[..2].copy_from_slice(&length.to_le_bytes());
        header[2..].copy_from_slice(&kind.to_le_bytes());
    }
}
