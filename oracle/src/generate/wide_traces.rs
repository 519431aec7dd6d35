//! Random wide traces, made with both chips and the selection in mind.

use crate::generate::traces::{Machine, Maker, any_payload, garbage, picture_commands};
use crate::memory::Memory;
use crate::random::Random;
use crate::registers::Registers;
use crate::start::ZERO_MEMORY;
use crate::trace::{Payload, obey};
use crate::wide::trace::{FIRST_SELECTION, SELECT_KIND};
use crate::wide::{Chip, Selection, leave_in_chips, obey_selected};

/// Two chips and which of them are selected.
struct TwoChips {
    registers: [Registers; 2],
    memories: [Memory; 2],
    selection: Selection,
}

impl Machine for TwoChips {
    /// With 5 most payloads select nothing; 0105 ends like it.
    const WRONG_KINDS: &'static [u16] =
        &[0, 5, 5, 6, 0x0100, 0x0101, 0x0104, 0x0105, 0x0500, 0xFFFF];

    fn chip(&self, random: &mut Random) -> (Registers, &Memory) {
        let side = random.pick(self.selection.sides()).index();
        (self.registers[side], &self.memories[side])
    }

    fn reset(&mut self) {
        for side in self.selection.sides() {
            self.registers[side.index()] = Registers::POWER_ON;
        }
    }

    fn obey(&mut self, payload: Payload, byte: u8) -> bool {
        let [left, right] = self.memories.each_mut();
        let [left_registers, right_registers] = self.registers;
        let mut chips = [
            Chip {
                registers: left_registers,
                memory: left,
            },
            Chip {
                registers: right_registers,
                memory: right,
            },
        ];
        let obeyed = obey_selected(
            &chips,
            self.selection,
            payload.event(byte),
            |registers, memory| obey(registers, memory, payload, byte),
        );
        let Ok(taken) = obeyed else {
            return false;
        };
        leave_in_chips(taken, &mut chips);
        self.registers = chips.map(|chip| chip.registers);
        true
    }
}

impl Maker<TwoChips> {
    fn of_two(registers: [Registers; 2], memories: &[Memory; 2]) -> Maker<TwoChips> {
        Maker::new(TwoChips {
            registers,
            memories: *memories,
            selection: FIRST_SELECTION,
        })
    }

    /// Adds a select record.
    fn push_selection(&mut self, selection: Selection) {
        self.push_header(1, SELECT_KIND);
        self.trace.push(selection.byte());
        self.machine.selection = selection;
    }

    /// Adds a record of any kind; now and then a selection before it, before
    /// reads mostly of one chip.
    fn push_wide_record(&mut self, random: &mut Random) {
        if random.one_in(3) {
            self.push_selection(random.pick(&Selection::ALL));
        }
        let payload = any_payload(random);
        let reads_both =
            payload == Some(Payload::Read) && self.machine.selection == Selection::Both;
        if reads_both && !random.one_in(8) {
            self.push_selection(random.pick(&[Selection::Left, Selection::Right]));
        }
        self.push_record_of(random, payload);
        if random.one_in(100) {
            self.push_wrong_selection(random);
        }
        if random.one_in(60) {
            self.push_staggered(random);
        }
    }

    /// Adds a code for one chip and commands for both, which then are n to the
    /// one and first bytes to the other in turn.
    fn push_staggered(&mut self, random: &mut Random) {
        let codes = [0x81, 0xA8, 0xA9, 0xAD];
        self.push_selection(random.pick(&[Selection::Left, Selection::Right]));
        self.push_commands(&[random.pick(&codes)]);
        self.push_selection(Selection::Both);
        let second = random.pick(&[0x81, 0xD3, 0xD4]);
        self.push_commands(&[random.pick(&codes), second, random.byte()]);
    }

    /// Adds a record of kind 5 that selects nothing.
    fn push_wrong_selection(&mut self, random: &mut Random) {
        let payload: &[u8] = match random.below(4) {
            0 => &[],
            1 => &[random.pick(&[0, 4, 5, 0xFF])],
            2 => &[random.up_to(4), random.up_to(4)],
            _ => &[1, 2, 3],
        };
        self.push_header(payload.len(), SELECT_KIND);
        self.trace.extend(payload);
    }
}

/// A wide trace for these chips.
#[must_use]
pub fn wide_trace(
    random: &mut Random,
    registers: [Registers; 2],
    memories: &[Memory; 2],
) -> Vec<u8> {
    if random.one_in(60) {
        return garbage(random);
    }
    let mut maker = Maker::of_two(registers, memories);
    // Both chips are selected, each with what it awaits.
    maker.push_now_and_then_test_mode(random);
    for _ in 0..random.below(16) {
        maker.push_wide_record(random);
    }
    if random.one_in(4) {
        maker.push_selection(random.pick(&Selection::ALL));
    }
    maker.push_now_and_then_test_mode(random);
    if random.one_in(3) {
        maker.damage(random);
    }
    maker.trace
}

/// A wide trace that draws something from a start.
#[must_use]
pub fn wide_drawing_trace(random: &mut Random) -> Vec<u8> {
    let mut maker = Maker::of_two([Registers::POWER_ON; 2], &[ZERO_MEMORY; 2]);
    for _ in 0..random.below(4) {
        maker.push_selection(random.pick(&Selection::ALL));
        maker.push_commands(&picture_commands(random));
    }
    for _ in 0..random.below(16) {
        maker.push_wide_record(random);
    }
    if !random.one_in(4) {
        maker.push_selection(random.pick(&Selection::ALL));
        maker.push_commands(&[0xAF]);
    }
    maker.push_now_and_then_test_mode(random);
    if random.one_in(4) {
        maker.damage(random);
    }
    maker.trace
}
