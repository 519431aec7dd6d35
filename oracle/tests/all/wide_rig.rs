//! Two states and memories, lent to the wide terminal again and again.

use oracle::event::Event;
use oracle::trace::RunAnswer;
use oracle::wide::{Lent, event, frame, trace};

use crate::rig::{BUSY, POWER_ON, Rig};

/// The bytes that select.
pub const LEFT: u8 = 1;
pub const RIGHT: u8 = 2;
pub const BOTH: u8 = 3;

#[derive(Clone, PartialEq, Eq, Debug)]
pub struct WideRig {
    pub left: Rig,
    pub right: Rig,
}

impl WideRig {
    pub fn with(left: [u8; 23], right: [u8; 23]) -> WideRig {
        WideRig {
            left: Rig::with(left),
            right: Rig::with(right),
        }
    }

    pub fn power_on() -> WideRig {
        WideRig::with(POWER_ON, POWER_ON)
    }

    pub fn busy() -> WideRig {
        WideRig::with(BUSY, BUSY)
    }

    /// Power-on after these commands of each chip, all taken.
    pub fn after(left: &[u8], right: &[u8]) -> WideRig {
        WideRig {
            left: Rig::after(left),
            right: Rig::after(right),
        }
    }

    fn lend(&mut self) -> [Lent<'_>; 2] {
        [&mut self.left, &mut self.right].map(|rig| Lent {
            state: &mut rig.state,
            memory: &mut rig.memory,
        })
    }

    /// Number, byte and dummy of an event.
    pub fn event(&mut self, selection: u8, event: Event) -> (u8, u8, bool) {
        let answer = event::call(self.lend(), selection, event);
        (answer.number, answer.byte, answer.dummy)
    }

    /// The number of an event that answers no byte.
    pub fn number(&mut self, selection: u8, event: Event) -> u8 {
        let (number, byte, dummy) = self.event(selection, event);
        assert_eq!((byte, dummy), (0, false));
        number
    }

    /// Commands that must be taken.
    pub fn commands(&mut self, selection: u8, bytes: &[u8]) {
        for &byte in bytes {
            assert_eq!(self.number(selection, Event::Command(byte)), 0);
        }
    }

    /// The number of an event that is refused and changes nothing.
    pub fn refused(&mut self, selection: u8, event: Event) -> u8 {
        let before = self.clone();
        let number = self.number(selection, event);
        assert_eq!(*self, before, "selection {selection}, {event:?}");
        number
    }

    pub fn run(&mut self, trace: &[u8]) -> (u8, usize, usize) {
        let RunAnswer {
            number,
            offset,
            count,
        } = trace::call(self.lend(), trace);
        (number, offset, count)
    }

    /// The number of a drawing on this frame.
    pub fn draw(&self, frame: &mut [u8]) -> u8 {
        let pair = [&self.left, &self.right].map(|rig| (&rig.state[..], &rig.memory[..]));
        frame::call(pair, frame)
    }

    pub fn frame(&self) -> Vec<u8> {
        let mut frame = vec![7; 17_160];
        assert_eq!(self.draw(&mut frame), 0);
        frame
    }

    /// The lit places, as row and place of 0 to 263.
    pub fn lit(&self) -> Vec<(usize, usize)> {
        let frame = self.frame();
        (0..17_160)
            .filter(|place| frame[*place] == 1)
            .map(|place| (place / 264, place % 264))
            .collect()
    }
}

/// A record.
pub fn record(kind: u16, payload: &[u8]) -> Vec<u8> {
    let length = u16::try_from(payload.len()).unwrap();
    [&length.to_le_bytes()[..], &kind.to_le_bytes()[..], payload].concat()
}

/// A record that selects.
pub fn select(selection: u8) -> Vec<u8> {
    record(5, &[selection])
}
