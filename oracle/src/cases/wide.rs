//! Test cases of the wide terminal.

use crate::cases::pattern;
use crate::event::Event;
use crate::refusal::TAKEN;
use crate::trace::RunAnswer;
use crate::wide::event::{self, WideAnswer};
use crate::wide::frame::{self, WIDE_FRAME_LENGTH};
use crate::wide::page::{self, PageAnswer};
use crate::wide::{Lent, Side, trace};

/// Buffers to lend for one chip, of any length.
#[derive(Clone, PartialEq, Eq, Debug)]
pub struct Buffers {
    pub state: Vec<u8>,
    pub memory: Vec<u8>,
}

impl Buffers {
    /// Lends them.
    pub fn lend(&mut self) -> Lent<'_> {
        Lent {
            state: &mut self.state,
            memory: &mut self.memory,
        }
    }
}

/// The buffers of the left chip and of the right.
pub type Pair = [Buffers; 2];

/// One event on a pair.
#[derive(Clone, PartialEq, Eq, Debug)]
pub struct WideSingle {
    pub selection: u8,
    pub event: Event,
    pub pair: Pair,
    pub answer: WideAnswer,
    /// All of both lent states, afterwards.
    pub states_after: [Vec<u8>; 2],
}

impl WideSingle {
    /// The case of these inputs.
    #[must_use]
    pub fn new(selection: u8, event: Event, pair: Pair) -> WideSingle {
        let mut after = pair.clone();
        let answer = event::call(after.each_mut().map(Buffers::lend), selection, event);
        WideSingle {
            selection,
            event,
            pair,
            answer,
            states_after: after.map(|buffers| buffers.state),
        }
    }
}

/// A wide trace run on a pair.
#[derive(Clone, PartialEq, Eq, Debug)]
pub struct WideRun {
    pub pair: Pair,
    pub trace: Vec<u8>,
    pub answer: RunAnswer,
    /// All of the lent buffers, afterwards.
    pub pair_after: Pair,
}

impl WideRun {
    /// The case of these inputs.
    #[must_use]
    pub fn new(pair: Pair, trace: Vec<u8>) -> WideRun {
        let mut pair_after = pair.clone();
        let answer = trace::call(pair_after.each_mut().map(Buffers::lend), &trace);
        WideRun {
            pair,
            trace,
            answer,
            pair_after,
        }
    }
}

/// A drawing of a pair.
#[derive(Clone, PartialEq, Eq, Debug)]
pub struct WideDraw {
    pub pair: Pair,
    pub frame_length: usize,
    /// Chooses the pattern the frame holds before; see [`pattern`].
    pub fill: u8,
    pub number: u8,
    /// The 17,160 bytes of the frame drawn; none if the drawing was refused.
    pub frame: Option<Vec<u8>>,
}

impl WideDraw {
    /// The case of these inputs.
    #[must_use]
    pub fn new(pair: Pair, frame_length: usize, fill: u8) -> WideDraw {
        let mut frame = pattern(frame_length, fill);
        let lent = pair.each_ref();
        let lent = lent.map(|buffers| (&buffers.state[..], &buffers.memory[..]));
        let number = frame::call(lent, &mut frame);
        frame.truncate(WIDE_FRAME_LENGTH);
        WideDraw {
            pair,
            frame_length,
            fill,
            number,
            frame: (number == TAKEN).then_some(frame),
        }
    }
}

/// A page asked for.
#[derive(Clone, PartialEq, Eq, Debug)]
pub struct PageCall {
    pub side: Side,
    pub memories: [Vec<u8>; 2],
    pub page: u8,
    pub number: u8,
    /// Where in that side's memory the part begins; 0 if refused.
    pub place: usize,
    /// How long the part is; 0 if refused.
    pub length: usize,
}

impl PageCall {
    /// The case of these inputs.
    #[must_use]
    pub fn new(side: Side, memories: [Vec<u8>; 2], page: u8) -> PageCall {
        let [left, right] = &memories;
        let PageAnswer { number, part } = page::call(left, right, side, page);
        let length = part.len();
        // The part is found by where it lies, which a copy could not give.
        let place = match number {
            TAKEN => part.as_ptr().addr() - memories[side.index()].as_ptr().addr(),
            _ => 0,
        };
        PageCall {
            side,
            memories,
            page,
            number,
            place,
            length,
        }
    }
}
