//! Test cases: inputs, with the outcome the model gives for them.

pub mod wide;

use crate::compare::{self, Compared, FRAME_ENTRY, MEMORY_ENTRY};
use crate::event::{self, Answer, Event};
use crate::frame::{self, FRAME_LENGTH};
use crate::listing;
use crate::memory::Memory;
use crate::refusal::TAKEN;
use crate::registers::Image;
use crate::start::{self, Start};
use crate::trace::{self, RunAnswer};
use wide::{PageCall, WideDraw, WideRun, WideSingle};

/// One event on lent buffers of any length.
#[derive(Clone, PartialEq, Eq, Debug)]
pub struct Single {
    pub state: Vec<u8>,
    pub memory: Vec<u8>,
    pub event: Event,
    pub answer: Answer,
    /// All the lent state, afterwards.
    pub state_after: Vec<u8>,
}

impl Single {
    /// The case of these inputs.
    #[must_use]
    pub fn new(state: Vec<u8>, memory: Vec<u8>, event: Event) -> Single {
        let mut state_after = state.clone();
        let mut memory_after = memory.clone();
        let answer = event::call(&mut state_after, &mut memory_after, event);
        Single {
            state,
            memory,
            event,
            answer,
            state_after,
        }
    }
}

/// One event of a sequence.
#[derive(Clone, Copy, PartialEq, Eq, Debug)]
pub struct Step {
    pub event: Event,
    pub answer: Answer,
    pub image_after: Image,
}

/// Many events, one after the other, on the same lent buffers.
#[derive(Clone, PartialEq, Eq, Debug)]
pub struct Sequence {
    pub image: Image,
    pub memory: Memory,
    pub steps: Vec<Step>,
    pub memory_after: Memory,
}

impl Sequence {
    /// The case of no event yet.
    #[must_use]
    pub fn new(image: Image, memory: &Memory) -> Sequence {
        Sequence {
            image,
            memory: *memory,
            steps: Vec::new(),
            memory_after: *memory,
        }
    }

    /// The image after the events so far.
    #[must_use]
    pub fn image_after(&self) -> Image {
        self.steps
            .last()
            .map_or(self.image, |step| step.image_after)
    }

    /// One more event.
    pub fn push(&mut self, event: Event) {
        let mut image_after = self.image_after();
        let answer = event::call(&mut image_after, &mut self.memory_after, event);
        self.steps.push(Step {
            event,
            answer,
            image_after,
        });
    }
}

/// A trace run on lent buffers of any length.
#[derive(Clone, PartialEq, Eq, Debug)]
pub struct Run {
    pub state: Vec<u8>,
    pub memory: Vec<u8>,
    pub trace: Vec<u8>,
    pub answer: RunAnswer,
    /// All the lent state, afterwards.
    pub state_after: Vec<u8>,
    /// All the lent memory, afterwards.
    pub memory_after: Vec<u8>,
}

impl Run {
    /// The case of these inputs.
    #[must_use]
    pub fn new(state: Vec<u8>, memory: Vec<u8>, trace: Vec<u8>) -> Run {
        let mut state_after = state.clone();
        let mut memory_after = memory.clone();
        let answer = trace::call(&mut state_after, &mut memory_after, &trace);
        Run {
            state,
            memory,
            trace,
            answer,
            state_after,
            memory_after,
        }
    }
}

/// A drawing on lent buffers of any length.
#[derive(Clone, PartialEq, Eq, Debug)]
pub struct Draw {
    pub state: Vec<u8>,
    pub memory: Vec<u8>,
    pub frame_length: usize,
    /// Chooses the pattern the frame holds before; see [`pattern`].
    pub fill: u8,
    pub number: u8,
    /// The 8,580 bytes of the frame drawn; none if the drawing was refused.
    pub frame: Option<Vec<u8>>,
}

impl Draw {
    /// The case of these inputs.
    #[must_use]
    pub fn new(state: Vec<u8>, memory: Vec<u8>, frame_length: usize, fill: u8) -> Draw {
        let mut frame = pattern(frame_length, fill);
        let number = frame::call(&state, &memory, &mut frame);
        frame.truncate(FRAME_LENGTH);
        Draw {
            state,
            memory,
            frame_length,
            fill,
            number,
            frame: (number == TAKEN).then_some(frame),
        }
    }
}

/// What a frame holds before it is drawn: never 0 and never 1, so that a
/// place left out is noticed.
#[must_use]
pub fn pattern(frame_length: usize, fill: u8) -> Vec<u8> {
    (0..frame_length)
        .map(|index| {
            let step = (usize::from(fill) + index) % 254;
            u8::try_from(2 + step).expect("at most 255")
        })
        .collect()
}

/// A trace, and what the listing program prints for it from a start.
#[derive(Clone, PartialEq, Eq, Debug)]
pub struct Listing {
    pub start: Start,
    pub trace: Vec<u8>,
    pub text: String,
}

impl Listing {
    /// The case of this start and trace.
    #[must_use]
    pub fn new(start: Start, trace: Vec<u8>) -> Listing {
        let text = listing::listing(start, &trace);
        Listing { start, trace, text }
    }

    /// The case of this start and wide trace.
    #[must_use]
    pub fn wide(start: Start, trace: Vec<u8>) -> Listing {
        let text = listing::wide_listing(start, &trace);
        Listing { start, trace, text }
    }
}

/// A start call on lent buffers of any length.
#[derive(Clone, PartialEq, Eq, Debug)]
pub struct StartCall {
    pub start: Start,
    pub state: Vec<u8>,
    pub memory: Vec<u8>,
    pub number: u8,
    /// All the lent state, afterwards.
    pub state_after: Vec<u8>,
    /// All the lent memory, afterwards.
    pub memory_after: Vec<u8>,
}

impl StartCall {
    /// The case of these inputs.
    #[must_use]
    pub fn new(start: Start, state: Vec<u8>, memory: Vec<u8>) -> StartCall {
        let mut state_after = state.clone();
        let mut memory_after = memory.clone();
        let number = start::call(start, &mut state_after, &mut memory_after);
        StartCall {
            start,
            state,
            memory,
            number,
            state_after,
            memory_after,
        }
    }
}

/// Two frames (entries of five bytes) or two memories (entries of four),
/// compared on lent buffers of any length.
#[derive(Clone, PartialEq, Eq, Debug)]
pub struct Comparison<const ENTRY: usize> {
    pub first: Vec<u8>,
    pub second: Vec<u8>,
    pub list_length: usize,
    /// Chooses what the list holds before; see [`list_pattern`].
    pub fill: u8,
    pub number: u8,
    /// What the list begins with afterwards; none if refused.
    pub entries: Vec<[u8; ENTRY]>,
}

impl Comparison<FRAME_ENTRY> {
    /// The case of these two frames.
    #[must_use]
    pub fn of_frames(first: Vec<u8>, second: Vec<u8>, list_length: usize, fill: u8) -> Self {
        Comparison::by(compare::frames, first, second, list_length, fill)
    }
}

impl Comparison<MEMORY_ENTRY> {
    /// The case of these two memories.
    #[must_use]
    pub fn of_memories(first: Vec<u8>, second: Vec<u8>, list_length: usize, fill: u8) -> Self {
        Comparison::by(compare::memories, first, second, list_length, fill)
    }
}

impl<const ENTRY: usize> Comparison<ENTRY> {
    fn by(
        call: fn(&[u8], &[u8], &mut [u8]) -> Compared,
        first: Vec<u8>,
        second: Vec<u8>,
        list_length: usize,
        fill: u8,
    ) -> Self {
        let mut list = list_pattern(list_length, fill);
        let Compared { number, count } = call(&first, &second, &mut list);
        let (entries, _) = list.as_chunks();
        Comparison {
            first,
            second,
            list_length,
            fill,
            number,
            entries: entries[..count].to_vec(),
        }
    }
}

/// What a list buffer holds before two frames or memories are compared.
#[must_use]
pub fn list_pattern(list_length: usize, fill: u8) -> Vec<u8> {
    (0..list_length)
        .map(|index| {
            let step = (usize::from(fill) + 7 * index) % 256;
            u8::try_from(step).expect("at most 255")
        })
        .collect()
}

/// Any test case.
#[derive(Clone, PartialEq, Eq, Debug)]
pub enum Case {
    Single(Single),
    Sequence(Box<Sequence>),
    Run(Run),
    Draw(Draw),
    Listing(Listing),
    ComparedFrames(Comparison<FRAME_ENTRY>),
    ComparedMemories(Comparison<MEMORY_ENTRY>),
    StartCall(StartCall),
    WideSingle(WideSingle),
    WideRun(WideRun),
    WideDraw(WideDraw),
    PageCall(PageCall),
    WideListing(Listing),
}

impl Case {
    /// How many single events of one chip the case has, alone or in a sequence.
    #[must_use]
    pub fn events(&self) -> u64 {
        match self {
            Case::Single(_) => 1,
            Case::Sequence(sequence) => sequence.steps.len() as u64,
            Case::Run(_)
            | Case::Draw(_)
            | Case::Listing(_)
            | Case::ComparedFrames(_)
            | Case::ComparedMemories(_)
            | Case::StartCall(_)
            | Case::WideSingle(_)
            | Case::WideRun(_)
            | Case::WideDraw(_)
            | Case::PageCall(_)
            | Case::WideListing(_) => 0,
        }
    }
}
