//! The binary stream of cases. README.md states the same format for others.

mod wide;

use std::io::{self, Read, Write};

use crate::cases::{Case, Comparison, Draw, Listing, Run, Sequence, Single, StartCall, Step};
use crate::event::{Answer, Event, Stored};
use crate::frame::FRAME_LENGTH;
use crate::memory::MEMORY_LENGTH;
use crate::refusal::TAKEN;
use crate::registers::{IMAGE_LENGTH, Image};
use crate::start::Start;
use crate::trace::RunAnswer;

/// The first eight bytes of a stream.
pub const MAGIC: [u8; 8] = *b"1815CASE";

/// The version of this format.
pub const VERSION: u32 = 4;

/// No body is longer.
pub const LONGEST_BODY: usize = 300_000;

const TAG_END: u8 = 0;
const TAG_SINGLE: u8 = 1;
const TAG_SEQUENCE: u8 = 2;
const TAG_RUN: u8 = 3;
const TAG_DRAW: u8 = 4;
const TAG_LISTING: u8 = 5;
const TAG_COMPARED_FRAMES: u8 = 6;
const TAG_COMPARED_MEMORIES: u8 = 7;
const TAG_START_CALL: u8 = 8;
const TAG_WIDE_SINGLE: u8 = 9;
const TAG_WIDE_RUN: u8 = 10;
const TAG_WIDE_DRAW: u8 = 11;
const TAG_PAGE_CALL: u8 = 12;
const TAG_WIDE_LISTING: u8 = 13;

/// Writes a stream: the header, the cases, the end.
pub struct Writer<W: Write> {
    output: W,
    body: Vec<u8>,
    cases: u64,
    events: u64,
}

impl<W: Write> Writer<W> {
    /// Begins a stream.
    ///
    /// # Errors
    /// Those of the output.
    pub fn begin(mut output: W, seed: u64) -> io::Result<Writer<W>> {
        output.write_all(&MAGIC)?;
        output.write_all(&VERSION.to_le_bytes())?;
        output.write_all(&seed.to_le_bytes())?;
        Ok(Writer {
            output,
            body: Vec::new(),
            cases: 0,
            events: 0,
        })
    }

    /// Writes one case.
    ///
    /// # Errors
    /// Those of the output.
    pub fn write(&mut self, case: &Case) -> io::Result<()> {
        self.body.clear();
        put_case(&mut self.body, case);
        self.cases += 1;
        self.events += case.events();
        self.write_body(tag_of(case))
    }

    /// Ends the stream.
    ///
    /// # Errors
    /// Those of the output.
    pub fn end(mut self) -> io::Result<()> {
        self.body.clear();
        self.body.extend(self.cases.to_le_bytes());
        self.body.extend(self.events.to_le_bytes());
        self.write_body(TAG_END)?;
        self.output.flush()
    }

    fn write_body(&mut self, tag: u8) -> io::Result<()> {
        self.output.write_all(&[tag])?;
        self.output.write_all(&u32_of(self.body.len()))?;
        self.output.write_all(&self.body)
    }
}

fn u16_of(number: usize) -> [u8; 2] {
    u16::try_from(number)
        .expect("lengths of lent buffers and counts of entries fit in two bytes")
        .to_le_bytes()
}

fn u32_of(number: usize) -> [u8; 4] {
    u32::try_from(number)
        .expect("lengths and places fit in four bytes")
        .to_le_bytes()
}

fn tag_of(case: &Case) -> u8 {
    match case {
        Case::Single(_) => TAG_SINGLE,
        Case::Sequence(_) => TAG_SEQUENCE,
        Case::Run(_) => TAG_RUN,
        Case::Draw(_) => TAG_DRAW,
        Case::Listing(_) => TAG_LISTING,
        Case::ComparedFrames(_) => TAG_COMPARED_FRAMES,
        Case::ComparedMemories(_) => TAG_COMPARED_MEMORIES,
        Case::StartCall(_) => TAG_START_CALL,
        Case::WideSingle(_) => TAG_WIDE_SINGLE,
        Case::WideRun(_) => TAG_WIDE_RUN,
        Case::WideDraw(_) => TAG_WIDE_DRAW,
        Case::PageCall(_) => TAG_PAGE_CALL,
        Case::WideListing(_) => TAG_WIDE_LISTING,
    }
}

fn put_case(body: &mut Vec<u8>, case: &Case) {
    match case {
        Case::Single(single) => put_single(body, single),
        Case::Sequence(sequence) => put_sequence(body, sequence),
        Case::Run(run) => put_run(body, run),
        Case::Draw(draw) => put_draw(body, draw),
        Case::Listing(listing) | Case::WideListing(listing) => put_listing(body, listing),
        Case::ComparedFrames(comparison) => put_comparison(body, comparison),
        Case::ComparedMemories(comparison) => put_comparison(body, comparison),
        Case::StartCall(start_call) => put_start_call(body, start_call),
        Case::WideSingle(single) => wide::put_single(body, single),
        Case::WideRun(run) => wide::put_run(body, run),
        Case::WideDraw(draw) => wide::put_draw(body, draw),
        Case::PageCall(page_call) => wide::put_page_call(body, page_call),
    }
}

fn put_single(body: &mut Vec<u8>, single: &Single) {
    put_event(body, single.event);
    put_lent(body, &single.state);
    put_lent(body, &single.memory);
    put_answer(body, single.answer);
    body.extend(&single.state_after);
    put_stored(body, single.answer.stored);
}

fn put_sequence(body: &mut Vec<u8>, sequence: &Sequence) {
    put_lent(body, &sequence.image);
    put_lent(body, &sequence.memory);
    body.extend(u32_of(sequence.steps.len()));
    for step in &sequence.steps {
        put_event(body, step.event);
        put_answer(body, step.answer);
        body.extend(step.image_after);
        put_stored(body, step.answer.stored);
    }
    body.extend(sequence.memory_after);
}

fn put_run(body: &mut Vec<u8>, run: &Run) {
    put_lent(body, &run.state);
    put_lent(body, &run.memory);
    put_long(body, &run.trace);
    put_run_answer(body, run.answer);
    body.extend(&run.state_after);
    body.extend(&run.memory_after);
}

fn put_run_answer(body: &mut Vec<u8>, answer: RunAnswer) {
    body.push(answer.number);
    body.extend(u32_of(answer.offset));
    body.extend(u32_of(answer.count));
}

fn put_draw(body: &mut Vec<u8>, draw: &Draw) {
    put_lent(body, &draw.state);
    put_lent(body, &draw.memory);
    body.extend(u16_of(draw.frame_length));
    body.push(draw.fill);
    body.push(draw.number);
    if let Some(frame) = &draw.frame {
        body.extend(frame);
    }
}

fn put_listing(body: &mut Vec<u8>, listing: &Listing) {
    body.push(start_number(listing.start));
    put_long(body, &listing.trace);
    put_long(body, listing.text.as_bytes());
}

fn put_start_call(body: &mut Vec<u8>, start_call: &StartCall) {
    body.push(start_number(start_call.start));
    put_lent(body, &start_call.state);
    put_lent(body, &start_call.memory);
    body.push(start_call.number);
    body.extend(&start_call.state_after);
    body.extend(&start_call.memory_after);
}

/// The byte a start has in the stream.
fn start_number(start: Start) -> u8 {
    match start {
        Start::UpsideDown => 0,
        Start::Upright => 1,
    }
}

/// Bytes after their number in four bytes.
fn put_long(body: &mut Vec<u8>, bytes: &[u8]) {
    body.extend(u32_of(bytes.len()));
    body.extend(bytes);
}

fn put_event(body: &mut Vec<u8>, event: Event) {
    body.extend(match event {
        Event::Command(byte) => [1, byte],
        Event::Write(byte) => [2, byte],
        Event::Read => [3, 0],
        Event::Reset => [4, 0],
    });
}

fn put_lent(body: &mut Vec<u8>, lent: &[u8]) {
    body.extend(u16_of(lent.len()));
    body.extend(lent);
}

fn put_answer(body: &mut Vec<u8>, answer: Answer) {
    body.extend([answer.number, answer.byte, u8::from(answer.dummy)]);
}

fn put_stored(body: &mut Vec<u8>, stored: Option<Stored>) {
    match stored {
        Some(stored) => {
            body.push(1);
            body.extend(u16_of(stored.place));
            body.push(stored.byte);
        }
        None => body.extend([0, 0, 0, 0]),
    }
}

fn put_comparison<const ENTRY: usize>(body: &mut Vec<u8>, comparison: &Comparison<ENTRY>) {
    put_lent(body, &comparison.first);
    put_lent(body, &comparison.second);
    body.extend(u16_of(comparison.list_length));
    body.push(comparison.fill);
    body.push(comparison.number);
    body.extend(u16_of(comparison.entries.len()));
    body.extend(comparison.entries.as_flattened());
}

/// Reads a stream back.
pub struct Reader<R: Read> {
    input: R,
    seed: u64,
    cases: u64,
    events: u64,
}

impl<R: Read> Reader<R> {
    /// Begins to read a stream.
    ///
    /// # Errors
    /// Those of the input, or that it is no such stream.
    pub fn begin(mut input: R) -> io::Result<Reader<R>> {
        if read_array(&mut input)? != MAGIC {
            return Err(wrong("not a stream of cases"));
        }
        if u32::from_le_bytes(read_array(&mut input)?) != VERSION {
            return Err(wrong("a stream of another version"));
        }
        let seed = u64::from_le_bytes(read_array(&mut input)?);
        Ok(Reader {
            input,
            seed,
            cases: 0,
            events: 0,
        })
    }

    /// The seed the stream was made with.
    #[must_use]
    pub fn seed(&self) -> u64 {
        self.seed
    }

    /// The next case; none at the end of the stream.
    ///
    /// # Errors
    /// Those of the input, or that the stream is damaged.
    pub fn next_case(&mut self) -> io::Result<Option<Case>> {
        let [tag] = read_array(&mut self.input)?;
        let length = u32::from_le_bytes(read_array(&mut self.input)?) as usize;
        if length > LONGEST_BODY {
            return Err(wrong("a body too long"));
        }
        let mut bytes = vec![0; length];
        self.input.read_exact(&mut bytes)?;
        let mut body = Body { rest: &bytes };
        if tag == TAG_END {
            let counts = (
                u64::from_le_bytes(body.array()?),
                u64::from_le_bytes(body.array()?),
            );
            if counts != (self.cases, self.events) {
                return Err(wrong("the counts at the end are not those of the cases"));
            }
            return Ok(None);
        }
        let case = body.case(tag)?;
        if !body.rest.is_empty() {
            return Err(wrong("a body longer than its case"));
        }
        self.cases += 1;
        self.events += case.events();
        Ok(Some(case))
    }
}

fn wrong(what: &str) -> io::Error {
    io::Error::new(io::ErrorKind::InvalidData, what)
}

fn read_array<const N: usize>(input: &mut impl Read) -> io::Result<[u8; N]> {
    let mut array = [0; N];
    input.read_exact(&mut array)?;
    Ok(array)
}

/// The part of a body not yet read.
struct Body<'a> {
    rest: &'a [u8],
}

impl Body<'_> {
    fn bytes(&mut self, length: usize) -> io::Result<Vec<u8>> {
        let Some((bytes, rest)) = self.rest.split_at_checked(length) else {
            return Err(wrong("a body shorter than its case"));
        };
        self.rest = rest;
        Ok(bytes.to_vec())
    }

    fn array<const N: usize>(&mut self) -> io::Result<[u8; N]> {
        let Some((array, rest)) = self.rest.split_first_chunk::<N>() else {
            return Err(wrong("a body shorter than its case"));
        };
        self.rest = rest;
        Ok(*array)
    }

    fn u8(&mut self) -> io::Result<u8> {
        let [byte] = self.array()?;
        Ok(byte)
    }

    fn u16(&mut self) -> io::Result<usize> {
        Ok(usize::from(u16::from_le_bytes(self.array()?)))
    }

    fn u32(&mut self) -> io::Result<usize> {
        Ok(u32::from_le_bytes(self.array()?) as usize)
    }

    fn lent(&mut self) -> io::Result<Vec<u8>> {
        let length = self.u16()?;
        self.bytes(length)
    }

    fn exact<const N: usize>(&mut self) -> io::Result<[u8; N]> {
        if self.u16()? != N {
            return Err(wrong("a sequence on a buffer of another length"));
        }
        self.array()
    }

    fn event(&mut self) -> io::Result<Event> {
        match self.array()? {
            [1, byte] => Ok(Event::Command(byte)),
            [2, byte] => Ok(Event::Write(byte)),
            [3, 0] => Ok(Event::Read),
            [4, 0] => Ok(Event::Reset),
            _ => Err(wrong("no such event")),
        }
    }

    fn answer(&mut self) -> io::Result<Answer> {
        let [number, byte, dummy] = self.array()?;
        Ok(Answer {
            number,
            byte,
            dummy: dummy == 1,
            stored: None,
        })
    }

    fn stored(&mut self) -> io::Result<Option<Stored>> {
        let [flag, place_low, place_high, byte] = self.array()?;
        Ok((flag == 1).then(|| Stored {
            place: usize::from(u16::from_le_bytes([place_low, place_high])),
            byte,
        }))
    }

    fn step(&mut self) -> io::Result<Step> {
        let event = self.event()?;
        let answer = self.answer()?;
        let image_after: Image = self.array()?;
        let stored = self.stored()?;
        Ok(Step {
            event,
            answer: Answer { stored, ..answer },
            image_after,
        })
    }

    /// Bytes after their number in four bytes.
    fn long(&mut self) -> io::Result<Vec<u8>> {
        let length = self.u32()?;
        self.bytes(length)
    }

    fn start(&mut self) -> io::Result<Start> {
        let number = self.u8()?;
        Start::ALL
            .into_iter()
            .find(|start| start_number(*start) == number)
            .ok_or_else(|| wrong("no such start"))
    }

    fn case(&mut self, tag: u8) -> io::Result<Case> {
        match tag {
            TAG_SINGLE => Ok(Case::Single(self.single()?)),
            TAG_SEQUENCE => Ok(Case::Sequence(Box::new(self.sequence()?))),
            TAG_RUN => Ok(Case::Run(self.run()?)),
            TAG_DRAW => Ok(Case::Draw(self.draw()?)),
            TAG_LISTING => Ok(Case::Listing(self.listing()?)),
            TAG_COMPARED_FRAMES => Ok(Case::ComparedFrames(self.comparison()?)),
            TAG_COMPARED_MEMORIES => Ok(Case::ComparedMemories(self.comparison()?)),
            TAG_START_CALL => Ok(Case::StartCall(self.start_call()?)),
            TAG_WIDE_SINGLE => Ok(Case::WideSingle(self.wide_single()?)),
            TAG_WIDE_RUN => Ok(Case::WideRun(self.wide_run()?)),
            TAG_WIDE_DRAW => Ok(Case::WideDraw(self.wide_draw()?)),
            TAG_PAGE_CALL => Ok(Case::PageCall(self.page_call()?)),
            TAG_WIDE_LISTING => Ok(Case::WideListing(self.listing()?)),
            _ => Err(wrong("no such tag")),
        }
    }

    fn single(&mut self) -> io::Result<Single> {
        let event = self.event()?;
        let state = self.lent()?;
        let memory = self.lent()?;
        let answer = self.answer()?;
        let state_after = self.bytes(state.len())?;
        let stored = self.stored()?;
        Ok(Single {
            state,
            memory,
            event,
            answer: Answer { stored, ..answer },
            state_after,
        })
    }

    fn sequence(&mut self) -> io::Result<Sequence> {
        let image = self.exact::<IMAGE_LENGTH>()?;
        let memory = self.exact::<MEMORY_LENGTH>()?;
        let steps = (0..self.u32()?)
            .map(|_| self.step())
            .collect::<io::Result<_>>()?;
        let memory_after = self.array()?;
        Ok(Sequence {
            image,
            memory,
            steps,
            memory_after,
        })
    }

    fn run(&mut self) -> io::Result<Run> {
        let state = self.lent()?;
        let memory = self.lent()?;
        let trace = self.long()?;
        let answer = self.run_answer()?;
        let state_after = self.bytes(state.len())?;
        let memory_after = self.bytes(memory.len())?;
        Ok(Run {
            state,
            memory,
            trace,
            answer,
            state_after,
            memory_after,
        })
    }

    fn run_answer(&mut self) -> io::Result<RunAnswer> {
        Ok(RunAnswer {
            number: self.u8()?,
            offset: self.u32()?,
            count: self.u32()?,
        })
    }

    fn draw(&mut self) -> io::Result<Draw> {
        let state = self.lent()?;
        let memory = self.lent()?;
        let frame_length = self.u16()?;
        let fill = self.u8()?;
        let number = self.u8()?;
        let frame = match number {
            TAKEN => Some(self.bytes(FRAME_LENGTH)?),
            _ => None,
        };
        Ok(Draw {
            state,
            memory,
            frame_length,
            fill,
            number,
            frame,
        })
    }

    fn listing(&mut self) -> io::Result<Listing> {
        let start = self.start()?;
        let trace = self.long()?;
        let text =
            String::from_utf8(self.long()?).map_err(|_| wrong("a listing that is no text"))?;
        Ok(Listing { start, trace, text })
    }

    fn start_call(&mut self) -> io::Result<StartCall> {
        let start = self.start()?;
        let state = self.lent()?;
        let memory = self.lent()?;
        let number = self.u8()?;
        let state_after = self.bytes(state.len())?;
        let memory_after = self.bytes(memory.len())?;
        Ok(StartCall {
            start,
            state,
            memory,
            number,
            state_after,
            memory_after,
        })
    }

    fn comparison<const ENTRY: usize>(&mut self) -> io::Result<Comparison<ENTRY>> {
        let first = self.lent()?;
        let second = self.lent()?;
        let list_length = self.u16()?;
        let fill = self.u8()?;
        let number = self.u8()?;
        let entries = (0..self.u16()?)
            .map(|_| self.array())
            .collect::<io::Result<Vec<[u8; ENTRY]>>>()?;
        if number != TAKEN && !entries.is_empty() {
            return Err(wrong("a refused comparison with entries"));
        }
        Ok(Comparison {
            first,
            second,
            list_length,
            fill,
            number,
            entries,
        })
    }
}
