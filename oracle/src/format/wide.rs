//! The bodies of the cases of the wide terminal.

use std::io;

use super::{Body, put_event, put_lent, put_long, put_run_answer, put_stored, u16_of, wrong};
use crate::cases::wide::{Buffers, PageCall, Pair, WideDraw, WideRun, WideSingle};
use crate::refusal::TAKEN;
use crate::wide::event::WideAnswer;
use crate::wide::frame::WIDE_FRAME_LENGTH;
use crate::wide::{Selection, Side};

/// Left state, left memory, right state, right memory.
fn put_pair(body: &mut Vec<u8>, pair: &Pair) {
    for buffers in pair {
        put_lent(body, &buffers.state);
        put_lent(body, &buffers.memory);
    }
}

pub(super) fn put_single(body: &mut Vec<u8>, single: &WideSingle) {
    let answer = single.answer;
    body.push(single.selection);
    put_event(body, single.event);
    put_pair(body, &single.pair);
    body.extend([answer.number, answer.byte, u8::from(answer.dummy)]);
    for (state_after, stored) in single.states_after.iter().zip(answer.stored) {
        body.extend(state_after);
        put_stored(body, stored);
    }
}

pub(super) fn put_run(body: &mut Vec<u8>, run: &WideRun) {
    put_pair(body, &run.pair);
    put_long(body, &run.trace);
    put_run_answer(body, run.answer);
    for buffers in &run.pair_after {
        body.extend(&buffers.state);
        body.extend(&buffers.memory);
    }
}

pub(super) fn put_draw(body: &mut Vec<u8>, draw: &WideDraw) {
    put_pair(body, &draw.pair);
    body.extend(u16_of(draw.frame_length));
    body.push(draw.fill);
    body.push(draw.number);
    if let Some(frame) = &draw.frame {
        body.extend(frame);
    }
}

pub(super) fn put_page_call(body: &mut Vec<u8>, call: &PageCall) {
    body.push(side_number(call.side));
    for memory in &call.memories {
        put_lent(body, memory);
    }
    body.extend([call.page, call.number]);
    body.extend(u16_of(call.place));
    body.extend(u16_of(call.length));
}

/// The byte a side has in the stream: that of selecting it alone.
fn side_number(side: Side) -> u8 {
    match side {
        Side::Left => Selection::Left.byte(),
        Side::Right => Selection::Right.byte(),
    }
}

impl Body<'_> {
    /// What the function gives for the left and then for the right.
    fn twice<T>(
        &mut self,
        mut one: impl FnMut(&mut Self, Side) -> io::Result<T>,
    ) -> io::Result<[T; 2]> {
        let left = one(self, Side::Left)?;
        Ok([left, one(self, Side::Right)?])
    }

    fn pair(&mut self) -> io::Result<Pair> {
        self.twice(|body, _| {
            Ok(Buffers {
                state: body.lent()?,
                memory: body.lent()?,
            })
        })
    }

    pub(super) fn wide_single(&mut self) -> io::Result<WideSingle> {
        let selection = self.u8()?;
        let event = self.event()?;
        let pair = self.pair()?;
        let answer = self.answer()?;
        let [left, right] = self.twice(|body, side| {
            let state_after = body.bytes(pair[side.index()].state.len())?;
            Ok((state_after, body.stored()?))
        })?;
        Ok(WideSingle {
            selection,
            event,
            pair,
            answer: WideAnswer {
                number: answer.number,
                byte: answer.byte,
                dummy: answer.dummy,
                stored: [left.1, right.1],
            },
            states_after: [left.0, right.0],
        })
    }

    pub(super) fn wide_run(&mut self) -> io::Result<WideRun> {
        let pair = self.pair()?;
        let trace = self.long()?;
        let answer = self.run_answer()?;
        let pair_after = self.twice(|body, side| {
            let before = &pair[side.index()];
            Ok(Buffers {
                state: body.bytes(before.state.len())?,
                memory: body.bytes(before.memory.len())?,
            })
        })?;
        Ok(WideRun {
            pair,
            trace,
            answer,
            pair_after,
        })
    }

    pub(super) fn wide_draw(&mut self) -> io::Result<WideDraw> {
        let pair = self.pair()?;
        let frame_length = self.u16()?;
        let fill = self.u8()?;
        let number = self.u8()?;
        let frame = match number {
            TAKEN => Some(self.bytes(WIDE_FRAME_LENGTH)?),
            _ => None,
        };
        Ok(WideDraw {
            pair,
            frame_length,
            fill,
            number,
            frame,
        })
    }

    pub(super) fn page_call(&mut self) -> io::Result<PageCall> {
        let number = self.u8()?;
        let side = Side::ALL
            .into_iter()
            .find(|side| side_number(*side) == number)
            .ok_or_else(|| wrong("no such side"))?;
        Ok(PageCall {
            side,
            memories: self.twice(|body, _| body.lent())?,
            page: self.u8()?,
            number: self.u8()?,
            place: self.u16()?,
            length: self.u16()?,
        })
    }
}
