//! Cases of the wide terminal as text.

use super::{event_text, image_text, memory_text, numbers_text, run_answer_text, stored_text};
use crate::cases::wide::{PageCall, Pair, WideDraw, WideRun, WideSingle};
use crate::listing::wide_frame_text;
use crate::wide::Side;

/// The name of a side in words.
fn side_name(side: Side) -> &'static str {
    match side {
        Side::Left => "left",
        Side::Right => "right",
    }
}

/// What the function says of each side.
fn of_sides(text: impl Fn(&str, usize) -> String) -> String {
    Side::ALL
        .map(|side| text(side_name(side), side.index()))
        .concat()
}

/// The four buffers of a pair.
fn pair_text(pair: &Pair, when: &str) -> String {
    of_sides(|name, side| {
        image_text(&format!("{name} state{when}"), &pair[side].state)
            + &memory_text(&format!("{name} memory{when}"), &pair[side].memory)
    })
}

pub(super) fn show_single(single: &WideSingle) -> String {
    let answer = single.answer;
    let after = of_sides(|name, side| {
        let stored = answer.stored[side].map_or(String::new(), stored_text);
        image_text(
            &format!("{name}{stored} state after"),
            &single.states_after[side],
        )
    });
    format!(
        "wide single event\n{}selection {}, {} -> {}\n{after}",
        pair_text(&single.pair, ""),
        single.selection,
        event_text(single.event),
        numbers_text(answer.number, answer.byte, answer.dummy),
    )
}

pub(super) fn show_run(run: &WideRun) -> String {
    format!(
        "wide run\n{}{}answer {}\n{}",
        pair_text(&run.pair, ""),
        image_text("trace", &run.trace),
        run_answer_text(run.answer),
        pair_text(&run.pair_after, " after"),
    )
}

pub(super) fn show_draw(draw: &WideDraw) -> String {
    let frame = draw.frame.as_ref();
    format!(
        "wide draw\n{}frame of {} bytes, fill {}\nanswer {}\n{}",
        pair_text(&draw.pair, ""),
        draw.frame_length,
        draw.fill,
        draw.number,
        frame.map_or(String::new(), |frame| wide_frame_text(frame)),
    )
}

pub(super) fn show_page_call(call: &PageCall) -> String {
    let memories =
        of_sides(|name, side| memory_text(&format!("{name} memory"), &call.memories[side]));
    format!(
        "page call\n{memories}page {} of the {}\nanswer {}, {} bytes at {}\n",
        call.page,
        side_name(call.side),
        call.number,
        call.length,
        call.place,
    )
}
