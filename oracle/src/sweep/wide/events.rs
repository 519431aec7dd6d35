//! Single events of the wide terminal: every selection, every mixture of what
//! the two chips can have in the way, every length.

use std::io;

use super::{
    LEFT, RIGHT, awaiting, cut_pair, legal_or_not, lengths, obstacles, pair_of, pair_with, spoilt,
};
use crate::cases::Case;
use crate::cases::wide::{Pair, WideSingle};
use crate::command::TEST_MODE;
use crate::event::Event;
use crate::generate::states::illegal_values;
use crate::memory::MEMORY_LENGTH;
use crate::registers::{Awaited, IMAGE_LENGTH, Registers};
use crate::sweep::{FLAGS, Sink};

/// Gives every single event of this sweep to the sink.
pub fn events(sink: &mut Sink) -> io::Result<()> {
    let mut give = |selection: u8, event: Event, pair: &Pair| {
        sink(Case::WideSingle(WideSingle::new(
            selection,
            event,
            pair.clone(),
        )))
    };
    selections(&mut give)?;
    chips_in_the_way(&mut give)?;
    codes_and_bytes(&mut give)?;
    data(&mut give)?;
    image_fields(&mut give)?;
    buffer_lengths(&mut give)?;
    test_mode(&mut give)
}

/// Takes selection, event and buffers of the cases one by one.
type GiveEvent<'a> = dyn FnMut(u8, Event, &Pair) -> io::Result<()> + 'a;

/// One of each of the four events.
const EVENTS: [Event; 4] = [
    Event::Command(0xE2),
    Event::Write(0x69),
    Event::Read,
    Event::Reset,
];

/// The three selections.
const SELECTIONS: [u8; 3] = [1, 2, 3];

/// Every byte as a selection.
fn selections(give: &mut GiveEvent) -> io::Result<()> {
    let pair = pair_with([LEFT, RIGHT]);
    for selection in 0..=0xFF {
        for event in EVENTS {
            give(selection, event, &pair)?;
        }
    }
    Ok(())
}

/// Every mixture of what the two chips can have in the way, illegal images
/// among it.
fn chips_in_the_way(give: &mut GiveEvent) -> io::Result<()> {
    let images = [LEFT, RIGHT].map(|registers| {
        let mut images = obstacles(registers).map(Registers::image).to_vec();
        images.push(spoilt(registers));
        images
    });
    let [left_images, right_images] = images;
    for left in &left_images {
        for right in &right_images {
            let pair = pair_of([*left, *right]);
            for event in [
                Event::Command(0xE3),
                Event::Command(0x80),
                Event::Command(0xB9),
                Event::Write(0x96),
                Event::Read,
                Event::Reset,
            ] {
                for selection in [0, 1, 2, 3, 4] {
                    give(selection, event, &pair)?;
                }
            }
        }
    }
    Ok(())
}

/// Every command byte to both chips, with codes awaited by one of them or by
/// both.
fn codes_and_bytes(give: &mut GiveEvent) -> io::Result<()> {
    for codes in [
        [None, None],
        [Some(Awaited::Contrast), None],
        [None, Some(Awaited::Contrast)],
        [Some(Awaited::Offset), None],
        [None, Some(Awaited::Offset)],
        [Some(Awaited::FramePhases), Some(Awaited::Offset)],
    ] {
        let [left, right] = codes;
        let pair = pair_with([
            Registers {
                awaited: left,
                ..LEFT
            },
            Registers {
                awaited: right,
                ..RIGHT
            },
        ]);
        for byte in 0..=0xFF {
            give(3, Event::Command(byte), &pair)?;
        }
    }
    Ok(())
}

/// Data at every page, at both ends of it, in and outside read-modify-write.
fn data(give: &mut GiveEvent) -> io::Result<()> {
    for page in 0..=8 {
        for column in [0, 131] {
            for in_read_modify_write in FLAGS {
                let changed = |registers: Registers, page: u8, column: u8| Registers {
                    page,
                    column,
                    read_modify_write: in_read_modify_write.then_some(33),
                    fresh: false,
                    ..registers
                };
                let pair = pair_with([
                    changed(LEFT, page, column),
                    changed(RIGHT, 8 - page, 131 - column),
                ]);
                for selection in SELECTIONS {
                    give(selection, Event::Write(0xB7), &pair)?;
                    give(selection, Event::Read, &pair)?;
                }
            }
        }
    }
    Ok(())
}

/// Each field of each image alone out of its range.
fn image_fields(give: &mut GiveEvent) -> io::Result<()> {
    let legal = [LEFT.image(), RIGHT.image()];
    for side in 0..legal.len() {
        for field in 0..IMAGE_LENGTH {
            let Some(&value) = illegal_values(&legal[side], field).last() else {
                continue;
            };
            let mut images = legal;
            images[side][field] = value;
            for selection in SELECTIONS {
                for event in EVENTS {
                    give(selection, event, &pair_of(images))?;
                }
            }
        }
    }
    Ok(())
}

/// Buffers of every length, with legal and illegal images; the selection goes
/// round with all of these.
fn buffer_lengths(give: &mut GiveEvent) -> io::Result<()> {
    for (turn, lengths) in lengths().into_iter().enumerate() {
        for (legality, images) in legal_or_not().into_iter().enumerate() {
            let pair = cut_pair(pair_of(images), lengths);
            for (kind, event) in EVENTS.into_iter().enumerate() {
                let selection = [0, 1, 2, 3][(turn + legality + kind) % 4];
                give(selection, event, &pair)?;
            }
        }
    }
    Ok(())
}

/// Bytes of test mode, the next of them at each case: with every mixture of
/// codes awaited, and with illegal images and short buffers under every
/// selection and none.
fn test_mode(give: &mut GiveEvent) -> io::Result<()> {
    let mut bytes = TEST_MODE.cycle().map(Event::Command);
    let mut give_next = |selection: u8, pair: &Pair| {
        let event = bytes.next().expect("a cycle has no end");
        give(selection, event, pair)
    };
    for registers in awaiting() {
        for selection in SELECTIONS {
            give_next(selection, &pair_with(registers))?;
        }
    }
    let exact = [IMAGE_LENGTH, MEMORY_LENGTH, IMAGE_LENGTH, MEMORY_LENGTH];
    for images in legal_or_not() {
        for selection in [0, 1, 2, 3, 4] {
            give_next(selection, &pair_of(images))?;
            for short in 0..exact.len() {
                let mut lengths = exact;
                lengths[short] -= 1;
                give_next(selection, &cut_pair(pair_of(images), lengths))?;
            }
        }
    }
    Ok(())
}
