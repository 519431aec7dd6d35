//! Wide trace runs: what selects and what does not, what follows it, and what
//! stops the run in one chip or in both.

use std::io;

use super::{
    LEFT, RIGHT, awaiting, cut_pair, legal_or_not, lengths, obstacles, pair_of, pair_with,
    right_memory,
};
use crate::cases::Case;
use crate::cases::wide::{Pair, WideRun};
use crate::command::TEST_MODE;
use crate::sweep::records::push_record;
use crate::sweep::{DOCUMENT_TRACE, Give, Sink, uneven_memory};

/// Gives every run of this sweep to the sink.
pub fn runs(sink: &mut Sink) -> io::Result<()> {
    let mut give =
        |pair: &Pair, trace: &[u8]| sink(Case::WideRun(WideRun::new(pair.clone(), trace.to_vec())));
    let free = pair_with([LEFT, RIGHT]);
    let mut give_free = |trace: &[u8]| give(&free, trace);
    selections_and_not(&mut give_free)?;
    records_after_selections(&mut give_free)?;
    staggered_codes(&mut give_free)?;
    kinds(&mut give_free)?;
    cut_and_damaged(&mut give_free)?;
    past_two_bytes(&mut give_free)?;
    chips_in_the_way(&mut give)?;
    buffer_lengths(&mut give)?;
    test_mode(&mut give)
}

/// Takes buffers and traces one by one.
type GiveRun<'a> = dyn FnMut(&Pair, &[u8]) -> io::Result<()> + 'a;

/// A trace of these records, each a kind and a payload.
fn trace_of(records: &[(u8, &[u8])]) -> Vec<u8> {
    let mut trace = Vec::new();
    for (kind, payload) in records {
        push_record(&mut trace, *kind, payload);
    }
    trace
}

/// Payloads of kind 5, of which three select.
const PAYLOADS: [&[u8]; 19] = [
    &[],
    &[0],
    &[1],
    &[2],
    &[3],
    &[4],
    &[5],
    &[0x80],
    &[0xFE],
    &[0xFF],
    &[0, 0],
    &[0, 1],
    &[1, 0],
    &[1, 1],
    &[2, 3],
    &[3, 0],
    &[4, 3],
    &[0xFF, 2],
    &[1, 2, 3],
];

/// Each payload of kind 5, cut at each byte and whole, alone and with a command
/// after it, with each selection before it.
fn selections_and_not(give: &mut Give) -> io::Result<()> {
    let before = [(5, &[3]), (5, &[1]), (5, &[2]), (1, &[0x81])];
    for (kind, payload) in before {
        let before = trace_of(&[(kind, payload)]);
        for payload in PAYLOADS {
            let record = trace_of(&[(5, payload)]);
            for cut in 1..=record.len() {
                give(&[&before, &record[..cut]].concat())?;
            }
            let after = trace_of(&[(1, &[0x45])]);
            give(&[before.clone(), record, after].concat())?;
        }
    }
    Ok(())
}

/// After each selection, and after two of them, a record of each kind and an
/// empty one, then data written to what is selected.
fn records_after_selections(give: &mut Give) -> io::Result<()> {
    let [left, right] = [uneven_memory(), right_memory()];
    let records: [(u8, &[u8]); 9] = [
        (1, &[0xB3, 0x81, 0x07]),
        (1, &[]),
        (2, &[0x12, 0x34]),
        (2, &[]),
        (3, &[0x99, left[0], left[1]]),
        (3, &[0x99, right[0], right[1]]),
        (3, &[0x99]),
        (3, &[]),
        (4, &[]),
    ];
    let to_the_corner = trace_of(&[(1, &[0xB0, 0x00, 0x10])]);
    let mut selections = vec![Vec::new()];
    for first in [1, 2, 3] {
        selections.push(trace_of(&[(5, &[first])]));
        for second in [1, 2, 3] {
            selections.push(trace_of(&[(5, &[first]), (5, &[second])]));
        }
    }
    for selection in selections {
        for record in records {
            let rest = trace_of(&[record, (2, &[0x56, 0x78])]);
            give(&[&to_the_corner[..], &selection, &rest].concat())?;
        }
    }
    Ok(())
}

/// A code awaited by one chip only, so that in the middle of a record the same
/// byte is n to the one and a first byte to the other.
fn staggered_codes(give: &mut Give) -> io::Result<()> {
    for selection in [1, 2] {
        for codes in [[0x81, 0xD3], [0x81, 0xD4], [0xA8, 0x81]] {
            for last in [0x05, 0x30, 0x3F, 0x45, 0x80, 0xB9, 0xD3, 0xE2, 0xF0, 0xFF] {
                let [first, second] = codes;
                give(&trace_of(&[
                    (5, &[selection]),
                    (1, &[first]),
                    (5, &[3]),
                    (1, &[first, second, last, 0x41]),
                    (2, &[0x9A]),
                ]))?;
            }
        }
    }
    Ok(())
}

/// Every kind around the right ones, with payloads of each length, there or
/// not.
fn kinds(give: &mut Give) -> io::Result<()> {
    for kind in (0..=7_u16).chain([0x0101, 0x0104, 0x0105, 0x0205, 0x0500, 0xFFFF]) {
        for length in [0_u16, 1, 2] {
            for there in [0, 1, 2] {
                let mut trace = trace_of(&[(5, &[2]), (1, &[0xAF])]);
                trace.extend(length.to_le_bytes());
                trace.extend(kind.to_le_bytes());
                trace.resize(trace.len() + there, 0x01);
                give(&trace)?;
            }
        }
    }
    Ok(())
}

/// A trace with every kind under every selection, codes awaited by one chip
/// while the other is spoken to, and a selection at its end.
fn all_wide_kinds() -> Vec<u8> {
    trace_of(&[
        (4, &[]),
        (1, &[0xAF]),
        (2, &[0x10]),
        (5, &[1]),
        (2, &[0x11, 0x22]),
        (1, &[0x00]),
        (3, &[0x99, 0x10, 0x11]),
        (5, &[2]),
        (3, &[]),
        (1, &[0xB8, 0x81]),
        (5, &[3]),
        (1, &[0xC9, 0x02]),
        (3, &[]),
        (2, &[0x33]),
        (5, &[1]),
        (4, &[]),
        (5, &[2]),
        (1, &[0x02]),
        (3, &[0x99, 0x01]),
        (5, &[3]),
    ])
}

/// The trace of every kind and document 01's, cut at each byte, and with each
/// byte in turn damaged.
fn cut_and_damaged(give: &mut Give) -> io::Result<()> {
    for trace in [&DOCUMENT_TRACE[..], &all_wide_kinds()] {
        for cut in 0..=trace.len() {
            give(&trace[..cut])?;
        }
        for place in 0..trace.len() {
            for damage in [0x01, 0x06, 0xFF] {
                let mut damaged = trace.to_vec();
                damaged[place] ^= damage;
                give(&damaged)?;
            }
        }
    }
    Ok(())
}

/// Stops past offset 65,535, and all of so long a trace taken.
fn past_two_bytes(give: &mut Give) -> io::Result<()> {
    let resets = trace_of(&[(4, &[])]).repeat(16_384);
    for (kind, payload) in [(5, &[4]), (5, &[2]), (3, &[0x00]), (1, &[0xF0])] {
        give(&[resets.clone(), trace_of(&[(kind, payload)])].concat())?;
    }
    Ok(())
}

/// Every mixture of what the two chips can have in the way, under each
/// selection, met by records of every kind.
fn chips_in_the_way(give: &mut GiveRun) -> io::Result<()> {
    for left in obstacles(LEFT) {
        for right in obstacles(RIGHT) {
            let pair = pair_with([left, right]);
            for selection in [1, 2, 3] {
                for record in [
                    (1, &[0x10, 0x41, 0xB9][..]),
                    (1, &[0xB9, 0x10]),
                    (2, &[0x5A, 0xA5]),
                    (3, &[0x99, 0x99]),
                ] {
                    give(&pair, &trace_of(&[(5, &[selection]), record]))?;
                }
            }
        }
    }
    Ok(())
}

/// Buffers of every length with legal and illegal images, under traces that
/// are taken, refused and empty in turn.
fn buffer_lengths(give: &mut GiveRun) -> io::Result<()> {
    let traces = [
        DOCUMENT_TRACE.to_vec(),
        Vec::new(),
        trace_of(&[(5, &[2]), (4, &[]), (2, &[0x77])]),
        DOCUMENT_TRACE[..3].to_vec(),
        trace_of(&[(5, &[0])]),
    ];
    for (turn, lengths) in lengths().into_iter().enumerate() {
        for (legality, images) in legal_or_not().into_iter().enumerate() {
            let trace = &traces[(turn + legality) % traces.len()];
            give(&cut_pair(pair_of(images), lengths), trace)?;
        }
    }
    Ok(())
}

/// Bytes of test mode: each amid the commands of a record under a selection,
/// and as n and right after it; and the next of them at each case with every mixture of codes awaited, to
/// both chips and to one of them.
fn test_mode(give: &mut GiveRun) -> io::Result<()> {
    let free = pair_with([LEFT, RIGHT]);
    for byte in TEST_MODE {
        let selection = 1 + byte % 3;
        for record in [&[0x45, byte, 0x46][..], &[0xA9, byte, byte]] {
            give(&free, &trace_of(&[(5, &[selection]), (1, record)]))?;
        }
    }
    let mut bytes = TEST_MODE.cycle();
    for (turn, registers) in awaiting().into_iter().enumerate() {
        for selection in [3, [1, 2][turn % 2]] {
            let byte = bytes.next().expect("a cycle has no end");
            let record = (1, &[byte, 0x10][..]);
            give(
                &pair_with(registers),
                &trace_of(&[(5, &[selection]), record]),
            )?;
        }
    }
    Ok(())
}
