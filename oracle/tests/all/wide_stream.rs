//! The wide terminal's cases in the stream, taken apart by README.md.

use oracle::cases::wide::{Buffers, PageCall, Pair, WideDraw, WideRun, WideSingle};
use oracle::cases::{Case, Listing, pattern};
use oracle::coverage::Coverage;
use oracle::event::Event;
use oracle::format::Reader;
use oracle::listing::wide_listing;
use oracle::start::Start;
use oracle::stream::Plan;
use oracle::wide::{self, Side};

use crate::cases::{
    body_of, cases_of, is_wide, only_the_sweep, small, stream_of_case, without_wide,
};
use crate::rig::POWER_ON;
use crate::wide_rig::{record, select};

/// Power-on in both chips; the memories are filled with 0A and 0B.
fn pair() -> Pair {
    [0x0A, 0x0B].map(|byte| Buffers {
        state: POWER_ON.to_vec(),
        memory: vec![byte; 1188],
    })
}

/// The pair as it stands in a body; 1,188 is 0x04A4.
fn pair_bytes() -> Vec<u8> {
    [
        &[23, 0][..],
        &POWER_ON,
        &[0xA4, 0x04],
        &[0x0A; 1188],
        &[23, 0],
        &POWER_ON,
        &[0xA4, 0x04],
        &[0x0B; 1188],
    ]
    .concat()
}

/// What a case of the wide terminal says is what the calls give when asked
/// again.
pub fn is_as_called_wide(case: &Case) {
    match case {
        Case::WideSingle(case) => single_is_as_called(case),
        Case::WideRun(case) => {
            let mut pair = case.pair.clone();
            let answer = wide::trace::call(pair.each_mut().map(Buffers::lend), &case.trace);
            assert!((answer, &pair) == (case.answer, &case.pair_after));
        }
        Case::WideDraw(case) => {
            let mut drawn = pattern(case.frame_length, case.fill);
            let pair = case.pair.each_ref();
            let pair = pair.map(|buffers| (&buffers.state[..], &buffers.memory[..]));
            assert_eq!(wide::frame::call(pair, &mut drawn), case.number);
            let mut expected = pattern(case.frame_length, case.fill);
            if let Some(frame) = &case.frame {
                expected[..17_160].copy_from_slice(frame);
            }
            assert!(drawn == expected);
        }
        Case::PageCall(case) => {
            let [left, right] = &case.memories;
            let answer = wide::page::call(left, right, case.side, case.page);
            let memory = [left, right][case.side.index()];
            assert_eq!(answer.number, case.number);
            assert_eq!(answer.part, &memory[case.place..case.place + case.length]);
        }
        Case::WideListing(case) => {
            assert_eq!(wide_listing(case.start, &case.trace), case.text);
        }
        _ => panic!("a case of the wide terminal is due"),
    }
}

/// The states are those of the call, and the memories are changed where the
/// case says and nowhere else.
fn single_is_as_called(case: &WideSingle) {
    let mut pair = case.pair.clone();
    let answer = wide::event::call(
        pair.each_mut().map(Buffers::lend),
        case.selection,
        case.event,
    );
    assert_eq!(answer, case.answer);
    let mut expected = case.pair.clone();
    for side in [0, 1] {
        expected[side].state.clone_from(&case.states_after[side]);
        if let Some(stored) = answer.stored[side] {
            expected[side].memory[stored.place] = stored.byte;
        }
    }
    assert!(pair == expected);
    if answer.number != 0 {
        assert_eq!((answer.byte, answer.dummy), (0, false));
        assert!(pair == case.pair);
    }
}

#[test]
fn the_bytes_of_wide_writes() {
    let mut written = POWER_ON;
    written[1] = 1;
    let to_the_left = [1, 0, 0, 0x77];
    for (selection, left, left_change, right, right_change) in [
        (1, written, to_the_left, POWER_ON, [0; 4]),
        (2, POWER_ON, [0; 4], written, to_the_left),
        (3, written, to_the_left, written, to_the_left),
    ] {
        let case = WideSingle::new(selection, Event::Write(0x77), pair());
        let expected = [
            &[selection, 2, 0x77][..],
            &pair_bytes(),
            &[0, 0, 0],
            &left,
            &left_change,
            &right,
            &right_change,
        ]
        .concat();
        assert!(body_of(&Case::WideSingle(case)) == (9, expected));
    }
}

/// The dummy read of the right, a selection that is none, and short buffers.
#[test]
fn the_bytes_of_other_wide_single_events() {
    let mut read = POWER_ON;
    read[22] = 0;
    let case = WideSingle::new(2, Event::Read, pair());
    let (tag, body) = body_of(&Case::WideSingle(case));
    let after = [&[0, 0, 1][..], &POWER_ON, &[0; 4], &read, &[0; 4]].concat();
    assert!((tag, &body[3 + 2430..]) == (9, &after[..]));
    let case = WideSingle::new(0xFF, Event::Reset, pair());
    let (_, body) = body_of(&Case::WideSingle(case));
    assert_eq!((&body[..3], body[2433]), (&[0xFF, 4, 0][..], 13));
    let buffers = |state: &[u8], memory: &[u8]| Buffers {
        state: state.to_vec(),
        memory: memory.to_vec(),
    };
    let short = [buffers(&[5], &[]), buffers(&[6, 7], &[8, 9, 10])];
    let case = WideSingle::new(1, Event::Command(0xE2), short);
    let expected = vec![
        1, 1, 0xE2, 1, 0, 5, 0, 0, 2, 0, 6, 7, 3, 0, 8, 9, 10, 1, 0, 0, 5, 0, 0, 0, 0, 6, 7, 0, 0,
        0, 0,
    ];
    assert_eq!(body_of(&Case::WideSingle(case)), (9, expected));
}

#[test]
fn the_bytes_of_a_wide_run() {
    let trace = [select(2), record(2, &[0x66]), select(9)].concat();
    let case = WideRun::new(pair(), trace.clone());
    let mut written = POWER_ON;
    written[1] = 1;
    let mut memory = vec![0x0B; 1188];
    memory[0] = 0x66;
    let expected = [
        &pair_bytes()[..],
        &[15, 0, 0, 0],
        &trace,
        &[13, 10, 0, 0, 0, 2, 0, 0, 0],
        &POWER_ON,
        &[0x0A; 1188],
        &written,
        &memory,
    ]
    .concat();
    assert!(body_of(&Case::WideRun(case)) == (10, expected));
}

/// 17,161 is 0x4309, 17,159 is 0x4307.
#[test]
fn the_bytes_of_wide_drawings() {
    let mut pair_lit = pair();
    pair_lit[1].state[16] = 1;
    let (tag, body) = body_of(&Case::WideDraw(WideDraw::new(pair_lit, 17_161, 77)));
    assert_eq!((tag, body.len()), (11, 2430 + 4 + 17_160));
    assert_eq!(body[2430..2434], [0x09, 0x43, 77, 0]);
    // 0B is rows 0, 1 and 3 of each page, and bit 0 of page 8.
    for (row, places) in body[2434..].chunks(264).enumerate() {
        let lit = u8::from(row == 64 || [0, 1, 3].contains(&(row % 8)));
        assert_eq!(places[..132], [0; 132]);
        assert_eq!(places[132..], [lit; 132]);
    }
    let (tag, body) = body_of(&Case::WideDraw(WideDraw::new(pair(), 17_159, 5)));
    assert!((tag, &body[..2430]) == (11, &pair_bytes()[..]));
    assert_eq!(body[2430..], [0x07, 0x43, 5, 1]);
}

/// Page 3 begins at 396, which is 0x018C.
#[test]
fn the_bytes_of_page_calls() {
    for (side, byte) in [(Side::Left, 1), (Side::Right, 2)] {
        let memories = [vec![3; 1188], vec![4; 1189]];
        let expected = [
            &[byte, 0xA4, 0x04][..],
            &[3; 1188],
            &[0xA5, 0x04],
            &[4; 1189],
            &[3, 0, 0x8C, 0x01, 132, 0],
        ]
        .concat();
        let case = PageCall::new(side, memories.clone(), 3);
        assert!(body_of(&Case::PageCall(case)) == (12, expected));
        let (_, body) = body_of(&Case::PageCall(PageCall::new(side, memories, 9)));
        assert_eq!(body[body.len() - 6..], [9, 4, 0, 0, 0, 0]);
        let case = PageCall::new(side, [vec![7], Vec::new()], 9);
        let expected = vec![byte, 1, 0, 7, 0, 0, 9, 1, 0, 0, 0, 0];
        assert_eq!(body_of(&Case::PageCall(case)), (12, expected));
    }
}

#[test]
fn the_bytes_of_wide_listings() {
    for (start, number) in [(Start::UpsideDown, 0), (Start::Upright, 1)] {
        let case = Listing::wide(start, vec![0, 0, 5, 0]);
        let text = b"refused 13 at 0\nframe 264 65\nend\n";
        let expected = [&[number, 4, 0, 0, 0, 0, 0, 5, 0][..], &[33, 0, 0, 0], text].concat();
        assert_eq!(body_of(&Case::WideListing(case)), (13, expected));
    }
}

/// There is no third side of a page call, and no tag 14.
#[test]
fn a_side_or_a_tag_that_is_none_is_noticed() {
    let case = Case::PageCall(PageCall::new(Side::Right, [vec![1], vec![2]], 0));
    let stream = stream_of_case(&case);
    let first = |stream: &[u8]| Reader::begin(stream).unwrap().next_case();
    assert!(first(&stream).unwrap() == Some(case));
    // Tag and length come after the header of 20.
    for (place, byte) in [(25, 0), (25, 3), (20, 14)] {
        let mut wrong = stream.clone();
        wrong[place] = byte;
        assert!(first(&wrong).is_err());
    }
}

/// The cases of Order 4 come last, and nothing else moves for them; the sweep
/// of its kinds goes before the random ones.
#[test]
fn wide_cases_come_after_all_others() {
    let others = cases_of(&without_wide(small(8)));
    let cases = cases_of(&small(8));
    assert!(cases[..others.len()] == others);
    assert_eq!(cases.len(), others.len() + 200 + 100 + 30 + 60 + 40);
    assert!(cases[others.len()..].iter().all(is_wide));
    let swept = cases_of(&only_the_sweep());
    let first = swept.iter().position(is_wide).unwrap();
    assert!(swept[first..].iter().all(is_wide));
    assert!(swept.len() - first > 10_000);
}

#[test]
fn the_count_of_one_wide_kind_does_not_change_another() {
    let is_run = |case: &Case| matches!(case, Case::WideRun(_));
    let fewer = Plan {
        wide_runs: 7,
        ..small(9)
    };
    let mut cases = cases_of(&small(9));
    let mut others = cases_of(&fewer);
    assert_eq!(others.iter().filter(|case| is_run(case)).count(), 7);
    cases.retain(|case| !is_run(case));
    others.retain(|case| !is_run(case));
    assert!(cases == others);
}

/// What the wide terminal has not reached is told, and what it cannot.
#[test]
fn what_is_not_reached_of_the_wide_terminal_is_told() {
    let mut coverage = Coverage::new();
    coverage.see(&Case::WideDraw(WideDraw {
        number: 14,
        ..WideDraw::new(pair(), 0, 0)
    }));
    coverage.see(&Case::WideRun(WideRun::new(pair(), select(2))));
    let faults = coverage.faults();
    let told = |fault: &str| faults.contains(&fault.to_string());
    assert!(told("numbers of wide draws: 14 impossible"));
    assert!(told("numbers of wide draws: 1 not reached"));
    assert!(told("numbers of wide runs: 13 not reached"));
    assert!(told("numbers of wide reads: 14 not reached"));
    assert!(told("numbers of wide commands: 13 not reached"));
    assert!(told("numbers of page calls: 4 not reached"));
    assert!(told(
        "wide runs taken that end with: left selected not reached"
    ));
    assert!(!told(
        "wide runs taken that end with: right selected not reached"
    ));
    assert!(told(
        "wide runs, selections before and after: both selected, both selected not reached"
    ));
    assert!(!told(
        "wide runs, selections before and after: both selected, right selected not reached"
    ));
}
