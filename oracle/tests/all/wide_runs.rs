//! Order 4: runs of wide traces.

use oracle::generate::wide::wide_run;
use oracle::random::Random;

use crate::rig::{AWAITED, BUSY, COLUMN, CONTRAST, MULTIPLEX, OFFSET, POWER_ON, Rig, START_LINE};
use crate::wide_rig::{BOTH, LEFT, RIGHT, WideRig, record, select};

/// The start lines of both chips.
fn start_lines(rig: &WideRig) -> [u8; 2] {
    [rig.left.state[START_LINE], rig.right.state[START_LINE]]
}

/// "Each run starts with both", the next run too.
#[test]
fn each_run_starts_with_both() {
    let mut rig = WideRig::power_on();
    let trace = [record(1, &[0x45]), select(LEFT), record(1, &[0x46])].concat();
    assert_eq!(rig.run(&trace), (0, 15, 3));
    assert_eq!(start_lines(&rig), [6, 5]);
    assert_eq!(rig.run(&record(1, &[0x47])), (0, 5, 1));
    assert_eq!(start_lines(&rig), [7, 7]);
}

#[test]
fn a_selection_holds_until_the_next() {
    let mut rig = WideRig::power_on();
    let trace = [
        select(RIGHT),
        record(1, &[0x41]),
        record(2, &[0x99]),
        select(RIGHT),
        record(1, &[0x42]),
        select(LEFT),
        record(1, &[0x43]),
        select(BOTH),
        record(1, &[0x05]),
    ]
    .concat();
    assert_eq!(rig.run(&trace), (0, 45, 9));
    assert_eq!(start_lines(&rig), [3, 2]);
    assert_eq!((rig.left.memory[0], rig.right.memory[0]), (0x00, 0x99));
    assert_eq!((rig.left.state[COLUMN], rig.right.state[COLUMN]), (5, 5));
}

/// A select record is no event: fresh 0, a code awaited and
/// read-modify-write stay, and it counts.
#[test]
fn selecting_changes_neither_chip() {
    let mut awaiting = BUSY;
    awaiting[AWAITED] = 0xD3;
    for selection in [LEFT, RIGHT, BOTH] {
        let mut rig = WideRig::with(BUSY, awaiting);
        assert_eq!(rig.run(&select(selection)), (0, 5, 1));
        assert_eq!(rig, WideRig::with(BUSY, awaiting));
        assert_eq!(rig.run(&select(selection).repeat(3)), (0, 15, 3));
        assert_eq!(rig, WideRig::with(BUSY, awaiting));
    }
}

/// 81 to the left, 45 to the right, then C5 to the left: contrast 5 there.
#[test]
fn a_code_is_awaited_over_selections() {
    let mut rig = WideRig::power_on();
    let trace = [
        select(LEFT),
        record(1, &[0x81]),
        select(RIGHT),
        record(1, &[0x45]),
        select(LEFT),
        record(1, &[0xC5]),
    ]
    .concat();
    assert_eq!(rig.run(&trace), (0, 30, 6));
    assert_eq!(
        (rig.left.state[CONTRAST], rig.right.state[CONTRAST]),
        (5, 32)
    );
    assert_eq!(start_lines(&rig), [0, 5]);
}

/// "The reset pin keeps the selection", and goes to the selected chip alone.
#[test]
fn the_reset_pin_keeps_the_selection() {
    let mut after_45 = POWER_ON;
    after_45[START_LINE] = 5;
    let trace = |selection| [select(selection), record(4, &[]), record(1, &[0x45])].concat();
    let mut rig = WideRig::busy();
    assert_eq!(rig.run(&trace(LEFT)), (0, 14, 3));
    assert_eq!(rig, WideRig::with(after_45, BUSY));
    let mut rig = WideRig::busy();
    assert_eq!(rig.run(&trace(RIGHT)), (0, 14, 3));
    assert_eq!(rig, WideRig::with(BUSY, after_45));
    let mut rig = WideRig::busy();
    assert_eq!(rig.run(&trace(BOTH)), (0, 14, 3));
    assert_eq!(rig, WideRig::with(after_45, after_45));
}

/// "13, select payload not one byte of 1 to 3, in the place of 9": the record
/// begins at 9 behind an empty record and a command.
#[test]
fn a_payload_that_selects_nothing_is_13_at_the_record() {
    for payload in [
        &[][..],
        &[0],
        &[4],
        &[5],
        &[0x7F],
        &[0xFF],
        &[1, 1],
        &[1, 0],
        &[0, 1],
        &[3, 2],
        &[1, 2, 3],
        &[2; 300],
    ] {
        let before = [record(2, &[]), record(1, &[0x45])].concat();
        let trace = [before, record(5, payload), record(1, &[0x46])].concat();
        let mut rig = WideRig::power_on();
        assert_eq!(rig.run(&trace), (13, 9, 2), "{payload:?}");
        assert_eq!(start_lines(&rig), [5, 5]);
        assert_eq!(WideRig::power_on().run(&record(5, payload)), (13, 0, 0));
    }
}

/// 8 before 13, as before 9.
#[test]
fn a_select_record_cut_short_is_8() {
    for (payload, there) in [
        (&[1][..], 0),
        (&[0], 0),
        (&[1, 2], 0),
        (&[1, 2], 1),
        (&[0xFF; 300], 299),
    ] {
        let trace = [record(1, &[0x45]), record(5, payload)].concat();
        let cut = 5 + 4 + there;
        assert_eq!(WideRig::power_on().run(&trace[..cut]), (8, 5, 1));
    }
    for left in 1..4 {
        assert_eq!(WideRig::power_on().run(&select(1)[..left]), (8, 0, 0));
    }
}

#[test]
fn other_kinds_are_9_and_8_goes_before() {
    for kind in [0, 6, 7, 0x0105, 0x0500, 0x0501, 0x8005, 0xFFFF] {
        for payload in [&[][..], &[1], &[1, 2]] {
            let trace = [select(LEFT), record(kind, payload)].concat();
            assert_eq!(WideRig::power_on().run(&trace), (9, 5, 1), "kind {kind}");
        }
        let cut = &record(kind, &[1])[..4];
        assert_eq!(WideRig::power_on().run(cut), (8, 0, 0));
    }
    // The reset pin with a payload, under each selection.
    for selection in [LEFT, RIGHT, BOTH] {
        let trace = [select(selection), record(4, &[0])].concat();
        let mut rig = WideRig::busy();
        assert_eq!(rig.run(&trace), (9, 5, 1));
        assert_eq!(rig, WideRig::busy());
    }
}

/// One chip knows no kind 5: "kind not 1 to 4".
#[test]
fn one_chip_answers_9_to_kind_5() {
    for payload in [&[][..], &[1], &[3], &[4], &[1, 2]] {
        assert_eq!(Rig::power_on().run(&record(5, payload)), (9, 0, 0));
    }
}

/// The read record begins at 5, its payload at 9: the first byte is refused.
#[test]
fn a_read_of_both_is_14_at_its_byte() {
    let trace = [record(1, &[0x45]), record(3, &[0, 0]), record(1, &[0x46])].concat();
    let mut rig = WideRig::power_on();
    assert_eq!(rig.run(&trace), (14, 9, 1));
    let mut after_45 = POWER_ON;
    after_45[START_LINE] = 5;
    assert_eq!(rig, WideRig::with(after_45, after_45));
    // A code awaited in both, a column above 131 in both: 14 still.
    let trace = [record(1, &[0x0F, 0x18, 0x81]), record(3, &[0])].concat();
    assert_eq!(WideRig::power_on().run(&trace), (14, 11, 1));
    // After selecting one and then both again.
    let trace = [select(LEFT), select(BOTH), record(3, &[0])].concat();
    assert_eq!(WideRig::power_on().run(&trace), (14, 14, 2));
}

/// Without a read event there is nothing to refuse.
#[test]
fn an_empty_read_record_is_taken_with_both_selected() {
    let trace = [record(3, &[]), record(1, &[0x81]), record(3, &[])].concat();
    let mut rig = WideRig::power_on();
    assert_eq!(rig.run(&trace), (0, 13, 3));
    assert_eq!(
        (rig.left.state[AWAITED], rig.right.state[AWAITED]),
        (0x81, 0x81)
    );
}

/// 10 asks the selected chip alone: the left holds 11, the right 22.
#[test]
fn a_read_is_compared_with_the_selected_chips_byte() {
    let written = [
        select(LEFT),
        record(2, &[0x11]),
        select(RIGHT),
        record(2, &[0x22]),
        select(BOTH),
        record(1, &[0x00]),
    ]
    .concat();
    assert_eq!(written.len(), 30);
    for (selection, byte, answer) in [
        (LEFT, 0x11, (0, 41, 8)),
        (LEFT, 0x22, (10, 40, 7)),
        (RIGHT, 0x22, (0, 41, 8)),
        (RIGHT, 0x11, (10, 40, 7)),
    ] {
        let trace = [&written[..], &select(selection), &record(3, &[0x99, byte])].concat();
        let mut rig = WideRig::power_on();
        assert_eq!(rig.run(&trace), answer);
        // Only the dummy read has happened where the second was refused.
        let column = u8::from(answer.0 == 0);
        let columns = [rig.left.state[COLUMN], rig.right.state[COLUMN]];
        let expected = if selection == LEFT {
            [column, 0]
        } else {
            [0, column]
        };
        assert_eq!(columns, expected);
    }
}

/// One chip awaits 81 when the record for both comes: 81 is its n and the
/// other's code, D3 its code and the other's n, so that the third byte is n of
/// D3 to the one and a command to the other. It stands at 21, after three
/// records of five bytes and a header; the number is that of who refuses.
#[test]
fn a_refusal_in_the_middle_of_a_record_leaves_both_at_the_byte_before() {
    for (third, left_first, right_first) in [
        // Start line to the one, no offset to the other.
        (0x45, 5, 5),
        // An offset to the one, outside the table to the other.
        (0x3F, 3, 3),
        // Both refuse: 5 and 4, 5 and 3; the left's counts.
        (0xB9, 5, 4),
        (0x80, 5, 3),
    ] {
        for (selection, number) in [(LEFT, left_first), (RIGHT, right_first)] {
            let before = [select(selection), record(1, &[0x81]), select(BOTH)].concat();
            let trace = [before.clone(), record(1, &[0x81, 0xD3, third, 0x47])].concat();
            let mut rig = WideRig::power_on();
            assert_eq!(rig.run(&trace), (number, 21, 3), "{third:02X} {selection}");
            let mut expected = WideRig::power_on();
            let two_bytes = [before, record(1, &[0x81, 0xD3])].concat();
            assert_eq!(expected.run(&two_bytes), (0, 21, 4));
            assert_eq!(rig, expected);
            // 81 is 129, which is contrast 1; D3 is 211, which is 19.
            let [one, other] = if selection == LEFT {
                [&rig.left.state, &rig.right.state]
            } else {
                [&rig.right.state, &rig.left.state]
            };
            assert_eq!((one[CONTRAST], one[AWAITED]), (1, 0xD3));
            assert_eq!((other[CONTRAST], other[AWAITED]), (19, 0));
        }
    }
}

/// 05 is an offset to the one and a column to the other: both take it.
#[test]
fn a_byte_that_both_take_in_their_own_way_is_done() {
    let trace = [
        select(LEFT),
        record(1, &[0x81]),
        select(BOTH),
        record(1, &[0x81, 0xD3, 0x05]),
    ]
    .concat();
    let mut rig = WideRig::power_on();
    assert_eq!(rig.run(&trace), (0, 22, 4));
    assert_eq!((rig.left.state[OFFSET], rig.left.state[COLUMN]), (5, 0));
    assert_eq!((rig.right.state[OFFSET], rig.right.state[COLUMN]), (0, 5));
}

/// Data that one chip cannot take: the left awaits, the right is at column 143.
#[test]
fn data_refused_in_a_run() {
    let before = [
        select(LEFT),
        record(1, &[0x81]),
        select(RIGHT),
        record(1, &[0x0F, 0x18]),
    ]
    .concat();
    for (selection, number) in [(LEFT, 6), (RIGHT, 7), (BOTH, 6)] {
        let trace = [&before[..], &select(selection), &record(2, &[0xFF])].concat();
        let mut rig = WideRig::power_on();
        // 21 bytes, a selection and a header before it.
        assert_eq!(rig.run(&trace), (number, 30, 5));
        assert_eq!(rig.left.memory, [0; 1188]);
        assert_eq!(rig.right.memory, [0; 1188]);
    }
}

/// 1, then 2, then the trace, also for an empty one, a cut one and one that
/// selects the other chip or resets at once.
#[test]
fn a_run_asks_all_four_buffers_and_both_images_first() {
    for trace in [
        Vec::new(),
        vec![1],
        select(LEFT),
        select(RIGHT),
        select(0),
        record(4, &[]),
        record(3, &[0]),
    ] {
        for short in 0..4 {
            let mut rig = WideRig::power_on();
            rig.left.state[MULTIPLEX] = 64;
            rig.right.state[MULTIPLEX] = 64;
            match short {
                0 => rig.left.state.truncate(22),
                1 => rig.left.memory.truncate(1187),
                2 => rig.right.state.truncate(22),
                _ => rig.right.memory.truncate(1187),
            }
            let before = rig.clone();
            assert_eq!(rig.run(&trace), (1, 0, 0));
            assert_eq!(rig, before);
        }
        let mut hostile = POWER_ON;
        hostile[MULTIPLEX] = 64;
        for (left, right) in [(hostile, POWER_ON), (POWER_ON, hostile), (hostile, hostile)] {
            let mut rig = WideRig::with(left, right);
            assert_eq!(rig.run(&trace), (2, 0, 0));
            assert_eq!(rig, WideRig::with(left, right));
        }
    }
    assert_eq!(WideRig::power_on().run(&[]), (0, 0, 0));
}

/// The records of a trace while one chip is selected, without those that
/// select; taken apart here by document 01's own words.
fn records_of(trace: &[u8], chip: u8) -> Vec<u8> {
    let mut selection = 3;
    let mut kept = Vec::new();
    let mut rest = trace;
    while let [low, high, kind, _, after @ ..] = rest {
        let length = usize::from(*low) + 256 * usize::from(*high);
        if *kind == 5 {
            selection = after[0];
        } else if selection & chip != 0 {
            kept.extend(&rest[..4 + length]);
        }
        rest = &after[length..];
    }
    kept
}

/// "Demand 2 reads for each chip over the events it was selected for, in a run
/// with no refusal."
#[test]
fn each_chip_is_as_after_its_own_run() {
    let mut random = Random::new(4, 2);
    let mut long = 0;
    for _ in 0..3000 {
        let case = wide_run(&mut random);
        if case.answer.number != 0 {
            continue;
        }
        for (chip, before, after) in [
            (LEFT, &case.pair[0], &case.pair_after[0]),
            (RIGHT, &case.pair[1], &case.pair_after[1]),
        ] {
            let mut rig = Rig {
                state: before.state.clone(),
                memory: before.memory.clone(),
            };
            let own = records_of(&case.trace, chip);
            assert_eq!(rig.run(&own).0, 0);
            assert!((&rig.state, &rig.memory) == (&after.state, &after.memory));
        }
        long += usize::from(case.answer.count > 5);
    }
    assert!(long > 300, "{long}");
}

/// A stopped run: the chips are as after the bytes before the one refused.
#[test]
fn what_came_before_a_stop_stands() {
    let mut random = Random::new(4, 3);
    let mut stops = 0;
    for _ in 0..3000 {
        let case = wide_run(&mut random);
        let (number, offset) = (case.answer.number, case.answer.offset);
        if !matches!(number, 3..=7 | 10 | 14) {
            continue;
        }
        // The last record cut before the refused byte, and its header mended.
        let mut place = 0;
        for _ in 0..case.answer.count {
            place += 4 + usize::from(u16::from_le_bytes([
                case.trace[place],
                case.trace[place + 1],
            ]));
        }
        let mut before = case.trace[..offset].to_vec();
        let length = u16::try_from(offset - place - 4).unwrap();
        before[place..place + 2].copy_from_slice(&length.to_le_bytes());
        let mut rig = WideRig {
            left: Rig {
                state: case.pair[0].state.clone(),
                memory: case.pair[0].memory.clone(),
            },
            right: Rig {
                state: case.pair[1].state.clone(),
                memory: case.pair[1].memory.clone(),
            },
        };
        assert_eq!(rig.run(&before), (0, offset, case.answer.count + 1));
        assert!(rig.left.state == case.pair_after[0].state);
        assert!(rig.left.memory == case.pair_after[0].memory);
        assert!(rig.right.state == case.pair_after[1].state);
        assert!(rig.right.memory == case.pair_after[1].memory);
        stops += 1;
    }
    assert!(stops > 300, "{stops}");
}
