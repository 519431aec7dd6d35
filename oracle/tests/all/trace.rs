//! Trace runs: cut, damaged, compared.

use oracle::trace;

use crate::rig::{AWAITED, COLUMN, CONTRAST, DISPLAY_ON, FRESH, POWER_ON, Rig};

/// A record.
fn record(kind: u16, payload: &[u8]) -> Vec<u8> {
    let length = u16::try_from(payload.len()).unwrap();
    [&length.to_le_bytes()[..], &kind.to_le_bytes()[..], payload].concat()
}

/// The trace of document 01, cut after so many bytes: number, offset, count,
/// display on, and the first two bytes of memory.
#[test]
fn the_document_trace_cut_at_each_of_its_bytes() {
    let trace = [
        0x01, 0x00, 0x01, 0x00, 0xAF, 0x02, 0x00, 0x02, 0x00, 0x03, 0x01,
    ];
    let expected = [
        ((0, 0, 0), 0, [0, 0]),
        ((8, 0, 0), 0, [0, 0]),
        ((8, 0, 0), 0, [0, 0]),
        ((8, 0, 0), 0, [0, 0]),
        ((8, 0, 0), 0, [0, 0]),
        ((0, 5, 1), 1, [0, 0]),
        ((8, 5, 1), 1, [0, 0]),
        ((8, 5, 1), 1, [0, 0]),
        ((8, 5, 1), 1, [0, 0]),
        ((8, 5, 1), 1, [0, 0]),
        ((8, 5, 1), 1, [0, 0]),
        ((0, 11, 2), 1, [3, 1]),
    ];
    for (cut, (answer, display_on, memory)) in expected.into_iter().enumerate() {
        let mut rig = Rig::power_on();
        assert_eq!(rig.run(&trace[..cut]), answer, "cut after {cut}");
        assert_eq!(rig.state[DISPLAY_ON], display_on);
        assert_eq!(rig.memory[..2], memory);
    }
}

/// A trace with every kind and empty records, all of it taken.
fn all_kinds() -> (Vec<u8>, [usize; 9]) {
    let trace = [
        record(1, &[0xAF, 0x81]),
        record(1, &[]),
        record(1, &[0xC5]),
        record(2, &[0x11, 0x22]),
        record(2, &[]),
        record(1, &[0x00]),
        record(3, &[0xEE, 0x11, 0x22]),
        record(3, &[]),
        record(4, &[]),
    ]
    .concat();
    // Each record is 4 bytes and its payload: 6, 4, 5, 6, 4, 5, 7, 4, 4.
    (trace, [0, 6, 10, 15, 21, 25, 30, 37, 41])
}

#[test]
fn a_trace_of_all_kinds_cut_at_each_of_its_bytes() {
    let (trace, starts) = all_kinds();
    assert_eq!(trace.len(), 45);
    for cut in 0..=45 {
        let mut rig = Rig::power_on();
        let answer = rig.run(&trace[..cut]);
        if cut == 45 {
            assert_eq!(answer, (0, 45, 9));
            assert_eq!(rig.state, POWER_ON);
        } else if let Some(whole) = starts.iter().position(|&start| start == cut) {
            assert_eq!(answer, (0, cut, whole));
        } else {
            let begun = starts.iter().filter(|&&start| start < cut).count() - 1;
            assert_eq!(answer, (8, starts[begun], begun), "cut after {cut}");
        }
    }
}

#[test]
fn a_cut_record_does_nothing_at_all() {
    let (trace, starts) = all_kinds();
    for cut in 0..45 {
        let whole = starts.iter().rfind(|&&start| start <= cut).unwrap();
        let mut rig = Rig::power_on();
        rig.run(&trace[..cut]);
        let mut expected = Rig::power_on();
        expected.run(&trace[..*whole]);
        assert_eq!(rig, expected, "cut after {cut}");
    }
}

#[test]
fn a_command_may_be_split_between_records() {
    let mut rig = Rig::power_on();
    let (trace, _) = all_kinds();
    assert_eq!(rig.run(&trace[..15]), (0, 15, 3));
    // C5 is contrast 5, not a row direction.
    assert_eq!(rig.state[CONTRAST], 5);
    assert_eq!(rig.state[AWAITED], 0);
}

#[test]
fn the_refused_byte_gives_the_offset_and_earlier_bytes_stand() {
    let trace = [record(1, &[0xAF]), record(1, &[0x05, 0xE3, 0xB9, 0x07])].concat();
    let mut rig = Rig::power_on();
    // The second record begins at 5, its payload at 9, its third byte at 11.
    assert_eq!(rig.run(&trace), (4, 11, 1));
    assert_eq!(rig.state[DISPLAY_ON], 1);
    assert_eq!(rig.state[COLUMN], 5);
}

#[test]
fn each_event_refusal_in_a_run() {
    for (records, answer) in [
        (vec![record(1, &[0xE3, 0x30])], (3, 5, 0)),
        (vec![record(1, &[0xBA])], (4, 4, 0)),
        (vec![record(1, &[0xD3, 0x40])], (5, 5, 0)),
        (vec![record(1, &[0xD4, 0x31])], (5, 5, 0)),
        (vec![record(1, &[0x81]), record(2, &[0x00])], (6, 9, 1)),
        (vec![record(1, &[0x81]), record(3, &[0x00])], (6, 9, 1)),
        (vec![record(1, &[0x1F]), record(2, &[0x00])], (7, 9, 1)),
        (vec![record(1, &[0x1F]), record(3, &[0x00])], (7, 9, 1)),
        (vec![record(3, &[0x77, 0x01])], (10, 5, 0)),
        // An empty record of data meets no refusal.
        (
            vec![record(1, &[0x81]), record(2, &[]), record(3, &[])],
            (0, 13, 3),
        ),
    ] {
        assert_eq!(Rig::power_on().run(&records.concat()), answer);
    }
}

#[test]
fn a_dummy_read_is_not_compared_and_the_next_one_is() {
    let mut rig = Rig::power_on();
    rig.memory[..3].copy_from_slice(&[0x0A, 0x0B, 0x0C]);
    assert_eq!(rig.run(&record(3, &[0xFF, 0x0A, 0x0B])), (0, 7, 1));
    assert_eq!(rig.state[COLUMN], 2);
    assert_eq!(rig.state[FRESH], 0);
    // Still not fresh: the next record compares its first byte.
    assert_eq!(rig.run(&record(3, &[0xFF])), (10, 4, 0));
    assert_eq!(rig.state[COLUMN], 2);
    assert_eq!(rig.state[FRESH], 0);
    assert_eq!(rig.run(&record(3, &[0x0C])), (0, 5, 1));
}

#[test]
fn a_read_that_differs_has_not_happened() {
    let mut rig = Rig::power_on();
    rig.memory[..3].copy_from_slice(&[0x0A, 0x0B, 0x0C]);
    let trace = record(3, &[0x00, 0x0A, 0x0C, 0x0C]);
    assert_eq!(rig.run(&trace), (10, 6, 0));
    assert_eq!(rig.state[COLUMN], 1);
}

#[test]
fn page_8_is_compared_by_what_a_read_answers() {
    let mut rig = Rig::after(&[0xB8]);
    rig.memory[1056..].fill(0xFF);
    assert_eq!(rig.run(&record(3, &[0x00, 0x01])), (0, 6, 1));
    assert_eq!(rig.run(&record(3, &[0xFF])), (10, 4, 0));
}

#[test]
fn numbers_6_7_10_in_that_order() {
    let mut rig = Rig::power_on();
    rig.state[FRESH] = 0;
    rig.state[COLUMN] = 140;
    rig.state[AWAITED] = 0xA9;
    let wrong = record(3, &[0xFF]);
    assert_eq!(rig.run(&wrong), (6, 4, 0));
    rig.state[AWAITED] = 0;
    assert_eq!(rig.run(&wrong), (7, 4, 0));
    rig.state[COLUMN] = 0;
    assert_eq!(rig.run(&wrong), (10, 4, 0));
}

#[test]
fn kinds_and_lengths_have_two_bytes() {
    for kind in [0, 5, 0x0100, 0x0101, 0x0102, 0x0103, 0x0104, 0x0400, 0xFFFF] {
        for payload in [&[][..], &[0x00]] {
            assert_eq!(Rig::power_on().run(&record(kind, payload)), (9, 0, 0));
        }
    }
    // 256 bytes written from column 0: 132 of them, then 124 more.
    let mut rig = Rig::power_on();
    let mut payload = vec![0x11; 132];
    payload.resize(256, 0x22);
    let trace = record(2, &payload);
    assert_eq!(trace[..4], [0x00, 0x01, 0x02, 0x00]);
    assert_eq!(rig.run(&trace), (0, 260, 1));
    assert_eq!(rig.state[COLUMN], 124);
    assert!(rig.memory[..124].iter().all(|&byte| byte == 0x22));
    assert!(rig.memory[124..132].iter().all(|&byte| byte == 0x11));
    assert!(rig.memory[132..].iter().all(|&byte| byte == 0));
    assert_eq!(Rig::power_on().run(&trace[..259]), (8, 0, 0));
}

#[test]
fn number_8_goes_before_9() {
    // A kind that is none, whose payload is not all there.
    assert_eq!(
        Rig::power_on().run(&[0x02, 0x00, 0x09, 0x00, 0x00]),
        (8, 0, 0)
    );
    assert_eq!(
        Rig::power_on().run(&[0x02, 0x00, 0x09, 0x00, 0x00, 0x00]),
        (9, 0, 0)
    );
    // A reset pin with a payload, not there and there.
    assert_eq!(Rig::power_on().run(&[0x01, 0x00, 0x04, 0x00]), (8, 0, 0));
    assert_eq!(
        Rig::power_on().run(&[0x01, 0x00, 0x04, 0x00, 0x00]),
        (9, 0, 0)
    );
    // Too short to tell the kind.
    assert_eq!(Rig::power_on().run(&[0x00, 0x00, 0x09]), (8, 0, 0));
}

#[test]
fn a_wrong_header_acts_on_nothing() {
    let trace = [
        record(1, &[0xAF]),
        record(4, &[]),
        record(4, &[0x00]),
        record(1, &[0xAF]),
    ]
    .concat();
    let mut rig = Rig::power_on();
    assert_eq!(rig.run(&trace), (9, 9, 2));
    assert_eq!(rig.state, POWER_ON);
}

#[test]
fn a_reset_record_keeps_the_memory() {
    let trace = [record(2, &[0x44, 0x55]), record(1, &[0xD3]), record(4, &[])].concat();
    let mut rig = Rig::power_on();
    assert_eq!(rig.run(&trace), (0, 15, 3));
    assert_eq!(rig.state, POWER_ON);
    assert_eq!(rig.memory[..2], [0x44, 0x55]);
}

#[test]
fn bytes_past_the_needed_length_never_change() {
    let mut state = POWER_ON.to_vec();
    state.resize(40, 0x99);
    let mut memory = vec![0; 1188];
    memory.resize(1300, 0x99);
    let trace = [record(1, &[0xB8, 0x03, 0x18]), record(2, &[0xFF, 0xFF])].concat();
    let answer = trace::call(&mut state, &mut memory, &trace);
    assert_eq!((answer.number, answer.offset, answer.count), (0, 13, 2));
    assert_eq!(memory[1187], 0x01);
    assert_eq!(memory[1056], 0x01);
    assert!(
        state[23..]
            .iter()
            .chain(&memory[1188..])
            .all(|&b| b == 0x99)
    );
}

#[test]
fn offsets_and_counts_pass_two_bytes() {
    let many = record(1, &[]).repeat(70_000);
    assert_eq!(Rig::power_on().run(&many), (0, 280_000, 70_000));
    let cut = &many[..279_999];
    assert_eq!(Rig::power_on().run(cut), (8, 279_996, 69_999));
    // FF was 3 before Order 6, and EF is.
    for (byte, number) in [(0xFF, 15), (0xEF, 3)] {
        let long = [record(2, &vec![0; 65_535]), record(1, &[0xE3, byte])].concat();
        assert_eq!(Rig::power_on().run(&long), (number, 65_544, 1));
    }
}
