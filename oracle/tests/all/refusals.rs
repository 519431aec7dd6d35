//! The numbers given, which goes first, and that a refusal changes nothing.

use oracle::event::{self, Event};
use oracle::frame;
use oracle::trace;

use crate::rig::{AWAITED, BUSY, COLUMN, FRESH, POWER_ON, READ_MODIFY_WRITE, Rig, SAVED_COLUMN};

const EVENTS: [Event; 4] = [
    Event::Command(0xE3),
    Event::Write(0x42),
    Event::Read,
    Event::Reset,
];

/// The last legal value of each field that has a range of 0 to so much.
const LAST_LEGAL: [(usize, u8); 18] = [
    (0, 8),
    (2, 63),
    (3, 63),
    (4, 63),
    (5, 63),
    (6, 7),
    (7, 7),
    (8, 1),
    (9, 1),
    (11, 3),
    (12, 1),
    (13, 1),
    (14, 1),
    (15, 1),
    (16, 1),
    (17, 1),
    (18, 3),
    (22, 1),
];

/// The number of a command that does nothing, and whether all was left.
fn asked(image: [u8; 23]) -> u8 {
    let mut rig = Rig::with(image);
    let before = rig.clone();
    let number = rig.command(0xAE);
    assert!(number == 0 || rig == before);
    number
}

#[test]
fn number_1_for_every_short_state_or_memory() {
    for event in EVENTS {
        for state_length in [0, 1, 22, 23, 24, 40] {
            for memory_length in [0, 1, 1187, 1188, 1189, 1300] {
                for image in [POWER_ON, [0xFF; 23]] {
                    let mut state = image.to_vec();
                    state.resize(state_length, 0x99);
                    let mut memory = vec![0x99; memory_length];
                    let (state_before, memory_before) = (state.clone(), memory.clone());
                    let answer = event::call(&mut state, &mut memory, event);
                    let short = state_length < 23 || memory_length < 1188;
                    let legal = image == POWER_ON || event == Event::Reset;
                    let number = match (short, legal) {
                        (true, _) => 1,
                        (false, false) => 2,
                        (false, true) => 0,
                    };
                    assert_eq!(answer.number, number);
                    if number != 0 {
                        assert_eq!((answer.byte, answer.dummy), (0, false));
                        assert_eq!((&state, &memory), (&state_before, &memory_before));
                    } else {
                        assert_eq!(state[23..], state_before[23..]);
                        assert_eq!(memory[1188..], memory_before[1188..]);
                    }
                }
            }
        }
    }
}

#[test]
fn number_1_of_a_draw_asks_the_frame_too() {
    for (state, memory, frame_length, number) in [
        (23, 1188, 8580, 0),
        (22, 1188, 8580, 1),
        (23, 1187, 8580, 1),
        (23, 1188, 8579, 1),
        (0, 0, 0, 1),
        (40, 1300, 8600, 0),
    ] {
        let mut state = vec![0; state];
        let mut frame = vec![0x99; frame_length];
        let answer = frame::call(&state, &vec![0; memory], &mut frame);
        assert_eq!(answer, number);
        let drawn = if number == 0 { 8580 } else { 0 };
        assert!(frame[..drawn].iter().all(|&dot| dot == 0));
        assert!(frame[drawn..].iter().all(|&dot| dot == 0x99));
        // Short comes before illegal.
        state.fill(0xFF);
        let answer = frame::call(&state, &vec![0; memory], &mut frame);
        assert_eq!(answer, if number == 0 { 2 } else { 1 });
    }
}

#[test]
fn number_2_for_each_field_out_of_its_range() {
    for (field, last) in LAST_LEGAL {
        for value in 0..=0xFF {
            let mut image = POWER_ON;
            image[field] = value;
            let number = if value <= last { 0 } else { 2 };
            assert_eq!(asked(image), number, "field {field} value {value}");
        }
    }
    for value in 0..=0xFF {
        for any in [1, 10] {
            let mut image = POWER_ON;
            image[any] = value;
            assert_eq!(asked(image), 0);
        }
        let mut image = POWER_ON;
        image[AWAITED] = value;
        let legal = [0x00, 0x81, 0xA8, 0xA9, 0xAD, 0xD3, 0xD4].contains(&value);
        // AE is not allowed after D3 and D4, all else takes it.
        let number = match value {
            0xD3 | 0xD4 => 5,
            _ if legal => 0,
            _ => 2,
        };
        assert_eq!(asked(image), number, "awaited {value:02X}");
    }
}

#[test]
fn number_2_for_a_saved_column_outside_read_modify_write() {
    for mode in 0..=0xFF {
        for saved in 0..=0xFF {
            let mut image = POWER_ON;
            image[READ_MODIFY_WRITE] = mode;
            image[SAVED_COLUMN] = saved;
            let legal = mode == 1 || (mode == 0 && saved == 0);
            assert_eq!(asked(image), if legal { 0 } else { 2 });
        }
    }
}

#[test]
fn number_2_is_asked_of_writes_reads_and_draws_and_not_of_the_reset_pin() {
    let mut image = BUSY;
    image[0] = 9;
    let mut rig = Rig::with(image);
    let before = rig.clone();
    assert_eq!(rig.write(1), 2);
    assert_eq!(rig.read(), (2, 0, false));
    assert_eq!(frame::call(&rig.state, &rig.memory, &mut vec![0; 8580]), 2);
    assert_eq!(rig, before);
    assert_eq!(rig.reset(), 0);
    assert_eq!(rig.state, POWER_ON);
}

#[test]
fn number_2_goes_before_3_to_7() {
    let mut image = BUSY;
    image[FRESH] = 2;
    assert_eq!(Rig::with(image).command(0xF0), 2);
    assert_eq!(Rig::with(image).command(0xB9), 2);
    image[COLUMN] = 132;
    assert_eq!(Rig::with(image).write(0), 2);
    image[AWAITED] = 0xD3;
    assert_eq!(Rig::with(image).command(0x40), 2);
    assert_eq!(Rig::with(image).read(), (2, 0, false));
}

#[test]
fn numbers_3_and_4_need_no_code_awaited() {
    for byte in [0x30, 0x80, 0xB9, 0xBF, 0xD0, 0xE1, 0xFF] {
        let mut rig = Rig::after(&[0xA9]);
        assert_eq!(rig.command(byte), 0);
        assert_eq!(rig.state[10], byte);
    }
}

#[test]
fn number_6_for_each_code_and_before_7() {
    for code in [0x81, 0xA8, 0xA9, 0xAD, 0xD3, 0xD4] {
        for column in [0, 131, 132, 255] {
            for fresh in [0, 1] {
                let mut rig = Rig::power_on();
                rig.state[COLUMN] = column;
                rig.state[AWAITED] = code;
                rig.state[FRESH] = fresh;
                let before = rig.clone();
                assert_eq!(rig.write(0x55), 6);
                assert_eq!(rig.read(), (6, 0, false));
                assert_eq!(rig, before);
            }
        }
    }
}

#[test]
fn number_7_for_each_column_above_131_dummy_reads_too() {
    for column in 132..=255 {
        for fresh in [0, 1] {
            for in_it in [0, 1] {
                let mut rig = Rig::power_on();
                rig.state[COLUMN] = column;
                rig.state[FRESH] = fresh;
                rig.state[READ_MODIFY_WRITE] = in_it;
                let before = rig.clone();
                assert_eq!(rig.write(0x55), 7);
                assert_eq!(rig.read(), (7, 0, false));
                assert_eq!(rig, before);
            }
        }
    }
}

#[test]
fn a_run_asks_1_then_2_before_it_looks_at_the_trace() {
    for trace in [&[][..], &[0x07], &[0x00, 0x00, 0x04, 0x00]] {
        for (state_length, memory_length, image, number) in [
            (22, 1188, POWER_ON, 1),
            (23, 1187, POWER_ON, 1),
            (23, 0, [0xFF; 23], 1),
            (23, 1188, [0xFF; 23], 2),
            (40, 1300, [0xFF; 23], 2),
        ] {
            let mut state = image.to_vec();
            state.resize(state_length, 0x99);
            let mut memory = vec![0x99; memory_length];
            let before = (state.clone(), memory.clone());
            let answer = trace::call(&mut state, &mut memory, trace);
            assert_eq!((answer.number, answer.offset, answer.count), (number, 0, 0));
            assert_eq!((state, memory), before);
        }
    }
}
