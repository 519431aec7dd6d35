//! Order 6: F0 to FF have a number of their own where no code is awaited.

use oracle::event::Event::{self, Command, Read, Reset, Write};
use oracle::listing;
use oracle::refusal::LAST_NUMBER;
use oracle::start::{self, Start};

use crate::rig::{
    AWAITED, BUSY, BYTE_OF_A9, COLUMN, CONTRAST, DISPLAY_ON, DOCUMENT_TRACE, FRESH, INDICATOR_MODE,
    INDICATOR_ON, MULTIPLEX, OFFSET, POWER_ON, REVERSE, Rig, START_LINE, UPSIDE_DOWN,
};
use crate::wide_rig::record;

/// The bytes of the order.
pub const BYTES: [u8; 16] = [
    0xF0, 0xF1, 0xF2, 0xF3, 0xF4, 0xF5, 0xF6, 0xF7, 0xF8, 0xF9, 0xFA, 0xFB, 0xFC, 0xFD, 0xFE, 0xFF,
];

/// The number of each command byte with no code awaited, by document 01's lists
/// and the order.
pub fn number_with_no_code_awaited(byte: u8) -> u8 {
    match byte {
        0x30..=0x3F
        | 0x80
        | 0x82..=0x9F
        | 0xD0..=0xD2
        | 0xD5..=0xDF
        | 0xE1
        | 0xE4..=0xED
        | 0xEF => 3,
        0xB9..=0xBF => 4,
        0xF0..=0xFF => 15,
        _ => 0,
    }
}

#[test]
fn each_command_byte_with_no_code_awaited_has_its_number() {
    for image in [POWER_ON, UPSIDE_DOWN, BUSY] {
        let mut counts = [0; 16];
        for byte in 0..=0xFF {
            let mut rig = Rig::with(image);
            rig.memory.fill(0x5A);
            let before = rig.clone();
            let number = rig.command(byte);
            assert_eq!(number, number_with_no_code_awaited(byte), "{byte:02X}");
            assert!(number == 0 || rig == before, "{byte:02X}");
            counts[usize::from(number)] += 1;
        }
        // 16 + 1 + 30 + 3 + 11 + 1 + 10 + 1 bytes keep 3.
        assert_eq!(counts[3], 73);
        assert_eq!((counts[0], counts[4], counts[15]), (160, 7, 16));
    }
    assert_eq!(LAST_NUMBER, 15);
}

/// Every byte as n: D3 allows 00 to 3F, D4 four of them, the others all; none
/// is ever 15.
#[test]
fn no_n_is_refused_for_test_mode() {
    for code in [0x81, 0xA8, 0xA9, 0xAD, 0xD3, 0xD4] {
        for fresh in [0, 1] {
            for n in 0..=0xFF {
                let mut rig = Rig::with(BUSY);
                rig.state[AWAITED] = code;
                rig.state[FRESH] = fresh;
                let before = rig.clone();
                let number = match (code, n) {
                    (0xD3, 0x00..=0x3F) | (0xD4, 0x00 | 0x10 | 0x20 | 0x30) => 0,
                    (0xD3 | 0xD4, _) => 5,
                    _ => 0,
                };
                assert_eq!(rig.command(n), number, "{code:02X} {n:02X}");
                assert_eq!(rig == before, number == 5, "{code:02X} {n:02X}");
            }
        }
    }
}

/// F0 is 240, which is 3 * 64 + 48 and 60 * 4.
#[test]
fn the_bytes_of_test_mode_do_what_n_does() {
    for byte in BYTES {
        let step = byte - 0xF0;
        for (code, changes) in [
            (0x81, vec![(CONTRAST, 48 + step)]),
            (0xA8, vec![(MULTIPLEX, 48 + step)]),
            (0xA9, vec![(BYTE_OF_A9, byte)]),
            (0xAD, vec![(INDICATOR_ON, 1), (INDICATOR_MODE, step % 4)]),
        ] {
            let mut rig = Rig::after(&[code, byte]);
            let mut expected = Rig::power_on();
            for (field, value) in changes {
                expected.state[field] = value;
            }
            assert_eq!(rig, expected, "{code:02X} {byte:02X}");
            // Once n is taken the same byte is a command again.
            assert_eq!(rig.command(byte), 15);
            assert_eq!(rig, expected);
        }
        let mut rig = Rig::after(&[0xD3]);
        assert_eq!([rig.command(byte), rig.command(byte)], [5, 5]);
        assert_eq!(rig.command(0x07), 0);
        assert_eq!((rig.state[OFFSET], rig.command(byte)), (7, 15));
    }
}

/// Every event there is, with every command byte.
fn every_event() -> Vec<Event> {
    let mut events: Vec<Event> = (0..=0xFF).map(Command).collect();
    events.extend([Write(0xF3), Read, Reset]);
    events
}

/// What follows a refused byte is met as if that byte had not come.
#[test]
fn the_event_after_a_refused_byte_meets_what_stood_before_it() {
    let mut above_131 = POWER_ON;
    above_131[COLUMN] = 132;
    for image in [POWER_ON, BUSY, above_131] {
        for event in every_event() {
            let mut alone = Rig::with(image);
            let answer = alone.event(event);
            for byte in BYTES {
                let mut rig = Rig::with(image);
                assert_eq!([rig.command(byte), rig.command(byte)], [15, 15]);
                assert_eq!(rig.event(event), answer, "{byte:02X}, then {event:?}");
                assert_eq!(rig, alone, "{byte:02X}, then {event:?}");
            }
        }
    }
}

/// "F0 81 C5 in single events is 15, then contrast 5": F0 awaits nothing.
#[test]
fn a_refused_byte_awaits_no_n_and_leaves_fresh() {
    let mut rig = Rig::with(BUSY);
    rig.memory[6 * 132 + 0x5A] = 0xF6;
    assert_eq!(rig.command(0xF0), 15);
    assert_eq!((rig.state[AWAITED], rig.state[FRESH]), (0, 0));
    // Fresh 0: no dummy read.
    assert_eq!(rig.read(), (0, 0xF6, false));
    assert_eq!(rig.command(0xFF), 15);
    rig.commands(&[0x81, 0xC5]);
    assert_eq!(rig.state[CONTRAST], 5);
    assert_eq!(rig.command(0xF0), 15);
    assert_eq!(rig.read(), (0, 0, true));
}

#[test]
fn a_refused_byte_changes_no_frame() {
    let mut rig = Rig::after(&[0xAF, 0xA7]);
    rig.memory[7] = 0x81;
    let frame = rig.frame();
    for byte in BYTES {
        assert_eq!(rig.command(byte), 15);
        assert!(rig.frame() == frame);
    }
}

/// 1 and then 2 go before it, for every length and with and without a code.
#[test]
fn short_buffers_and_illegal_images_go_before_it() {
    for (turn, byte) in BYTES.into_iter().enumerate() {
        for state_length in [0, 1, 22, 23, 24, 40] {
            for memory_length in [0, 1, 1187, 1188, 1189, 1300] {
                for multiplex in [63, 64] {
                    let mut rig = Rig::power_on();
                    rig.state[MULTIPLEX] = multiplex;
                    rig.state.resize(state_length, 0x99);
                    rig.memory.resize(memory_length, 0x99);
                    let before = rig.clone();
                    let number = match (state_length < 23 || memory_length < 1188, multiplex) {
                        (true, _) => 1,
                        (false, 64) => 2,
                        (false, _) => 15,
                    };
                    assert_eq!(rig.command(byte), number);
                    assert_eq!(rig, before);
                    // In a run so many E3 go before it, if the run begins at all.
                    let offset = if number == 15 { 4 + turn } else { 0 };
                    let commands = [vec![0xE3; turn], vec![byte]].concat();
                    assert_eq!(rig.run(&record(1, &commands)), (number, offset, 0));
                }
            }
        }
    }
}

/// An image is asked whole before the byte is: an awaited code that is none is
/// 2, F0 to FF among them, and so is any other field.
#[test]
fn an_image_out_of_range_in_any_field_is_2() {
    for byte in BYTES {
        for awaited in 0..=0xFF {
            let mut image = POWER_ON;
            image[AWAITED] = awaited;
            let number = match awaited {
                0x00 => 15,
                0x81 | 0xA8 | 0xA9 | 0xAD => 0,
                0xD3 | 0xD4 => 5,
                _ => 2,
            };
            assert_eq!(Rig::with(image).command(byte), number, "{awaited:02X}");
        }
        // All but column, byte of A9 and saved column, which take FF.
        for field in (0..23).filter(|field| ![1, 10, 21].contains(field)) {
            let mut image = BUSY;
            image[field] = 0xFF;
            assert_eq!(Rig::with(image).command(byte), 2, "field {field}");
        }
    }
}

/// Written, read and compared they are data.
#[test]
fn as_data_they_are_data() {
    for byte in BYTES {
        let mut rig = Rig::power_on();
        assert_eq!(rig.write(byte), 0);
        assert_eq!(rig.memory[0], byte);
        rig.commands(&[0x00]);
        assert_eq!(rig.read(), (0, 0, true));
        assert_eq!(rig.read(), (0, byte, false));
        // Column 0; FF is recorded of the dummy read, which is not compared.
        let trace = [record(1, &[0x00]), record(3, &[0xFF, byte])].concat();
        assert_eq!(rig.run(&trace), (0, 11, 2));
        let differing = [record(1, &[0x00]), record(3, &[0xFF, byte ^ 1])].concat();
        assert_eq!(rig.run(&differing), (10, 10, 1));
        // 6 and 7 as with any other byte.
        assert_eq!(Rig::after(&[0x81]).write(byte), 6);
        assert_eq!(Rig::after(&[0x0F, 0x18]).write(byte), 7);
    }
}

/// A record of commands and where its run stops; a record begins after the ones
/// before it, and its payload 4 bytes later.
#[test]
fn a_run_tells_the_byte_and_the_whole_records_before_it() {
    for byte in BYTES {
        for (records, answer) in [
            (vec![record(1, &[byte])], (15, 4, 0)),
            (vec![record(1, &[0x45, 0xE3, byte])], (15, 6, 0)),
            (vec![record(1, &[0x45, byte, 0x46])], (15, 5, 0)),
            (vec![record(4, &[]), record(1, &[byte, 0x46])], (15, 8, 1)),
            (vec![record(1, &[]), record(1, &[0xE3, byte])], (15, 9, 1)),
            (vec![record(1, &[byte, byte])], (15, 4, 0)),
            // The second of two is no n's.
            (vec![record(1, &[0xA9, byte, byte])], (15, 6, 0)),
            (vec![record(1, &[0xA9]), record(1, &[byte])], (0, 10, 2)),
            (
                vec![record(1, &[0xA9]), record(1, &[byte, 0xE3, byte])],
                (15, 11, 1),
            ),
            // Not allowed as an offset.
            (vec![record(1, &[0xD3]), record(1, &[byte])], (5, 9, 1)),
            // A neighbour below the range is 3, and the first refused byte tells.
            (vec![record(1, &[0xEF, byte])], (3, 4, 0)),
            (vec![record(1, &[byte, 0xEF])], (15, 4, 0)),
            (vec![record(1, &[0xB9, byte])], (4, 4, 0)),
            // One byte is left after it, which no header is looked for in.
            (vec![record(1, &[byte]), vec![0x00]], (15, 4, 0)),
            // Headers go first.
            (vec![vec![2, 0, 1, 0, byte]], (8, 0, 0)),
            (vec![record(0x0101, &[byte])], (9, 0, 0)),
            (vec![record(4, &[byte])], (9, 0, 0)),
            (vec![record(5, &[byte])], (9, 0, 0)),
            (vec![record(byte.into(), &[])], (9, 0, 0)),
        ] {
            let trace = records.concat();
            assert_eq!(Rig::power_on().run(&trace), answer, "{trace:02X?}");
        }
    }
}

/// The reset pin undoes AF, 45 stands though its record is not done, and neither
/// 46 nor the next record is obeyed.
#[test]
fn what_came_before_the_refused_byte_stands() {
    for byte in BYTES {
        let mut rig = Rig::with(BUSY);
        let trace = [
            record(1, &[0xAF]),
            record(4, &[]),
            record(2, &[0xF1]),
            record(1, &[0x45, byte, 0x46]),
            record(1, &[0xAF]),
            record(2, &[0x77]),
        ];
        // 5, 4 and 5 bytes, then 4 of a header and 45.
        assert_eq!(rig.run(&trace.concat()), (15, 19, 3));
        let mut expected = Rig::power_on();
        expected.state[START_LINE] = 5;
        expected.state[COLUMN] = 1;
        expected.memory[0] = 0xF1;
        assert_eq!(rig, expected, "{byte:02X}");
    }
}

/// A code that the lent image awaits makes the first byte of a run its n.
#[test]
fn a_run_may_begin_with_n() {
    let mut image = POWER_ON;
    image[AWAITED] = 0xA9;
    let mut rig = Rig::with(image);
    assert_eq!(rig.run(&record(1, &[0xF4, 0xF5])), (15, 5, 0));
    assert_eq!((rig.state[BYTE_OF_A9], rig.state[AWAITED]), (0xF4, 0));
    image[AWAITED] = 0xD4;
    let mut rig = Rig::with(image);
    assert_eq!(rig.run(&record(1, &[0xF0, 0x10])), (5, 4, 0));
    assert_eq!(rig.state[AWAITED], 0xD4);
}

/// What the listing program prints, from the new start and from the old.
fn listed(trace: &[u8]) -> [String; 2] {
    [Start::UpsideDown, Start::Upright].map(|start| listing::listing(start, trace))
}

/// Document 01's trace has 11 bytes; a record's payload begins at 15.
#[test]
fn the_listing_prints_the_number_and_the_frame_as_it_is() {
    const UPSIDE_DOWN: &str = "frame 132 65\n62 131-131\n63 130-131\nend\n";
    const UPRIGHT: &str = "frame 132 65\n0 0-1\n1 0-0\nend\n";
    const DARK: &str = "frame 132 65\nend\n";
    let with_line = |line: &str| [UPSIDE_DOWN, UPRIGHT].map(|frame| format!("{line}{frame}"));
    for byte in BYTES {
        let after = |commands: &[u8]| [&DOCUMENT_TRACE[..], &record(1, commands)].concat();
        assert_eq!(
            listed(&after(&[byte])),
            with_line("refused 15 at 15\n"),
            "{byte:02X}"
        );
        // Display off and all lit come too late.
        assert_eq!(
            listed(&after(&[0xE3, 0xE3, byte, 0xAE, 0xA5])),
            with_line("refused 15 at 17\n")
        );
        assert_eq!(
            listed(&after(&[0xE3, 0x9F, byte])),
            with_line("refused 3 at 16\n")
        );
        assert_eq!(listed(&after(&[0xA9, byte])), with_line(""));
        let before = [record(1, &[byte]), DOCUMENT_TRACE.to_vec()].concat();
        let dark = format!("refused 15 at 4\n{DARK}");
        assert_eq!(listed(&before), [dark.clone(), dark]);
    }
}

#[test]
fn the_listing_of_the_longest_trace_can_end_with_it() {
    let commands = [vec![0xE3; 65_531], vec![0xFF]].concat();
    let mut trace = record(1, &commands);
    assert_eq!(trace.len(), 65_536);
    let refused = "refused 15 at 65535\nframe 132 65\nend\n";
    assert_eq!(listed(&trace), [refused, refused]);
    trace.push(0xF0);
    assert_eq!(listed(&trace), ["input too long\n", "input too long\n"]);
}

/// The start call is lent what a refused byte left, and asks none of it.
#[test]
fn a_start_and_a_reset_come_after_it_as_ever() {
    for (start, image) in [(Start::UpsideDown, UPSIDE_DOWN), (Start::Upright, POWER_ON)] {
        let mut rig = Rig::with(BUSY);
        assert_eq!(rig.command(0xF0), 15);
        assert_eq!(start::call(start, &mut rig.state, &mut rig.memory), 0);
        assert_eq!(rig.state, image);
        assert_eq!(rig.command(0xFF), 15);
        assert_eq!((rig.state[DISPLAY_ON], rig.state[REVERSE]), (0, 0));
        assert_eq!(rig.reset(), 0);
        assert_eq!(rig.state, POWER_ON);
    }
}
