//! Order 6 at the wide terminal, and what the stream of cases has of it.

use oracle::cases::wide::{Buffers, WideDraw, WideRun, WideSingle};
use oracle::cases::{Case, Listing, Run, Sequence, Single};
use oracle::coverage::Coverage;
use oracle::event::Event::{Command, Read, Reset, Write};
use oracle::listing;
use oracle::start::Start;
use oracle::stream::{Plan, each_case};
use oracle::wide::{Side, page};

use crate::rig::{
    AWAITED, BUSY, BYTE_OF_A9, COLUMN, CONTRAST, DOCUMENT_TRACE, FRESH, INDICATOR_MODE,
    INDICATOR_ON, MULTIPLEX, POWER_ON, ROW_DIRECTION, Rig, START_LINE,
};
use crate::test_mode::{BYTES, number_with_no_code_awaited};
use crate::wide_rig::{BOTH, LEFT, RIGHT, WideRig, record, select};

/// What a chip can await: nothing, or one of the codes.
const AWAITED_CODES: [u8; 7] = [0x00, 0x81, 0xA8, 0xA9, 0xAD, 0xD3, 0xD4];

/// A busy image that awaits this.
fn awaiting(code: u8) -> [u8; 23] {
    let mut image = BUSY;
    image[AWAITED] = code;
    image
}

/// The number that a chip awaiting this gives a byte of test mode.
fn number_of(code: u8) -> u8 {
    match code {
        0x00 => 15,
        0xD3 | 0xD4 => 5,
        _ => 0,
    }
}

/// A chip that took a byte of test mode as n of this code.
fn with_n_taken(code: u8, byte: u8) -> Rig {
    let mut rig = Rig::with(BUSY);
    match code {
        0x81 => rig.state[CONTRAST] = byte - 192,
        0xA8 => rig.state[MULTIPLEX] = byte - 192,
        0xA9 => rig.state[BYTE_OF_A9] = byte,
        _ => {
            rig.state[INDICATOR_ON] = 1;
            rig.state[INDICATOR_MODE] = byte % 4;
        }
    }
    rig.state[FRESH] = 1;
    rig
}

/// Every mixture of what the two chips await, every byte, every selection: the
/// number of the one selected; of both the left's, or the right's if the left
/// takes it; taken it changes those selected, refused neither.
#[test]
fn every_mixture_of_awaited_codes_under_every_selection() {
    for left in AWAITED_CODES {
        for right in AWAITED_CODES {
            let numbers = [number_of(left), number_of(right)];
            for byte in BYTES {
                for selection in [LEFT, RIGHT, BOTH] {
                    let number = match selection {
                        LEFT => numbers[0],
                        RIGHT => numbers[1],
                        _ if numbers[0] == 0 => numbers[1],
                        _ => numbers[0],
                    };
                    let mut rig = WideRig::with(awaiting(left), awaiting(right));
                    let mut expected = rig.clone();
                    if number == 0 && selection != RIGHT {
                        expected.left = with_n_taken(left, byte);
                    }
                    if number == 0 && selection != LEFT {
                        expected.right = with_n_taken(right, byte);
                    }
                    let said = rig.number(selection, Command(byte));
                    assert_eq!(said, number, "{left:02X} {right:02X} {selection}");
                    assert_eq!(rig, expected, "{left:02X} {right:02X} {selection}");
                }
            }
        }
    }
}

/// Every command byte to two chips of which neither awaits a code.
#[test]
fn each_command_byte_to_both_with_no_code_awaited() {
    for byte in 0..=0xFF {
        let number = number_with_no_code_awaited(byte);
        for selection in [LEFT, RIGHT, BOTH] {
            let mut rig = WideRig::busy();
            assert_eq!(rig.number(selection, Command(byte)), number, "{byte:02X}");
            assert!(number == 0 || rig == WideRig::busy(), "{byte:02X}");
        }
    }
}

/// 1 asks all four buffers, then 2 both images, then 13 the selection.
#[test]
fn short_buffers_illegal_images_and_wrong_selections_go_before_it() {
    for (turn, byte) in BYTES.into_iter().enumerate() {
        for selection in [0, LEFT, RIGHT, BOTH, 4, byte] {
            let none = ![LEFT, RIGHT, BOTH].contains(&selection);
            let mut rig = WideRig::power_on();
            let number = if none { 13 } else { 15 };
            assert_eq!(rig.refused(selection, Command(byte)), number);
            for (left, right) in [(64, 63), (63, 64), (64, 64)] {
                rig.left.state[MULTIPLEX] = left;
                rig.right.state[MULTIPLEX] = right;
                assert_eq!(rig.refused(selection, Command(byte)), 2);
                let mut short = rig.clone();
                match turn % 4 {
                    0 => short.left.state.truncate(22),
                    1 => short.left.memory.truncate(1187),
                    2 => short.right.state.truncate(22),
                    _ => short.right.memory.truncate(1187),
                }
                assert_eq!(short.refused(selection, Command(byte)), 1);
                assert_eq!(short.run(&record(1, &[byte])), (1, 0, 0));
                assert_eq!(rig.run(&record(1, &[byte])), (2, 0, 0));
            }
        }
    }
}

/// After a refused byte the chips are met as they were, by each event.
#[test]
fn the_event_after_a_refused_byte_meets_both_chips_as_they_were() {
    for (left, right) in [(0x00, 0x81), (0x81, 0x00), (0x00, 0xD3), (0x00, 0x00)] {
        for selection in [LEFT, RIGHT, BOTH] {
            for event in [Command(0x05), Command(0xF3), Write(0xF3), Read, Reset] {
                let mut alone = WideRig::with(awaiting(left), awaiting(right));
                let mut rig = alone.clone();
                assert_eq!(rig.number(BOTH, Command(0xF8)), 15);
                assert_eq!(rig.event(selection, event), alone.event(selection, event));
                assert_eq!(rig, alone);
            }
        }
    }
}

/// A selection, a code for one chip and a selection of both have 5 bytes each;
/// the payload of the next record begins at 19.
fn after_a_code(selection: u8, code: u8, commands: &[u8]) -> Vec<u8> {
    let records = [
        select(selection),
        record(1, &[code]),
        select(BOTH),
        record(1, commands),
        record(1, &[0x7F]),
    ];
    records.concat()
}

/// C5 is contrast 5 to the one and rows normal to the other, then neither awaits
/// a code.
#[test]
fn a_wide_run_stops_in_the_middle_of_a_record() {
    for byte in BYTES {
        let mut rig = WideRig::power_on();
        let trace = after_a_code(LEFT, 0x81, &[0xC5, 0x49, byte, 0x4A]);
        assert_eq!(rig.run(&trace), (15, 21, 3));
        let mut expected = WideRig::after(&[0x81, 0xC5, 0x49], &[0xC5, 0x49]);
        assert_eq!(rig, expected);
        assert_eq!(rig.left.state[CONTRAST], 5);
        assert_eq!(rig.right.state[ROW_DIRECTION], 0);
        // One selected: the other does not get 4B, and its code is not asked.
        let one = [
            select(RIGHT),
            record(1, &[0x81]),
            select(LEFT),
            record(1, &[0x4B, byte]),
        ];
        assert_eq!(rig.run(&one.concat()), (15, 20, 3));
        expected.left.state[START_LINE] = 11;
        expected.right.state[AWAITED] = 0x81;
        assert_eq!(rig, expected);
    }
}

/// In one record A9 is n to the one chip and a code to the other; then the byte
/// is a command to the one and would be n to the other.
#[test]
fn a_byte_is_refused_by_one_chip_and_no_n_to_the_other() {
    for byte in BYTES {
        let mut rig = WideRig::power_on();
        assert_eq!(
            rig.run(&after_a_code(LEFT, 0x81, &[0xA9, byte])),
            (15, 20, 3)
        );
        // A9 is 169, which is 2 * 64 + 41.
        assert_eq!(rig, WideRig::after(&[0x81, 0xA9], &[0xA9]));
        assert_eq!(rig.left.state[CONTRAST], 41);
        assert_eq!(rig.right.state[BYTE_OF_A9], 0);
        let mut rig = WideRig::power_on();
        assert_eq!(
            rig.run(&after_a_code(RIGHT, 0x81, &[0xA9, byte])),
            (15, 20, 3)
        );
        assert_eq!(rig, WideRig::after(&[0xA9], &[0x81, 0xA9]));
    }
}

/// The number is the left's where both refuse, the right's where it alone does.
#[test]
fn the_number_of_a_wide_run_is_the_lefts_where_both_refuse() {
    for byte in BYTES {
        for (selection, code, commands, number) in [
            (LEFT, 0xD3, &[byte][..], 5),
            (RIGHT, 0xD3, &[byte], 15),
            (LEFT, 0xD4, &[byte], 5),
            (RIGHT, 0xD4, &[byte], 15),
            (LEFT, 0xAD, &[byte], 15),
            (RIGHT, 0xAD, &[byte], 15),
        ] {
            let mut rig = WideRig::power_on();
            let trace = after_a_code(selection, code, commands);
            assert_eq!(rig.run(&trace), (number, 19, 3));
            let mut expected = WideRig::power_on();
            expected.commands(selection, &[code]);
            assert_eq!(rig, expected);
        }
        // Both await a code: it is n to both, and then a command to both.
        let both = record(1, &[0xA9, byte, 0x05, byte]);
        let mut rig = WideRig::power_on();
        assert_eq!(rig.run(&both), (15, 7, 0));
        for chip in [&rig.left, &rig.right] {
            assert_eq!((chip.state[BYTE_OF_A9], chip.state[COLUMN]), (byte, 5));
        }
    }
}

/// Of a wide trace too the header goes first, and a selection is 13.
#[test]
fn headers_of_a_wide_trace_go_before_it() {
    for byte in BYTES {
        for (trace, answer) in [
            (vec![2, 0, 1, 0, byte], (8, 0, 0)),
            (record(0x0105, &[byte]), (9, 0, 0)),
            (record(4, &[byte]), (9, 0, 0)),
            (record(5, &[byte]), (13, 0, 0)),
            (record(2, &[byte]), (0, 5, 1)),
            (record(3, &[byte]), (14, 4, 0)),
            ([select(1), record(3, &[byte])].concat(), (0, 10, 2)),
        ] {
            assert_eq!(WideRig::power_on().run(&trace), answer, "{trace:02X?}");
        }
    }
}

#[test]
fn a_page_from_f0_to_ff_is_4() {
    let memory = vec![0xF0; 1188];
    for byte in BYTES {
        for side in Side::ALL {
            let answer = page::call(&memory, &memory, side, byte);
            assert_eq!((answer.number, answer.part), (4, &[][..]));
        }
    }
}

/// What the wide listing prints, from the new start and from the old.
fn listed(trace: &[u8]) -> [String; 2] {
    [Start::UpsideDown, Start::Upright].map(|start| listing::wide_listing(start, trace))
}

/// Document 01's trace to both chips and then one refused byte under each
/// selection: 11 bytes, 5 of the selection, 4 of the header, E3.
#[test]
fn the_wide_listing_prints_the_number_and_both_halves() {
    const UPSIDE_DOWN: &str = "frame 264 65\n62 131-131 263-263\n63 130-131 262-263\nend\n";
    const UPRIGHT: &str = "frame 264 65\n0 0-1 132-133\n1 0-0 132-132\nend\n";
    for byte in BYTES {
        for selection in [LEFT, RIGHT, BOTH] {
            let trace = [
                DOCUMENT_TRACE.to_vec(),
                select(selection),
                record(1, &[0xE3, byte, 0xAE]),
            ];
            let refused = "refused 15 at 21\n";
            assert_eq!(
                listed(&trace.concat()),
                [UPSIDE_DOWN, UPRIGHT].map(|frame| format!("{refused}{frame}"))
            );
        }
    }
}

/// The left alone is drawn, and one chip awaits a code: of 81 the byte is n, so
/// the other refuses alone; of D4 it is none, so both refuse, and the left tells.
/// 5 + 11 + 5 + 5 + 5 + 4 bytes stand before it.
#[test]
fn a_wide_listing_where_one_chip_awaits_a_code() {
    const UPSIDE_DOWN: &str = "frame 264 65\n62 131-131\n63 130-131\nend\n";
    const UPRIGHT: &str = "frame 264 65\n0 0-1\n1 0-0\nend\n";
    for byte in BYTES {
        for (selection, code, number) in [
            (LEFT, 0x81, 15),
            (RIGHT, 0x81, 15),
            (LEFT, 0xD4, 5),
            (RIGHT, 0xD4, 15),
        ] {
            let trace = [
                select(LEFT),
                DOCUMENT_TRACE.to_vec(),
                select(selection),
                record(1, &[code]),
                select(BOTH),
                record(1, &[byte, 0xAF]),
            ];
            assert_eq!(
                listed(&trace.concat()),
                [UPSIDE_DOWN, UPRIGHT].map(|frame| format!("refused {number} at 35\n{frame}"))
            );
        }
    }
}

/// A case of each kind that can be refused for test mode, and its name.
fn refused_cases() -> Vec<(&'static str, Case)> {
    let state = POWER_ON.to_vec();
    let memory = vec![0; 1188];
    let chip = Buffers {
        state: state.clone(),
        memory: memory.clone(),
    };
    let pair = [chip.clone(), chip];
    let trace = record(1, &[0xF0]);
    let mut sequence = Sequence::new(POWER_ON, &[0; 1188]);
    sequence.push(Command(0xF0));
    let single = Single::new(state.clone(), memory.clone(), Command(0xF0));
    let wide_single = WideSingle::new(3, Command(0xF0), pair.clone());
    vec![
        ("single", Case::Single(single)),
        ("sequence", Case::Sequence(Box::new(sequence))),
        ("run", Case::Run(Run::new(state, memory, trace.clone()))),
        (
            "listing",
            Case::Listing(Listing::new(Start::Upright, trace.clone())),
        ),
        ("wide single", Case::WideSingle(wide_single)),
        ("wide run", Case::WideRun(WideRun::new(pair, trace.clone()))),
        (
            "wide listing",
            Case::WideListing(Listing::wide(Start::Upright, trace)),
        ),
    ]
}

/// Whether it is told that test mode is not reached in cases of this kind.
fn is_told(coverage: &Coverage, kind: &str) -> bool {
    let fault = format!("test mode, refused 15: {kind} not reached");
    coverage.faults().contains(&fault)
}

/// It is told of each kind by itself whether it reached the number, and of a
/// call that cannot give it that it did.
#[test]
fn what_is_not_reached_of_test_mode_is_told() {
    for (seen, case) in refused_cases() {
        let mut coverage = Coverage::new();
        coverage.see(&case);
        for (kind, _) in refused_cases() {
            assert_eq!(is_told(&coverage, kind), kind != seen, "{kind} by {seen}");
        }
        let byte =
            |byte: u8| format!("test mode, bytes refused 15: {seen}, {byte:02X} not reached");
        assert!(!coverage.faults().contains(&byte(0xF0)));
        assert!(coverage.faults().contains(&byte(0xF1)));
    }
    let mut coverage = Coverage::new();
    coverage.see(&Case::WideDraw(WideDraw {
        number: 15,
        ..WideDraw::new(
            [POWER_ON; 2].map(|image| Buffers {
                state: image.to_vec(),
                memory: Vec::new(),
            }),
            0,
            0,
        )
    }));
    let impossible = "numbers of wide draws: 15 impossible".to_string();
    assert!(coverage.faults().contains(&impossible));
}

/// The usual random cases reach the number in each kind without the sweep.
#[test]
fn random_cases_of_each_kind_reach_test_mode() {
    for seed in [1, 2] {
        let plan = Plan {
            sweep: false,
            ..Plan::usual(seed)
        };
        let mut coverage = Coverage::new();
        each_case(&plan, &mut |case| {
            coverage.see(&case);
            Ok(())
        })
        .unwrap();
        for (kind, _) in refused_cases() {
            assert!(!is_told(&coverage, kind), "{kind}, seed {seed}");
        }
    }
}
