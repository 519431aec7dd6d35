//! Order 4: the wide frame, one page, and the wide listing.

use oracle::listing::wide_listing;
use oracle::random::Random;
use oracle::start::Start;
use oracle::wide::Side;
use oracle::wide::page;

use crate::rig::{DISPLAY_ON, DOCUMENT_TRACE, MULTIPLEX, POWER_ON};
use crate::wide_rig::{BOTH, LEFT, RIGHT, WideRig, record, select};

/// Power-on with both displays on.
fn lit_rig() -> WideRig {
    WideRig::after(&[0xAF], &[0xAF])
}

/// "65 rows of 264, left then right": single bits at the ends of both chips.
#[test]
fn each_row_is_the_lefts_and_then_the_rights() {
    for (byte, row, column) in [(0, 0, 0), (131, 0, 131), (1055, 56, 131), (1056, 64, 0)] {
        let mut rig = lit_rig();
        rig.left.memory[byte] = 0x01;
        assert_eq!(rig.lit(), [(row, column)]);
        let mut rig = lit_rig();
        rig.right.memory[byte] = 0x01;
        assert_eq!(rig.lit(), [(row, 132 + column)]);
    }
    // Row 1 of the left's column 131 and of the right's column 0: 264 + 131 and
    // the place after it.
    let mut rig = lit_rig();
    rig.left.memory[131] = 0x02;
    rig.right.memory[0] = 0x02;
    let frame = rig.frame();
    assert_eq!(frame.len(), 17_160);
    let lit: Vec<usize> = (0..17_160).filter(|place| frame[*place] == 1).collect();
    assert_eq!(lit, [395, 396]);
}

#[test]
fn each_half_is_drawn_from_its_own_registers() {
    // Display off is dark in its half alone; A5 lights the other.
    let rig = WideRig::after(&[], &[0xAF, 0xA5]);
    let all_right: Vec<(usize, usize)> = (0..65)
        .flat_map(|row| (132..264).map(move |place| (row, place)))
        .collect();
    assert_eq!(rig.lit(), all_right);
    // 16 rows in use in the left, one in the right; the icons in both.
    let rig = WideRig::after(&[0xAF, 0xA5, 0xA8, 0x0F], &[0xAF, 0xA5, 0xA8, 0x00]);
    let mut expected: Vec<(usize, usize)> = Vec::new();
    for row in (24..40).chain([64]) {
        expected.extend((0..132).map(|place| (row, place)));
    }
    for row in [31, 64] {
        expected.extend((132..264).map(|place| (row, place)));
    }
    expected.sort_unstable();
    assert_eq!(rig.lit(), expected);
    // The start line of one chip moves its half: RAM row 3 is at panel row 0.
    let mut rig = WideRig::after(&[0xAF, 0x43], &[0xAF]);
    rig.left.memory[7] = 0x08;
    rig.right.memory[7] = 0x08;
    assert_eq!(rig.lit(), [(0, 7), (3, 139)]);
}

/// A column direction turns the 132 places of its half, and no half goes to
/// the other side.
#[test]
fn columns_are_turned_within_their_half() {
    for (left, right, lit) in [
        (0xA0, 0xA0, [(0, 2), (0, 134)]),
        (0xA1, 0xA0, [(0, 129), (0, 134)]),
        (0xA0, 0xA1, [(0, 2), (0, 261)]),
        (0xA1, 0xA1, [(0, 129), (0, 261)]),
    ] {
        let mut rig = WideRig::after(&[0xAF, left], &[0xAF, right]);
        rig.left.memory[2] = 0x01;
        rig.right.memory[2] = 0x01;
        assert_eq!(rig.lit(), lit);
    }
}

/// Each half is the frame of its chip alone, whatever the registers.
#[test]
fn each_half_is_the_frame_of_its_chip() {
    let mut rig = WideRig::after(&[0xAF, 0xA8, 0x1E, 0xD3, 0x0B], &[0xAF, 0xA7, 0xC8, 0xA1]);
    Random::new(4, 8580).fill(&mut rig.left.memory);
    Random::new(5, 8580).fill(&mut rig.right.memory);
    let frame = rig.frame();
    for (row, places) in frame.chunks(264).enumerate() {
        assert_eq!(places[..132], rig.left.row(row));
        assert_eq!(places[132..], rig.right.row(row));
    }
}

/// "Demand 3 holds for each half": with M = 64 each bit shows at one place,
/// and that is of its chip's half.
#[test]
fn each_bit_shows_at_one_place_of_its_half() {
    let dark = lit_rig();
    let mut places_left = vec![false; 17_160];
    for bit in (0..8580).step_by(13) {
        // Pages 0 to 7 have eight bits a byte, page 8 has one.
        let (byte, mask) = if bit < 8448 {
            (bit / 8, 1 << (bit % 8))
        } else {
            (1056 + bit - 8448, 1)
        };
        for (side, half) in [(LEFT, 0..132), (RIGHT, 132..264)] {
            let mut rig = dark.clone();
            let chip = if side == LEFT {
                &mut rig.left
            } else {
                &mut rig.right
            };
            chip.memory[byte] = mask;
            let lit = rig.lit();
            let [(row, place)] = lit[..] else {
                panic!("bit {bit} shows at {} places", lit.len());
            };
            assert!(half.contains(&place));
            assert!(!std::mem::replace(
                &mut places_left[264 * row + place],
                true
            ));
        }
    }
}

/// "17,160 bytes, and that is the frame length refusal 1 asks for here."
#[test]
fn a_frame_is_too_short_below_17_160() {
    for length in [0, 1, 8580, 8581, 17_159] {
        let mut frame = vec![9; length];
        assert_eq!(lit_rig().draw(&mut frame), 1);
        assert_eq!(frame, vec![9; length]);
    }
    for length in [17_160, 17_161, 20_000] {
        let mut frame = vec![9; length];
        assert_eq!(lit_rig().draw(&mut frame), 0);
        assert_eq!(frame[..17_160], vec![0; 17_160]);
        assert_eq!(frame[17_160..], vec![9; length - 17_160]);
    }
}

#[test]
fn a_drawing_asks_four_buffers_and_then_both_images() {
    let refused = |rig: &WideRig| {
        let mut frame = vec![9; 17_160];
        let number = rig.draw(&mut frame);
        assert_eq!(frame, vec![9; 17_160]);
        number
    };
    let mut hostile = POWER_ON;
    hostile[DISPLAY_ON] = 2;
    for (left, right) in [(hostile, POWER_ON), (POWER_ON, hostile), (hostile, hostile)] {
        let rig = WideRig::with(left, right);
        assert_eq!(refused(&rig), 2);
        // A frame too short goes first.
        assert_eq!(rig.draw(&mut [9; 100]), 1);
        for short in 0..4 {
            let mut rig = rig.clone();
            match short {
                0 => rig.left.state.truncate(22),
                1 => rig.left.memory.truncate(1187),
                2 => rig.right.state.truncate(22),
                _ => rig.right.memory.truncate(1187),
            }
            assert_eq!(refused(&rig), 1);
        }
    }
    let mut rig = lit_rig();
    rig.right.state[MULTIPLEX] = 64;
    assert_eq!(refused(&rig), 2);
}

/// Number of a page call, and where its part lies in the memory named.
fn page_at(left: &[u8], right: &[u8], side: Side, page: u8) -> (u8, Option<(usize, usize)>) {
    let answer = page::call(left, right, side, page);
    let memory = if side == Side::Left { left } else { right };
    let within = memory.as_ptr_range().contains(&answer.part.as_ptr());
    let place = (within && !answer.part.is_empty()).then(|| {
        let first = answer.part.as_ptr().addr() - memory.as_ptr().addr();
        (first, answer.part.len())
    });
    assert_eq!(place.is_none(), answer.part.is_empty());
    (answer.number, place)
}

/// "As a part of the caller's buffer with nothing copied."
#[test]
fn a_page_is_a_part_of_the_memory_named() {
    let (mut left, mut right) = (vec![0; 1188], vec![0; 1300]);
    Random::new(4, 1188).fill(&mut left);
    Random::new(5, 1188).fill(&mut right);
    for side in [Side::Left, Side::Right] {
        for page in 0..=8 {
            let first = 132 * usize::from(page);
            assert_eq!(page_at(&left, &right, side, page), (0, Some((first, 132))));
            let memory = if side == Side::Left { &left } else { &right };
            let part = page::call(&left, &right, side, page).part;
            // Page 8 too as it lies, whatever is above bit 0.
            assert_eq!(part, &memory[first..first + 132]);
        }
    }
}

/// "4 for a page above 8 in the page call, after 1; a refused page call hands
/// back an empty part."
#[test]
fn a_refused_page_call_hands_back_nothing() {
    let memory = vec![0xFF; 1188];
    for side in [Side::Left, Side::Right] {
        for page in 9..=0xFF {
            assert_eq!(page_at(&memory, &memory.clone(), side, page), (4, None));
        }
        for page in [0, 8, 9, 0xFF] {
            for short in [0, 1, 132, 1056, 1187] {
                for (left, right) in [(short, 1188), (1188, short), (short, short), (3000, short)] {
                    let (left, right) = (vec![1; left], vec![2; right]);
                    assert_eq!(page_at(&left, &right, side, page), (1, None));
                }
            }
        }
    }
}

/// Document 01's trace to both chips, from each start.
#[test]
fn document_01s_trace_listed_wide() {
    assert_eq!(
        wide_listing(Start::Upright, &DOCUMENT_TRACE),
        "frame 264 65\n0 0-1 132-133\n1 0-0 132-132\nend\n"
    );
    assert_eq!(
        wide_listing(Start::UpsideDown, &DOCUMENT_TRACE),
        "frame 264 65\n62 131-131 263-263\n63 130-131 262-263\nend\n"
    );
    for start in Start::ALL {
        assert_eq!(wide_listing(start, &[]), "frame 264 65\nend\n");
    }
}

/// The left's column 131 and the right's column 0 are neighbours from the old
/// start; from the new one they are at the outer edges.
#[test]
fn a_run_may_cross_the_middle() {
    let trace = [
        record(1, &[0xAF]),
        select(LEFT),
        record(1, &[0x02, 0x18]),
        record(2, &[0x01, 0x01]),
        select(RIGHT),
        record(2, &[0x01]),
    ]
    .concat();
    assert_eq!(
        wide_listing(Start::Upright, &trace),
        "frame 264 65\n0 130-132\nend\n"
    );
    assert_eq!(
        wide_listing(Start::UpsideDown, &trace),
        "frame 264 65\n63 0-1 263-263\nend\n"
    );
    // Everything lit is one run a row.
    let rows: Vec<String> = (0..65).map(|row| format!("{row} 0-263\n")).collect();
    let expected = format!("frame 264 65\n{}end\n", rows.concat());
    for start in Start::ALL {
        assert_eq!(wide_listing(start, &record(1, &[0xAF, 0xA5])), expected);
    }
}

/// The reset pin makes one chip's directions 0 and leaves the other's.
#[test]
fn a_reset_of_one_chip_turns_its_half_alone() {
    for (selection, upside_down) in [
        (LEFT, "0 0-1\n1 0-0\n62 263-263\n63 262-263\n"),
        (RIGHT, "0 132-133\n1 132-132\n62 131-131\n63 130-131\n"),
        (BOTH, "0 0-1 132-133\n1 0-0 132-132\n"),
    ] {
        let trace = [
            select(selection),
            record(4, &[]),
            select(BOTH),
            DOCUMENT_TRACE.to_vec(),
        ]
        .concat();
        assert_eq!(
            wide_listing(Start::UpsideDown, &trace),
            format!("frame 264 65\n{upside_down}end\n")
        );
        assert_eq!(
            wide_listing(Start::Upright, &trace),
            "frame 264 65\n0 0-1 132-133\n1 0-0 132-132\nend\n"
        );
    }
}

/// What came before the stop is in both halves, what comes after in neither.
#[test]
fn a_stopped_wide_run_is_told_first() {
    let before = [DOCUMENT_TRACE.to_vec(), select(RIGHT), record(1, &[0xAE])].concat();
    for (refused, line) in [
        // The document's trace has 11 bytes, the two records after it 10.
        (select(0), "refused 13 at 21\n"),
        (record(5, &[]), "refused 13 at 21\n"),
        (
            [select(BOTH), record(3, &[0])].concat(),
            "refused 14 at 30\n",
        ),
        (record(6, &[]), "refused 9 at 21\n"),
        (vec![0x01, 0x00, 0x05, 0x00], "refused 8 at 21\n"),
        (record(1, &[0xE3, 0x80]), "refused 3 at 26\n"),
    ] {
        let trace = [&before[..], &refused, &record(1, &[0xA5])].concat();
        let trace = if line.contains(" 8 ") {
            [&before[..], &refused].concat()
        } else {
            trace
        };
        assert_eq!(
            wide_listing(Start::Upright, &trace),
            format!("{line}frame 264 65\n0 0-1\n1 0-0\nend\n")
        );
    }
}

#[test]
fn a_wide_trace_of_more_than_65_536_bytes_is_too_long() {
    let mut trace = DOCUMENT_TRACE.to_vec();
    // 16,381 reset records make 65,535 bytes; the next byte is cut short.
    trace.extend([0x00, 0x00, 0x04, 0x00].repeat(16_381));
    assert_eq!(trace.len(), 65_535);
    trace.push(0);
    for start in Start::ALL {
        assert_eq!(
            wide_listing(start, &trace),
            "refused 8 at 65535\nframe 264 65\nend\n"
        );
    }
    trace.push(0);
    for start in Start::ALL {
        assert_eq!(wide_listing(start, &trace), "input too long\n");
    }
}
