//! Order 4: single events of the wide terminal.

use oracle::event::Event::{self, Command, Read, Reset, Write};

use crate::rig::{
    AWAITED, BUSY, COLUMN, CONTRAST, FRESH, MULTIPLEX, OFFSET, PAGE, POWER_ON, ROW_DIRECTION, Rig,
    START_LINE,
};
use crate::wide_rig::{BOTH, LEFT, RIGHT, WideRig};

/// One of each of the four events.
const EVENTS: [Event; 4] = [Command(0xE3), Write(0x5A), Read, Reset];

/// "Commands, writes and the reset pin go to each selected chip."
#[test]
fn a_command_goes_to_each_selected_chip() {
    for (selection, left, right) in [(LEFT, 5, 21), (RIGHT, 21, 5), (BOTH, 5, 5)] {
        let mut rig = WideRig::busy();
        rig.commands(selection, &[0x45]);
        assert_eq!(rig.left.state[START_LINE], left);
        assert_eq!(rig.right.state[START_LINE], right);
        // Fresh is set where the command went, and nowhere else.
        assert_eq!(rig.left.state[FRESH], u8::from(selection != RIGHT));
        assert_eq!(rig.right.state[FRESH], u8::from(selection != LEFT));
    }
}

/// Page 2, column 131 in the left; page 8, column 0 in the right.
#[test]
fn data_goes_to_each_chips_own_page_and_column() {
    for selection in [LEFT, RIGHT, BOTH] {
        let mut rig = WideRig::after(&[0xB2, 0x03, 0x18], &[0xB8]);
        let before = rig.clone();
        assert_eq!(rig.number(selection, Write(0xFF)), 0);
        if selection == RIGHT {
            assert_eq!(rig.left, before.left);
        } else {
            assert_eq!(rig.left.memory[2 * 132 + 131], 0xFF);
            assert_eq!(rig.left.state[COLUMN], 0);
        }
        if selection == LEFT {
            assert_eq!(rig.right, before.right);
        } else {
            assert_eq!(rig.right.memory[1056], 0x01);
            assert_eq!(rig.right.state[COLUMN], 1);
        }
    }
}

#[test]
fn the_reset_pin_resets_the_selected_chips_and_no_memory() {
    for (selection, left, right) in [
        (LEFT, POWER_ON, BUSY),
        (RIGHT, BUSY, POWER_ON),
        (BOTH, POWER_ON, POWER_ON),
    ] {
        let mut rig = WideRig::busy();
        rig.left.memory.fill(0xA1);
        rig.right.memory.fill(0xB2);
        assert_eq!(rig.number(selection, Reset), 0);
        assert_eq!(
            (&rig.left.state[..], &rig.right.state[..]),
            (&left[..], &right[..])
        );
        assert_eq!(rig.left.memory, [0xA1; 1188]);
        assert_eq!(rig.right.memory, [0xB2; 1188]);
    }
}

/// The answer is the selected chip's, and the other chip stays as it is.
#[test]
fn a_read_of_one_chip_answers_its_byte() {
    let mut rig = WideRig::after(&[0xB1], &[0x02]);
    rig.left.memory[132] = 0x3C;
    rig.right.memory[2] = 0xC3;
    let right = rig.right.clone();
    assert_eq!(rig.event(LEFT, Read), (0, 0, true));
    assert_eq!(rig.event(LEFT, Read), (0, 0x3C, false));
    assert_eq!(rig.left.state[COLUMN], 1);
    assert_eq!(rig.right, right);
    let left = rig.left.clone();
    assert_eq!(rig.event(RIGHT, Read), (0, 0, true));
    assert_eq!(rig.event(RIGHT, Read), (0, 0xC3, false));
    assert_eq!(rig.right.state[COLUMN], 3);
    assert_eq!(rig.left, left);
}

/// "14, a read with both selected, before 6": whatever stands in either chip.
#[test]
fn a_read_of_both_is_14_and_moves_no_fresh() {
    let mut not_fresh = POWER_ON;
    not_fresh[FRESH] = 0;
    let mut awaiting = POWER_ON;
    awaiting[AWAITED] = 0x81;
    let mut above_131 = POWER_ON;
    above_131[COLUMN] = 132;
    let images = [POWER_ON, not_fresh, awaiting, above_131, BUSY];
    for left in images {
        for right in images {
            assert_eq!(WideRig::with(left, right).refused(BOTH, Read), 14);
        }
    }
}

/// The left's commands, the right's, an event, and its numbers with the left
/// selected, the right, and both.
type Row = (&'static [u8], &'static [u8], Event, [u8; 3]);

/// "If any selected chip refuses, neither changes, and the number is the left's
/// where both refuse."
#[test]
fn neither_changes_where_any_selected_chip_refuses() {
    // Column 143; 81, D3 and D4 await their n.
    const ABOVE: &[u8] = &[0x0F, 0x18];
    let table: [Row; 16] = [
        (&[0x81], &[], Write(0x01), [6, 0, 6]),
        (&[], &[0x81], Write(0x01), [0, 6, 6]),
        (ABOVE, &[], Write(0x01), [7, 0, 7]),
        (&[], ABOVE, Write(0x01), [0, 7, 7]),
        (&[0x81], ABOVE, Write(0x01), [6, 7, 6]),
        // 7 is not the lower of the two, but the left's.
        (ABOVE, &[0x81], Write(0x01), [7, 6, 7]),
        (&[], &[], Command(0x80), [3, 3, 3]),
        (&[], &[], Command(0xBF), [4, 4, 4]),
        // B9 is n for D3 and not allowed; without a code it names no page.
        (&[0xD3], &[], Command(0xB9), [5, 4, 5]),
        (&[], &[0xD3], Command(0xB9), [4, 5, 4]),
        (&[0xD4], &[], Command(0xEF), [5, 3, 5]),
        (&[], &[0xD4], Command(0xEF), [3, 5, 3]),
        // Next to EF begins Order 6's range; F0 was 3 before it.
        (&[0xD4], &[], Command(0xF0), [5, 15, 5]),
        (&[], &[0xD4], Command(0xF0), [15, 5, 15]),
        // 45 is a start line to the one and no offset to the other.
        (&[], &[0xD3], Command(0x45), [0, 5, 5]),
        // 3F is an offset to the one and outside the table to the other.
        (&[0xD3], &[], Command(0x3F), [0, 3, 3]),
    ];
    for (left, right, event, numbers) in table {
        for (selection, number) in [LEFT, RIGHT, BOTH].into_iter().zip(numbers) {
            let mut rig = WideRig::after(left, right);
            if number == 0 {
                assert_eq!(rig.number(selection, event), 0);
            } else {
                assert_eq!(rig.refused(selection, event), number, "{left:?} {right:?}");
            }
        }
    }
}

/// C9 is contrast 9 to the chip that awaits it (201 - 3 * 64), and rows
/// reversed to the other.
#[test]
fn a_byte_can_be_n_to_one_chip_and_a_command_to_the_other() {
    let mut rig = WideRig::after(&[0x81], &[]);
    rig.commands(BOTH, &[0xC9]);
    assert_eq!(
        (rig.left.state[CONTRAST], rig.left.state[ROW_DIRECTION]),
        (9, 0)
    );
    assert_eq!(
        (rig.right.state[CONTRAST], rig.right.state[ROW_DIRECTION]),
        (32, 1)
    );
    assert_eq!((rig.left.state[AWAITED], rig.right.state[AWAITED]), (0, 0));

    let mut rig = WideRig::after(&[], &[0x81]);
    rig.commands(BOTH, &[0xC9]);
    assert_eq!(
        (rig.left.state[CONTRAST], rig.left.state[ROW_DIRECTION]),
        (32, 1)
    );
    assert_eq!(
        (rig.right.state[CONTRAST], rig.right.state[ROW_DIRECTION]),
        (9, 0)
    );
}

/// "An event for one chip alone changes nothing of the other, its refused
/// events included": the other awaits a code, is above column 131, or is busy,
/// and is neither asked nor changed.
#[test]
fn the_chip_not_selected_is_not_asked_and_stays() {
    for other in [
        Rig::after(&[0x81]),
        Rig::after(&[0x0F, 0x18]),
        Rig::with(BUSY),
    ] {
        for (event, number) in [
            (Command(0x45), 0),
            (Write(0x77), 0),
            (Read, 0),
            (Reset, 0),
            (Command(0x80), 3),
            (Command(0xB9), 4),
        ] {
            let mut rig = WideRig {
                left: Rig::power_on(),
                right: other.clone(),
            };
            assert_eq!(rig.event(LEFT, event).0, number);
            assert_eq!(rig.right, other);
            let mut rig = WideRig {
                left: other.clone(),
                right: Rig::power_on(),
            };
            assert_eq!(rig.event(RIGHT, event).0, number);
            assert_eq!(rig.left, other);
        }
    }
}

#[test]
fn a_selection_that_is_none_is_13() {
    for selection in [0].into_iter().chain(4..=0xFF) {
        for event in EVENTS {
            assert_eq!(WideRig::power_on().refused(selection, event), 13);
        }
        // Before what the event would meet in both chips.
        let mut rig = WideRig::after(&[0x81], &[0x0F, 0x18]);
        assert_eq!(rig.refused(selection, Write(0x00)), 13);
        assert_eq!(rig.refused(selection, Read), 13);
        assert_eq!(WideRig::power_on().refused(selection, Command(0x80)), 13);
    }
}

/// Each of the four buffers alone, under each selection and none.
#[test]
fn a_short_buffer_is_1_whoever_is_selected() {
    for selection in [0, LEFT, RIGHT, BOTH, 4] {
        for event in EVENTS {
            for short in 0..4 {
                // An image out of range as well is still 1.
                for multiplex in [63, 64] {
                    let mut rig = WideRig::power_on();
                    rig.left.state[MULTIPLEX] = multiplex;
                    rig.right.state[MULTIPLEX] = multiplex;
                    match short {
                        0 => rig.left.state.truncate(22),
                        1 => rig.left.memory.truncate(1187),
                        2 => rig.right.state.truncate(22),
                        _ => rig.right.memory.truncate(1187),
                    }
                    assert_eq!(rig.refused(selection, event), 1);
                }
            }
        }
    }
    let mut nothing = WideRig::power_on();
    for rig in [&mut nothing.left, &mut nothing.right] {
        rig.state.clear();
        rig.memory.clear();
    }
    assert_eq!(nothing.refused(BOTH, Reset), 1);
}

/// 2 before 13 and 14, for the image of a chip that is not selected too; the
/// reset pin asks neither image.
#[test]
fn an_image_out_of_range_is_2_whoever_is_selected() {
    let mut hostile = POWER_ON;
    hostile[PAGE] = 9;
    for (left, right) in [(hostile, POWER_ON), (POWER_ON, hostile), (hostile, hostile)] {
        for selection in [0, LEFT, RIGHT, BOTH, 4] {
            for event in [Command(0xE3), Write(0x5A), Read] {
                assert_eq!(WideRig::with(left, right).refused(selection, event), 2);
            }
        }
        for selection in [0, 4] {
            assert_eq!(WideRig::with(left, right).refused(selection, Reset), 13);
        }
        let mut rig = WideRig::with(left, right);
        assert_eq!(rig.number(LEFT, Reset), 0);
        assert_eq!(rig, WideRig::with(POWER_ON, right));
        let mut rig = WideRig::with(left, right);
        assert_eq!(rig.number(RIGHT, Reset), 0);
        assert_eq!(rig, WideRig::with(left, POWER_ON));
        let mut rig = WideRig::with(left, right);
        assert_eq!(rig.number(BOTH, Reset), 0);
        assert_eq!(rig, WideRig::power_on());
    }
}

#[test]
fn bytes_past_what_is_needed_stay() {
    for event in EVENTS {
        for selection in [LEFT, RIGHT] {
            let mut rig = WideRig::busy();
            for rig in [&mut rig.left, &mut rig.right] {
                rig.state.extend([0xEE; 3]);
                rig.memory.extend([0xDD; 2]);
            }
            assert_eq!(rig.event(selection, event).0, 0);
            for rig in [&rig.left, &rig.right] {
                assert_eq!(rig.state[23..], [0xEE; 3]);
                assert_eq!(rig.memory[1188..], [0xDD; 2]);
            }
        }
    }
}

/// Nothing of a selection is kept from one call to the next.
#[test]
fn each_call_selects_for_itself() {
    let mut rig = WideRig::power_on();
    rig.commands(LEFT, &[0xD3]);
    rig.commands(RIGHT, &[0x45]);
    rig.commands(LEFT, &[0x07]);
    assert_eq!((rig.left.state[OFFSET], rig.left.state[START_LINE]), (7, 0));
    assert_eq!(
        (rig.right.state[OFFSET], rig.right.state[START_LINE]),
        (0, 5)
    );
}
