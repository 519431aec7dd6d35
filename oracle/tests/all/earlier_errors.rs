//! "Errors earlier versions would repeat", and those the customer tells of.

use crate::rig::{COLUMN, CONTRAST, DISPLAY_ON, FRESH, PAGE, Rig};

#[test]
fn rows_turn_round_within_m_not_within_64() {
    let rig = Rig::after(&[0xA8, 0x0F, 0xC8, 0xAF]);
    // Of the 48 rows not in use, 24 are above: panel row p is COM p - 24, and
    // shows RAM row 15 - (p - 24).
    for panel_row in 24..40 {
        assert_eq!(rig.ram_row_shown(panel_row), Some(39 - panel_row));
    }
    for panel_row in (0..24).chain(40..64) {
        assert_eq!(rig.ram_row_shown(panel_row), None);
    }
    // The offset finds the COM first; only then do the rows turn round:
    // panel row 62 is COM (62 + 29 - 24) - 64 = 3, and 15 - 3 = 12.
    let rig = Rig::after(&[0xA8, 0x0F, 0xC8, 0xAF, 0xD3, 0x1D]);
    assert_eq!(rig.ram_row_shown(0), Some(10));
    assert_eq!(rig.ram_row_shown(10), Some(0));
    assert_eq!(rig.ram_row_shown(11), None);
    assert_eq!(rig.ram_row_shown(58), None);
    assert_eq!(rig.ram_row_shown(59), Some(15));
    assert_eq!(rig.ram_row_shown(62), Some(12));
}

#[test]
fn columns_are_mirrored_as_they_are_drawn_not_as_they_are_stored() {
    let mut rig = Rig::after(&[0xAF, 0xA1]);
    assert_eq!(rig.write(0x01), 0);
    assert_eq!(rig.memory[0], 0x01);
    assert_eq!(rig.memory[131], 0x00);
    let mut expected = vec![0; 132];
    expected[131] = 1;
    assert_eq!(rig.row(0), expected);
    // A change of direction after drawing turns what is there.
    rig.commands(&[0xA0]);
    expected.reverse();
    assert_eq!(rig.row(0), expected);
    assert_eq!(rig.memory[0], 0x01);
}

#[test]
fn ee_puts_back_the_column_but_not_the_page() {
    let mut rig = Rig::after(&[0xB2, 0x05, 0xE0, 0xB3]);
    assert_eq!(rig.write(0x10), 0);
    assert_eq!(rig.memory[3 * 132 + 5], 0x10);
    rig.commands(&[0xEE]);
    assert_eq!(rig.state[COLUMN], 5);
    assert_eq!(rig.state[PAGE], 3);
}

#[test]
fn the_byte_after_81_is_no_command() {
    let mut rig = Rig::after(&[0x81, 0xAF]);
    assert_eq!(rig.state[DISPLAY_ON], 0);
    // AF is 175, and 175 - 2 * 64 is 47.
    assert_eq!(rig.state[CONTRAST], 47);
    rig.commands(&[0x81, 0x81, 0xAF]);
    assert_eq!(rig.state[CONTRAST], 1);
    assert_eq!(rig.state[DISPLAY_ON], 1);
}

#[test]
fn a_dummy_read_moves_nothing() {
    let mut rig = Rig::after(&[0x05]);
    assert_eq!(rig.read(), (0, 0, true));
    assert_eq!(rig.state[COLUMN], 5);
    assert_eq!(rig.state[FRESH], 0);
}

#[test]
fn a_read_in_read_modify_write_moves_nothing() {
    let mut rig = Rig::after(&[0x05, 0xE0]);
    assert_eq!(rig.read(), (0, 0, true));
    assert_eq!(rig.read(), (0, 0, false));
    assert_eq!(rig.state[COLUMN], 5);
}

/// The cursor stroke beside the E of recipe 3E5: a stroke written in
/// read-modify-write, then a byte of text at the place the stroke began.
#[test]
fn text_after_a_cursor_stroke_lands_where_it_began() {
    let mut rig = Rig::after(&[0x0A, 0xE0]);
    for _ in 0..3 {
        rig.read();
        let (number, byte, dummy) = rig.read();
        assert_eq!((number, dummy), (0, false));
        assert_eq!(rig.write(byte | 0x80), 0);
    }
    rig.commands(&[0xEE]);
    assert_eq!(rig.write(0x7F), 0);
    assert_eq!(rig.memory[9..15], [0x00, 0x7F, 0x80, 0x80, 0x00, 0x00]);
}
