//! Data written and read.

use crate::rig::{AWAITED, BUSY, COLUMN, FRESH, PAGE, READ_MODIFY_WRITE, Rig, SAVED_COLUMN};

/// Outside read-modify-write, at this page and column.
fn rig_at(page: u8, column: u8) -> Rig {
    let mut rig = Rig::with(BUSY);
    rig.state[PAGE] = page;
    rig.state[COLUMN] = column;
    rig.state[READ_MODIFY_WRITE] = 0;
    rig.state[SAVED_COLUMN] = 0;
    for (place, byte) in rig.memory.iter_mut().enumerate() {
        *byte = u8::try_from(place % 251).unwrap();
    }
    rig
}

#[test]
fn a_write_stores_one_byte_at_its_place() {
    for page in 0..=8 {
        for column in 0..=131 {
            for in_it in [0, 1] {
                let mut rig = rig_at(page, column);
                rig.state[READ_MODIFY_WRITE] = in_it;
                rig.state[SAVED_COLUMN] = 99 * in_it;
                let mut expected = rig.clone();
                let place = 132 * usize::from(page) + usize::from(column);
                expected.memory[place] = if page == 8 { 0x01 } else { 0xE7 };
                expected.state[COLUMN] = if column == 131 { 0 } else { column + 1 };
                expected.state[FRESH] = 1;
                assert_eq!(rig.write(0xE7), 0);
                assert_eq!(rig, expected, "page {page} column {column}");
            }
        }
    }
}

#[test]
fn a_read_answers_the_byte_at_its_place() {
    for page in 0..=8 {
        for column in 0..=131 {
            let mut rig = rig_at(page, column);
            let mut expected = rig.clone();
            expected.state[COLUMN] = if column == 131 { 0 } else { column + 1 };
            let place = 132 * usize::from(page) + usize::from(column);
            let stored = u8::try_from(place % 251).unwrap();
            let byte = if page == 8 { stored % 2 } else { stored };
            assert_eq!(rig.read(), (0, byte, false));
            assert_eq!(rig, expected, "page {page} column {column}");
        }
    }
}

#[test]
fn the_first_read_after_anything_but_a_read_is_the_dummy() {
    let mut rig = rig_at(2, 10);
    rig.state[FRESH] = 1;
    rig.memory[2 * 132 + 10] = 0xAB;
    rig.memory[2 * 132 + 11] = 0xCD;
    let mut expected = rig.clone();
    expected.state[FRESH] = 0;
    assert_eq!(rig.read(), (0, 0, true));
    assert_eq!(rig, expected);
    assert_eq!(rig.read(), (0, 0xAB, false));
    assert_eq!(rig.read(), (0, 0xCD, false));
    assert_eq!(rig.state[COLUMN], 12);
    assert_eq!(rig.write(0x00), 0);
    assert_eq!(rig.read(), (0, 0, true));
    assert_eq!(rig.state[COLUMN], 13);
    assert!(!rig.read().2);
    rig.commands(&[0xE3]);
    assert_eq!(rig.read(), (0, 0, true));
}

#[test]
fn the_commands_without_effect_make_the_next_read_a_dummy_too() {
    // E3; E0 inside; EE outside; a first byte and its n; E2.
    for commands in [
        &[0xE3][..],
        &[0xEE],
        &[0xE0, 0xE0],
        &[0xA9, 0x00],
        &[0xE2],
        &[0xB0],
    ] {
        let mut rig = Rig::power_on();
        assert!(rig.read().2);
        assert!(!rig.read().2);
        for &byte in commands {
            rig.state[FRESH] = 0;
            rig.commands(&[byte]);
            assert_eq!(rig.state[FRESH], 1, "command {byte:02X}");
        }
        assert!(rig.read().2);
    }
}

#[test]
fn a_refused_event_leaves_fresh_alone() {
    let mut rig = Rig::power_on();
    assert!(rig.read().2);
    assert_eq!(rig.command(0x80), 3);
    // F0 was 3 before Order 6.
    assert_eq!(rig.command(0xF0), 15);
    assert_eq!(rig.command(0xBF), 4);
    assert_eq!(rig.state[FRESH], 0);
    rig.state[COLUMN] = 200;
    assert_eq!(rig.write(0), 7);
    assert_eq!(rig.state[FRESH], 0);
    rig.state[AWAITED] = 0xD4;
    assert_eq!(rig.command(0x11), 5);
    assert_eq!(rig.state[FRESH], 0);
    assert_eq!(rig.state[AWAITED], 0xD4);
}

#[test]
fn read_modify_write_moves_on_writes_only() {
    let mut rig = Rig::power_on();
    rig.memory[20] = 0x0F;
    rig.memory[21] = 0xF0;
    rig.commands(&[0x04, 0x11, 0xE0]);
    assert_eq!(rig.read(), (0, 0, true));
    assert_eq!(rig.read(), (0, 0x0F, false));
    assert_eq!(rig.read(), (0, 0x0F, false));
    assert_eq!(rig.state[COLUMN], 20);
    assert_eq!(rig.write(0x1F), 0);
    assert_eq!(rig.state[COLUMN], 21);
    assert_eq!(rig.read(), (0, 0, true));
    assert_eq!(rig.read(), (0, 0xF0, false));
    assert_eq!(rig.state[COLUMN], 21);
    rig.commands(&[0xEE]);
    assert_eq!(rig.state[COLUMN], 20);
    assert_eq!(rig.read(), (0, 0, true));
    assert_eq!(rig.read(), (0, 0x1F, false));
    assert_eq!(rig.state[COLUMN], 21);
}

#[test]
fn page_8_keeps_and_answers_bit_0_alone() {
    let mut rig = Rig::after(&[0xB8]);
    rig.memory[1056..].fill(0xFE);
    assert_eq!(rig.write(0xFE), 0);
    assert_eq!(rig.memory[1056], 0x00);
    assert_eq!(rig.memory[1057], 0xFE);
    rig.memory[1057] = 0xFF;
    assert_eq!(rig.read(), (0, 0, true));
    assert_eq!(rig.read(), (0, 0x01, false));
    assert_eq!(rig.read(), (0, 0x00, false));
    // Reading cleans nothing.
    assert_eq!(rig.memory[1057..1059], [0xFF, 0xFE]);
}
