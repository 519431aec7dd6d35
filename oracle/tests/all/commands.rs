//! Every command byte, and every n.

use crate::rig::{
    AWAITED, BIAS, BUSY, BYTE_OF_A9, COLUMN, COLUMN_DIRECTION, CONTRAST, DISPLAY_ON, ENTIRE_ON,
    FRAME_PHASES, FRESH, INDICATOR_MODE, INDICATOR_ON, MULTIPLEX, OFFSET, PAGE, POWER_CONTROL,
    POWER_ON, QUARTER_BIAS, READ_MODIFY_WRITE, RESISTOR_RATIO, REVERSE, ROW_DIRECTION, Rig,
    SAVED_COLUMN, START_LINE,
};

type Changes = Vec<(usize, u8)>;

/// The table of document 01, turned round: for each byte the fields it
/// changes in a busy image (column 5A, in read-modify-write from 33).
fn taken_from_busy() -> Vec<(u8, Changes)> {
    let mut table: Vec<(u8, Changes)> = Vec::new();
    let mut put = |byte: u8, changes: &[(usize, u8)]| table.push((byte, changes.to_vec()));
    for low in 0..16 {
        put(low, &[(COLUMN, 0x50 + low)]);
        put(0x10 + low, &[(COLUMN, 16 * low + 0x0A)]);
    }
    for value in 0..8 {
        put(0x20 + value, &[(RESISTOR_RATIO, value)]);
        put(0x28 + value, &[(POWER_CONTROL, value)]);
        put(0xC0 + value, &[(ROW_DIRECTION, 0)]);
        put(0xC8 + value, &[(ROW_DIRECTION, 1)]);
    }
    for line in 0..64 {
        put(0x40 + line, &[(START_LINE, line)]);
    }
    for code in [0x81, 0xA8, 0xA9, 0xAD, 0xD3, 0xD4] {
        put(code, &[(AWAITED, code)]);
    }
    for value in 0..2 {
        put(0xA0 + value, &[(COLUMN_DIRECTION, value)]);
        put(0xA2 + value, &[(BIAS, value)]);
        put(0xA4 + value, &[(ENTIRE_ON, value)]);
        put(0xA6 + value, &[(REVERSE, value)]);
        put(0xAA + value, &[(QUARTER_BIAS, value)]);
        put(0xAE + value, &[(DISPLAY_ON, value)]);
    }
    put(0xAC, &[(INDICATOR_ON, 0), (INDICATOR_MODE, 0)]);
    for page in 0..9 {
        put(0xB0 + page, &[(PAGE, page)]);
    }
    put(0xE0, &[]);
    put(
        0xE2,
        &[
            (PAGE, 0),
            (COLUMN, 0),
            (START_LINE, 0),
            (ROW_DIRECTION, 0),
            (RESISTOR_RATIO, 4),
            (CONTRAST, 32),
            (INDICATOR_ON, 0),
            (INDICATOR_MODE, 0),
            (READ_MODIFY_WRITE, 0),
            (SAVED_COLUMN, 0),
        ],
    );
    put(0xE3, &[]);
    put(
        0xEE,
        &[(COLUMN, 0x33), (READ_MODIFY_WRITE, 0), (SAVED_COLUMN, 0)],
    );
    table
}

#[test]
fn each_command_byte_does_what_the_table_says_and_sets_fresh() {
    let table = taken_from_busy();
    for (byte, changes) in &table {
        let mut rig = Rig::with(BUSY);
        rig.memory.fill(0x77);
        let mut expected = rig.clone();
        for &(field, value) in changes {
            expected.state[field] = value;
        }
        expected.state[FRESH] = 1;
        assert_eq!(rig.command(*byte), 0, "command {byte:02X}");
        assert_eq!(rig, expected, "command {byte:02X}");
    }
    // 00-2F, 40-7F, 81, A0-AF, B0-B8, C0-CF, D3, D4, E0, E2, E3, EE.
    assert_eq!(table.len(), 48 + 64 + 1 + 16 + 9 + 16 + 2 + 4);
}

#[test]
fn the_other_command_bytes_are_refused() {
    let taken: Vec<u8> = taken_from_busy().iter().map(|(byte, _)| *byte).collect();
    let others = [
        (0x30..=0x3F, 3),
        (0x80..=0x80, 3),
        (0x82..=0x9F, 3),
        (0xB9..=0xBF, 4),
        (0xD0..=0xD2, 3),
        (0xD5..=0xDF, 3),
        (0xE1..=0xE1, 3),
        (0xE4..=0xED, 3),
        (0xEF..=0xEF, 3),
        // Order 6 takes these out of 3's row.
        (0xF0..=0xFF, 15),
    ];
    let mut count = taken.len();
    for (bytes, number) in others {
        for byte in bytes {
            assert!(!taken.contains(&byte));
            let mut rig = Rig::with(BUSY);
            let before = rig.clone();
            assert_eq!(rig.command(byte), number, "command {byte:02X}");
            assert_eq!(rig, before, "command {byte:02X}");
            count += 1;
        }
    }
    assert_eq!(count, 256);
}

/// What n does after a code, with no regard to refusals.
fn n_changes(code: u8, n: u8) -> Changes {
    match code {
        0x81 => vec![(CONTRAST, n & 0x3F)],
        0xA8 => vec![(MULTIPLEX, n & 0x3F)],
        0xA9 => vec![(BYTE_OF_A9, n)],
        0xAD => vec![(INDICATOR_ON, 1), (INDICATOR_MODE, n & 0x03)],
        0xD3 => vec![(OFFSET, n)],
        0xD4 => vec![(FRAME_PHASES, n >> 4)],
        _ => unreachable!(),
    }
}

#[test]
fn each_n_of_each_code() {
    for start in [POWER_ON, BUSY] {
        for code in [0x81, 0xA8, 0xA9, 0xAD, 0xD3, 0xD4] {
            for n in 0..=0xFF {
                let mut rig = Rig::with(start);
                rig.state[AWAITED] = code;
                let mut expected = rig.clone();
                let refused = match code {
                    0xD3 => n > 0x3F,
                    0xD4 => ![0x00, 0x10, 0x20, 0x30].contains(&n),
                    _ => false,
                };
                if !refused {
                    for (field, value) in n_changes(code, n) {
                        expected.state[field] = value;
                    }
                    expected.state[AWAITED] = 0;
                    expected.state[FRESH] = 1;
                }
                assert_eq!(rig.command(n), if refused { 5 } else { 0 });
                // A refused n leaves the code awaited, and fresh as it was.
                assert_eq!(rig, expected, "{code:02X} {n:02X}");
            }
        }
    }
}

#[test]
fn only_n_switches_the_indicator_on() {
    let mut rig = Rig::after(&[0xAD]);
    assert_eq!(rig.state[INDICATOR_ON], 0);
    assert_eq!(rig.command(0x07), 0);
    assert_eq!(rig.state[INDICATOR_ON], 1);
    assert_eq!(rig.state[INDICATOR_MODE], 3);
    rig.commands(&[0xAC]);
    assert_eq!(rig.state[INDICATOR_ON], 0);
    assert_eq!(rig.state[INDICATOR_MODE], 0);
}

#[test]
fn two_settings_of_the_column_make_one() {
    let mut rig = Rig::after(&[0x1F, 0x0E]);
    assert_eq!(rig.state[COLUMN], 0xFE);
    rig.commands(&[0x03]);
    assert_eq!(rig.state[COLUMN], 0xF3);
    rig.commands(&[0x17]);
    assert_eq!(rig.state[COLUMN], 0x73);
}

#[test]
fn entering_read_modify_write_saves_the_column_once() {
    let mut rig = Rig::after(&[0x09, 0xE0]);
    assert_eq!(rig.state[READ_MODIFY_WRITE], 1);
    assert_eq!(rig.state[SAVED_COLUMN], 9);
    rig.commands(&[0x0C, 0xE0]);
    assert_eq!(rig.state[SAVED_COLUMN], 9);
    assert_eq!(rig.state[COLUMN], 12);
    rig.commands(&[0xEE]);
    assert_eq!(rig.state, {
        let mut expected = POWER_ON;
        expected[COLUMN] = 9;
        expected
    });
    rig.commands(&[0x0C, 0xEE]);
    assert_eq!(rig.state[COLUMN], 12);
}

#[test]
fn ee_may_put_back_a_column_no_data_can_go_to() {
    let mut rig = Rig::after(&[0x1F, 0xE0, 0x10]);
    assert_eq!(rig.write(0x01), 0);
    rig.commands(&[0xEE]);
    assert_eq!(rig.state[COLUMN], 0xF0);
    assert_eq!(rig.write(0x01), 7);
}

#[test]
fn the_software_reset_keeps_the_rest_and_the_memory() {
    let mut rig = Rig::with(BUSY);
    rig.memory.fill(0x5C);
    rig.commands(&[0xE2]);
    assert_eq!(
        rig.state,
        [
            0, 0, 0, 9, 40, 32, 4, 6, 1, 1, 0xC4, 3, 1, 0, 1, 1, 1, 0, 0, 0, 0, 0, 1
        ]
    );
    assert_eq!(rig.memory, vec![0x5C; 1188]);
}

#[test]
fn the_reset_pin_gives_power_on_and_keeps_the_memory() {
    let mut rig = Rig::with(BUSY);
    rig.memory.fill(0x5C);
    rig.commands(&[0xD3]);
    assert_eq!(rig.reset(), 0);
    assert_eq!(rig.state, POWER_ON);
    assert_eq!(rig.memory, vec![0x5C; 1188]);
}
