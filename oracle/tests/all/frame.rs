//! The drawn frame, and the row rule checked in other ways.

use std::collections::VecDeque;

use oracle::frame::{PanelRow, shown_on};
use oracle::random::Random;
use oracle::registers::Registers;

use crate::rig::{
    BUSY, COLUMN_DIRECTION, DISPLAY_ON, ENTIRE_ON, MULTIPLEX, OFFSET, REVERSE, ROW_DIRECTION, Rig,
    START_LINE,
};

/// The panel as a list of RAM rows, laid out and turned: in use are M RAM
/// rows from the start line on, in their order or turned round; dark rows are
/// put round them, below and above in turn, until there are 64; the offset
/// moves all of them up, round the 64.
fn rows_as_a_list(
    start_line: u8,
    offset: u8,
    in_use: u8,
    reversed: bool,
) -> VecDeque<Option<usize>> {
    let mut ram_row = usize::from(start_line);
    let mut rows = VecDeque::new();
    for _ in 0..in_use {
        if reversed {
            rows.push_front(Some(ram_row));
        } else {
            rows.push_back(Some(ram_row));
        }
        ram_row += 1;
        if ram_row == 64 {
            ram_row = 0;
        }
    }
    let mut below = true;
    while rows.len() < 64 {
        if below {
            rows.push_back(None);
        } else {
            rows.push_front(None);
        }
        below = !below;
    }
    rows.rotate_left(usize::from(offset));
    rows
}

#[test]
fn the_row_rule_for_all_settings() {
    for rows_reversed in [false, true] {
        for multiplex in 0..64 {
            for start_line in 0..64 {
                for offset in 0..64 {
                    let registers = Registers {
                        start_line,
                        offset,
                        multiplex,
                        rows_reversed,
                        ..Registers::POWER_ON
                    };
                    let list = rows_as_a_list(start_line, offset, multiplex + 1, rows_reversed);
                    for (row, expected) in list.into_iter().enumerate() {
                        let shown = shown_on(registers, PanelRow(row)).map(|ram_row| ram_row.0);
                        assert_eq!(shown, expected);
                    }
                }
            }
        }
    }
}

/// The row of the frame that shows a RAM row; none if it is not shown.
fn row_showing(rig: &Rig, ram_row: usize) -> Option<usize> {
    if ram_row == 64 {
        return Some(64);
    }
    let start_line = i32::from(rig.state[START_LINE]);
    let offset = i32::from(rig.state[OFFSET]);
    let in_use = i32::from(rig.state[MULTIPLEX]) + 1;
    let ram_row = i32::try_from(ram_row).unwrap();
    let com = if rig.state[ROW_DIRECTION] == 0 {
        (ram_row - start_line).rem_euclid(64)
    } else {
        (start_line + in_use - 1 - ram_row).rem_euclid(64)
    };
    // The middle is between rows 31 and 32; of an odd M, the row left over is
    // above it.
    let first_row = 32 - (in_use + 1) / 2;
    let row = (first_row + com - offset).rem_euclid(64);
    (com < in_use).then(|| usize::try_from(row).unwrap())
}

/// The frame the other way round: each memory bit is carried to the glass.
fn carried_to_the_glass(rig: &Rig) -> Vec<u8> {
    let state = &rig.state;
    let mut frame = vec![0; 8580];
    if state[DISPLAY_ON] == 0 {
        return frame;
    }
    for (place, &byte) in rig.memory.iter().enumerate() {
        let (page, column) = (place / 132, place % 132);
        for bit in 0..8 {
            if page == 8 && bit > 0 {
                continue;
            }
            let Some(row) = row_showing(rig, 8 * page + bit) else {
                continue;
            };
            let segment = if state[COLUMN_DIRECTION] == 0 {
                column
            } else {
                131 - column
            };
            let mut lit = byte >> bit & 1;
            if state[REVERSE] == 1 {
                lit = 1 - lit;
            }
            if state[ENTIRE_ON] == 1 {
                lit = 1;
            }
            frame[132 * row + segment] = lit;
        }
    }
    frame
}

#[test]
fn the_frame_carried_bit_by_bit() {
    let mut random = Random::new(20, 26);
    for multiplex in 0..64 {
        for lights in 0..32 {
            let mut rig = Rig::with(BUSY);
            random.fill(&mut rig.memory);
            rig.state[MULTIPLEX] = multiplex;
            rig.state[START_LINE] = random.up_to(63);
            rig.state[OFFSET] = random.up_to(63);
            rig.state[COLUMN_DIRECTION] = lights & 1;
            rig.state[ROW_DIRECTION] = lights >> 1 & 1;
            rig.state[REVERSE] = lights >> 2 & 1;
            rig.state[ENTIRE_ON] = lights >> 3 & 1;
            rig.state[DISPLAY_ON] = lights >> 4 & 1;
            assert!(rig.frame() == carried_to_the_glass(&rig));
        }
    }
}

#[test]
fn the_icon_line_shows_ram_row_64_always() {
    for commands in [
        &[][..],
        &[0x5F],
        &[0xD3, 0x21],
        &[0xC8],
        &[0xA8, 0x00],
        &[0xA8, 0x0F, 0xC8, 0xD3, 0x30, 0x41],
    ] {
        let mut rig = Rig::after(&[0xAF]);
        rig.commands(commands);
        assert_eq!(rig.ram_row_shown(64), Some(64));
        rig.memory[1056 + 3] = 0x01;
        let mut expected = vec![0; 132];
        expected[3] = 1;
        assert_eq!(rig.row(64), expected);
        rig.commands(&[0xA1]);
        expected.reverse();
        assert_eq!(rig.row(64), expected);
    }
}

#[test]
fn junk_above_bit_0_of_page_8_is_not_drawn() {
    let mut rig = Rig::after(&[0xAF]);
    rig.memory[1056..].fill(0xFE);
    assert_eq!(rig.lit_rows(), []);
}

#[test]
fn reverse_turns_the_icons_and_no_dark_row() {
    let mut rig = Rig::after(&[0xAF, 0xA7, 0xA8, 0x0F]);
    let in_use_and_icons: Vec<usize> = (24..40).chain([64]).collect();
    assert_eq!(rig.lit_rows(), in_use_and_icons);
    assert_eq!(rig.row(24), vec![1; 132]);
    assert_eq!(rig.row(64), vec![1; 132]);
    rig.memory.fill(0xFF);
    assert_eq!(rig.lit_rows(), []);
}

#[test]
fn entire_on_wins_over_reverse_and_leaves_unused_rows_dark() {
    for reverse in [0xA6, 0xA7] {
        for byte in [0x00, 0xFF] {
            // Panel row p is COM p + 27 - 24 (modulo 64), in use while below
            // 16: rows 0 to 12, and 61 to 63.
            let mut rig = Rig::after(&[0xAF, 0xA5, 0xA8, 0x0F, 0xD3, 0x1B, reverse]);
            rig.memory.fill(byte);
            let expected: Vec<usize> = (0..13).chain(61..65).collect();
            assert_eq!(rig.lit_rows(), expected);
            for row in expected {
                assert_eq!(rig.row(row), vec![1; 132]);
            }
        }
    }
}

#[test]
fn display_off_is_dark_before_any_other_rule() {
    for commands in [&[0xA5][..], &[0xA7], &[0xA5, 0xA7], &[0xA4, 0xA6]] {
        let mut rig = Rig::after(commands);
        rig.memory.fill(0xFF);
        assert_eq!(rig.frame(), vec![0; 8580]);
        rig.memory.fill(0x00);
        assert_eq!(rig.frame(), vec![0; 8580]);
    }
}

#[test]
fn settings_that_only_act_on_voltages_draw_nothing() {
    let mut rig = Rig::after(&[0xAF]);
    Random::new(3, 5).fill(&mut rig.memory);
    let before = rig.frame();
    rig.commands(&[0x22, 0x2F, 0x81, 0x3F, 0xA3, 0xAB, 0xA9, 0xFF, 0xD4, 0x30]);
    rig.commands(&[0xAD, 0x03, 0xB4, 0x09, 0x13, 0xE0, 0x07, 0xA8]);
    assert!(rig.frame() == before);
}

#[test]
fn drawing_changes_neither_state_nor_memory_and_fills_the_frame_only() {
    let mut rig = Rig::with(BUSY);
    rig.memory.fill(0xA5);
    let before = rig.clone();
    let mut frame = vec![0x99; 8600];
    assert_eq!(oracle::frame::call(&rig.state, &rig.memory, &mut frame), 0);
    assert!(frame[..8580].iter().all(|&dot| dot <= 1));
    assert!(frame[8580..].iter().all(|&dot| dot == 0x99));
    assert_eq!(rig, before);
}
