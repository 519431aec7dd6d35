//! Order 2: the band of the rows in use sits in the middle.

use std::ops::Range;

use oracle::frame::{Com, PanelRow, com_of, rows_above_band};
use oracle::random::Random;
use oracle::registers::Registers;

use crate::rig::{AWAITED, MULTIPLEX, OFFSET, ROW_DIRECTION, Rig, START_LINE};

/// M, and the first and last panel row in use with offset 0: (64 - M) / 2
/// rounded down, and M - 1 more.
const BANDS: [(u8, usize, usize); 18] = [
    (1, 31, 31),
    (2, 31, 32),
    (3, 30, 32),
    (4, 30, 33),
    (5, 29, 33),
    (15, 24, 38),
    (16, 24, 39),
    (17, 23, 39),
    (31, 16, 46),
    (32, 16, 47),
    (33, 15, 47),
    (47, 8, 54),
    (48, 8, 55),
    (60, 2, 61),
    (61, 1, 61),
    (62, 1, 62),
    (63, 0, 62),
    (64, 0, 63),
];

/// Display on and entire on, so that just the rows in use and the icons are
/// lit.
fn all_lit(rows_in_use: u8) -> Rig {
    Rig::after(&[0xAF, 0xA5, 0xA8, rows_in_use - 1])
}

/// The dot rows that are lit; the icons must be lit too.
fn band(rig: &Rig) -> Vec<usize> {
    let mut rows = rig.lit_rows();
    assert_eq!(rows.pop(), Some(64));
    rows
}

#[test]
fn the_band_is_in_the_middle_with_offset_0() {
    for (rows_in_use, first, last) in BANDS {
        let expected: Vec<usize> = (first..=last).collect();
        assert_eq!(expected.len(), usize::from(rows_in_use));
        assert_eq!(band(&all_lit(rows_in_use)), expected);
    }
}

#[test]
fn as_many_rows_are_dark_above_as_below_or_one_less() {
    for rows_in_use in 1..=64 {
        let band = band(&all_lit(rows_in_use));
        let above = band[0];
        let below = 63 - band[band.len() - 1];
        assert_eq!(above + band.len() + below, 64);
        assert_eq!(below - above, usize::from(rows_in_use % 2));
    }
}

#[test]
fn neither_direction_nor_start_line_nor_reverse_moves_the_band() {
    for (rows_in_use, first, last) in BANDS {
        let expected: Vec<usize> = (first..=last).collect();
        for commands in [
            &[0xC8][..],
            &[0x41],
            &[0x7F],
            &[0xC8, 0x60],
            &[0xA1],
            &[0xA7],
            &[0xA4, 0xA7],
            &[0xA4, 0xA7, 0xC8, 0x5B],
        ] {
            let mut rig = all_lit(rows_in_use);
            rig.commands(commands);
            assert_eq!(band(&rig), expected);
        }
    }
}

/// M, offset, and the two stretches of panel rows in use; 64..64 is no row.
const BANDS_MOVED: [(u8, u8, [Range<usize>; 2]); 29] = [
    // From rows 24 to 39.
    (16, 1, [23..39, 64..64]),
    (16, 24, [0..16, 64..64]),
    (16, 25, [0..15, 63..64]),
    (16, 32, [0..8, 56..64]),
    (16, 39, [0..1, 49..64]),
    (16, 40, [48..64, 64..64]),
    (16, 41, [47..63, 64..64]),
    (16, 63, [25..41, 64..64]),
    // From rows 23 to 39.
    (17, 23, [0..17, 64..64]),
    (17, 24, [0..16, 63..64]),
    (17, 39, [0..1, 48..64]),
    (17, 40, [47..64, 64..64]),
    (17, 63, [24..41, 64..64]),
    // From row 31.
    (1, 30, [1..2, 64..64]),
    (1, 31, [0..1, 64..64]),
    (1, 32, [63..64, 64..64]),
    (1, 33, [62..63, 64..64]),
    (1, 63, [32..33, 64..64]),
    // From rows 31 and 32.
    (2, 31, [0..2, 64..64]),
    (2, 32, [0..1, 63..64]),
    (2, 33, [62..64, 64..64]),
    // From rows 1 to 62.
    (62, 1, [0..62, 64..64]),
    (62, 2, [0..61, 63..64]),
    (62, 63, [2..64, 64..64]),
    // From rows 0 to 62.
    (63, 1, [0..62, 63..64]),
    (63, 62, [0..1, 2..64]),
    (63, 63, [1..64, 64..64]),
    (64, 1, [0..64, 64..64]),
    (64, 63, [0..64, 64..64]),
];

#[test]
fn the_offset_brings_the_band_up_and_round_the_edge() {
    for (rows_in_use, offset, expected) in BANDS_MOVED {
        let mut rig = all_lit(rows_in_use);
        rig.commands(&[0xD3, offset]);
        let expected: Vec<usize> = expected.into_iter().flatten().collect();
        assert_eq!(band(&rig), expected, "M {rows_in_use}, offset {offset}");
        rig.commands(&[0xC8, 0x55]);
        assert_eq!(band(&rig), expected, "M {rows_in_use}, offset {offset}");
    }
}

/// The RAM rows that the panel rows from the first on show, round the 64.
fn shown_from(rig: &Rig, first: usize, count: usize) -> Vec<Option<usize>> {
    (first..first + count)
        .map(|row| rig.ram_row_shown(row % 64))
        .collect()
}

#[test]
fn the_band_shows_the_ram_rows_from_the_start_line_on() {
    // M = 5: 59 rows are not in use, 29 of them above, so COM 0 is at panel
    // row 29. The start line is 62.
    let mut rig = Rig::after(&[0xAF, 0xA8, 0x04, 0x7E]);
    let normal = [62, 63, 0, 1, 2].map(Some);
    let reversed = [2, 1, 0, 63, 62].map(Some);
    assert_eq!(shown_from(&rig, 29, 5), normal);
    assert_eq!(shown_from(&rig, 34, 59), [None; 59]);
    rig.commands(&[0xC8]);
    assert_eq!(shown_from(&rig, 29, 5), reversed);
    assert_eq!(shown_from(&rig, 34, 59), [None; 59]);
    // Offset 31: COM 0 is at 29 - 31, two rows before row 0, which is 62.
    rig.commands(&[0xD3, 0x1F]);
    assert_eq!(shown_from(&rig, 62, 5), reversed);
    assert_eq!(shown_from(&rig, 3, 59), [None; 59]);
    rig.commands(&[0xC0]);
    assert_eq!(shown_from(&rig, 62, 5), normal);
    assert_eq!(shown_from(&rig, 3, 59), [None; 59]);
}

#[test]
fn sixteen_rows_from_start_line_60() {
    // Panel row p is COM p - 24: RAM row 60 + p - 24, or 60 + 15 - (p - 24).
    let mut rig = Rig::after(&[0xAF, 0xA8, 0x0F, 0x7C]);
    for (panel_row, normal, reversed) in [
        (23, None, None),
        (24, Some(60), Some(11)),
        (27, Some(63), Some(8)),
        (28, Some(0), Some(7)),
        (35, Some(7), Some(0)),
        (36, Some(8), Some(63)),
        (39, Some(11), Some(60)),
        (40, None, None),
    ] {
        rig.commands(&[0xC0]);
        assert_eq!(rig.ram_row_shown(panel_row), normal);
        rig.commands(&[0xC8]);
        assert_eq!(rig.ram_row_shown(panel_row), reversed);
    }
}

#[test]
fn one_row_shows_the_start_line_in_both_directions() {
    for direction in [0xC0, 0xC8] {
        let rig = Rig::after(&[0xAF, 0xA8, 0x00, 0x69, direction]);
        assert_eq!(rig.ram_row_shown(30), None);
        assert_eq!(rig.ram_row_shown(31), Some(0x29));
        assert_eq!(rig.ram_row_shown(32), None);
    }
}

/// M of 63 and 64 have no row above the band: rows normal, they differ only in
/// the row of COM 63.
#[test]
fn sixty_three_rows_draw_as_sixty_four_without_com_63() {
    for (offset, dark_row) in [(0, 63), (1, 62), (20, 43), (63, 0)] {
        let mut rig = Rig::after(&[0xAF, 0xD3, offset]);
        Random::new(2, 63).fill(&mut rig.memory);
        let mut expected = rig.frame();
        expected[132 * dark_row..132 * (dark_row + 1)].fill(0);
        rig.commands(&[0xA8, 0x3E]);
        assert!(rig.frame() == expected);
    }
}

#[test]
fn the_com_of_a_panel_row_is_never_below_0() {
    for (rows_in_use, offset, panel_row, com) in [
        (1, 0, 0, 33),
        (1, 0, 30, 63),
        (1, 0, 31, 0),
        (1, 0, 63, 32),
        (1, 30, 0, 63),
        (1, 31, 0, 0),
        (2, 0, 0, 33),
        (3, 0, 0, 34),
        (16, 0, 0, 40),
        (16, 0, 23, 63),
        (16, 0, 24, 0),
        (16, 63, 63, 38),
        (62, 0, 0, 63),
        (62, 0, 1, 0),
        (63, 0, 0, 0),
        (63, 63, 63, 62),
        (64, 0, 63, 63),
        (64, 63, 63, 62),
    ] {
        let registers = Registers {
            multiplex: rows_in_use - 1,
            offset,
            ..Registers::POWER_ON
        };
        let expected = Com(com);
        assert_eq!(com_of(registers, PanelRow(panel_row)), expected);
    }
}

#[test]
fn the_rows_above_the_band_ask_m_alone() {
    for (rows_in_use, first, _) in BANDS {
        for (offset, start_line, rows_reversed) in [(0, 0, false), (63, 0, true), (9, 63, true)] {
            let registers = Registers {
                multiplex: rows_in_use - 1,
                offset,
                start_line,
                rows_reversed,
                ..Registers::POWER_ON
            };
            assert_eq!(rows_above_band(registers), first);
        }
    }
}

#[test]
fn the_band_moves_as_soon_as_n_of_a8_is_taken() {
    let mut rig = Rig::after(&[0xAF]);
    // Bit 0 of byte 0: RAM row 0.
    assert_eq!(rig.write(0x01), 0);
    assert_eq!(rig.lit_rows(), [0]);
    rig.commands(&[0xA8]);
    assert_eq!(rig.state[AWAITED], 0xA8);
    assert_eq!(rig.lit_rows(), [0]);
    rig.commands(&[0x0F]);
    assert_eq!(rig.lit_rows(), [24]);
    // E2 leaves the multiplex, and with it the band.
    rig.commands(&[0xE2]);
    assert_eq!(rig.lit_rows(), [24]);
    // 7F is 127, and 127 - 64 is 63: all rows again.
    rig.commands(&[0xA8, 0x7F]);
    assert_eq!(rig.lit_rows(), [0]);
    // 42 is 66, and 66 - 64 is 2: three rows, 30 above.
    rig.commands(&[0xA8, 0x42]);
    assert_eq!(rig.lit_rows(), [30]);
    // The reset pin gives all rows, and the display off.
    assert_eq!(rig.reset(), 0);
    rig.commands(&[0xAF]);
    assert_eq!(rig.lit_rows(), [0]);
}

/// An offset that takes back what is above the band gives document 01's place
/// of it, whatever else is set.
#[test]
fn an_offset_of_t_more_draws_as_before_the_order() {
    let mut random = Random::new(2, 24);
    for (rows_in_use, first, _) in BANDS {
        for offset in [0, 1, 31, 32, 62, 63] {
            let mut rig = Rig::after(&[0xAF]);
            random.fill(&mut rig.memory);
            rig.state[MULTIPLEX] = rows_in_use - 1;
            rig.state[START_LINE] = random.up_to(63);
            rig.state[ROW_DIRECTION] = random.up_to(1);
            rig.state[OFFSET] = (offset + u8::try_from(first).unwrap()) % 64;
            for panel_row in [0, 1, 30, 31, 32, 33, 62, 63] {
                let com = (panel_row + offset) % 64;
                let start_line = rig.state[START_LINE];
                let expected = (com < rows_in_use).then(|| {
                    if rig.state[ROW_DIRECTION] == 0 {
                        usize::from((start_line + com) % 64)
                    } else {
                        usize::from((start_line + rows_in_use - 1 - com) % 64)
                    }
                });
                assert_eq!(rig.ram_row_shown(usize::from(panel_row)), expected);
            }
        }
    }
}
