//! Order 3: the two starts, the start call, and what the resets do after it.

use oracle::generate::traces::drawing_trace;
use oracle::random::Random;
use oracle::registers::Registers;
use oracle::start::{self, Start};

use crate::rig::{
    BUSY, COLUMN_DIRECTION, CONTRAST, POWER_ON, ROW_DIRECTION, Rig, START_LINE, UPSIDE_DOWN,
};

/// Both starts, and the images they give.
const STARTS: [(Start, [u8; 23]); 2] =
    [(Start::UpsideDown, UPSIDE_DOWN), (Start::Upright, POWER_ON)];

#[test]
fn the_starts_differ_in_the_two_directions_alone() {
    for (start, image) in STARTS {
        assert_eq!(start.registers().image(), image);
        assert_eq!(Registers::from_image(&image), Some(start.registers()));
    }
    let mut image = POWER_ON;
    image[COLUMN_DIRECTION] = 1;
    image[ROW_DIRECTION] = 1;
    assert_eq!(image, UPSIDE_DOWN);
}

#[test]
fn power_on_is_the_chips_own_still() {
    assert_eq!(Registers::POWER_ON.image(), POWER_ON);
}

#[test]
fn the_start_call_gives_its_image_and_zero_memory() {
    let mut uneven = vec![0; 1188];
    Random::new(3, 1188).fill(&mut uneven);
    for (start, image) in STARTS {
        for state_before in [POWER_ON, UPSIDE_DOWN, BUSY, [0x00; 23], [0xFF; 23]] {
            for memory_before in [vec![0; 1188], vec![0xFF; 1188], uneven.clone()] {
                let (mut state, mut memory) = (state_before, memory_before);
                assert_eq!(start::call(start, &mut state, &mut memory), 0);
                assert_eq!(state, image);
                assert_eq!(memory, [0; 1188]);
            }
        }
    }
}

/// No image is out of its ranges here: 2 is never answered.
#[test]
fn the_start_call_asks_nothing_of_the_image() {
    for (start, image) in STARTS {
        for field in 0..23 {
            for value in 0..=0xFF {
                let mut state = BUSY;
                state[field] = value;
                assert_eq!(start::call(start, &mut state, &mut [0; 1188]), 0);
                assert_eq!(state, image, "field {field} was {value}");
            }
        }
    }
}

#[test]
fn junk_in_page_8_goes_too() {
    for (start, _) in STARTS {
        for place in [0, 131, 1055, 1056, 1187] {
            for byte in [0x01, 0x02, 0x80, 0xFE, 0xFF] {
                let mut memory = [0; 1188];
                memory[place] = byte;
                assert_eq!(start::call(start, &mut [9; 23], &mut memory), 0);
                assert_eq!(memory, [0; 1188]);
            }
        }
    }
}

#[test]
fn a_short_buffer_is_1_and_nothing_is_written() {
    for (start, _) in STARTS {
        for (state_length, memory_length) in [
            (0, 0),
            (0, 1188),
            (1, 1188),
            (22, 1188),
            (22, 1187),
            (22, 5000),
            (23, 0),
            (23, 1),
            (23, 23),
            (23, 1187),
            (24, 1187),
            (1188, 23),
            (1188, 1187),
            (5000, 0),
        ] {
            for byte in [0x00, 0x01, 0xA7, 0xFF] {
                let mut state = vec![byte; state_length];
                let mut memory = vec![byte; memory_length];
                assert_eq!(start::call(start, &mut state, &mut memory), 1);
                assert_eq!(state, vec![byte; state_length]);
                assert_eq!(memory, vec![byte; memory_length]);
            }
        }
    }
}

#[test]
fn bytes_past_what_is_needed_stay() {
    for (start, image) in STARTS {
        for (state_length, memory_length) in [
            (23, 1188),
            (24, 1188),
            (23, 1189),
            (24, 1189),
            (1188, 1188),
            (40, 20_000),
            (20_000, 1300),
        ] {
            for byte in [0x00, 0x01, 0x5C, 0xFF] {
                let mut state = vec![byte; state_length];
                let mut memory = vec![byte; memory_length];
                assert_eq!(start::call(start, &mut state, &mut memory), 0);
                assert_eq!(state[..23], image);
                assert_eq!(state[23..], vec![byte; state_length - 23]);
                assert_eq!(memory[..1188], [0; 1188]);
                assert_eq!(memory[1188..], vec![byte; memory_length - 1188]);
            }
        }
    }
}

/// A start call in the middle is a new beginning, whatever was before.
#[test]
fn starting_again_forgets_all() {
    for (start, image) in STARTS {
        let mut rig = Rig::with(image);
        rig.commands(&[0xAF, 0x81, 0x05, 0xB3, 0x12, 0xE0, 0xA8, 0x0F, 0xA0, 0xC8]);
        assert_eq!(rig.write(0x77), 0);
        rig.commands(&[0xD3]);
        assert_eq!(start::call(start, &mut rig.state, &mut rig.memory), 0);
        assert_eq!(rig, Rig::with(image));
        // The first read is the dummy read, the second finds nothing.
        assert_eq!(rig.read(), (0, 0, true));
        assert_eq!(rig.read(), (0, 0, false));
    }
}

#[test]
fn the_reset_pin_gives_the_chips_own_values_after_either_start() {
    for (_, image) in STARTS {
        let mut rig = Rig::with(image);
        assert_eq!(rig.write(0x3C), 0);
        assert_eq!(rig.reset(), 0);
        assert_eq!(rig.state, POWER_ON);
        // Memory is not touched.
        assert_eq!(rig.memory[0], 0x3C);
        // A record of a trace does the same.
        let mut rig = Rig::with(image);
        assert_eq!(rig.run(&[0x00, 0x00, 0x04, 0x00]), (0, 4, 1));
        assert_eq!(rig, Rig::power_on());
    }
}

#[test]
fn e2_makes_rows_normal_and_leaves_the_columns() {
    let mut expected = UPSIDE_DOWN;
    expected[ROW_DIRECTION] = 0;
    let mut rig = Rig::upside_down();
    rig.commands(&[0xE2]);
    assert_eq!(rig.state, expected);
    // Neither start has such directions; a second E2 changes nothing.
    rig.commands(&[0xE2]);
    assert_eq!(rig.state, expected);
    assert!(STARTS.iter().all(|(_, image)| *image != expected));

    // What E2 does not name stays: multiplex 15, offset 3, power control 7,
    // bias 1, display on.
    let mut rig = Rig::upside_down();
    rig.commands(&[0xA8, 0x0F, 0xD3, 0x03, 0x2F, 0xA3, 0xAF]);
    rig.commands(&[0x45, 0xB2, 0x81, 0x07, 0x21, 0xAD, 0x02, 0x17, 0xE0]);
    rig.commands(&[0xE2]);
    let expected = [
        0, 0, 0, 3, 15, 32, 4, 7, 1, 0, 0, 0, 1, 0, 0, 0, 1, 0, 0, 0, 0, 0, 1,
    ];
    assert_eq!(rig.state, expected);
}

#[test]
fn e2_as_n_is_no_reset() {
    let mut rig = Rig::upside_down();
    rig.commands(&[0x81, 0xE2]);
    // E2 is 226, and 226 - 3 * 64 is 34.
    let mut expected = UPSIDE_DOWN;
    expected[CONTRAST] = 34;
    assert_eq!(rig.state, expected);
}

#[test]
fn direction_commands_set_and_do_not_turn_again() {
    for (_, image) in STARTS {
        for (byte, field, value) in [
            (0xA0, COLUMN_DIRECTION, 0),
            (0xA1, COLUMN_DIRECTION, 1),
            (0xC0, ROW_DIRECTION, 0),
            (0xC7, ROW_DIRECTION, 0),
            (0xC8, ROW_DIRECTION, 1),
            (0xCF, ROW_DIRECTION, 1),
        ] {
            let mut expected = image;
            expected[field] = value;
            let mut rig = Rig::with(image);
            rig.commands(&[byte]);
            assert_eq!(rig.state, expected);
            rig.commands(&[byte]);
            assert_eq!(rig.state, expected);
        }
    }
}

/// The start changes no answer, no memory and no register but the directions.
#[test]
fn a_run_answers_the_same_from_both_starts() {
    let mut random = Random::new(3, 400);
    for _ in 0..400 {
        let trace = drawing_trace(&mut random);
        let mut upside_down = Rig::upside_down();
        let mut upright = Rig::power_on();
        assert_eq!(upside_down.run(&trace), upright.run(&trace));
        for field in [COLUMN_DIRECTION, ROW_DIRECTION] {
            upside_down.state[field] = 0;
            upright.state[field] = 0;
        }
        assert_eq!(upside_down, upright);
    }
}

#[test]
fn panel_rows_show_the_ram_rows_turned_round() {
    let mut rig = Rig::upside_down();
    rig.commands(&[0xAF]);
    for (panel_row, ram_row) in [(0, 63), (1, 62), (31, 32), (62, 1), (63, 0), (64, 64)] {
        assert_eq!(rig.ram_row_shown(panel_row), Some(ram_row));
    }
    // Start line 3, offset 2, M = 64: sample 10 with rows reversed.
    rig.commands(&[0x43, 0xD3, 0x02]);
    assert_eq!(rig.ram_row_shown(0), Some(0));
    assert_eq!(rig.ram_row_shown(63), Some(1));
    // 16 rows: sample 11, which names its direction, is that of the start.
    rig.commands(&[0x40, 0xD3, 0x00, 0xA8, 0x0F]);
    assert_eq!(rig.ram_row_shown(23), None);
    assert_eq!(rig.ram_row_shown(24), Some(15));
    assert_eq!(rig.ram_row_shown(39), Some(0));
    assert_eq!(rig.ram_row_shown(40), None);
}

/// The place at which the other start shows what is shown at (row, column):
/// with even M panel row 63 - p, with odd M 62 - p, the offset taken off twice;
/// column 131 - x; the icons in their row.
#[test]
fn the_two_starts_draw_the_same_dots_turned_round() {
    for (rows_in_use, offset, rows) in [
        (64_u8, 0_u8, 63),
        (64, 5, 53),
        (16, 0, 63),
        (16, 1, 61),
        (15, 0, 62),
        (1, 0, 62),
        (63, 0, 62),
        (63, 31, 0),
        (62, 0, 63),
    ] {
        let mut upright = Rig::power_on();
        Random::new(3, 8580).fill(&mut upright.memory);
        let mut upside_down = Rig::upside_down();
        upside_down.memory.clone_from(&upright.memory);
        for rig in [&mut upright, &mut upside_down] {
            rig.commands(&[0xAF, 0x40 | 9, 0xA8, rows_in_use - 1, 0xD3, offset]);
            assert_eq!(rig.state[START_LINE], 9);
        }
        let frame = upright.frame();
        let expected: Vec<u8> = (0..8580)
            .map(|place| {
                let (row, column) = (place / 132, place % 132);
                let row = if row == 64 {
                    64
                } else {
                    (64 + rows - row) % 64
                };
                frame[132 * row + 131 - column]
            })
            .collect();
        assert!(upside_down.frame() == expected, "M {rows_in_use}, {offset}");
    }
}

#[test]
fn the_starts_have_names() {
    assert_eq!(Start::ALL.map(Start::name), ["upside down", "upright"]);
    assert_eq!(Start::UpsideDown.other(), Start::Upright);
    assert_eq!(Start::Upright.other(), Start::UpsideDown);
}
