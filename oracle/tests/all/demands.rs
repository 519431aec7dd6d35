//! Demand 3 of document 00, on the frames themselves.

use std::collections::HashMap;

use oracle::random::Random;

use crate::rig::{COLUMN_DIRECTION, MULTIPLEX, OFFSET, REVERSE, ROW_DIRECTION, Rig, START_LINE};

/// All 64 rows in use, the panel on, random memory.
fn full_panel() -> Rig {
    let mut rig = Rig::after(&[0xAF]);
    assert_eq!(rig.state[MULTIPLEX], 63);
    Random::new(8, 580).fill(&mut rig.memory);
    rig
}

#[test]
fn each_memory_bit_shows_at_exactly_one_place() {
    for (commands, shows) in [
        (&[][..], 8580),
        (&[0x47, 0xD3, 0x2A, 0xC8, 0xA1, 0xA7], 8580),
    ] {
        let mut rig = full_panel();
        rig.commands(commands);
        let before = rig.frame();
        let mut places = Vec::new();
        for byte in 0..1188 {
            for bit in 0..8 {
                rig.memory[byte] ^= 1 << bit;
                let changed: Vec<usize> = rig
                    .frame()
                    .iter()
                    .zip(&before)
                    .enumerate()
                    .filter(|(_, (after, before))| after != before)
                    .map(|(place, _)| place)
                    .collect();
                rig.memory[byte] ^= 1 << bit;
                let is_memory = byte < 1056 || bit == 0;
                assert_eq!(changed.len(), usize::from(is_memory));
                places.extend(changed);
            }
        }
        places.sort_unstable();
        places.dedup();
        assert_eq!(places.len(), shows);
    }
}

#[test]
fn raising_the_start_line_moves_the_dot_rows() {
    for (direction, step) in [(0, 1), (1, 63)] {
        for start_line in [0, 1, 40, 63] {
            for amount in 0..64 {
                let mut rig = full_panel();
                rig.state[ROW_DIRECTION] = direction;
                rig.state[OFFSET] = 11;
                rig.state[START_LINE] = start_line;
                let before = rig.frame();
                rig.state[START_LINE] = (start_line + amount) % 64;
                let after = rig.frame();
                for row in 0..64 {
                    // Up by the amount, or down by it, which is up by 63
                    // times the amount.
                    let came_from = (row + step * usize::from(amount)) % 64;
                    assert_eq!(
                        after[132 * row..132 * (row + 1)],
                        before[132 * came_from..132 * (came_from + 1)]
                    );
                }
                assert_eq!(after[8448..], before[8448..]);
            }
        }
    }
}

#[test]
fn two_settings_draw_the_same_exactly_when_they_agree() {
    let mut rig = full_panel();
    let mut frame_of_key = HashMap::new();
    let mut key_of_frame = HashMap::new();
    for lights in 0..8 {
        rig.state[COLUMN_DIRECTION] = lights & 1;
        rig.state[ROW_DIRECTION] = lights >> 1 & 1;
        rig.state[REVERSE] = lights >> 2;
        for start_line in 0..64 {
            for offset in 0..64 {
                rig.state[START_LINE] = start_line;
                rig.state[OFFSET] = offset;
                let row = if lights >> 1 & 1 == 0 {
                    (start_line + offset) % 64
                } else {
                    (64 + start_line - offset) % 64
                };
                let key = (lights, row);
                let frame = rig.frame();
                assert_eq!(*key_of_frame.entry(frame.clone()).or_insert(key), key);
                assert!(*frame_of_key.entry(key).or_insert_with(|| frame.clone()) == frame);
            }
        }
    }
    assert_eq!(frame_of_key.len(), 8 * 64);
    assert_eq!(key_of_frame.len(), 8 * 64);
}
