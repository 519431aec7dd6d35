//! Random registers and images.

use crate::random::Random;
use crate::registers::{Awaited, FIELDS, Image, Registers};

/// Legal registers of every kind.
#[must_use]
pub fn legal_registers(random: &mut Random) -> Registers {
    Registers {
        page: random.up_to(8),
        column: column(random),
        start_line: random.up_to(63),
        offset: random.up_to(63),
        multiplex: random.up_to(63),
        contrast: random.up_to(63),
        resistor_ratio: random.up_to(7),
        power_control: random.up_to(7),
        bias: random.flag(),
        quarter_bias: random.flag(),
        byte_of_a9: random.byte(),
        frame_phases: random.up_to(3),
        columns_reversed: random.flag(),
        rows_reversed: random.flag(),
        entire_on: random.flag(),
        reverse: random.flag(),
        display_on: random.flag(),
        indicator_on: random.flag(),
        indicator_mode: random.up_to(3),
        awaited: random.one_in(3).then(|| random.pick(&Awaited::ALL)),
        read_modify_write: random.flag().then(|| column(random)),
        fresh: random.flag(),
    }
}

/// Legal registers that mostly show something.
#[must_use]
pub fn drawn_registers(random: &mut Random) -> Registers {
    let registers = legal_registers(random);
    Registers {
        multiplex: if random.one_in(4) {
            63
        } else {
            registers.multiplex
        },
        offset: if random.one_in(4) {
            0
        } else {
            registers.offset
        },
        entire_on: random.one_in(5),
        display_on: !random.one_in(8),
        ..registers
    }
}

/// A column: mostly one data can go to, often at an edge.
fn column(random: &mut Random) -> u8 {
    match random.below(8) {
        0 => random.pick(&[0, 1, 130, 131, 132, 133, 143, 254, 255]),
        1 => random.byte(),
        _ => random.up_to(131),
    }
}

/// An image out of its ranges: mostly in one field only.
#[must_use]
pub fn hostile_image(random: &mut Random) -> Image {
    loop {
        let mut image = legal_registers(random).image();
        spoil_a_field(random, &mut image);
        if random.one_in(8) {
            for _ in 0..random.between(1, 22) {
                image[random.below(FIELDS.len())] = random.byte();
            }
        }
        if Registers::from_image(&image).is_none() {
            return image;
        }
    }
}

/// Puts a field drawn by lot out of its range, if it has one.
fn spoil_a_field(random: &mut Random, image: &mut Image) {
    let field = random.below(FIELDS.len());
    let illegal = illegal_values(image, field);
    if let (Some(&first), Some(&last)) = (illegal.first(), illegal.last()) {
        image[field] = match random.below(3) {
            0 => first,
            1 => last,
            _ => random.pick(&illegal),
        };
    }
}

/// The values of a field that make this image illegal.
#[must_use]
pub fn illegal_values(image: &Image, field: usize) -> Vec<u8> {
    (0..=0xFF)
        .filter(|&value| {
            let mut changed = *image;
            changed[field] = value;
            Registers::from_image(&changed).is_none()
        })
        .collect()
}
