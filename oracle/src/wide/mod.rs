//! Order 4's wide terminal: two chips on one bus, and which of them are
//! selected.

pub mod event;
pub mod frame;
pub mod page;
pub mod trace;

use crate::event::{Event, Taken, lent};
use crate::memory::Memory;
use crate::refusal::Refusal;
use crate::registers::{Image, Registers};

/// One of the two chips.
#[derive(Clone, Copy, PartialEq, Eq, Debug)]
pub enum Side {
    Left,
    Right,
}

impl Side {
    /// Both, the left first.
    pub const ALL: [Side; 2] = [Side::Left, Side::Right];

    /// Its place in a pair.
    #[must_use]
    pub const fn index(self) -> usize {
        match self {
            Side::Left => 0,
            Side::Right => 1,
        }
    }
}

/// The chips that an event goes to.
#[derive(Clone, Copy, PartialEq, Eq, Debug)]
pub enum Selection {
    Left,
    Right,
    Both,
}

impl Selection {
    /// Every selection there is, in the order of their bytes.
    pub const ALL: [Selection; 3] = [Selection::Left, Selection::Right, Selection::Both];

    /// Its byte in a record and in a call.
    #[must_use]
    pub const fn byte(self) -> u8 {
        match self {
            Selection::Left => 1,
            Selection::Right => 2,
            Selection::Both => 3,
        }
    }

    /// The selection of a byte.
    ///
    /// # Errors
    /// 13 if it is none of 1 to 3.
    pub fn from_byte(byte: u8) -> Result<Selection, Refusal> {
        Selection::ALL
            .into_iter()
            .find(|selection| selection.byte() == byte)
            .ok_or(Refusal::WrongSelection)
    }

    /// The chips selected, the left first.
    #[must_use]
    pub const fn sides(self) -> &'static [Side] {
        match self {
            Selection::Left => &[Side::Left],
            Selection::Right => &[Side::Right],
            Selection::Both => &Side::ALL,
        }
    }
}

/// The buffers lent for one chip.
#[derive(PartialEq, Eq, Debug)]
pub struct Lent<'a> {
    pub state: &'a mut [u8],
    pub memory: &'a mut [u8],
}

/// A chip with legal registers.
#[derive(PartialEq, Eq, Debug)]
pub struct Chip<'a> {
    pub registers: Registers,
    pub memory: &'a mut Memory,
}

/// The left chip and the right.
pub type Chips<'a> = [Chip<'a>; 2];

/// The images in the four lent buffers, and the chips they stand for, each
/// image asked in the same way.
///
/// # Errors
/// 1 if any buffer is too short, else what asking an image gives.
fn lent_chips(
    [left, right]: [Lent<'_>; 2],
    ask: impl Fn(&Image) -> Result<Registers, Refusal>,
) -> Result<([&mut Image; 2], Chips<'_>), Refusal> {
    let (left_image, left_memory) = lent(left.state, left.memory)?;
    let (right_image, right_memory) = lent(right.state, right.memory)?;
    let chips = [
        Chip {
            registers: ask(left_image)?,
            memory: left_memory,
        },
        Chip {
            registers: ask(right_image)?,
            memory: right_memory,
        },
    ];
    Ok(([left_image, right_image], chips))
}

/// What an event leaves in each selected chip, with what it does to one of
/// them; none in a chip that is not selected.
///
/// # Errors
/// 14 for a read of both; else the refusal of a selected chip, the left's
/// where both refuse.
pub fn obey_selected(
    chips: &Chips,
    selection: Selection,
    event: Event,
    obey_one: impl Fn(Registers, &Memory) -> Result<Taken, Refusal>,
) -> Result<[Option<Taken>; 2], Refusal> {
    if (event, selection) == (Event::Read, Selection::Both) {
        return Err(Refusal::ReadOfBoth);
    }
    let mut taken = [None; 2];
    for side in selection.sides() {
        let chip = &chips[side.index()];
        taken[side.index()] = Some(obey_one(chip.registers, chip.memory)?);
    }
    Ok(taken)
}

/// Puts what an event leaves into the chips that took it.
pub fn leave_in_chips(taken: [Option<Taken>; 2], chips: &mut Chips) {
    for (taken, chip) in taken.into_iter().zip(chips) {
        if let Some(taken) = taken {
            taken.leave_in(&mut chip.registers, chip.memory);
        }
    }
}
