//! Counts of the four buffers that were lent.

use super::super::{Group, mixture, mixtures};
use crate::cases::wide::Pair;
use crate::generate::{MEMORY_LENGTHS, STATE_LENGTHS};
use crate::memory::MEMORY_LENGTH;
use crate::registers::{IMAGE_LENGTH, Registers};

/// The four buffers.
const BUFFERS: [&str; 4] = ["left state", "left memory", "right state", "right memory"];

/// Which images are out of their ranges, of those that are long enough.
pub const IMAGES: [&str; 4] = [
    "no image out of range",
    "left image out of range",
    "right image out of range",
    "both images out of range",
];

/// Whether a buffer is too short.
const LENGTHS: [&str; 2] = ["all long enough", "some too short"];

/// Which of the four buffers are too short.
pub fn is_short(pair: &Pair) -> [bool; 4] {
    let [left, right] = pair.each_ref().map(|buffers| {
        [
            buffers.state.len() < IMAGE_LENGTH,
            buffers.memory.len() < MEMORY_LENGTH,
        ]
    });
    [left[0], left[1], right[0], right[1]]
}

/// Which images are out of their ranges.
pub fn images_of(pair: &Pair) -> &'static str {
    let [left, right] = pair.each_ref().map(|buffers| {
        let image = buffers.state.first_chunk();
        usize::from(image.is_some_and(|image| Registers::from_image(image).is_none()))
    });
    IMAGES[left + 2 * right]
}

/// The number of a mixture of short buffers.
fn short_number(short: [bool; 4]) -> usize {
    let bits = short.iter().rev();
    bits.fold(0, |number, short| 2 * number + usize::from(*short))
}

/// The counts of lent buffers.
#[derive(Clone, PartialEq, Eq, Debug)]
pub struct PairCoverage {
    lengths: Group,
    short: Group,
    images: Group,
}

impl PairCoverage {
    /// Nothing reached yet, under these names.
    pub fn new([lengths, short, images]: [&'static str; 3]) -> PairCoverage {
        let labels = BUFFERS.iter().enumerate().flat_map(|(buffer, name)| {
            let lengths = [STATE_LENGTHS, MEMORY_LENGTHS][buffer % 2];
            lengths.map(|length| mixture(&[name, &length.to_string()]))
        });
        let mixtures_of_short = (0..16).map(|number| {
            let buffers = BUFFERS.iter().enumerate();
            let short = buffers.filter(|(buffer, _)| number >> buffer & 1 == 1);
            let names: Vec<&str> = short.map(|(_, name)| *name).collect();
            if names.is_empty() {
                "none".to_string()
            } else {
                names.join(", ")
            }
        });
        PairCoverage {
            lengths: Group::new(lengths, labels),
            short: Group::new(short, mixtures_of_short),
            images: Group::new(images, mixtures(&[&LENGTHS, &IMAGES])),
        }
    }

    /// Every group.
    pub fn groups(&self) -> [&Group; 3] {
        [&self.lengths, &self.short, &self.images]
    }

    /// Counts the buffers of a pair.
    pub fn see(&mut self, pair: &Pair) {
        let [left, right] = pair;
        let buffers = [&left.state, &left.memory, &right.state, &right.memory];
        for (name, buffer) in BUFFERS.iter().zip(buffers) {
            self.lengths
                .hit_label(&mixture(&[name, &buffer.len().to_string()]));
        }
        let short = is_short(pair);
        self.short.hit(short_number(short));
        let lengths = LENGTHS[usize::from(short.contains(&true))];
        self.images.hit_label(&mixture(&[lengths, images_of(pair)]));
    }
}
