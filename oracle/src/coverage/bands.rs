//! Counts of where the band of the rows in use was drawn and listed.

use super::{Group, mixture, mixtures};
use crate::frame::{DOT_ROWS, PanelRow, shown_on};
use crate::registers::Registers;

/// Where the rows in use can be.
const PLACES: [&str; 5] = [
    "clear of both edges",
    "at the top",
    "at the bottom",
    "over the edge",
    "all rows",
];

/// Whether a band is in one part or in two.
const PARTS: [&str; 2] = ["in one part", "over the edge"];

/// Whether M is even or odd.
const EVEN_OR_ODD: [&str; 2] = ["M even", "M odd"];

/// The row directions.
const DIRECTIONS: [&str; 2] = ["rows normal", "rows reversed"];

/// Whether the RAM rows of a band go on from 63 to 0.
const RAM_ROWS: [&str; 2] = ["RAM rows on to 63 at most", "RAM rows on from 63 to 0"];

/// The lights a band can have.
const LIGHTS: [&str; 4] = ["plain", "reverse", "entire on", "entire on, reverse"];

/// The panel rows in use.
struct Band {
    rows: [bool; DOT_ROWS],
}

impl Band {
    /// The band that these registers show while the display is on.
    fn of(registers: Registers) -> Band {
        Band {
            rows: std::array::from_fn(|row| shown_on(registers, PanelRow(row)).is_some()),
        }
    }

    /// How many rows from the top on are in use, or are not.
    fn rows_at_top(&self, in_use: bool) -> usize {
        let rows = self.rows.iter();
        rows.take_while(|row| **row == in_use).count()
    }

    /// How many rows from the bottom up are in use, or are not.
    fn rows_at_bottom(&self, in_use: bool) -> usize {
        let rows = self.rows.iter().rev();
        rows.take_while(|row| **row == in_use).count()
    }

    /// Whether as many rows are dark above it as below, or one less.
    fn is_in_the_middle(&self) -> bool {
        let (above, below) = (self.rows_at_top(false), self.rows_at_bottom(false));
        below == above || below == above + 1
    }

    /// Which of the places it is at.
    fn place(&self) -> &'static str {
        let [clear, top, bottom, over_the_edge, all_rows] = PLACES;
        match (self.rows[0], self.rows[DOT_ROWS - 1]) {
            (false, false) => clear,
            (true, false) => top,
            (false, true) => bottom,
            (true, true) if self.rows.contains(&false) => over_the_edge,
            (true, true) => all_rows,
        }
    }
}

/// The counts of bands.
#[derive(Clone, PartialEq, Eq, Debug)]
pub struct BandCoverage {
    in_the_middle: Group,
    at_the_top: Group,
    at_the_bottom: Group,
    one_row_at_the_top: Group,
    one_row_at_the_bottom: Group,
    offsets: Group,
    /// Whether a multiplex was drawn with an offset.
    met: [[bool; DOT_ROWS]; DOT_ROWS],
    lights: Group,
    ram_rows: Group,
    listed_normal: Group,
    listed_reversed: Group,
    listed_places: Group,
}

impl BandCoverage {
    /// Nothing reached yet.
    pub fn new() -> BandCoverage {
        BandCoverage {
            in_the_middle: Group::new("bands drawn in the middle, M", 1..=63),
            at_the_top: Group::new("bands drawn at the top, M", 1..=63),
            at_the_bottom: Group::new("bands drawn at the bottom, M", 1..=63),
            one_row_at_the_top: Group::new(
                "bands drawn over the edge with one row at the top, M",
                2..=63,
            ),
            one_row_at_the_bottom: Group::new(
                "bands drawn over the edge with one row at the bottom, M",
                2..=63,
            ),
            offsets: Group::new("bands drawn with different offsets, M", 1..=64),
            met: [[false; DOT_ROWS]; DOT_ROWS],
            lights: Group::new(
                "bands drawn, lights",
                mixtures(&[&PARTS, &EVEN_OR_ODD, &LIGHTS]),
            ),
            ram_rows: Group::new(
                "bands drawn, RAM rows",
                mixtures(&[&PARTS, &DIRECTIONS, &RAM_ROWS]),
            ),
            listed_normal: Group::new("bands listed, rows normal, M", 1..=64),
            listed_reversed: Group::new("bands listed, rows reversed, M", 1..=64),
            listed_places: Group::new("bands listed", PLACES),
        }
    }

    /// Every group.
    pub fn groups(&self) -> Vec<&Group> {
        vec![
            &self.in_the_middle,
            &self.at_the_top,
            &self.at_the_bottom,
            &self.one_row_at_the_top,
            &self.one_row_at_the_bottom,
            &self.offsets,
            &self.lights,
            &self.ram_rows,
            &self.listed_normal,
            &self.listed_reversed,
            &self.listed_places,
        ]
    }

    /// Counts what a drawing with the display on reaches.
    pub fn see_draw(&mut self, registers: Registers) {
        let met = &mut self.met[usize::from(registers.multiplex)][usize::from(registers.offset)];
        if !*met {
            *met = true;
            self.offsets.hit(registers.multiplex);
        }
        let band = Band::of(registers);
        let rows_in_use = usize::from(registers.rows_in_use());
        let [_, top, bottom, over_the_edge, all_rows] = PLACES;
        let place = band.place();
        if place == all_rows {
            return;
        }
        if place == top {
            self.at_the_top.hit_number(rows_in_use);
        }
        if place == bottom {
            self.at_the_bottom.hit_number(rows_in_use);
        }
        if place == over_the_edge {
            self.see_over_the_edge(&band, rows_in_use);
        } else if band.is_in_the_middle() {
            self.in_the_middle.hit_number(rows_in_use);
        }
        self.see_contents(registers, place == over_the_edge);
    }

    /// Counts how a band over the edge is parted.
    fn see_over_the_edge(&mut self, band: &Band, rows_in_use: usize) {
        if band.rows_at_top(true) == 1 {
            self.one_row_at_the_top.hit_number(rows_in_use);
        }
        if band.rows_at_bottom(true) == 1 {
            self.one_row_at_the_bottom.hit_number(rows_in_use);
        }
    }

    /// Counts the lights and the RAM rows that a band shows.
    fn see_contents(&mut self, registers: Registers, over_the_edge: bool) {
        let parts = PARTS[usize::from(over_the_edge)];
        let rows_in_use = registers.rows_in_use();
        let even_or_odd = EVEN_OR_ODD[usize::from(rows_in_use % 2)];
        let light = 2 * usize::from(registers.entire_on) + usize::from(registers.reverse);
        self.lights
            .hit_label(&mixture(&[parts, even_or_odd, LIGHTS[light]]));
        if !registers.entire_on {
            let direction = DIRECTIONS[usize::from(registers.rows_reversed)];
            let ram_rows = RAM_ROWS[usize::from(registers.start_line + rows_in_use > 64)];
            self.ram_rows
                .hit_label(&mixture(&[parts, direction, ram_rows]));
        }
    }

    /// Counts what a listing that ends with the display on reaches.
    pub fn see_listing(&mut self, registers: Registers) {
        if registers.rows_reversed {
            self.listed_reversed.hit(registers.multiplex);
        } else {
            self.listed_normal.hit(registers.multiplex);
        }
        self.listed_places.hit_label(Band::of(registers).place());
    }
}
