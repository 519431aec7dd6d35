//! The display memory: 9 pages of 132 columns, page 8 with the icons.

/// Columns of a page, and dots across the panel.
pub const COLUMNS: usize = 132;

/// Bytes of display memory.
pub const MEMORY_LENGTH: usize = 1188;

/// The page that has bit 0 only.
pub const ICON_PAGE: u8 = 8;

/// The last column data can go to.
pub const LAST_COLUMN: u8 = 131;

/// The display memory. The bits of page 8 above bit 0 may hold anything.
pub type Memory = [u8; MEMORY_LENGTH];

/// The index of a page and column.
#[must_use]
pub fn place(page: u8, column: u8) -> usize {
    COLUMNS * usize::from(page) + usize::from(column)
}

/// The bits of a byte that a page has.
#[must_use]
pub fn bits_of_page(page: u8, byte: u8) -> u8 {
    if page == ICON_PAGE { byte & 1 } else { byte }
}

/// The column after this one on the same page.
#[must_use]
pub fn column_after(column: u8) -> u8 {
    if column == LAST_COLUMN { 0 } else { column + 1 }
}

/// The bit of a RAM row (0 to 64) at a RAM column (0 to 131).
#[must_use]
pub fn bit(memory: &Memory, ram_row: usize, ram_column: usize) -> bool {
    let byte = memory[COLUMNS * (ram_row / 8) + ram_column];
    byte >> (ram_row % 8) & 1 == 1
}
