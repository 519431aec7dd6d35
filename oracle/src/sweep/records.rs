//! Short records for the traces of the sweep.

use std::ops::RangeInclusive;

/// Adds a short record to a trace.
pub fn push_record(trace: &mut Vec<u8>, kind: u8, payload: &[u8]) {
    let length = u8::try_from(payload.len()).expect("payloads are short");
    trace.extend([length, 0, kind, 0]);
    trace.extend(payload);
}

/// Records that write the number of each RAM row of these pages into it.
pub fn numbered_rows(pages: RangeInclusive<u8>) -> Vec<u8> {
    let mut trace = Vec::new();
    for page in pages {
        push_record(&mut trace, 1, &[0xB0 | page, 0x00, 0x10]);
        push_record(&mut trace, 2, &row_numbers(page));
    }
    trace
}

/// Bytes that show in each row of the page its number in binary, the least
/// digit first, and after the seven digits a lit place.
fn row_numbers(page: u8) -> [u8; 8] {
    let digit = |row: u8, column: usize| (row | 0x80) >> column & 1;
    std::array::from_fn(|column| {
        (0..8).fold(0, |byte, bit| byte | digit(8 * page + bit, column) << bit)
    })
}
