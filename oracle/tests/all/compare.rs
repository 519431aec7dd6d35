//! Where two frames or two memories differ. Every list here is worked out by
//! hand from Order 1 of document 02.

use oracle::compare::{self, Compared};

/// What every list buffer here holds before.
const BEFORE: u8 = 0xEE;

const TAKEN: u8 = 0;

fn dark() -> Vec<u8> {
    vec![0; 8580]
}

fn lit() -> Vec<u8> {
    vec![1; 8580]
}

fn zero() -> Vec<u8> {
    vec![0; 1188]
}

/// The buffer with other bytes at these places.
fn with(mut buffer: Vec<u8>, changes: &[(usize, u8)]) -> Vec<u8> {
    for &(place, byte) in changes {
        buffer[place] = byte;
    }
    buffer
}

/// The frame with these columns of a row set to dark or lit.
fn row_set(mut frame: Vec<u8>, row: usize, first: usize, last: usize, byte: u8) -> Vec<u8> {
    frame[132 * row + first..=132 * row + last].fill(byte);
    frame
}

/// The list of a call that must be taken with a buffer of just its length and
/// with a longer one, and be refused with one byte less.
fn list_by<const ENTRY: usize>(
    call: fn(&[u8], &[u8], &mut [u8]) -> Compared,
    first: &[u8],
    second: &[u8],
    expected: &[[u8; ENTRY]],
) {
    let count = expected.len();
    let taken = Compared {
        number: TAKEN,
        count,
    };
    let mut exact = vec![BEFORE; ENTRY * count];
    assert_eq!(call(first, second, &mut exact), taken);
    assert_eq!(exact, expected.as_flattened());

    let mut longer = vec![BEFORE; ENTRY * count + 9];
    assert_eq!(call(first, second, &mut longer), taken);
    assert_eq!(longer[..ENTRY * count], *expected.as_flattened());
    assert_eq!(longer[ENTRY * count..], [BEFORE; 9]);

    if count > 0 {
        for length in [0, ENTRY * (count - 1), ENTRY * count - 1] {
            refused_by(call, 11, first, second, length);
        }
    }
}

/// The call is refused with this number, count 0, and nothing written.
fn refused_by(
    call: fn(&[u8], &[u8], &mut [u8]) -> Compared,
    number: u8,
    first: &[u8],
    second: &[u8],
    list_length: usize,
) {
    let mut list = vec![BEFORE; list_length];
    let refused = Compared { number, count: 0 };
    assert_eq!(call(first, second, &mut list), refused);
    assert!(list.iter().all(|&byte| byte == BEFORE));
}

fn frames_differ(first: &[u8], second: &[u8], expected: &[[u8; 5]]) {
    list_by(compare::frames, first, second, expected);
}

fn memories_differ(first: &[u8], second: &[u8], expected: &[[u8; 4]]) {
    list_by(compare::memories, first, second, expected);
}

fn frames_refused(number: u8, first: &[u8], second: &[u8], list_length: usize) {
    refused_by(compare::frames, number, first, second, list_length);
}

fn memories_refused(number: u8, first: &[u8], second: &[u8], list_length: usize) {
    refused_by(compare::memories, number, first, second, list_length);
}

#[test]
fn equal_frames_have_an_empty_list_and_need_no_buffer() {
    for frame in [dark(), lit(), with(dark(), &[(77, 1), (8579, 1)])] {
        frames_differ(&frame, &frame, &[]);
    }
}

#[test]
fn a_single_place_is_a_run_whose_columns_are_alike() {
    // Row 2, column 10 is byte 274; row 64, column 5 is byte 8,453.
    frames_differ(&dark(), &with(dark(), &[(274, 1)]), &[[2, 10, 10, 0, 1]]);
    frames_differ(&with(dark(), &[(274, 1)]), &dark(), &[[2, 10, 10, 1, 0]]);
    frames_differ(&lit(), &with(lit(), &[(274, 0)]), &[[2, 10, 10, 1, 0]]);
    frames_differ(&lit(), &with(lit(), &[(8453, 0)]), &[[64, 5, 5, 1, 0]]);
}

#[test]
fn the_edges_of_rows() {
    // First and last places of rows 0, 33 and 64 (the icon line).
    for (place, row, column) in [
        (0, 0, 0),
        (131, 0, 131),
        (132, 1, 0),
        (4356, 33, 0),
        (4487, 33, 131),
        (8448, 64, 0),
        (8579, 64, 131),
    ] {
        frames_differ(
            &dark(),
            &with(dark(), &[(place, 1)]),
            &[[row, column, column, 0, 1]],
        );
    }
}

#[test]
fn a_run_is_as_long_as_it_can_be() {
    frames_differ(&dark(), &row_set(dark(), 7, 3, 9, 1), &[[7, 3, 9, 0, 1]]);
    frames_differ(
        &dark(),
        &row_set(dark(), 63, 0, 131, 1),
        &[[63, 0, 131, 0, 1]],
    );
    // What is lit in both does not break the row into more than it is.
    let first = row_set(dark(), 7, 5, 5, 1);
    let second = row_set(dark(), 7, 3, 9, 1);
    frames_differ(&first, &second, &[[7, 3, 4, 0, 1], [7, 6, 9, 0, 1]]);
}

#[test]
fn two_ways_side_by_side_are_two_runs() {
    // Row 4: columns 10 to 12 go on, 13 to 19 go off, 20 goes on.
    let first = row_set(dark(), 4, 13, 19, 1);
    let second = row_set(row_set(dark(), 4, 10, 12, 1), 4, 20, 20, 1);
    frames_differ(
        &first,
        &second,
        &[[4, 10, 12, 0, 1], [4, 13, 19, 1, 0], [4, 20, 20, 0, 1]],
    );
    frames_differ(
        &second,
        &first,
        &[[4, 10, 12, 1, 0], [4, 13, 19, 0, 1], [4, 20, 20, 1, 0]],
    );
}

#[test]
fn one_equal_place_parts_two_runs() {
    let second = row_set(row_set(dark(), 30, 0, 0, 1), 30, 2, 131, 1);
    frames_differ(&dark(), &second, &[[30, 0, 0, 0, 1], [30, 2, 131, 0, 1]]);
}

#[test]
fn a_run_stays_in_its_row() {
    // Bytes 130 to 133: the last two places of row 0 and the first two of
    // row 1.
    let second = with(dark(), &[(130, 1), (131, 1), (132, 1), (133, 1)]);
    frames_differ(&dark(), &second, &[[0, 130, 131, 0, 1], [1, 0, 1, 0, 1]]);
    // The last place of row 63 and the first of the icon line.
    let second = with(lit(), &[(8447, 0), (8448, 0)]);
    frames_differ(&lit(), &second, &[[63, 131, 131, 1, 0], [64, 0, 0, 1, 0]]);
    // One way at the row's end, the other at the next one's beginning.
    frames_differ(
        &with(dark(), &[(131, 1)]),
        &with(dark(), &[(132, 1)]),
        &[[0, 131, 131, 1, 0], [1, 0, 0, 0, 1]],
    );
}

#[test]
fn rows_are_not_joined() {
    let second = row_set(row_set(dark(), 8, 40, 44, 1), 9, 40, 44, 1);
    frames_differ(&dark(), &second, &[[8, 40, 44, 0, 1], [9, 40, 44, 0, 1]]);
}

#[test]
fn rows_come_from_the_top_and_runs_from_the_left() {
    let second = with(dark(), &[(8579, 1), (50, 1), (264, 1), (7, 1)]);
    frames_differ(
        &dark(),
        &second,
        &[
            [0, 7, 7, 0, 1],
            [0, 50, 50, 0, 1],
            [2, 0, 0, 0, 1],
            [64, 131, 131, 0, 1],
        ],
    );
}

#[test]
fn dark_and_lit_frames_differ_in_65_runs() {
    let rows: Vec<[u8; 5]> = (0..65).map(|row| [row, 0, 131, 0, 1]).collect();
    frames_differ(&dark(), &lit(), &rows);
    let rows: Vec<[u8; 5]> = (0..65).map(|row| [row, 0, 131, 1, 0]).collect();
    frames_differ(&lit(), &dark(), &rows);
}

#[test]
fn there_can_be_8580_runs() {
    // Even columns lit in the first frame, odd ones in the second.
    let first: Vec<u8> = [1, 0].repeat(4290);
    let second: Vec<u8> = [0, 1].repeat(4290);
    let mut runs = Vec::new();
    for row in 0..65 {
        for column in 0..132 {
            runs.push([row, column, column, 1 - column % 2, column % 2]);
        }
    }
    frames_differ(&first, &second, &runs);
}

#[test]
fn every_second_place_is_66_runs_in_a_row() {
    let second: Vec<u8> = [0, 1].repeat(4290);
    let mut runs = Vec::new();
    for row in 0..65 {
        for pair in 0..66 {
            runs.push([row, 2 * pair + 1, 2 * pair + 1, 0, 1]);
        }
    }
    frames_differ(&dark(), &second, &runs);
}

#[test]
fn short_frames_are_1() {
    for length in [0, 1, 8579] {
        let short = vec![0; length];
        frames_refused(1, &short, &dark(), 0);
        frames_refused(1, &dark(), &short, 0);
        frames_refused(1, &short, &short, 100);
    }
}

#[test]
fn a_byte_above_1_is_12_in_either_frame() {
    for byte in [2, 3, 128, 255] {
        for place in [0, 131, 132, 4290, 8579] {
            let wrong = with(dark(), &[(place, byte)]);
            frames_refused(12, &wrong, &dark(), 50_000);
            frames_refused(12, &dark(), &wrong, 50_000);
            // The same in both, so that nothing differs.
            frames_refused(12, &wrong, &wrong, 50_000);
        }
    }
}

#[test]
fn what_is_past_8580_is_no_frame() {
    let mut longer = dark();
    longer.extend([2, 255, 0, 1]);
    frames_differ(&longer, &dark(), &[]);
    frames_differ(&dark(), &longer, &[]);
    let mut other = with(dark(), &[(8579, 1)]);
    other.extend([1, 0, 128]);
    frames_differ(&longer, &other, &[[64, 131, 131, 0, 1]]);
}

#[test]
fn of_several_refusals_of_frames_1_goes_first_then_12_then_11() {
    let different = with(dark(), &[(3, 1)]);
    let wrong = with(dark(), &[(3, 1), (4, 2)]);
    let short = vec![0; 8579];
    let short_and_wrong = with(short.clone(), &[(0, 2)]);
    // 1 and 11.
    let short_and_different = with(short.clone(), &[(0, 1)]);
    frames_refused(1, &short_and_different, &dark(), 0);
    frames_refused(1, &dark(), &short_and_different, 4);
    // 1 and 12, by the same frame and by one each.
    frames_refused(1, &short_and_wrong, &dark(), 100);
    frames_refused(1, &dark(), &short_and_wrong, 100);
    frames_refused(1, &short, &wrong, 100);
    frames_refused(1, &wrong, &short, 100);
    // 12 and 11.
    frames_refused(12, &wrong, &dark(), 0);
    frames_refused(12, &different, &wrong, 4);
    // All three.
    frames_refused(1, &short, &wrong, 0);
    frames_refused(1, &wrong, &short_and_wrong, 4);
    // 11 alone: one entry needs five bytes.
    frames_refused(11, &different, &dark(), 4);
}

#[test]
fn a_list_too_small_for_all_is_not_begun() {
    // Three entries need 15 bytes.
    let second = with(dark(), &[(0, 1), (2, 1), (4, 1)]);
    for length in [0, 1, 4, 5, 9, 10, 14] {
        frames_refused(11, &dark(), &second, length);
    }
    frames_differ(
        &dark(),
        &second,
        &[[0, 0, 0, 0, 1], [0, 2, 2, 0, 1], [0, 4, 4, 0, 1]],
    );
}

#[test]
fn equal_memories_have_an_empty_list_and_need_no_buffer() {
    for memory in [zero(), vec![0xFF; 1188], with(zero(), &[(600, 9)])] {
        memories_differ(&memory, &memory, &[]);
    }
}

#[test]
fn a_differing_byte_is_its_place_and_two_contents() {
    let first = with(zero(), &[(0, 0x12), (1055, 0x80)]);
    memories_differ(&first, &zero(), &[[0, 0, 0x12, 0], [0x1F, 4, 0x80, 0]]);
    memories_differ(&zero(), &first, &[[0, 0, 0, 0x12], [0x1F, 4, 0, 0x80]]);
    // Contents that share bits are told whole. 300 is 256 + 44.
    let first = with(zero(), &[(300, 0x3C)]);
    let second = with(zero(), &[(300, 0x3D)]);
    memories_differ(&first, &second, &[[44, 1, 0x3C, 0x3D]]);
}

#[test]
fn places_are_little_endian_and_rise() {
    let places = [255, 256, 511, 512, 1024, 131, 132];
    let second = with(zero(), &places.map(|place| (place, 5)));
    memories_differ(
        &zero(),
        &second,
        &[
            [131, 0, 0, 5],
            [132, 0, 0, 5],
            [255, 0, 0, 5],
            [0, 1, 0, 5],
            [255, 1, 0, 5],
            [0, 2, 0, 5],
            [0, 4, 0, 5],
        ],
    );
}

#[test]
fn neighbours_alike_are_an_entry_each() {
    let second = with(zero(), &[(20, 7), (21, 7), (22, 7)]);
    memories_differ(
        &zero(),
        &second,
        &[[20, 0, 0, 7], [21, 0, 0, 7], [22, 0, 0, 7]],
    );
}

#[test]
fn all_1188_bytes_can_differ() {
    let entries: Vec<[u8; 4]> = (0..1188_u16)
        .map(|place| {
            let [low, high] = place.to_le_bytes();
            // Page 8 begins at 1,056.
            [low, high, if place < 1056 { 0xFF } else { 1 }, 0]
        })
        .collect();
    memories_differ(&[0xFF; 1188], &zero(), &entries);
}

#[test]
fn page_8_is_compared_and_told_by_bit_0() {
    // 1,056 is 4 * 256 + 32, 1,187 is 4 * 256 + 163.
    for junk in [0x02, 0x80, 0xFE] {
        for (place, low) in [(1056, 32), (1187, 163)] {
            let first = with(zero(), &[(place, junk)]);
            memories_differ(&first, &zero(), &[]);
            memories_differ(&zero(), &first, &[]);
            let odd = with(zero(), &[(place, junk | 1)]);
            memories_differ(&odd, &zero(), &[[low, 4, 1, 0]]);
            memories_differ(&zero(), &odd, &[[low, 4, 0, 1]]);
            memories_differ(&first, &odd, &[[low, 4, 0, 1]]);
            memories_differ(&odd, &first, &[[low, 4, 1, 0]]);
            let one = with(zero(), &[(place, 1)]);
            memories_differ(&odd, &one, &[]);
        }
    }
    // Junk of different kinds on both sides.
    let first = with(zero(), &[(1100, 0xF0), (1101, 0xF1)]);
    let second = with(zero(), &[(1100, 0x0E), (1101, 0x0E)]);
    memories_differ(&first, &second, &[[0x4D, 4, 1, 0]]);
    // The last byte of page 7 has all its bits.
    let first = with(zero(), &[(1055, 0xFE)]);
    memories_differ(&first, &zero(), &[[0x1F, 4, 0xFE, 0]]);
}

#[test]
fn short_memories_are_1_and_that_goes_before_11() {
    for length in [0, 1, 1187] {
        let short = vec![9; length];
        memories_refused(1, &short, &zero(), 5000);
        memories_refused(1, &zero(), &short, 5000);
        memories_refused(1, &short, &short, 5000);
        memories_refused(1, &short, &zero(), 0);
        memories_refused(1, &zero(), &short, 3);
    }
}

#[test]
fn memories_are_never_12() {
    memories_differ(&[2; 1188], &[2; 1188], &[]);
}

#[test]
fn what_is_past_1188_is_no_memory() {
    let mut longer = zero();
    longer.extend([1, 2, 3]);
    memories_differ(&longer, &zero(), &[]);
    let other = with(longer.clone(), &[(1187, 1), (1188, 0xFF)]);
    memories_differ(&longer, &other, &[[163, 4, 0, 1]]);
}

#[test]
fn a_list_of_memories_too_small_for_all_is_not_begun() {
    let second = with(zero(), &[(0, 1), (1187, 1)]);
    for length in [0, 1, 3, 4, 7] {
        memories_refused(11, &zero(), &second, length);
    }
    memories_differ(&zero(), &second, &[[0, 0, 0, 1], [163, 4, 0, 1]]);
}

/// Puts the listed runs into a frame.
fn runs_put(frame: &[u8], entries: &[[u8; 5]]) -> Vec<u8> {
    let mut frame = frame.to_vec();
    for &[row, first_column, last_column, _, lit] in entries {
        frame = row_set(
            frame,
            row.into(),
            first_column.into(),
            last_column.into(),
            lit,
        );
    }
    frame
}

/// The listed runs put into the first frame give the second, and there are as
/// few of them as can be.
#[test]
fn the_list_put_into_the_first_frame_gives_the_second() {
    // Uneven frames: the bits of a number that is multiplied on and on.
    let uneven = |start: u32| -> Vec<u8> {
        let mut number = start;
        (0..8580)
            .map(|_| {
                number = number.wrapping_mul(1_664_525).wrapping_add(1_013_904_223);
                u8::try_from(number >> 31).unwrap()
            })
            .collect()
    };
    for (first, second) in [
        (uneven(1), uneven(2)),
        (uneven(3), dark()),
        (lit(), uneven(4)),
    ] {
        let mut list = vec![BEFORE; 42_900];
        let answer = compare::frames(&first, &second, &mut list);
        assert_eq!(answer.number, TAKEN);
        let entries = &list.as_chunks().0[..answer.count];
        assert_eq!(runs_put(&first, entries), second);
        assert_eq!(
            answer.count,
            (0..8580)
                .filter(|&place| {
                    // A run begins where the place to the left, if there is
                    // one, does not have the same two values.
                    first[place] != second[place]
                        && (place % 132 == 0
                            || (first[place - 1], second[place - 1])
                                != (first[place], second[place]))
                })
                .count()
        );
        assert!(entries.is_sorted());
    }
}
