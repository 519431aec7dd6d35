//! The listing program's text, from the old start unless said.

use oracle::listing;
use oracle::start::Start;

use crate::rig::DOCUMENT_TRACE;

fn listing(trace: &[u8]) -> String {
    listing::listing(Start::Upright, trace)
}

fn listing_upside_down(trace: &[u8]) -> String {
    listing::listing(Start::UpsideDown, trace)
}

#[test]
fn the_listing_of_document_01_from_both_starts() {
    assert_eq!(
        listing(&DOCUMENT_TRACE),
        "frame 132 65\n0 0-1\n1 0-0\nend\n"
    );
    // RAM row 0 is at panel row 63, RAM row 1 at 62; column 0 at 131, 1 at 130.
    assert_eq!(
        listing_upside_down(&DOCUMENT_TRACE),
        "frame 132 65\n62 131-131\n63 130-131\nend\n"
    );
}

#[test]
fn no_trace_is_a_dark_frame() {
    assert_eq!(listing(&[]), "frame 132 65\nend\n");
    assert_eq!(listing_upside_down(&[]), "frame 132 65\nend\n");
}

/// The rows of document 01's picture with columns and rows normal (N) or turned
/// (T), the columns named first.
const NN: &str = "0 0-1\n1 0-0\n";
const NT: &str = "62 0-0\n63 0-1\n";
const TN: &str = "0 130-131\n1 131-131\n";
const TT: &str = "62 131-131\n63 130-131\n";
const DARK: &str = "";

/// A record of commands.
fn commands(bytes: &[u8]) -> Vec<u8> {
    let length = u8::try_from(bytes.len()).unwrap();
    [&[length, 0x00, 0x01, 0x00], bytes].concat()
}

const RESET_RECORD: [u8; 4] = [0x00, 0x00, 0x04, 0x00];

/// A trace lists these rows from the new start, and those from the old one.
fn lists(trace: &[u8], upside_down: &str, upright: &str) {
    let expected = |rows: &str| format!("frame 132 65\n{rows}end\n");
    assert_eq!(
        listing_upside_down(trace),
        expected(upside_down),
        "{trace:02X?}"
    );
    assert_eq!(listing(trace), expected(upright), "{trace:02X?}");
}

/// Turns before document 01's trace, and the rows that are lit from the new
/// start and from the old.
#[test]
fn turns_before_the_drawing() {
    for (turns, upside_down, upright) in [
        (vec![], TT, NN),
        (RESET_RECORD.to_vec(), NN, NN),
        (commands(&[0xE2]), TN, NN),
        (commands(&[0xA0]), NT, NN),
        (commands(&[0xA1]), TT, TN),
        (commands(&[0xC0]), TN, NN),
        (commands(&[0xC7]), TN, NN),
        (commands(&[0xC8]), TT, NT),
        (commands(&[0xCF]), TT, NT),
        (commands(&[0xA0, 0xC0]), NN, NN),
        (commands(&[0xA1, 0xC8]), TT, TT),
        (commands(&[0xA0, 0xC8]), NT, NT),
        (commands(&[0xA1, 0xC0]), TN, TN),
        (commands(&[0xE2, 0xC8]), TT, NT),
        (commands(&[0xC8, 0xE2]), TN, NN),
        (commands(&[0xE2, 0xA0]), NN, NN),
        (commands(&[0xA0, 0xE2]), NN, NN),
        (commands(&[0xA1, 0xE2]), TN, TN),
        (commands(&[0x81, 0xE2]), TT, NN),
        (commands(&[0xA9, 0xA0, 0xA9, 0xC0]), TT, NN),
        (
            [commands(&[0xA1, 0xC8]), RESET_RECORD.to_vec()].concat(),
            NN,
            NN,
        ),
        (
            [RESET_RECORD.to_vec(), commands(&[0xA1, 0xC8])].concat(),
            TT,
            TT,
        ),
        ([RESET_RECORD.to_vec(), commands(&[0xA1])].concat(), TN, TN),
        ([RESET_RECORD.to_vec(), commands(&[0xC8])].concat(), NT, NT),
    ] {
        let trace = [&turns[..], &DOCUMENT_TRACE].concat();
        lists(&trace, upside_down, upright);
    }
}

/// The chip mirrors as it draws: after document 01's trace the same turns do
/// the same, but for the reset pin, which puts the display off.
#[test]
fn turns_after_the_drawing() {
    let on_again = |turns: &[u8]| [turns, &commands(&[0xAF])].concat();
    for (turns, upside_down, upright) in [
        (RESET_RECORD.to_vec(), DARK, DARK),
        (on_again(&RESET_RECORD), NN, NN),
        (
            [RESET_RECORD.to_vec(), commands(&[0xA1, 0xAF])].concat(),
            TN,
            TN,
        ),
        (commands(&[0xE2]), TN, NN),
        (on_again(&commands(&[0xE2])), TN, NN),
        (commands(&[0xA0]), NT, NN),
        (commands(&[0xA1]), TT, TN),
        (commands(&[0xC0]), TN, NN),
        (commands(&[0xC8]), TT, NT),
        (commands(&[0xA1, 0xC8]), TT, TT),
        (commands(&[0xE2, 0xC8]), TT, NT),
        (commands(&[0xC8, 0xE2]), TN, NN),
        (commands(&[0x81, 0xE2]), TT, NN),
    ] {
        let trace = [&DOCUMENT_TRACE, &turns[..]].concat();
        lists(&trace, upside_down, upright);
    }
}

/// What is refused, where, and that resets after it are not obeyed. Document
/// 01's trace is 11 bytes, so the next record begins at 11, its payload at 15.
#[test]
fn refusals_are_the_same_from_both_starts() {
    for (refused, line) in [
        (vec![0x01, 0x00, 0x01, 0x00, 0x80], "refused 3 at 15"),
        (vec![0x01, 0x00, 0x01, 0x00, 0xBF], "refused 4 at 15"),
        (vec![0x02, 0x00, 0x01, 0x00, 0xD4, 0x31], "refused 5 at 16"),
        // 81, then data.
        (
            vec![0x01, 0x00, 0x01, 0x00, 0x81, 0x01, 0x00, 0x02, 0x00, 0xE2],
            "refused 6 at 20",
        ),
        // Column 132, then data.
        (
            vec![
                0x02, 0x00, 0x01, 0x00, 0x04, 0x18, 0x01, 0x00, 0x03, 0x00, 0x00,
            ],
            "refused 7 at 21",
        ),
        (vec![0x00, 0x02, 0x01, 0x00], "refused 8 at 11"),
        (vec![0x00, 0x00, 0x06, 0x00], "refused 9 at 11"),
        // The dummy read is at 15; column 2 holds 00.
        (vec![0x02, 0x00, 0x03, 0x00, 0x01, 0x01], "refused 10 at 16"),
    ] {
        let after = [&commands(&[0xE2, 0xA0, 0xC0])[..], &RESET_RECORD].concat();
        let trace = [&DOCUMENT_TRACE, &refused[..], &after].concat();
        let expected = |rows: &str| format!("{line}\nframe 132 65\n{rows}end\n");
        assert_eq!(listing_upside_down(&trace), expected(TT));
        assert_eq!(listing(&trace), expected(NN));
        // Nothing before it: dark, and the same line but for the place.
        let text = listing_upside_down(&[&refused[..], &after].concat());
        assert!(text.ends_with("\nframe 132 65\nend\n"));
        assert_eq!(text, listing(&[&refused[..], &after].concat()));
    }
}

/// The band is at the same panel rows from both starts, and turned within.
#[test]
fn a_short_band_from_both_starts() {
    for (multiplex, upside_down, upright) in [
        // Rows 24 to 39: RAM row 0 is at 39 or 24.
        (0x0F, "38 131-131\n39 130-131\n", "24 0-1\n25 0-0\n"),
        // 15 rows, 24 above and 25 below: 24 to 38.
        (0x0E, "37 131-131\n38 130-131\n", "24 0-1\n25 0-0\n"),
        // 3 rows: 30 to 32.
        (0x02, "31 131-131\n32 130-131\n", "30 0-1\n31 0-0\n"),
        // 2 rows: 31 and 32.
        (0x01, "31 131-131\n32 130-131\n", "31 0-1\n32 0-0\n"),
        // One row: 31, RAM row 0 in both directions.
        (0x00, "31 130-131\n", "31 0-1\n"),
        // 63 rows: 0 to 62.
        (0x3E, "61 131-131\n62 130-131\n", NN),
    ] {
        let trace = [&DOCUMENT_TRACE[..], &commands(&[0xA8, multiplex])].concat();
        let expected = |rows: &str| format!("frame 132 65\n{rows}end\n");
        assert_eq!(listing_upside_down(&trace), expected(upside_down));
        assert_eq!(listing(&trace), expected(upright));
    }
}

#[test]
fn the_offset_moves_the_band_up_from_both_starts() {
    // 16 rows from 24 on, offset 24: rows 0 to 15.
    let trace = [&DOCUMENT_TRACE[..], &commands(&[0xA8, 0x0F, 0xD3, 0x18])].concat();
    assert_eq!(
        listing_upside_down(&trace),
        "frame 132 65\n14 131-131\n15 130-131\nend\n"
    );
    assert_eq!(listing(&trace), "frame 132 65\n0 0-1\n1 0-0\nend\n");
    // Start line 1. Reversed COM k shows RAM row 64 - k: COM 0 shows 0, COM 63
    // shows 1. Normal COM k shows RAM row 1 + k: COM 0 shows 1, COM 63 shows 0.
    let trace = [&DOCUMENT_TRACE[..], &commands(&[0x41])].concat();
    assert_eq!(
        listing_upside_down(&trace),
        "frame 132 65\n0 130-131\n63 131-131\nend\n"
    );
    assert_eq!(listing(&trace), "frame 132 65\n0 0-0\n63 0-1\nend\n");
}

#[test]
fn runs_stand_left_to_right_with_one_space_between() {
    // AF, then at column 126: dots at 126, 127, none at 128, dot at 129,
    // none at 130, dot at 131, then dots at 0 and 2.
    let trace = [
        0x03, 0x00, 0x01, 0x00, 0xAF, 0x0E, 0x17, //
        0x09, 0x00, 0x02, 0x00, 0x01, 0x01, 0x00, 0x01, 0x00, 0x01, 0x01, 0x00, 0x01,
    ];
    assert_eq!(
        listing(&trace),
        "frame 132 65\n0 0-0 2-2 126-127 129-129 131-131\nend\n"
    );
}

#[test]
fn the_icon_line_is_row_64() {
    // AF, page 8, then FF and FE written: bit 0 at column 0 only.
    let trace = [
        0x02, 0x00, 0x01, 0x00, 0xAF, 0xB8, 0x02, 0x00, 0x02, 0x00, 0xFF, 0xFE,
    ];
    assert_eq!(listing(&trace), "frame 132 65\n64 0-0\nend\n");
    // The icon line stays below; its columns are turned.
    assert_eq!(
        listing_upside_down(&trace),
        "frame 132 65\n64 131-131\nend\n"
    );
}

#[test]
fn whole_rows_are_one_run() {
    // A8 02 AF A5: three rows, of the 61 others 30 above them, and the icons.
    let trace = [0x04, 0x00, 0x01, 0x00, 0xA8, 0x02, 0xAF, 0xA5];
    assert_eq!(
        listing(&trace),
        "frame 132 65\n30 0-131\n31 0-131\n32 0-131\n64 0-131\nend\n"
    );
}

#[test]
fn a_band_over_the_edge_is_listed_from_the_top() {
    // A8 02 D3 1F AF, then 07 and 05 written: RAM rows 0 and 2 have columns 0
    // and 1, row 1 has column 0. COM 0 is at panel row 30 - 31, which is 63.
    let trace = [
        0x05, 0x00, 0x01, 0x00, 0xA8, 0x02, 0xD3, 0x1F, 0xAF, //
        0x02, 0x00, 0x02, 0x00, 0x07, 0x05,
    ];
    assert_eq!(listing(&trace), "frame 132 65\n0 0-0\n1 0-1\n63 0-1\nend\n");
}

#[test]
fn a_stopped_run_says_so_first_and_what_came_before_stands() {
    let trace = [
        0x01, 0x00, 0x01, 0x00, 0xAF, //
        0x01, 0x00, 0x02, 0x00, 0x80, //
        0x02, 0x00, 0x01, 0x00, 0xE3, 0xB9, //
        0x01, 0x00, 0x01, 0x00, 0xAE,
    ];
    assert_eq!(
        listing(&trace),
        "refused 4 at 15\nframe 132 65\n7 0-0\nend\n"
    );
    assert_eq!(
        listing(&trace[..13]),
        "refused 8 at 10\nframe 132 65\n7 0-0\nend\n"
    );
    // The dummy read is not compared and moves nothing; the second read
    // finds 00 at column 0, not 02.
    let trace = [0x02, 0x00, 0x03, 0x00, 0x02, 0x02];
    assert_eq!(listing(&trace), "refused 10 at 5\nframe 132 65\nend\n");
}

#[test]
fn the_input_is_at_most_65536_bytes() {
    // AF, then 65,527 bytes written: 5 + 4 + 65,527 is 65,536.
    let mut trace = vec![0x01, 0x00, 0x01, 0x00, 0xAF, 0xF7, 0xFF, 0x02, 0x00];
    trace.resize(65_536, 0x01);
    assert_eq!(listing(&trace), "frame 132 65\n0 0-131\nend\n");
    assert_eq!(listing_upside_down(&trace), "frame 132 65\n63 0-131\nend\n");
    trace.push(0x01);
    assert_eq!(listing(&trace), "input too long\n");
    assert_eq!(listing_upside_down(&trace), "input too long\n");
    assert_eq!(listing(&vec![0; 100_000]), "input too long\n");
}
