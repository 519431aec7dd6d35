//! Wide listings: each trace from both starts.

use std::io;

use crate::cases::{Case, Listing};
use crate::command::TEST_MODE;
use crate::generate::traces::lengthen;
use crate::listing::LONGEST_TRACE;
use crate::memory::ICON_PAGE;
use crate::start::Start;
use crate::sweep::listings::{REFUSED, TURNS};
use crate::sweep::records::{numbered_rows, push_record};
use crate::sweep::{DOCUMENT_TRACE, Give, Sink};

/// Gives every trace of this sweep to the sink, from both starts.
pub fn listings(sink: &mut Sink) -> io::Result<()> {
    let mut from_both = |trace: &[u8]| {
        for start in Start::ALL {
            sink(Case::WideListing(Listing::wide(start, trace.to_vec())))?;
        }
        Ok(())
    };
    for cut in 0..=DOCUMENT_TRACE.len() {
        from_both(&DOCUMENT_TRACE[..cut])?;
    }
    lit_and_turned(&mut from_both)?;
    over_the_middle(&mut from_both)?;
    refusals(&mut from_both)?;
    test_mode(&mut from_both)?;
    let mut longest = DOCUMENT_TRACE.to_vec();
    lengthen(&mut longest, LONGEST_TRACE);
    from_both(&longest)?;
    longest.push(0);
    from_both(&longest)
}

/// A select record.
fn selecting(selection: u8) -> Vec<u8> {
    vec![0x01, 0x00, 0x05, 0x00, selection]
}

/// A record of these commands.
fn commands(bytes: &[u8]) -> Vec<u8> {
    let mut trace = Vec::new();
    push_record(&mut trace, 1, bytes);
    trace
}

/// Rows with their numbers, more pages of them in the left chip than in the
/// right, and the left's start line moved; both displays on.
fn picture() -> Vec<u8> {
    [
        selecting(1),
        numbered_rows(0..=ICON_PAGE),
        commands(&[0x45]),
        selecting(2),
        numbered_rows(3..=5),
        selecting(3),
        commands(&[0xAF]),
    ]
    .concat()
}

/// Each selection with each turn, and lit wholly, in part or reversed.
fn lit_and_turned(give: &mut Give) -> io::Result<()> {
    for selection in [1, 2, 3] {
        for turn in TURNS {
            give(&[picture(), selecting(selection), turn.to_vec()].concat())?;
        }
        for light in [
            &[0xAE][..],
            &[0xA5],
            &[0xA7],
            &[0xA8, 0x0F],
            &[0xA8, 0x0F, 0xA5],
            &[0xA8, 0x0E, 0xD3, 0x3A, 0xA7],
        ] {
            give(&[picture(), selecting(selection), commands(light)].concat())?;
            give(&[selecting(selection), commands(&[0xAF]), commands(light)].concat())?;
        }
    }
    Ok(())
}

/// Bytes at both ends of both chips, so that places on either side of the
/// middle are lit or not.
fn over_the_middle(give: &mut Give) -> io::Result<()> {
    for left in [[0x00, 0x00], [0x01, 0x00], [0x00, 0x01], [0x03, 0x81]] {
        for right in [[0x00, 0x00], [0x01, 0x00], [0x00, 0x01], [0x81, 0x02]] {
            let mut trace = commands(&[0xAF]);
            for (selection, [first, last]) in [(1, left), (2, right)] {
                trace.extend(selecting(selection));
                for page in [0xB2, 0xB8] {
                    push_record(&mut trace, 1, &[page, 0x03, 0x18]);
                    // Column 131 and then column 0.
                    push_record(&mut trace, 2, &[last, first]);
                }
            }
            give(&trace)?;
        }
    }
    Ok(())
}

/// What selects nothing, and reads of both, fresh and not.
const REFUSED_WIDE: [&[u8]; 7] = [
    &[0x00, 0x00, 0x05, 0x00],
    &[0x01, 0x00, 0x05, 0x00, 0x00],
    &[0x01, 0x00, 0x05, 0x00, 0x04],
    &[0x02, 0x00, 0x05, 0x00, 0x01, 0x02],
    &[0x02, 0x00, 0x05, 0x00, 0x01],
    &[0x00, 0x00, 0x03, 0x00, 0x01, 0x00, 0x03, 0x00, 0x00],
    &[0x01, 0x00, 0x01, 0x00, 0x81, 0x01, 0x00, 0x03, 0x00, 0x00],
];

/// Refused records after the picture under each selection, and then what is
/// not obeyed.
fn refusals(give: &mut Give) -> io::Result<()> {
    let all_lit = [selecting(3), commands(&[0xA5])].concat();
    for refused in REFUSED.iter().chain(&REFUSED_WIDE) {
        for selection in [1, 2, 3] {
            give(&[&picture()[..], &selecting(selection), refused, &all_lit].concat())?;
        }
    }
    Ok(())
}

/// Each byte of test mode under a selection, amid commands that turn the
/// picture; then with a code awaited by one of two selected chips.
fn test_mode(give: &mut Give) -> io::Result<()> {
    for byte in TEST_MODE {
        let selection = 1 + byte % 3;
        let amid = commands(&[0xA7, byte, 0xA6]);
        give(&[picture(), selecting(selection), amid].concat())?;
    }
    for selection in [1, 2] {
        let code = [selecting(selection), commands(&[0xD4]), selecting(3)].concat();
        give(&[picture(), code, commands(&[0xF0, 0xA5])].concat())?;
    }
    Ok(())
}
