//! The stream of cases: its format, its honesty, and what it reaches.

use std::collections::HashSet;
use std::io;

use oracle::cases::{Case, Comparison, list_pattern, pattern};
use oracle::compare::{self, Compared};
use oracle::coverage::Coverage;
use oracle::event::{self, Answer, Event};
use oracle::format::{LONGEST_BODY, Reader, Writer};
use oracle::start::{self, Start};
use oracle::stream::{Plan, each_case};
use oracle::{cases, frame, listing, trace};

use crate::rig::{POWER_ON, UPSIDE_DOWN};
use crate::wide_stream::is_as_called_wide;

pub fn small(seed: u64) -> Plan {
    Plan {
        seed,
        sweep: false,
        singles: 400,
        events: 3000,
        runs: 150,
        draws: 60,
        listings: 60,
        compared_frames: 60,
        compared_memories: 120,
        starts: 80,
        wide_singles: 200,
        wide_runs: 100,
        wide_draws: 30,
        pages: 60,
        wide_listings: 40,
    }
}

/// The cases that are the same for every seed, and no others.
pub fn only_the_sweep() -> Plan {
    Plan {
        seed: 0,
        sweep: true,
        singles: 0,
        events: 0,
        runs: 0,
        draws: 0,
        listings: 0,
        compared_frames: 0,
        compared_memories: 0,
        starts: 0,
        wide_singles: 0,
        wide_runs: 0,
        wide_draws: 0,
        pages: 0,
        wide_listings: 0,
    }
}

/// The plan without the cases of the wide terminal that are not of the sweep.
pub fn without_wide(plan: Plan) -> Plan {
    Plan {
        wide_singles: 0,
        wide_runs: 0,
        wide_draws: 0,
        pages: 0,
        wide_listings: 0,
        ..plan
    }
}

/// Whether a case is the wide terminal's.
pub fn is_wide(case: &Case) -> bool {
    matches!(
        case,
        Case::WideSingle(_)
            | Case::WideRun(_)
            | Case::WideDraw(_)
            | Case::PageCall(_)
            | Case::WideListing(_)
    )
}

fn stream_of(plan: &Plan) -> Vec<u8> {
    let mut stream = Vec::new();
    let mut writer = Writer::begin(&mut stream, plan.seed).unwrap();
    each_case(plan, &mut |case| writer.write(&case)).unwrap();
    writer.end().unwrap();
    stream
}

pub fn cases_of(plan: &Plan) -> Vec<Case> {
    let mut cases = Vec::new();
    each_case(plan, &mut |case| {
        cases.push(case);
        io::Result::Ok(())
    })
    .unwrap();
    cases
}

#[test]
fn a_stream_is_read_back_as_it_was_written() {
    let plan = small(7);
    let stream = stream_of(&plan);
    let mut reader = Reader::begin(&stream[..]).unwrap();
    assert_eq!(reader.seed(), 7);
    for case in cases_of(&plan) {
        assert!(reader.next_case().unwrap() == Some(case));
    }
    assert!(reader.next_case().unwrap().is_none());
}

#[test]
fn the_same_seed_gives_the_same_stream_and_another_seed_another() {
    assert!(stream_of(&small(1)) == stream_of(&small(1)));
    assert!(stream_of(&small(1)) != stream_of(&small(2)));
}

#[test]
fn the_count_of_one_kind_does_not_change_the_cases_of_another() {
    let is_single = |case: &Case| matches!(case, Case::Single(_));
    let is_listing = |case: &Case| matches!(case, Case::Listing(_));
    let is_start_call = |case: &Case| matches!(case, Case::StartCall(_));
    let more_singles = Plan {
        singles: 900,
        ..small(5)
    };
    let more_listings = Plan {
        listings: 90,
        ..small(5)
    };
    let no_starts = Plan {
        starts: 0,
        ..small(5)
    };
    for (plan, is_counted) in [
        (more_singles, is_single as fn(&Case) -> bool),
        (more_listings, is_listing),
        (no_starts, is_start_call),
    ] {
        let mut cases = cases_of(&small(5));
        let mut others = cases_of(&plan);
        assert!(cases.len() != others.len());
        cases.retain(|case| !is_counted(case));
        others.retain(|case| !is_counted(case));
        assert!(cases == others);
    }
}

#[test]
fn events_are_as_many_as_asked() {
    let events: u64 = cases_of(&small(3)).iter().map(Case::events).sum();
    assert_eq!(events, 3400);
}

#[test]
fn a_damaged_stream_is_noticed() {
    let stream = stream_of(&small(2));
    let read_all = |stream: &[u8]| -> io::Result<()> {
        let mut reader = Reader::begin(stream)?;
        while reader.next_case()?.is_some() {}
        Ok(())
    };
    assert!(read_all(&stream).is_ok());
    for cut in [0, 7, 19, 20, 24, 1000, stream.len() - 1] {
        assert!(read_all(&stream[..cut]).is_err(), "cut after {cut}");
    }
    let mut wrong = stream.clone();
    wrong[8] += 1;
    assert!(read_all(&wrong).is_err());
}

/// A stream of one case, taken apart by README.md with nothing else.
#[test]
fn the_bytes_of_a_single_event() {
    let mut memory = vec![0; 1188];
    memory[5] = 0x66;
    let case = cases::Single::new(POWER_ON.to_vec(), memory.clone(), Event::Write(0x9C));
    let mut stream = Vec::new();
    let mut writer = Writer::begin(&mut stream, 0x0102).unwrap();
    writer.write(&Case::Single(case)).unwrap();
    writer.end().unwrap();

    let mut after = POWER_ON;
    after[1] = 1;
    let body = [
        &[2, 0x9C][..],
        &[23, 0],
        &POWER_ON,
        &[0xA4, 0x04],
        &memory,
        &[0, 0, 0],
        &after,
        &[1, 0, 0, 0x9C],
    ]
    .concat();
    let length = u32::try_from(body.len()).unwrap();
    let expected = [
        &b"1815CASE"[..],
        &[4, 0, 0, 0],
        &[2, 1, 0, 0, 0, 0, 0, 0],
        &[1],
        &length.to_le_bytes(),
        &body,
        &[0],
        &[16, 0, 0, 0],
        &[1, 0, 0, 0, 0, 0, 0, 0],
        &[1, 0, 0, 0, 0, 0, 0, 0],
    ]
    .concat();
    assert!(stream == expected);
}

/// The steps of a sequence are 32 bytes each.
#[test]
fn the_bytes_of_a_sequence() {
    let mut sequence = cases::Sequence::new(POWER_ON, &[0; 1188]);
    sequence.push(Event::Read);
    sequence.push(Event::Write(0xFF));
    sequence.push(Event::Command(0xB9));
    let mut stream = Vec::new();
    let mut writer = Writer::begin(&mut stream, 0).unwrap();
    writer.write(&Case::Sequence(Box::new(sequence))).unwrap();
    writer.end().unwrap();

    let mut read = POWER_ON;
    read[22] = 0;
    let mut written = POWER_ON;
    written[1] = 1;
    let mut memory = vec![0; 1188];
    memory[0] = 0xFF;
    let steps = [
        &[3, 0, 0, 0, 1][..],
        &read,
        &[0, 0, 0, 0],
        &[2, 0xFF, 0, 0, 0],
        &written,
        &[1, 0, 0, 0xFF],
        &[1, 0xB9, 4, 0, 0],
        &written,
        &[0, 0, 0, 0],
    ]
    .concat();
    assert_eq!(steps.len(), 96);
    let body = [
        &[23, 0][..],
        &POWER_ON,
        &[0xA4, 0x04],
        &[0; 1188],
        &[3, 0, 0, 0],
        &steps,
        &memory,
    ]
    .concat();
    assert_eq!(stream[20], 2);
    assert_eq!(
        stream[21..25],
        u32::try_from(body.len()).unwrap().to_le_bytes()
    );
    assert!(stream[25..25 + body.len()] == body);
}

/// A stream of one case.
pub fn stream_of_case(case: &Case) -> Vec<u8> {
    let mut stream = Vec::new();
    let mut writer = Writer::begin(&mut stream, 0).unwrap();
    writer.write(case).unwrap();
    writer.end().unwrap();
    stream
}

/// The tag and the body of a case.
pub fn body_of(case: &Case) -> (u8, Vec<u8>) {
    let stream = stream_of_case(case);
    // Without the header of 20, tag and length, and the end of 21.
    (stream[20], stream[25..stream.len() - 21].to_vec())
}

/// The bytes of a run, a drawing that is refused and a listing.
#[test]
fn the_bytes_of_the_other_kinds() {
    let run = cases::Run::new(
        POWER_ON.to_vec(),
        vec![0; 1188],
        vec![0x01, 0x00, 0x01, 0x00, 0xFF],
    );
    let expected = [
        &[23, 0][..],
        &POWER_ON,
        &[0xA4, 0x04],
        &[0; 1188],
        &[5, 0, 0, 0, 0x01, 0x00, 0x01, 0x00, 0xFF],
        // FF was 3 before Order 6; the number has the one byte it had.
        &[15, 4, 0, 0, 0, 0, 0, 0, 0],
        &POWER_ON,
        &[0; 1188],
    ]
    .concat();
    assert!(body_of(&Case::Run(run)) == (3, expected));

    let draw = cases::Draw::new(vec![0; 2], vec![8; 3], 8579, 77);
    let expected = vec![2, 0, 0, 0, 3, 0, 8, 8, 8, 0x83, 0x21, 77, 1];
    assert_eq!(body_of(&Case::Draw(draw)), (4, expected));

    let draw = cases::Draw::new(POWER_ON.to_vec(), vec![0; 1188], 8600, 77);
    let (tag, body) = body_of(&Case::Draw(draw));
    assert_eq!(tag, 4);
    assert_eq!(body.len(), 25 + 1190 + 4 + 8580);
    assert_eq!(body[1215..1219], [0x98, 0x21, 77, 0]);
    assert!(body[1219..].iter().all(|&dot| dot == 0));

    for (start, number) in [(Start::UpsideDown, 0), (Start::Upright, 1)] {
        let listing = cases::Listing::new(start, vec![9]);
        let text = b"refused 8 at 0\nframe 132 65\nend\n";
        let expected = [&[number, 1, 0, 0, 0, 9][..], &[32, 0, 0, 0], text].concat();
        assert_eq!(body_of(&Case::Listing(listing)), (5, expected));
    }
}

/// The bytes of start calls, taken and refused.
#[test]
fn the_bytes_of_start_calls() {
    for (start, number, image) in [
        (Start::UpsideDown, 0, UPSIDE_DOWN),
        (Start::Upright, 1, POWER_ON),
    ] {
        // 24 and 1,190 bytes, of which 1 and 2 stay; 1,190 is 0x04A6.
        let call = cases::StartCall::new(start, vec![0xEE; 24], vec![0xDD; 1190]);
        let expected = [
            &[number][..],
            &[24, 0],
            &[0xEE; 24],
            &[0xA6, 0x04],
            &[0xDD; 1190],
            &[0],
            &image,
            &[0xEE],
            &[0; 1188],
            &[0xDD; 2],
        ]
        .concat();
        assert!(body_of(&Case::StartCall(call)) == (8, expected));

        let call = cases::StartCall::new(start, vec![7; 22], vec![8; 2]);
        let expected = [
            &[number][..],
            &[22, 0],
            &[7; 22],
            &[2, 0, 8, 8],
            &[1],
            &[7; 22],
            &[8, 8],
        ]
        .concat();
        assert_eq!(body_of(&Case::StartCall(call)), (8, expected));
    }
}

/// There is no third start.
#[test]
fn a_start_that_is_none_is_noticed() {
    for case in [
        Case::Listing(cases::Listing::new(Start::Upright, Vec::new())),
        Case::StartCall(cases::StartCall::new(
            Start::Upright,
            Vec::new(),
            Vec::new(),
        )),
    ] {
        let mut stream = stream_of_case(&case);
        // After the header of 20, tag and length.
        assert_eq!(stream[25], 1);
        let first = |stream: &[u8]| Reader::begin(stream).unwrap().next_case();
        assert!(first(&stream).unwrap() == Some(case));
        stream[25] = 2;
        assert!(first(&stream).is_err());
    }
}

/// The bytes of two frames and of two memories compared, taken and refused.
#[test]
fn the_bytes_of_comparisons() {
    // 8,580 is 0x2184, 1,188 is 0x04A4.
    let mut lit_at_133 = vec![0; 8580];
    lit_at_133[133] = 1;
    let frames = Comparison::of_frames(vec![0; 8580], lit_at_133.clone(), 300, 9);
    let expected = [
        &[0x84, 0x21][..],
        &[0; 8580],
        &[0x84, 0x21],
        &lit_at_133,
        &[0x2C, 0x01, 9, 0, 1, 0],
        &[1, 1, 1, 0, 1],
    ]
    .concat();
    assert!(body_of(&Case::ComparedFrames(frames)) == (6, expected));

    let frames = Comparison::of_frames(vec![7; 3], Vec::new(), 2, 200);
    let expected = vec![3, 0, 7, 7, 7, 0, 0, 2, 0, 200, 1, 0, 0];
    assert_eq!(body_of(&Case::ComparedFrames(frames)), (6, expected));

    let mut first = vec![0; 1188];
    first[257] = 0x5A;
    first[1187] = 0xFF;
    let memories = Comparison::of_memories(first.clone(), vec![0; 1188], 8, 255);
    let expected = [
        &[0xA4, 0x04][..],
        &first,
        &[0xA4, 0x04],
        &[0; 1188],
        &[8, 0, 255, 0, 2, 0],
        &[1, 1, 0x5A, 0, 0xA3, 0x04, 1, 0],
    ]
    .concat();
    assert!(body_of(&Case::ComparedMemories(memories)) == (7, expected));

    let memories = Comparison::of_memories(first.clone(), vec![0; 1188], 7, 1);
    let (tag, body) = body_of(&Case::ComparedMemories(memories));
    assert_eq!(tag, 7);
    assert_eq!(body[2380..], [7, 0, 1, 11, 0, 0]);
}

#[test]
fn the_pattern_of_a_list_before() {
    assert_eq!(list_pattern(4, 0), [0, 7, 14, 21]);
    assert_eq!(list_pattern(3, 250), [250, 1, 8]);
    assert_eq!(list_pattern(0, 3), [] as [u8; 0]);
    // 250 + 7 * 1,000 is 7,250, which is 28 * 256 + 82.
    assert_eq!(list_pattern(1001, 250)[1000], 82);
}

#[test]
fn comparisons_come_after_all_cases_of_the_base() {
    let base = Plan {
        compared_frames: 0,
        compared_memories: 0,
        starts: 0,
        ..without_wide(small(4))
    };
    let cases = cases_of(&base);
    assert!(cases_of(&small(4))[..cases.len()] == cases);
    let more = Plan {
        compared_frames: 70,
        ..small(4)
    };
    let only_memories = |plan: &Plan| {
        let mut cases = cases_of(plan);
        cases.retain(|case| matches!(case, Case::ComparedMemories(_)));
        cases
    };
    assert_eq!(only_memories(&small(4)).len(), 120);
    assert!(only_memories(&small(4)) == only_memories(&more));
}

#[test]
fn the_pattern_of_a_frame_before_is_never_0_nor_1() {
    assert_eq!(pattern(4, 0), [2, 3, 4, 5]);
    assert_eq!(pattern(3, 253), [255, 2, 3]);
    assert_eq!(pattern(2, 255), [3, 4]);
    for fill in [0, 100, 255] {
        assert!(pattern(8600, fill).iter().all(|&byte| byte > 1));
    }
}

/// What a case says is what the calls give when asked again, and refused
/// events changed nothing.
#[test]
fn the_outcomes_are_those_of_the_calls() {
    let refused_quietly = |answer: Answer| {
        answer.number == 0 || (answer.byte, answer.dummy, answer.stored) == (0, false, None)
    };
    for case in cases_of(&small(11)) {
        match case {
            Case::Single(single) => {
                let (mut state, mut memory) = (single.state.clone(), single.memory.clone());
                let answer = event::call(&mut state, &mut memory, single.event);
                assert_eq!((answer, &state), (single.answer, &single.state_after));
                assert!(refused_quietly(answer));
                assert!(answer.number == 0 || state == single.state);
            }
            Case::Sequence(sequence) => {
                let (mut image, mut memory) = (sequence.image, sequence.memory);
                for step in &sequence.steps {
                    let before = image;
                    let answer = event::call(&mut image, &mut memory, step.event);
                    assert_eq!((answer, image), (step.answer, step.image_after));
                    assert!(refused_quietly(answer));
                    assert!(answer.number == 0 || image == before);
                }
                assert_eq!(memory, sequence.memory_after);
            }
            Case::Run(run) => {
                let (mut state, mut memory) = (run.state.clone(), run.memory.clone());
                let answer = trace::call(&mut state, &mut memory, &run.trace);
                assert_eq!(answer, run.answer);
                assert_eq!((state, memory), (run.state_after, run.memory_after));
            }
            Case::Draw(draw) => {
                let mut drawn = pattern(draw.frame_length, draw.fill);
                let number = frame::call(&draw.state, &draw.memory, &mut drawn);
                assert_eq!(number, draw.number);
                let mut expected = pattern(draw.frame_length, draw.fill);
                if let Some(frame) = draw.frame {
                    expected[..8580].copy_from_slice(&frame);
                }
                assert!(drawn == expected);
            }
            Case::Listing(case) => {
                assert_eq!(listing::listing(case.start, &case.trace), case.text);
            }
            Case::ComparedFrames(case) => is_as_called(compare::frames, &case),
            Case::ComparedMemories(case) => is_as_called(compare::memories, &case),
            Case::StartCall(case) => {
                let (mut state, mut memory) = (case.state.clone(), case.memory.clone());
                let number = start::call(case.start, &mut state, &mut memory);
                assert_eq!(number, case.number);
                assert!(number == 0 || (&state, &memory) == (&case.state, &case.memory));
                assert!((state, memory) == (case.state_after, case.memory_after));
            }
            case => is_as_called_wide(&case),
        }
    }
}

/// The list begins with the entries, and the rest of it is as it was.
fn is_as_called<const ENTRY: usize>(
    call: fn(&[u8], &[u8], &mut [u8]) -> Compared,
    case: &Comparison<ENTRY>,
) {
    let mut list = list_pattern(case.list_length, case.fill);
    let answer = call(&case.first, &case.second, &mut list);
    assert_eq!(
        (answer.number, answer.count),
        (case.number, case.entries.len())
    );
    assert!(answer.number == 0 || answer.count == 0);
    let mut expected = list_pattern(case.list_length, case.fill);
    let entries = case.entries.as_flattened();
    expected[..entries.len()].copy_from_slice(entries);
    assert!(list == expected);
}

/// The random cases alone reach everything that is counted but the bands of
/// single Ms, document 01's own trace, a trace from both starts, and wide traces
/// of more than 65,535 bytes.
#[test]
fn nearly_all_is_reached_without_the_sweep() {
    let plan = Plan {
        seed: 1815,
        sweep: false,
        singles: 60_000,
        events: 600_000,
        runs: 10_000,
        draws: 5_000,
        // From each start an empty trace is drawn by lot once in 2,700 or so.
        listings: 12_000,
        compared_frames: 3_000,
        compared_memories: 6_000,
        starts: 6_000,
        wide_singles: 60_000,
        wide_runs: 15_000,
        wide_draws: 8_000,
        pages: 5_000,
        wide_listings: 3_000,
    };
    let mut faults = faults_of(&plan);
    faults.retain(|fault| {
        !(fault.starts_with("bands ") && fault.contains(", M: ")
            || fault.contains("document 01's trace")
            || fault.starts_with("listings of one trace from both starts: ")
            || fault.starts_with("wide runs past offset 65,535: "))
    });
    assert_eq!(faults, Vec::<String>::new());
}

/// The sweep alone reaches every class of comparisons, every place of the band,
/// all that is counted of start calls, all of listings, all of the wide
/// terminal and all of test mode, whatever the seed.
#[test]
fn the_sweep_reaches_all_that_the_orders_brought() {
    let mut faults = faults_of(&only_the_sweep());
    let brought = [
        "compared ",
        "bands ",
        "start calls",
        "numbers of start calls",
        "listings ",
        "situations of listings",
        "numbers of listings",
        "wide ",
        "page calls",
        "numbers of wide ",
        "numbers of page calls",
        "test mode",
    ];
    faults.retain(|fault| brought.iter().any(|name| fault.starts_with(name)));
    assert_eq!(faults, Vec::<String>::new());
}

/// What the cases of a plan miss.
fn faults_of(plan: &Plan) -> Vec<String> {
    let mut coverage = Coverage::new();
    each_case(plan, &mut |case| {
        coverage.see(&case);
        Ok(())
    })
    .unwrap();
    coverage.faults()
}

/// The sweep parted after the last case that satisfies this.
fn parted_after(cases: &[Case], is_last: fn(&Case) -> bool) -> (&[Case], &[Case]) {
    cases.split_at(cases.iter().rposition(is_last).unwrap() + 1)
}

/// The bands come after what there was before them, which stands where it
/// stood: six places of each M drawn, each M listed in both row directions, from
/// the old start.
#[test]
fn bands_come_after_the_comparisons() {
    let cases = cases_of(&only_the_sweep());
    let (_, bands) = parted_after(&cases, |case| matches!(case, Case::ComparedMemories(_)));
    let (drawn, listed) = bands[..6 * 64 + 2 * 64].split_at(6 * 64);
    for case in drawn {
        let Case::Draw(draw) = case else {
            panic!("a drawing is due");
        };
        assert!(draw.frame.is_some());
        assert_eq!(ram_rows_of(&draw.memory).len(), 65);
    }
    for case in listed {
        let Case::Listing(listing) = case else {
            panic!("a listing is due");
        };
        assert_eq!(listing.start, Start::Upright);
        assert!(listing.text.starts_with("frame 132 65\n"));
        let (_, memory, _) = trace::run_from(Start::Upright, &listing.trace);
        assert_eq!(ram_rows_of(&memory).len(), 65);
    }
}

/// After the bands come Order 3's listings, each trace from the new start and
/// then from the old, and after them the start calls. What came before lists
/// from the old start.
#[test]
fn listings_from_both_starts_and_start_calls_come_after_the_bands() {
    let mut cases = cases_of(&only_the_sweep());
    cases.retain(|case| !is_wide(case));
    let (before, since) = parted_after(&cases, |case| matches!(case, Case::Draw(_)));
    let (listed_bands, rest) = since.split_at(2 * 64);
    for case in before.iter().chain(listed_bands) {
        if let Case::Listing(listing) = case {
            assert_eq!(listing.start, Start::Upright);
        }
        assert!(!matches!(case, Case::StartCall(_)));
    }
    let (listings, calls) = parted_after(rest, |case| matches!(case, Case::Listing(_)));
    let (pairs, rest) = listings.as_chunks();
    assert!(pairs.len() > 500 && rest.is_empty());
    for pair in pairs {
        let [Case::Listing(first), Case::Listing(second)] = pair else {
            panic!("two listings are due");
        };
        assert_eq!(
            (first.start, second.start),
            (Start::UpsideDown, Start::Upright)
        );
        assert!(first.trace == second.trace);
    }
    assert!(calls.len() > 500);
    for case in calls {
        assert!(matches!(case, Case::StartCall(_)));
    }
}

/// The random cases of Order 3 come after all but the wide terminal's, and
/// nothing else moves for them.
#[test]
fn random_start_calls_come_after_all_cases_but_the_wide() {
    let no_starts = Plan {
        starts: 0,
        ..without_wide(small(6))
    };
    let others = cases_of(&no_starts);
    let cases = cases_of(&without_wide(small(6)));
    assert!(cases[..others.len()] == others);
    assert_eq!(cases.len(), others.len() + 80);
    let of_start = |start: Start| {
        let calls = cases[others.len()..].iter();
        calls
            .filter(|case| matches!(case, Case::StartCall(call) if call.start == start))
            .count()
    };
    assert!(of_start(Start::UpsideDown) > 20 && of_start(Start::Upright) > 20);
    assert_eq!(of_start(Start::UpsideDown) + of_start(Start::Upright), 80);
}

/// The different contents of RAM rows 0 to 64.
fn ram_rows_of(memory: &[u8]) -> HashSet<Vec<u8>> {
    (0..65)
        .map(|row| {
            let page = &memory[132 * (row / 8)..132 * (row / 8 + 1)];
            page.iter().map(|byte| byte >> (row % 8) & 1).collect()
        })
        .collect()
}

/// What was never met is told, and so is what cannot be.
#[test]
fn what_is_not_reached_is_told() {
    let mut coverage = Coverage::new();
    assert!(coverage.faults().len() > 2000);
    let impossible = Case::Draw(cases::Draw {
        number: 5,
        ..cases::Draw::new(Vec::new(), Vec::new(), 0, 0)
    });
    coverage.see(&impossible);
    let faults = coverage.faults();
    assert!(faults.contains(&"numbers of draws: 5 impossible".to_string()));
    assert!(faults.contains(&"compared memories, numbers: 11 not reached".to_string()));
    assert!(faults.contains(&"bands drawn at the top, M: 17 not reached".to_string()));
    assert!(faults.contains(&"numbers of start calls: 1 not reached".to_string()));
    assert!(faults.contains(&"numbers of draws: 0 not reached".to_string()));
    assert!(!faults.contains(&"numbers of draws: 5 not reached".to_string()));
}

/// The sweep is written and read back whole, and no body is too long.
#[test]
fn the_sweep_is_a_good_stream() {
    let stream = stream_of(&only_the_sweep());
    let mut reader = Reader::begin(&stream[..]).unwrap();
    let mut count = 0;
    while reader.next_case().unwrap().is_some() {
        count += 1;
    }
    assert!(count > 7168 + 23 * 256 * 4);
    let mut place = 20;
    while place < stream.len() {
        let length = u32::from_le_bytes(stream[place + 1..place + 5].try_into().unwrap());
        assert!(length as usize <= LONGEST_BODY);
        place += 5 + length as usize;
    }
    assert_eq!(place, stream.len());
}
