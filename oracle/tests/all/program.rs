//! The program as a person or a script meets it.

use std::io::Write;
use std::path::PathBuf;
use std::process::{Command, Output, Stdio};

use oracle::cases::wide::{Buffers, WideSingle};
use oracle::cases::{Case, Run};
use oracle::event::Event;
use oracle::format::Writer;

use crate::rig::{DOCUMENT_TRACE, POWER_ON};

fn oracle(arguments: &[&str], input: &[u8]) -> Output {
    let mut child = Command::new(env!("CARGO_BIN_EXE_oracle"))
        .args(arguments)
        .stdin(Stdio::piped())
        .stdout(Stdio::piped())
        .stderr(Stdio::piped())
        .spawn()
        .unwrap();
    let mut stdin = child.stdin.take().unwrap();
    let input = input.to_vec();
    // The program may end before it has read all; that is no fault here.
    let writer = std::thread::spawn(move || stdin.write_all(&input).is_ok());
    let output = child.wait_with_output().unwrap();
    writer.join().unwrap();
    output
}

fn text_of(arguments: &[&str], input: &[u8]) -> String {
    let output = oracle(arguments, input);
    assert!(output.status.success(), "{output:?}");
    String::from_utf8(output.stdout).unwrap()
}

#[test]
fn list_prints_the_listing() {
    assert_eq!(
        text_of(&["list"], &DOCUMENT_TRACE),
        "frame 132 65\n62 131-131\n63 130-131\nend\n"
    );
    assert_eq!(
        text_of(&["list", "--upright"], &DOCUMENT_TRACE),
        "frame 132 65\n0 0-1\n1 0-0\nend\n"
    );
    assert_eq!(text_of(&["list"], &vec![0; 65_537]), "input too long\n");
    assert_eq!(
        text_of(&["list", "--upright"], &vec![0; 65_537]),
        "input too long\n"
    );
    assert_eq!(text_of(&["list"], &vec![0; 1 << 20]), "input too long\n");
    assert_eq!(
        text_of(&["list"], &vec![0; 65_536]),
        "refused 9 at 0\nframe 132 65\nend\n"
    );
}

/// Document 01's trace to both chips, with the left selected alone, and what
/// one chip refuses.
#[test]
fn list_prints_the_wide_listing() {
    let to_the_left = [&[0x01, 0x00, 0x05, 0x00, 0x01][..], &DOCUMENT_TRACE].concat();
    for (arguments, trace, expected) in [
        (
            &["list", "--wide"][..],
            &DOCUMENT_TRACE[..],
            "frame 264 65\n62 131-131 263-263\n63 130-131 262-263\nend\n",
        ),
        (
            &["list", "--wide", "--upright"],
            &DOCUMENT_TRACE,
            "frame 264 65\n0 0-1 132-133\n1 0-0 132-132\nend\n",
        ),
        (
            &["list", "--upright", "--wide"],
            &to_the_left,
            "frame 264 65\n0 0-1\n1 0-0\nend\n",
        ),
        (
            &["list", "--upright"],
            &to_the_left,
            "refused 9 at 0\nframe 132 65\nend\n",
        ),
        (
            &["list", "--wide"],
            &[0x01, 0x00, 0x03, 0x00, 0x00],
            "refused 14 at 4\nframe 264 65\nend\n",
        ),
        (&["list", "--wide"], &vec![0; 65_537], "input too long\n"),
    ] {
        assert_eq!(text_of(arguments, trace), expected, "{arguments:?}");
    }
}

#[test]
fn play_answers_each_event_and_tells_what_is_left() {
    let script = b"command 05 E0 # two events\n\nread\nwrite 3C\nread\nread\ncommand B9\n";
    for (arguments, directions) in [(&["play"][..], "0101"), (&["play", "--upright"], "0000")] {
        let text = text_of(arguments, script);
        let lines: Vec<&str> = text.lines().collect();
        assert_eq!(
            lines[..7],
            [
                "0 00 0", "0 00 0", "0 00 1", "0 00 0", "0 00 1", "0 00 0", "4 00 0"
            ]
        );
        // Column 6, in read-modify-write from 5, not fresh after the last read;
        // of the 13 fields from power control to the awaited code the sixth and
        // seventh are the directions, and the others are 0.
        let (before, after) = ("00".repeat(5), "00".repeat(6));
        assert_eq!(
            lines[7],
            format!("state 000600003F2004{before}{directions}{after}010500")
        );
        assert!(lines[8].starts_with("memory 1188 bytes "));
        assert_eq!(lines.len(), 9);
    }
}

/// The fields before the directions at power-on, and those after them.
const BEFORE_DIRECTIONS: &str = "state 000000003F20040000000000";
const AFTER_DIRECTIONS: &str = "000000000000000001\n";

#[test]
fn play_resets_to_the_chips_own_values() {
    for (script, upside_down, upright) in [
        (&b""[..], "0101", "0000"),
        (b"reset\n", "0000", "0000"),
        (b"command E2\n", "0100", "0000"),
        (b"command A0\n", "0001", "0000"),
        (b"command C8\n", "0101", "0001"),
        (b"command E2 C8\n", "0101", "0001"),
        (b"reset\ncommand A1\n", "0100", "0100"),
    ] {
        for (arguments, directions) in [
            (&["play"][..], upside_down),
            (&["play", "--upright"], upright),
        ] {
            let expected = format!("{BEFORE_DIRECTIONS}{directions}{AFTER_DIRECTIONS}");
            assert!(text_of(arguments, script).contains(&expected));
        }
    }
}

#[test]
fn play_takes_any_image() {
    assert!(text_of(&["play", "--state", "00"], b"reset\n").starts_with("1 00 0\n"));
    let hostile = "FF".repeat(23);
    let text = text_of(&["play", "--state", &hostile], b"read\nreset\nread\n");
    assert!(text.starts_with("2 00 0\n0 00 0\n0 00 1\nstate 000000003F2004"));
}

#[test]
fn run_answers_number_offset_and_count() {
    // Column 2; display on is the third field after the directions.
    for (arguments, directions) in [(&["run"][..], "0101"), (&["run", "--upright"], "0000")] {
        let state = format!("000200003F20040000000000{directions}000001000000000001");
        let text = text_of(arguments, &DOCUMENT_TRACE);
        assert!(text.starts_with(&format!("0 11 2\nstate {state}\n")));
    }
    // A reset record first: the chip's own values.
    let trace = [&[0x00, 0x00, 0x04, 0x00][..], &DOCUMENT_TRACE].concat();
    let text = text_of(&["run"], &trace);
    assert!(text.starts_with("0 15 3\nstate 000200003F20040000000000000000000100"));
    assert_eq!(text_of(&["run", "--upright"], &trace), text);
    assert!(text_of(&["run", "--state", ""], &DOCUMENT_TRACE).starts_with("1 0 0\n"));
}

/// F0 and FF with no code awaited, FF as n of 81, EF, and FF as data.
#[test]
fn play_run_and_list_print_the_number_of_test_mode() {
    let script = b"command F0 81 FF FF EF\nwrite FF\n";
    assert!(
        text_of(&["play"], script)
            .starts_with("15 00 0\n0 00 0\n0 00 0\n15 00 0\n3 00 0\n0 00 0\nstate ")
    );
    let trace = [&DOCUMENT_TRACE[..], &[2, 0, 1, 0, 0xE3, 0xF7]].concat();
    assert!(text_of(&["run"], &trace).starts_with("15 16 2\nstate 0002"));
    for (arguments, frame) in [
        (&["list"][..], "132 65\n62 131-131\n63 130-131\n"),
        (&["list", "--upright"], "132 65\n0 0-1\n1 0-0\n"),
        (
            &["list", "--wide"],
            "264 65\n62 131-131 263-263\n63 130-131 262-263\n",
        ),
        (
            &["list", "--wide", "--upright"],
            "264 65\n0 0-1 132-133\n1 0-0 132-132\n",
        ),
    ] {
        let expected = format!("refused 15 at 16\nframe {frame}end\n");
        assert_eq!(text_of(arguments, &trace), expected);
    }
}

/// A stream of one run and one wide event that are refused 15 tells it so.
#[test]
fn show_prints_the_number_of_test_mode() {
    let buffers = || Buffers {
        state: POWER_ON.to_vec(),
        memory: vec![0; 1188],
    };
    let Buffers { state, memory } = buffers();
    let mut stream = Vec::new();
    let mut writer = Writer::begin(&mut stream, 0).unwrap();
    let run = Run::new(state, memory, vec![2, 0, 1, 0, 0x45, 0xFB]);
    writer.write(&Case::Run(run)).unwrap();
    let single = WideSingle::new(2, Event::Command(0xF0), [buffers(), buffers()]);
    writer.write(&Case::WideSingle(single)).unwrap();
    writer.end().unwrap();
    // The version's four bytes come after the first eight.
    assert_eq!(stream[8..12], [4, 0, 0, 0]);
    let text = text_of(&["show"], &stream);
    assert!(text.contains("\nanswer 15 5 0\nstate after 000005"));
    assert!(text.contains("\nselection 2, command F0 -> 15 00 0\nleft state after "));
}

#[test]
fn frame_draws_or_refuses() {
    // Both starts have the display off.
    let memory = TraceFile::new("memory", &[0xFF; 1188]);
    for arguments in [
        &["frame"][..],
        &["frame", "--upright"],
        &["frame", "--memory", memory.name()],
        &["frame", "--upright", "--memory", memory.name()],
    ] {
        assert_eq!(text_of(arguments, b""), "frame 132 65\nend\n");
    }
    // Power-on with multiplex 0, both directions 1 and the display on: RAM row
    // 0 and the icons; byte 0 and byte 1,056 alone are not 0.
    let mut contents = [0; 1188];
    contents[0] = 0x01;
    contents[1056] = 0xFF;
    let memory = TraceFile::new("two-bytes", &contents);
    let state = "00000000002004000000000001010000010000000000".to_string() + "01";
    assert_eq!(
        text_of(
            &["frame", "--state", &state, "--memory", memory.name()],
            b""
        ),
        "frame 132 65\n31 131-131\n64 131-131\nend\n"
    );
    assert_eq!(text_of(&["frame", "--state", "0011"], b""), "refused 1\n");
}

#[test]
fn cases_are_shown() {
    let counts = [
        "--seed",
        "9",
        "--no-sweep",
        "--singles",
        "3",
        "--events",
        "5",
        "--runs",
        "1",
        "--draws",
        "1",
        "--listings",
        "1",
        "--compared-frames",
        "1",
        "--compared-memories",
        "1",
        "--starts",
        "1",
        "--wide-singles",
        "1",
        "--wide-runs",
        "1",
        "--wide-draws",
        "1",
        "--pages",
        "1",
        "--wide-listings",
        "1",
    ];
    let arguments = [&["cases"][..], &counts].concat();
    let stream = oracle(&arguments, b"");
    assert!(stream.status.success());
    let text = text_of(&["show", "--from", "2", "--count", "20"], &stream.stdout);
    for part in [
        "case 2: single event\n",
        "case 3: sequence of 5 events\n",
        "case 4: run\n",
        "case 5: draw\n",
        "case 6: listing\nstart up",
        "case 7: frame compared with frame\n",
        "case 8: memory compared with memory\n",
        "case 9: start call\nstart up",
        "case 10: wide single event\nleft state ",
        "case 11: wide run\nleft state ",
        "case 12: wide draw\nleft state ",
        "case 13: page call\nleft memory ",
        "case 14: wide listing\nstart up",
    ] {
        assert!(text.contains(part), "{part}");
    }
    assert!(!text.contains("case 1:"));
    let arguments = [&["coverage"][..], &counts].concat();
    assert!(text_of(&arguments, b"").contains("cases: 13 of 13"));
    let summary = [&["cases", "--summary"][..], &counts].concat();
    let output = oracle(&summary, b"");
    assert_eq!(output.stdout, stream.stdout);
    assert!(
        String::from_utf8(output.stderr)
            .unwrap()
            .contains("cases: 13 of 13")
    );
}

/// Of sixteen random listings and start calls some have each of the starts.
#[test]
fn starts_are_shown_in_words() {
    for (kind, counted) in [
        ("listing", "--listings"),
        ("start call", "--starts"),
        ("wide listing", "--wide-listings"),
    ] {
        let mut arguments = vec!["cases", "--seed", "4", "--no-sweep"];
        for count in [
            "--singles",
            "--events",
            "--runs",
            "--draws",
            "--listings",
            "--compared-frames",
            "--compared-memories",
            "--starts",
            "--wide-singles",
            "--wide-runs",
            "--wide-draws",
            "--pages",
            "--wide-listings",
        ] {
            arguments.extend([count, if count == counted { "16" } else { "0" }]);
        }
        let stream = oracle(&arguments, b"");
        let text = text_of(&["show", "--count", "16"], &stream.stdout);
        let shown = |start: &str| text.matches(&format!(": {kind}\nstart {start}\n")).count();
        assert!(shown("upside down") > 0 && shown("upright") > 0);
        assert_eq!(shown("upside down") + shown("upright"), 16);
    }
}

/// A file of a trace, taken away with the value.
struct TraceFile(PathBuf);

impl TraceFile {
    fn new(name: &str, trace: &[u8]) -> TraceFile {
        let name = format!("oracle-test-{}-{name}", std::process::id());
        let path = std::env::temp_dir().join(name);
        std::fs::write(&path, trace).unwrap();
        TraceFile(path)
    }

    fn name(&self) -> &str {
        self.0.to_str().unwrap()
    }
}

impl Drop for TraceFile {
    fn drop(&mut self) {
        // A file left behind is no fault of the program.
        let _ = std::fs::remove_file(&self.0);
    }
}

#[test]
fn differ_tells_where_the_frames_differ() {
    // Rows 0 and 1 of column 0 and row 0 of column 1 are lit.
    let document = TraceFile::new("document", &DOCUMENT_TRACE);
    // Display on; columns 0, 1 and 2 of row 0 are lit.
    let other = TraceFile::new(
        "other",
        &[
            0x01, 0x00, 0x01, 0x00, 0xAF, 0x03, 0x00, 0x02, 0x00, 0x01, 0x01, 0x01,
        ],
    );
    let (first, second) = (document.name(), other.name());
    for (arguments, expected) in [
        (
            &["differ", "--upright", first, second][..],
            "0 2 2 0 1\n1 0 0 1 0\n",
        ),
        (
            &["differ", "--upright", second, first],
            "0 2 2 1 0\n1 0 0 0 1\n",
        ),
        // Row 0 is at 63, row 1 at 62; column 0 at 131, column 2 at 129.
        (
            &["differ", first, second],
            "62 131 131 1 0\n63 129 129 0 1\n",
        ),
        (
            &["differ", second, first],
            "62 131 131 0 1\n63 129 129 1 0\n",
        ),
        // Memories know no direction.
        (&["differ", "--memory", first, second], "0 3 1\n2 0 1\n"),
        (
            &["differ", "--memory", "--upright", first, second],
            "0 3 1\n2 0 1\n",
        ),
        (
            &["differ", "--upright", first, "--memory", second],
            "0 3 1\n2 0 1\n",
        ),
        (&["differ", first, first], ""),
        (&["differ", "--upright", first, first], ""),
        (&["differ", "--memory", second, second], ""),
    ] {
        assert_eq!(text_of(arguments, b""), expected, "{arguments:?}");
    }
}

/// Document 01's trace from each start, and with a reset record, which leaves
/// nothing of the new start but what is in the memory.
#[test]
fn differ_begins_both_with_the_same_start() {
    let document = TraceFile::new("as-begun", &DOCUMENT_TRACE);
    let reset = [&[0x00, 0x00, 0x04, 0x00][..], &DOCUMENT_TRACE].concat();
    let reset = TraceFile::new("reset-first", &reset);
    assert_eq!(
        text_of(&["differ", "--upright", document.name(), reset.name()], b""),
        ""
    );
    assert_eq!(
        text_of(&["differ", document.name(), reset.name()], b""),
        "0 0 1 0 1\n1 0 0 0 1\n62 131 131 1 0\n63 130 131 1 0\n"
    );
}

#[test]
fn differ_uses_a_refused_trace_where_it_stopped() {
    // Column 131 of page 8 is written; then B9 is refused, and the display is
    // never on.
    let stopped = TraceFile::new(
        "stopped",
        &[
            0x03, 0x00, 0x01, 0x00, 0x03, 0x18, 0xB8, //
            0x01, 0x00, 0x02, 0x00, 0xFF, //
            0x02, 0x00, 0x01, 0x00, 0xB9, 0xAF,
        ],
    );
    let empty = TraceFile::new("empty", &[]);
    assert_eq!(text_of(&["differ", stopped.name(), empty.name()], b""), "");
    assert_eq!(
        text_of(&["differ", "--memory", stopped.name(), empty.name()], b""),
        "1187 1 0\n"
    );
    // A8 00, AF, A5: the one row in use and the icons are lit, then 80 is
    // refused. Of the 63 other rows 31 are above it.
    let lit = TraceFile::new(
        "lit",
        &[0x05, 0x00, 0x01, 0x00, 0xA8, 0x00, 0xAF, 0xA5, 0x80],
    );
    for arguments in [
        &["differ", empty.name(), lit.name()][..],
        &["differ", "--upright", empty.name(), lit.name()],
    ] {
        assert_eq!(text_of(arguments, b""), "31 0 131 0 1\n64 0 131 0 1\n");
    }
}

#[test]
fn differ_has_status_1_where_a_file_cannot_be_read() {
    let empty = TraceFile::new("readable", &[]);
    for arguments in [
        &["differ", empty.name(), "no/such/file"][..],
        &["differ", "no/such/file", empty.name()],
        &["differ", "--memory", empty.name(), "no/such/file"],
    ] {
        let output = oracle(arguments, b"");
        assert_eq!(output.status.code(), Some(1));
        assert!(output.stdout.is_empty());
    }
}

#[test]
fn wrong_usage_is_told_with_status_2() {
    for arguments in [
        &[][..],
        &["listen"],
        &["list", "--seed", "1"],
        &["cases"],
        &["cases", "--seed"],
        &["cases", "--seed", "x"],
        &["cases", "--seed", "-1"],
        &["cases", "--seed", "1", "--seed", "2"],
        &["play", "--state", "0"],
        &["play", "--state", "+1"],
        &["play", "--state", "0G"],
        &["differ"],
        &["differ", "one"],
        &["differ", "--memory", "one"],
        &["differ", "one", "two", "three"],
        &["differ", "--frames", "one", "two"],
        &["differ", "--memory", "--memory", "one", "two"],
        &["cases", "--seed", "1", "--compared-frames", "x"],
        &["cases", "--seed", "1", "--starts", "x"],
        &["cases", "--seed", "1", "--upright"],
        &["show", "--upright"],
        &["list", "--upright", "--upright"],
        &["list", "--state", "00"],
        &["list", "--upside-down"],
        &["list", "--wide", "--wide"],
        &["list", "--wide", "left"],
        &["play", "--wide"],
        &["run", "--wide"],
        &["frame", "--wide"],
        &["differ", "--wide", "one", "two"],
        &["cases", "--seed", "1", "--wide"],
        &["cases", "--seed", "1", "--wide-runs", "x"],
        &["cases", "--seed", "1", "--pages"],
        &["play", "--state", "00", "--upright"],
        &["run", "--upright", "--state", "00"],
        &["frame", "--upright", "--state", ""],
        &["differ", "--upright", "one"],
        &["differ", "--upright", "--upright", "one", "two"],
        &["differ", "--state", "one", "two"],
    ] {
        let output = oracle(arguments, b"");
        assert_eq!(output.status.code(), Some(2), "{arguments:?}");
        assert!(output.stdout.is_empty());
        assert!(output.stderr.starts_with(b"oracle: "));
    }
    for script in [
        &b"jump\n"[..],
        b"command\n",
        b"command 1\n",
        b"command 123\n",
        b"write XY\n",
        b"read 00\n",
        b"reset 1\n",
    ] {
        assert_eq!(oracle(&["play"], script).status.code(), Some(2));
    }
}

#[test]
fn other_failures_have_status_1() {
    let output = oracle(&["play", "--memory", "no/such/file"], b"");
    assert_eq!(output.status.code(), Some(1));
    let output = oracle(&["show"], b"not a stream of cases");
    assert_eq!(output.status.code(), Some(1));
}

#[test]
fn help_is_there() {
    for arguments in [&["--help"][..], &["help"], &["cases", "--help"]] {
        assert!(text_of(arguments, b"").contains("usage:"));
    }
}
