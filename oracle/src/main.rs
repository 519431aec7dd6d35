//! The program: what is asked on the command line, done.

use std::fs;
use std::io::{self, BufReader, BufWriter, Read, Write};
use std::process::ExitCode;

use oracle::coverage::Coverage;
use oracle::differ::{differing_frames, differing_memories};
use oracle::format::{Reader, Writer};
use oracle::frame::{self, FRAME_LENGTH};
use oracle::listing::{LONGEST_TRACE, frame_text, listing, wide_listing};
use oracle::play::{play, script};
use oracle::refusal::TAKEN;
use oracle::show::{image_text, memory_text, run_answer_text, show};
use oracle::start::{Start, ZERO_MEMORY};
use oracle::stream::{Plan, each_case};
use oracle::text::from_hex;
use oracle::trace;

const HELP: &str = "\
oracle: the SSD1815B as document 01 states it, with Orders 1 to 6 of document
02, to compare another model with

usage:
  oracle list [--wide] [--upright] < trace
      the listing of a trace; with --wide of a wide trace, for two chips
  oracle play [--state HEX | --upright] [--memory FILE] < script
      plays events, one to a line: `command AF`, `write 03`, `read`, `reset`;
      answers `number byte dummy` for each, then the state and the memory
  oracle run [--state HEX | --upright] [--memory FILE] < trace
      runs a trace; answers `number offset count`, then state and memory
  oracle frame [--state HEX | --upright] [--memory FILE]
      draws; the frame in the form of the listing, or `refused R`
  oracle differ [--upright] [--memory] FIRST SECOND
      runs two files of traces from the same start; a line for each run in
      which the frames differ: row, first column, last column, lit in the
      first, lit in the second; with --memory for each byte in which the
      memories differ: place, content in the first, content in the second
  oracle cases --seed S [counts] [--no-sweep] [--summary] > stream
      writes test cases and their outcomes in binary (see README.md);
      --summary tells on stderr what was reached
  oracle coverage --seed S [counts] [--no-sweep]
      tells what the same cases reach
  oracle show [--from N] [--count N] < stream
      prints cases of a stream, counted from 0

counts: --singles N   cases of one event
        --events N    events in sequences
        --runs N      trace runs
        --draws N     drawings
        --listings N  listings
        --compared-frames N    pairs of frames compared
        --compared-memories N  pairs of memories compared
        --starts N    start calls
        --wide-singles N       cases of one event for two chips
        --wide-runs N          wide trace runs
        --wide-draws N         wide drawings
        --pages N              page calls
        --wide-listings N      wide listings
list, play, run, frame and differ begin as Order 3 has it: at power-on, but
with column direction 1 and row direction 1, and with zero memory. --upright
asks for the old start: power-on with zero memory; with --wide both chips have
the start. --state is the 23 bytes of
an image in hexadecimal (another length is refused by the model, not here), and
leaves nothing to --upright. --memory is a file of 1,188 bytes.
";

/// Why the program cannot go on.
enum Failure {
    /// The command line or the script is wrong.
    Usage(String),
    /// Reading or writing failed.
    Io(String),
}

impl From<io::Error> for Failure {
    fn from(error: io::Error) -> Failure {
        Failure::Io(error.to_string())
    }
}

fn main() -> ExitCode {
    let arguments: Vec<String> = std::env::args_os()
        .skip(1)
        .map(|argument| argument.to_string_lossy().into_owned())
        .collect();
    match obey(&arguments) {
        Ok(()) => ExitCode::SUCCESS,
        Err(Failure::Usage(what)) => {
            eprintln!("oracle: {what}\nTry `oracle --help`.");
            ExitCode::from(2)
        }
        Err(Failure::Io(what)) => {
            eprintln!("oracle: {what}");
            ExitCode::FAILURE
        }
    }
}

fn obey(arguments: &[String]) -> Result<(), Failure> {
    let Some((command, rest)) = arguments.split_first() else {
        return Err(Failure::Usage("no command given".to_string()));
    };
    if arguments
        .iter()
        .any(|argument| argument == "--help" || argument == "-h")
        || command == "help"
    {
        return print(HELP.as_bytes());
    }
    match command.as_str() {
        "list" => list(&Options::read(rest, &[], &[WIDE, UPRIGHT])?),
        "play" => play_script(&Options::read(rest, &LENT_OPTIONS, &[UPRIGHT])?),
        "run" => run_trace(&Options::read(rest, &LENT_OPTIONS, &[UPRIGHT])?),
        "frame" => draw_frame(&Options::read(rest, &LENT_OPTIONS, &[UPRIGHT])?),
        "differ" => tell_differences(rest),
        "cases" => write_cases(&Options::read(rest, &PLAN_OPTIONS, &PLAN_FLAGS)?),
        "coverage" => tell_coverage(&Options::read(rest, &PLAN_OPTIONS, &PLAN_FLAGS)?),
        "show" => show_cases(&Options::read(rest, &["--from", "--count"], &[])?),
        _ => Err(Failure::Usage(format!("no such command as `{command}`"))),
    }
}

/// The flag that names the old start.
const UPRIGHT: &str = "--upright";

/// The flag of the wide terminal.
const WIDE: &str = "--wide";

/// What can be lent to the model.
const LENT_OPTIONS: [&str; 2] = ["--state", "--memory"];

const PLAN_OPTIONS: [&str; 14] = [
    "--seed",
    "--singles",
    "--events",
    "--runs",
    "--draws",
    "--listings",
    "--compared-frames",
    "--compared-memories",
    "--starts",
    "--wide-singles",
    "--wide-runs",
    "--wide-draws",
    "--pages",
    "--wide-listings",
];

const PLAN_FLAGS: [&str; 2] = ["--no-sweep", "--summary"];

/// The options given, each once, with its value.
struct Options {
    given: Vec<(String, String)>,
}

impl Options {
    /// The options among the arguments, of which these are known: the valued
    /// have a value after them, the flags have none.
    fn read(arguments: &[String], valued: &[&str], flags: &[&str]) -> Result<Options, Failure> {
        let mut given: Vec<(String, String)> = Vec::new();
        let mut arguments = arguments.iter();
        while let Some(name) = arguments.next() {
            let is_flag = flags.contains(&name.as_str());
            if !is_flag && !valued.contains(&name.as_str()) {
                return Err(Failure::Usage(format!("no such option here as `{name}`")));
            }
            if given.iter().any(|(earlier, _)| earlier == name) {
                return Err(Failure::Usage(format!("`{name}` is given twice")));
            }
            let value = if is_flag {
                String::new()
            } else {
                let value = arguments.next().cloned();
                value.ok_or_else(|| Failure::Usage(format!("`{name}` has no value")))?
            };
            given.push((name.clone(), value));
        }
        Ok(Options { given })
    }

    fn value(&self, name: &str) -> Option<&str> {
        self.given
            .iter()
            .find(|(given, _)| given == name)
            .map(|(_, value)| value.as_str())
    }

    /// Whether a flag is given.
    fn flag(&self, name: &str) -> bool {
        self.value(name).is_some()
    }

    fn number(&self, name: &str) -> Result<Option<u64>, Failure> {
        self.value(name)
            .map(|value| {
                value
                    .parse()
                    .map_err(|_| Failure::Usage(format!("{name}: `{value}` is not a number")))
            })
            .transpose()
    }

    fn count(&self, name: &str, usual: usize) -> Result<usize, Failure> {
        match self.number(name)? {
            None => Ok(usual),
            Some(number) => usize::try_from(number)
                .map_err(|_| Failure::Usage(format!("{name}: {number} is too many"))),
        }
    }

    /// The start asked for: Order 3's unless the old one is named.
    fn start(&self) -> Start {
        if self.flag(UPRIGHT) {
            Start::Upright
        } else {
            Start::UpsideDown
        }
    }

    /// The state lent: that of the start unless given.
    fn state(&self) -> Result<Vec<u8>, Failure> {
        match self.value("--state") {
            None => Ok(self.start().registers().image().to_vec()),
            Some(_) if self.flag(UPRIGHT) => Err(Failure::Usage(format!(
                "`--state` leaves nothing to `{UPRIGHT}`"
            ))),
            Some(digits) => {
                from_hex(digits).map_err(|why| Failure::Usage(format!("--state: {why}")))
            }
        }
    }

    /// The memory lent: zero unless given.
    fn memory(&self) -> Result<Vec<u8>, Failure> {
        match self.value("--memory") {
            None => Ok(ZERO_MEMORY.to_vec()),
            Some(file) => read_file(file),
        }
    }

    fn plan(&self) -> Result<Plan, Failure> {
        let Some(seed) = self.number("--seed")? else {
            return Err(Failure::Usage("`--seed` is missing".to_string()));
        };
        let usual = Plan::usual(seed);
        Ok(Plan {
            seed,
            sweep: !self.flag("--no-sweep"),
            singles: self.count("--singles", usual.singles)?,
            events: self.count("--events", usual.events)?,
            runs: self.count("--runs", usual.runs)?,
            draws: self.count("--draws", usual.draws)?,
            listings: self.count("--listings", usual.listings)?,
            compared_frames: self.count("--compared-frames", usual.compared_frames)?,
            compared_memories: self.count("--compared-memories", usual.compared_memories)?,
            starts: self.count("--starts", usual.starts)?,
            wide_singles: self.count("--wide-singles", usual.wide_singles)?,
            wide_runs: self.count("--wide-runs", usual.wide_runs)?,
            wide_draws: self.count("--wide-draws", usual.wide_draws)?,
            pages: self.count("--pages", usual.pages)?,
            wide_listings: self.count("--wide-listings", usual.wide_listings)?,
        })
    }
}

fn print(text: &[u8]) -> Result<(), Failure> {
    let mut output = io::stdout().lock();
    output.write_all(text)?;
    output.flush()?;
    Ok(())
}

fn read_all() -> Result<Vec<u8>, Failure> {
    let mut input = Vec::new();
    io::stdin().lock().read_to_end(&mut input)?;
    Ok(input)
}

fn read_file(file: &str) -> Result<Vec<u8>, Failure> {
    fs::read(file).map_err(|error| Failure::Io(format!("{file}: {error}")))
}

fn list(options: &Options) -> Result<(), Failure> {
    let mut trace = Vec::new();
    let one_too_many = LONGEST_TRACE as u64 + 1;
    io::stdin()
        .lock()
        .take(one_too_many)
        .read_to_end(&mut trace)?;
    let listing = if options.flag(WIDE) {
        wide_listing
    } else {
        listing
    };
    print(listing(options.start(), &trace).as_bytes())
}

fn play_script(options: &Options) -> Result<(), Failure> {
    let mut state = options.state()?;
    let mut memory = options.memory()?;
    let text = String::from_utf8_lossy(&read_all()?).into_owned();
    let events = script(&text).map_err(|why| Failure::Usage(format!("script: {why}")))?;
    print(play(&events, &mut state, &mut memory).as_bytes())
}

fn run_trace(options: &Options) -> Result<(), Failure> {
    let mut state = options.state()?;
    let mut memory = options.memory()?;
    let answer = trace::call(&mut state, &mut memory, &read_all()?);
    let text = format!(
        "{}\n{}{}",
        run_answer_text(answer),
        image_text("state", &state),
        memory_text("memory", &memory),
    );
    print(text.as_bytes())
}

fn draw_frame(options: &Options) -> Result<(), Failure> {
    let mut frame = [0; FRAME_LENGTH];
    let number = frame::call(&options.state()?, &options.memory()?, &mut frame);
    let text = if number == TAKEN {
        frame_text(&frame)
    } else {
        format!("refused {number}\n")
    };
    print(text.as_bytes())
}

fn tell_differences(arguments: &[String]) -> Result<(), Failure> {
    let (flags, files): (Vec<String>, Vec<String>) = arguments
        .iter()
        .cloned()
        .partition(|argument| argument.starts_with("--"));
    let options = Options::read(&flags, &[], &["--memory", UPRIGHT])?;
    let [first, second] = &files[..] else {
        return Err(Failure::Usage("`differ` takes two files".to_string()));
    };
    let differing = if options.flag("--memory") {
        differing_memories
    } else {
        differing_frames
    };
    let text = differing(options.start(), &read_file(first)?, &read_file(second)?);
    print(text.as_bytes())
}

fn write_cases(options: &Options) -> Result<(), Failure> {
    let plan = options.plan()?;
    let summary = options.flag("--summary");
    let mut coverage = Coverage::new();
    let output = BufWriter::with_capacity(1 << 20, io::stdout().lock());
    let mut writer = Writer::begin(output, plan.seed)?;
    each_case(&plan, &mut |case| {
        if summary {
            coverage.see(&case);
        }
        writer.write(&case)
    })?;
    writer.end()?;
    if summary {
        eprint!("{coverage}");
    }
    Ok(())
}

fn tell_coverage(options: &Options) -> Result<(), Failure> {
    let plan = options.plan()?;
    let mut coverage = Coverage::new();
    each_case(&plan, &mut |case| {
        coverage.see(&case);
        Ok(())
    })?;
    print(coverage.to_string().as_bytes())
}

fn show_cases(options: &Options) -> Result<(), Failure> {
    let from = options.count("--from", 0)?;
    let count = options.count("--count", 10)?;
    let input = BufReader::with_capacity(1 << 20, io::stdin().lock());
    let mut reader = Reader::begin(input)?;
    let mut index = 0;
    while index < from.saturating_add(count) {
        let Some(case) = reader.next_case()? else {
            break;
        };
        if index >= from {
            print(format!("case {index}: {}", show(&case)).as_bytes())?;
        }
        index += 1;
    }
    Ok(())
}
