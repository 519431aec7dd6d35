//! The whole stream of cases: the sweep of the base, then random cases of each
//! of its kinds; then the same for the comparisons of Order 1; then the sweep
//! of the bands of Order 2, whose random cases are the base's; then Order 3's
//! sweep of listings, whose random cases are the base's too, and the start
//! calls, swept and random; last of all Order 4's wide terminal, swept and random.
//! The cases of Order 6 stand among all these, by their kinds.

use std::io;

use crate::cases::Case;
use crate::generate::{self, wide};
use crate::random::Random;
use crate::sweep::{
    Sink, sweep, sweep_of_bands, sweep_of_comparisons, sweep_of_starts, sweep_of_wide,
};

/// How many cases of each kind to make, and from what seed.
#[derive(Clone, Copy, PartialEq, Eq, Debug)]
pub struct Plan {
    pub seed: u64,
    /// Whether the cases that are the same for every seed are among them.
    pub sweep: bool,
    /// Cases of a single event.
    pub singles: usize,
    /// Events in sequences.
    pub events: usize,
    pub runs: usize,
    pub draws: usize,
    pub listings: usize,
    /// Pairs of frames.
    pub compared_frames: usize,
    /// Pairs of memories.
    pub compared_memories: usize,
    /// Start calls.
    pub starts: usize,
    /// Cases of a single event of the wide terminal.
    pub wide_singles: usize,
    pub wide_runs: usize,
    pub wide_draws: usize,
    /// Pages asked for.
    pub pages: usize,
    pub wide_listings: usize,
}

impl Plan {
    /// The counts used unless others are given.
    #[must_use]
    pub fn usual(seed: u64) -> Plan {
        Plan {
            seed,
            sweep: true,
            singles: 20_000,
            events: 200_000,
            runs: 5_000,
            draws: 2_000,
            listings: 1_000,
            compared_frames: 280,
            compared_memories: 1_300,
            starts: 400,
            wide_singles: 4_000,
            wide_runs: 1_000,
            wide_draws: 200,
            pages: 200,
            wide_listings: 100,
        }
    }
}

/// Gives every case of a plan to the sink. Each kind has random numbers of
/// its own, so the count of one kind does not change the cases of another.
///
/// # Errors
/// Those of the sink.
pub fn each_case(plan: &Plan, sink: &mut Sink) -> io::Result<()> {
    if plan.sweep {
        sweep(sink)?;
    }
    let mut random = Random::new(plan.seed, 1);
    for _ in 0..plan.singles {
        sink(Case::Single(generate::single(&mut random)))?;
    }
    let mut random = Random::new(plan.seed, 2);
    let mut events = plan.events;
    while events > 0 {
        let sequence = generate::sequence(&mut random, events);
        events -= sequence.steps.len();
        sink(Case::Sequence(Box::new(sequence)))?;
    }
    let mut random = Random::new(plan.seed, 3);
    for _ in 0..plan.runs {
        sink(Case::Run(generate::run(&mut random)))?;
    }
    let mut random = Random::new(plan.seed, 4);
    for _ in 0..plan.draws {
        sink(Case::Draw(generate::draw(&mut random)))?;
    }
    let mut random = Random::new(plan.seed, 5);
    for _ in 0..plan.listings {
        sink(Case::Listing(generate::listing(&mut random)))?;
    }
    each_comparison(plan, sink)?;
    if plan.sweep {
        sweep_of_bands(sink)?;
    }
    each_start(plan, sink)?;
    each_wide(plan, sink)
}

/// The cases of Order 4. They come after all others, which so keep their
/// places in the stream.
fn each_wide(plan: &Plan, sink: &mut Sink) -> io::Result<()> {
    if plan.sweep {
        sweep_of_wide(sink)?;
    }
    let mut random = Random::new(plan.seed, 11);
    for _ in 0..plan.wide_singles {
        sink(Case::WideSingle(wide::wide_single(&mut random)))?;
    }
    let mut random = Random::new(plan.seed, 12);
    for _ in 0..plan.wide_runs {
        sink(Case::WideRun(wide::wide_run(&mut random)))?;
    }
    let mut random = Random::new(plan.seed, 13);
    for _ in 0..plan.wide_draws {
        sink(Case::WideDraw(wide::wide_draw(&mut random)))?;
    }
    let mut random = Random::new(plan.seed, 14);
    for _ in 0..plan.pages {
        sink(Case::PageCall(wide::page_call(&mut random)))?;
    }
    let mut random = Random::new(plan.seed, 15);
    for _ in 0..plan.wide_listings {
        sink(Case::WideListing(wide::wide_listing(&mut random)))?;
    }
    Ok(())
}

/// The cases of Order 3. They come after those of the base and of Orders 1 and
/// 2, which so keep their places in the stream.
fn each_start(plan: &Plan, sink: &mut Sink) -> io::Result<()> {
    if plan.sweep {
        sweep_of_starts(sink)?;
    }
    let mut random = Random::new(plan.seed, 10);
    for _ in 0..plan.starts {
        sink(Case::StartCall(generate::start_call(&mut random)))?;
    }
    Ok(())
}

/// The cases of Order 1. They come after those of the base, which so keep
/// their places in the stream.
fn each_comparison(plan: &Plan, sink: &mut Sink) -> io::Result<()> {
    if plan.sweep {
        sweep_of_comparisons(sink)?;
    }
    let mut random = Random::new(plan.seed, 6);
    for _ in 0..plan.compared_frames {
        sink(Case::ComparedFrames(generate::compared_frames(&mut random)))?;
    }
    let mut random = Random::new(plan.seed, 7);
    for _ in 0..plan.compared_memories {
        sink(Case::ComparedMemories(generate::compared_memories(
            &mut random,
        )))?;
    }
    Ok(())
}
