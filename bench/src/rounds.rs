//! A round beside as many single calls, and beside the ordinary versions, which make all sums after each change and check nothing.

use std::time::Duration;

use bench::panels::{Kind, Panel, DEEPEST};
use bench::sides::{Ordinary, Rust, C};
use bench::timing::shortest;
use bench::{ordinary, ours};

use crate::ratios::ratio;
use crate::records::{self, Change, Requests};

const DEPTHS: [u32; 3] = [10, 14, DEEPEST];

/// A panel and records for it.
pub struct Round {
    start: Panel,
    requests: Requests,
    changes: Vec<Change>,
}

impl Round {
    pub fn new(start: Panel, requests: Requests) -> Round {
        let changes = requests.changes();
        Round { start, requests, changes }
    }

    pub fn count(&self) -> usize {
        self.changes.len()
    }

    /// The panel that is left.
    pub fn left(&self) -> &Panel {
        self.requests.panel()
    }

    /// How many leaves come or go.
    pub fn cuts(&self) -> u32 {
        ordinary::count(&self.start.bytes, self.start.deep).abs_diff(self.requests.leaves())
    }
}

/// What a side works on: the panel, and where a round writes its answers.
pub struct Work {
    panel: Panel,
    answers: Vec<u8>,
}

/// All records in one call.
pub fn by_round(work: &mut Work, round: &Round) {
    work.answers.fill(0xFF);
    assert_eq!(ours::round(work.panel.lent_mut(), round.requests.bytes(), &mut work.answers), 0);
}

fn by_single_calls(work: &mut Work, round: &Round) {
    for Change { split, leaf } in &round.changes {
        let call = if *split { ours::call_split } else { ours::call_merge };
        assert_eq!(call(work.panel.lent_mut(), *leaf), 0, "{leaf}");
    }
}

/// All records one by one, by an ordinary split and an ordinary merge.
#[inline(always)]
pub fn by_ordinary(work: &mut Work, round: &Round, [split, merge]: [fn(&mut [u8], u32, u32); 2]) {
    for change in &round.changes {
        let way = if change.split { split } else { merge };
        way(&mut work.panel.bytes, work.panel.deep, change.leaf);
    }
}

/// What does the records of a round.
pub type Side<'a> = &'a dyn Fn(&mut Work, &Round);

/// Nanoseconds a record of each side; it does all rounds in a run, and leaves the bytes that judged splits and merges leave. Each has so many
/// turns at least, and all so much time.
pub fn a_record<const N: usize>(rounds: &[Round], often: (usize, Duration), sides: [Side; N]) -> [f64; N] {
    let work = |round: &Round| Work { panel: round.start.clone(), answers: vec![0; round.count()] };
    let setup = |works: &mut Vec<Work>| {
        for (work, round) in works.iter_mut().zip(rounds) {
            work.panel.bytes.copy_from_slice(&round.start.bytes);
            work.answers.fill(0);
        }
    };
    let check = |works: &Vec<Work>| {
        for (work, round) in works.iter().zip(rounds) {
            assert!(work.panel.bytes == round.left().bytes, "D = {}: the same bytes", work.panel.deep);
            assert!(work.answers.iter().all(|answer| *answer == 0), "every record is done");
        }
    };
    let runs = sides.map(|side| {
        move |works: &mut Vec<Work>| works.iter_mut().zip(rounds).for_each(|(work, round)| side(work, round))
    });
    let runs = runs.each_ref().map(|run| run as &dyn Fn(&mut Vec<Work>));
    let many: usize = rounds.iter().map(Round::count).sum();
    shortest(&mut rounds.iter().map(work).collect(), often, setup, runs, check).map(|ns| ns / many as f64)
}

/// Measures and prints the row of a depth.
fn print_row(deep: u32, turns: usize, long: Duration) {
    let round = [Round::new(Panel::new(deep, Kind::Fresh), records::round(deep))];
    let rust: Side = &|work, round| by_ordinary(work, round, [Rust::split, Rust::merge]);
    let c: Side = &|work, round| by_ordinary(work, round, [C::split, C::merge]);
    let [Round { requests, changes, .. }] = &round;
    let (many, splits) = (changes.len(), changes.iter().filter(|change| change.split).count());
    let [round, single, rust, c] = a_record(&round, (turns, long), [&by_round, &by_single_calls, rust, c]);
    println!(
        "| {deep} | {splits}, {} | {} | {round:.0} | {single:.0} | {rust:.0} | {c:.0} | **{}** | {} | {} |",
        many - splits,
        requests.leaves(),
        ratio(round / single),
        ratio(round / rust),
        ratio(round / c)
    );
}

/// Each side has so many turns at least, and all of a depth so much time.
pub fn print(turns: usize, long: Duration) {
    println!(
        "{} splits and merges of leaves that look random, five splits to a merge as long as there are leaves to split, from a fresh panel; \
         all are allowed. Nanoseconds a record: a round judges the panel once, single calls judge it each time, and ordinary Rust and C make all \
         sums after each and check nothing. All leave the same bytes.\n",
        records::MOST
    );
    println!(
        "| D | splits, merges | leaves left | a round | single calls | Rust | C | round / single | round / Rust | round / C |"
    );
    println!("|---|---|---|---|---|---|---|---|---|---|");
    DEPTHS.iter().for_each(|deep| print_row(*deep, turns, long));
}
