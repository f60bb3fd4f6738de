//! Holds every exported call and the scanner program against the second program, case by case, and both against the known values of
//! document 01. It stops at the first difference.
//!
//!     compare [--seed NUMBER] [--cases NUMBER]
//!
//! The same seed and number give the same cases. It prints how many cases it compared, by call and answer, how many records of rounds
//! that were done, by answer, how often a call told an ancestor, by how far above the node that is, how often one pin alone refused a
//! merge, by the leaf that it is on, how many good panels were mended, how often what was mended was judged, mended again and mended from
//! bytes with other sums, how many cuts mendings added and what became of pins, how many panels by depth, and how many known values. Exit
//! status: 0 no difference, and every answer of every call and of a round's records, every ancestor's distance, a pin on each such leaf and
//! each kind of mending was seen; 1 otherwise; 2 wrong arguments.

mod damage;
mod fields;
mod frame;
mod known;
mod mending;
mod nodes;
mod random;
mod rounds;
mod runs;
mod scanner;
mod subject;
mod tally;

use std::process::ExitCode;

use random::Random;
use tally::{Compared, Difference, Tally};

/// The calls that are compared, and the answers that document 01 and requests W1, W4, W7 and W13 give each, in the order of testing.
pub const CALLS: &[(&str, &[u32])] = &[
    ("node_neighbours", &[0, 3]),
    ("node_corners", &[0, 3]),
    ("panel_open", &[0, 1]),
    ("panel_judge", &[0, 1, 2]),
    ("panel_count", &[0, 1, 2]),
    ("panel_leaf", &[0, 1, 2, 8]),
    ("panel_number", &[0, 1, 2, 3, 4, 10]),
    ("panel_leaf_bits", &[0, 1, 2]),
    ("panel_split", &[0, 1, 2, 3, 4, 10, 5]),
    ("panel_merge", &[0, 1, 2, 3, 4, 10, 6, 7, 11]),
    ("panel_pin", &[0, 1, 2, 3, 4, 10]),
    ("panel_unpin", &[0, 1, 2, 3, 4, 10]),
    ("panel_pinned", &[0, 1, 2, 3, 4, 10]),
    ("panel_round", &[0, 1, 2, 16, 17]),
    // those of a round that is done
    ("round records", &[0, 9, 3, 4, 10, 5, 6, 7, 11]),
    ("panel_mend", &[0, 1]),
    // mendings of good panels, which stay; of each that is done, what it leaves judged and mended again, and mended from other sums
    ("mended, good", &[0]),
    ("mended, judged", &[0]),
    ("mended again", &[0]),
    ("with other sums", &[0]),
    // a run's panel is always good, and no request takes a leaf number
    ("scanner", &[0, 9, 1, 18, 3, 4, 10, 5, 6, 7, 11]),
];

/// The calls that tell an ancestor beside 10.
pub const WITH_ANCESTOR: &[&str] =
    &["panel_number", "panel_split", "panel_merge", "panel_pin", "panel_unpin", "panel_pinned"];

/// What every number that a call is to write holds before it, so that one it leaves alone shows.
pub const JUNK: u32 = 0xA5C3_0F69;

/// The seed, and how many random cases of each kind.
struct Arguments {
    seed: u64,
    cases: usize,
}

fn arguments() -> Option<Arguments> {
    let mut found = Arguments { seed: 1, cases: 400 };
    let mut words = std::env::args().skip(1);
    while let Some(word) = words.next() {
        match word.as_str() {
            "--seed" => found.seed = words.next()?.parse().ok()?,
            "--cases" => found.cases = words.next()?.parse().ok()?,
            _ => return None,
        }
    }
    Some(found)
}

fn compare(tally: &mut Tally, random: &mut Random, cases: usize) -> Compared {
    known::all(tally)?;
    nodes::all(tally, random, 100 * cases)?;
    fields::all(tally, random)?;
    runs::all(tally, random, cases)?;
    damage::all(tally, random, cases)?;
    rounds::all(tally, random, cases)?;
    mending::all(tally, random, cases)?;
    scanner::all(tally, random, cases)
}

fn main() -> ExitCode {
    let Some(Arguments { seed, cases }) = arguments() else {
        eprintln!("compare [--seed NUMBER] [--cases NUMBER]");
        return ExitCode::from(2);
    };
    println!("exports and scanner against second, seed {seed}, {cases} cases of each kind");
    let mut tally = Tally::default();
    if let Err(Difference(what)) = compare(&mut tally, &mut Random(seed), cases) {
        println!("compare: {what}");
        return ExitCode::FAILURE;
    }
    if tally.print() {
        ExitCode::SUCCESS
    } else {
        ExitCode::FAILURE
    }
}
