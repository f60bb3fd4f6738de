//! Splits and merges that work out the words on the way up from each changed leaf bit alone: a round beside ordinary versions that do so too, and
//! the cost of one split by depth and chain.

use std::time::Duration;

use bench::panels::{depth, size, Kind, Panel, DEEPEST};
use bench::sides::{Ordinary, Rust, C};
use bench::{ordinary, ours};

use crate::copies::{a_change, COPIES};
use crate::ratios::{held, ratio};
use crate::records;
use crate::rounds::{a_record, by_ordinary, by_round, Round, Side};

const DEPTHS: [u32; 3] = [10, 14, DEEPEST];
/// A run of a side does so many records at least.
const RECORDS: usize = 8 * records::MOST;
/// The least depth of a panel whose splits are measured one by one.
const LEAST: u32 = 6;

/// What a round is to take at most of the ordinary versions' time, from this depth on.
const OF_ALL_SUMS: f64 = 0.01;
const OF_ALONG: f64 = 1.5;
const HELD_FROM: u32 = 14;

/// The tuned versions find the edge neighbour alone: it is the one that algorithm 6 finds.
fn same_edges() {
    for node in 2..2u32 << DEEPEST {
        let edge = ordinary::ordinary_neighbours(node).edge;
        assert!(ordinary::edge(node) == edge, "the edge neighbour of {node}");
    }
}

/// Nanoseconds a record.
struct Took {
    round: f64,
    all_sums: f64,
    along: f64,
    in_c: f64,
    tuned: f64,
    settled: f64,
    one_walk: f64,
}

/// All sides on the same records. All sums take so long that they do one round, and have a few turns of their own.
fn took(rounds: &[Round], turns: usize, long: Duration) -> Took {
    let all_sums: Side = &|work, round| by_ordinary(work, round, [Rust::split, Rust::merge]);
    let along: Side = &|work, round| by_ordinary(work, round, [Rust::split_along, Rust::merge_along]);
    let in_c: Side = &|work, round| by_ordinary(work, round, [C::split_along, C::merge_along]);
    let tuned: Side = &|work, round| {
        by_ordinary(work, round, [ordinary::ordinary_split_tuned, ordinary::ordinary_merge_tuned]);
    };
    let settled: Side = &|work, round| {
        by_ordinary(work, round, [ordinary::ordinary_split_settled, ordinary::ordinary_merge_settled]);
    };
    let one_walk: Side = &|work, round| {
        let ways = [ordinary::ordinary_split_in_one_walk, ordinary::ordinary_merge_in_one_walk];
        by_ordinary(work, round, ways);
    };
    let [all_sums] = a_record(&rounds[..1], (turns, Duration::ZERO), [all_sums]);
    let sides = [&by_round, along, in_c, tuned, settled, one_walk];
    let [round, along, in_c, tuned, settled, one_walk] = a_record(rounds, (4 * turns, long), sides);
    Took { round, all_sums, along, in_c, tuned, settled, one_walk }
}

fn print_rounds(deep: u32, what: &str, rounds: &[Round], turns: usize, long: Duration) {
    let Took { round, all_sums, along, in_c, tuned, settled, one_walk } = took(rounds, turns, long);
    let many: usize = rounds.iter().map(Round::count).sum();
    let cuts: u32 = rounds.iter().map(Round::cuts).sum();
    let (of_all_sums, of_along, of_tuned) = (round / all_sums, round / along, round / tuned);
    let to_reach = |ratio: f64, most: f64| match deep {
        HELD_FROM.. => held(format!("{most:.2}"), ratio <= most),
        _ => String::new(),
    };
    println!(
        "| {deep} | {what}, {} times {} | {:.2} | {round:.1} | {all_sums:.0} | {along:.1} | {in_c:.1} | {tuned:.1} | {settled:.1} | {one_walk:.1} | **{}** | {} | **{}** | {} | {} | **{}** | {} | {} | {} |",
        rounds.len(),
        many / rounds.len(),
        f64::from(cuts) / many as f64,
        ratio(of_all_sums),
        to_reach(of_all_sums, OF_ALL_SUMS),
        ratio(of_along),
        to_reach(of_along, OF_ALONG),
        ratio(round / in_c),
        ratio(of_tuned),
        to_reach(of_tuned, OF_ALONG),
        ratio(round / settled),
        ratio(one_walk / tuned)
    );
}

/// Rounds until they have so many records: the processor learns the jumps of fewer by heart.
fn enough(one: impl Fn(u64) -> Round) -> Vec<Round> {
    let (mut rounds, mut many) = (Vec::new(), 0);
    while many < RECORDS {
        rounds.push(one(rounds.len() as u64));
        many += rounds[rounds.len() - 1].count();
    }
    rounds
}

/// Splits alone from a fresh panel, then merges alone from the panels that they leave.
fn print_depth(deep: u32, turns: usize, long: Duration) {
    let fresh = Panel::new(deep, Kind::Fresh);
    let splits = enough(|seed| Round::new(fresh.clone(), records::splits(deep, seed)));
    let merges = enough(|seed| {
        let start = splits[seed as usize % splits.len()].left();
        Round::new(start.clone(), records::merges(start, seed))
    });
    print_rounds(deep, "splits", &splits, turns, long);
    print_rounds(deep, "merges", &merges, turns, long);
}

/// A leaf, and how many cuts its split makes: as many as leaves are added.
struct Chain {
    leaf: u32,
    cuts: u32,
}

impl Chain {
    fn of(panel: &Panel, leaf: u32) -> Chain {
        let mut after = panel.clone();
        assert_eq!(ours::split(after.lent_mut(), panel.deep, leaf), 0);
        let count = |panel: &Panel| ordinary::count(&panel.bytes, panel.deep);
        Chain { leaf, cuts: count(&after) - count(panel) }
    }

    /// Nanoseconds of a judged split, and of the ordinary one along the path.
    fn times(&self, panel: &Panel, long: Duration) -> [f64; 2] {
        let ours = |p: &mut Panel| assert_eq!(ours::split(p.lent_mut(), panel.deep, self.leaf), 0);
        let along = |p: &mut Panel| Rust::split_along(&mut p.bytes, panel.deep, self.leaf);
        a_change(panel, long, [(&ours, COPIES), (&along, COPIES)])
    }
}

/// The leaves of the shortest and of the longest chain.
fn print_chains(deep: u32, long: Duration) {
    let panel = Panel::cornered(deep);
    let chains = || panel.cuttable().into_iter().map(|leaf| Chain::of(&panel, leaf));
    let short = chains().min_by_key(|chain| chain.cuts).expect("there is a leaf to split");
    let longest = chains().max_by_key(|chain| chain.cuts).expect("there is a leaf to split");
    let [[one, one_along], [all, all_along]] = [short.times(&panel, long), longest.times(&panel, long)];
    println!(
        "| {deep} | {} | {} | {} | {one:.1} | {} | {} | {all:.1} | {:.1} | {one_along:.1} | {all_along:.1} |",
        size(deep),
        depth(short.leaf),
        short.cuts,
        depth(longest.leaf),
        longest.cuts,
        all / f64::from(longest.cuts)
    );
}

pub fn print(turns: usize, long: Duration) {
    same_edges();
    println!(
        "Splits alone of leaves that look random, from a fresh panel, and then merges alone, from the panel that they leave: as many as are \
         allowed, {} at most; {RECORDS} in all at least, from so many panels, since a processor learns the jumps of a short list that comes again and again. Nanoseconds a record: a round judges the panel once; ordinary Rust makes all sums after each, or, as C does, works \
         out the words along the path from each changed leaf bit alone; *tuned* finds the edge neighbour in one step, as ours does, where the paper's algorithm 6 \
         goes down to it; *settled* is that one, and goes down from node 1 first to settle that what it is asked for is a leaf, once for a split and twice for a merge; in one walk the words near node 1 are written once for all cuts of a record, else as *tuned*. But for that way down the ordinary versions check nothing. All leave the same bytes. Of all sums a round is to take {OF_ALL_SUMS:.2} at most, and 0.001 \
         at D = {DEEPEST} is the goal.\n",
        records::MOST
    );
    println!(
        "| D | records | cuts a record | a round | Rust, all sums | Rust, along | C, along | Rust, tuned | Rust, settled | Rust, one walk | round / all sums | to reach | \
         round / Rust along | to reach | round / C along | round / tuned | to reach | round / settled | one walk / tuned |"
    );
    println!("|{}", "---|".repeat(19));
    DEPTHS.iter().for_each(|deep| print_depth(*deep, turns, 4 * long));
    println!("\n### Cost of a split by depth and chain\n");
    println!(
        "A judged split on a panel that is refined towards one corner as deep as can be: of its leaves that are not at depth D, the one whose split \
         makes the fewest cuts, and the one whose split makes the most. Nanoseconds a split, on {COPIES} copies in one run. They grow with the depth \
         and the chain, and not with the bytes.\n"
    );
    println!(
        "| D | bytes | shortest chain: leaf's depth | cuts | ns | longest chain: leaf's depth | cuts | ns | ns a cut | Rust along, shortest, ns | \
         Rust along, longest, ns |"
    );
    println!("|{}", "---|".repeat(11));
    (LEAST..=DEEPEST).for_each(|deep| print_chains(deep, long));
}
