//! Calls to count the instructions of: the same calls by both sides, once for each of a few hundred numbers.

use std::hint::black_box;

use bench::panels::{Kind, Panel, Random};
use bench::{ordinary, ours};

use crate::rows;

/// What the counts are taken of: bench/counts collects inside this function only.
#[no_mangle]
#[inline(never)]
fn counted_part(work: &mut dyn FnMut()) {
    work();
}

/// How many leaves a call is counted on, and a split or merge, at most.
const LEAVES: usize = 256;
const CHANGED: usize = 8;

fn some(mut items: Vec<u32>, seed: u64) -> Vec<u32> {
    items = Random(seed).shuffled(items);
    items.truncate(LEAVES);
    items
}

/// The calls that leave a panel as it was.
fn count_calls(panel: &Panel, numbers: &[u32], nodes: &[u32]) {
    let (deep, lent, bytes) = (panel.deep, panel.lent(), &panel.bytes[..]);
    let mut work = panel.clone();
    counted_part(&mut || {
        black_box(ours::all_right(lent, deep));
        black_box(ours::judge(lent));
        ours::make_sums(work.lent_mut(), deep);
        ordinary::ordinary_sums(&mut work.bytes, deep);
        ordinary::ordinary_sums_by_row(&mut work.bytes, deep);
        for i in numbers {
            black_box(ours::leaf(lent, deep, *i));
            black_box(ordinary::ordinary_leaf(bytes, deep, *i));
        }
        for k in nodes {
            black_box(ours::leaf_toward(lent, deep, *k));
            black_box(ordinary::ordinary_number(bytes, deep, *k));
            black_box(ordinary::ordinary_number_settled(bytes, deep, *k));
            black_box(ours::neighbours(*k));
            black_box(ours::edge(*k));
            black_box(ordinary::ordinary_neighbours(*k));
            black_box(ours::corners(*k));
            black_box(ordinary::ordinary_corners(*k));
            black_box(ordinary::ordinary_corners_by_matrices(*k));
        }
    });
}

/// A split or a merge of each leaf, by ours and by both ordinary versions, which leave the same bytes.
fn count_changes(
    start: &Panel,
    asked: &[u32],
    ours: fn(&mut [u8], u32, u32) -> u32,
    [all_sums, along]: [fn(&mut [u8], u32, u32); 2],
) {
    for k in asked {
        let [mut a, mut b, mut c] = [start.clone(), start.clone(), start.clone()];
        counted_part(&mut || {
            ours(a.lent_mut(), start.deep, *k);
            all_sums(&mut b.bytes, start.deep, *k);
            along(&mut c.bytes, start.deep, *k);
        });
        assert!(a.bytes != start.bytes, "{k}: it is changed");
        assert!(a.bytes == b.bytes && a.bytes == c.bytes, "{k}: the same bytes");
    }
}

/// Makes the calls, and prints a line for each pair: what it is, both symbols, and how many calls each had.
pub fn make(deep: u32, kind: Kind) {
    let panel = Panel::new(deep, kind);
    let leaves = panel.leaves();
    let numbers = some((0..leaves.len() as u32).collect(), 4);
    let nodes = some(leaves, 3);
    let start = rows::to_split(&panel);
    let split: Vec<u32> = start.cuttable().into_iter().take(CHANGED).collect();
    let merge = panel.some_leaves(CHANGED, ours::merge);
    count_calls(&panel, &numbers, &nodes);
    count_changes(&start, &split, ours::split, [ordinary::ordinary_split, ordinary::ordinary_split_along]);
    let start = rows::to_merge(&panel, &merge);
    count_changes(&start, &merge, ours::merge, [ordinary::ordinary_merge, ordinary::ordinary_merge_along]);

    // A split or merge makes the ordinary sums once more, but for those along the path.
    let sums = 1 + split.len() + merge.len();
    let (n, i) = (nodes.len(), numbers.len());
    println!("testing all sums|measure_all_right|1|ordinary_sums|{sums}|0.15");
    println!("the whole judge|panel_judge|1|ordinary_sums|{sums}|0.60");
    println!("making all sums|measure_make_sums|1|ordinary_sums|{sums}|0.15");
    println!("making all sums (ordinary: by rows)|measure_make_sums|1|ordinary_sums_by_row|1|");
    println!("leaf by number|measure_leaf_at|{i}|ordinary_leaf|{i}|0.90");
    println!("number of leaf|measure_leaf_toward|{n}|ordinary_number|{n}|1.00");
    println!(
        "number of leaf (ordinary: settles that it is one)|measure_leaf_toward|{n}|ordinary_number_settled|{n}|"
    );
    println!("neighbours|node_neighbours|{n}|ordinary_neighbours|{n}|1.25");
    println!("corners|node_corners|{n}|ordinary_corners|{n}|1.25");
    println!("corners (ordinary: products of matrices)|node_corners|{n}|ordinary_corners_by_matrices|{n}|");
    println!("edge neighbour alone (ordinary: all three)|measure_edge|{n}|ordinary_neighbours|{n}|");
    for (what, symbol, asked) in [("split", "split", &split), ("merge", "merge", &merge)] {
        if !asked.is_empty() {
            let n = asked.len();
            println!("a judged {what}|measure_{symbol}|{n}|ordinary_{symbol}|{n}|0.01");
            println!("a judged {what}, along the path|measure_{symbol}|{n}|ordinary_{symbol}_along|{n}|1.50");
        }
    }
}
