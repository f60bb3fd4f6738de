//! Good panels of every depth, reached by long runs of splits and merges, pins and unpins among them.

use std::collections::BTreeSet;

use second::panel::Panel;
use second::triangles::{depth, GREATEST_DEPTH, LEAST_DEPTH};

use crate::random::Random;
use crate::subject::{way_through, Asked, Change, Subject, MERGE, PIN, SPLIT, UNPIN};
use crate::tally::{Compared, Tally};

/// How many of so many cases are tried at a depth. A panel has twice the bytes of one a depth less; from 14 on half as many cases
/// keep the time the same.
pub fn bounded(cases: usize, depth: u32) -> usize {
    (cases >> depth.saturating_sub(14)).max(1)
}

/// The panel with some of its leaves pinned: many, few or none.
pub fn with_pins(mut panel: Panel, random: &mut Random) -> Panel {
    let rarely = random.pick(&[2, 8, 64, usize::MAX]);
    for leaf in panel.leaves().to_vec() {
        if random.once_in(rarely) {
            panel.pin(leaf).expect("a leaf");
        }
    }
    panel
}

/// The smallest good panel with some random cuts, few or many, and pins.
pub fn random_panel(panel_depth: u32, random: &mut Random) -> Panel {
    let nodes = 1usize << panel_depth;
    let many = 1 << random.below(panel_depth as usize);
    let cuts: BTreeSet<u32> = (0..many).map(|_| 1 + random.below(nodes - 1) as u32).collect();
    with_pins(Panel::holding(panel_depth, &cuts), random)
}

pub fn all_cut(depth: u32, random: &mut Random) -> Panel {
    with_pins(Panel::holding(depth, &(1..1 << depth).collect()), random)
}

/// A node to change, by two leaves: mostly a leaf, often the deeper one, at times one above a leaf or below it or any number.
pub fn node(panel_depth: u32, [leaf, other]: [u32; 2], random: &mut Random) -> u32 {
    match random.below(16) {
        0 => leaf / 2,
        1 => 2 * leaf,
        2 => {
            let way = way_through(leaf, panel_depth, random);
            random.pick(&way)
        }
        3 => random.below((2 << panel_depth) + 3) as u32,
        4 => random.next() as u32,
        5..=7 => {
            if depth(leaf) < depth(other) {
                other
            } else {
                leaf
            }
        }
        _ => leaf,
    }
}

/// What to do to a panel, and where: mostly to split as it is to grow, and else to merge; at times to pin, and as often to unpin, mostly
/// what is pinned.
pub fn change(panel: &Panel, grow: bool, random: &mut Random) -> (Change, u32) {
    let leaves = [(); 2].map(|()| random.pick(panel.leaves()));
    let node = node(panel.depth(), leaves, random);
    match random.below(8) {
        0 => (PIN, node),
        1 if panel.pinned().is_empty() || random.once_in(4) => (UNPIN, node),
        1 => {
            let pinned: Vec<u32> = panel.pinned().iter().copied().collect();
            (UNPIN, random.pick(&pinned))
        }
        _ if random.once_in(4) != grow => (SPLIT, node),
        _ => (MERGE, node),
    }
}

/// So many steps from a panel on, growing and shrinking by turns. Each step's answer and bytes are compared, and
/// then some of the calls that read.
fn run(tally: &mut Tally, random: &mut Random, start: Panel, steps: usize) -> Compared {
    let mut panel = start;
    for step in 0..steps {
        let grow = (step * 6 / steps).is_multiple_of(2);
        let (change, node) = change(&panel, grow, random);
        let asked = Asked::some(panel.depth(), panel.leaves(), random);
        let mut subject = Subject::made(tally, random, panel.clone());
        subject.reads(&asked)?;
        panel = subject.change(&change, node)?.unwrap_or(panel);
    }
    Ok(())
}

/// All calls on the nodes above some leaves and below them, at every distance.
fn ways(tally: &mut Tally, random: &mut Random, panel: Panel) -> Compared {
    let asked = Asked::ways(panel.depth(), panel.leaves(), random);
    Subject::made(tally, random, panel).every_call(&asked)
}

/// Nodes and numbers all over one panel: all calls to depth 9, those that read above.
fn all_over(tally: &mut Tally, random: &mut Random, panel: Panel) -> Compared {
    let asked = Asked::many(panel.depth(), random);
    let small = panel.depth() <= 9;
    let mut subject = Subject::made(tally, random, panel);
    if small {
        subject.every_call(&asked)
    } else {
        subject.reads(&asked)
    }
}

pub fn all(tally: &mut Tally, random: &mut Random, cases: usize) -> Compared {
    for depth in LEAST_DEPTH..=GREATEST_DEPTH {
        let steps = if depth <= 10 { 4 * cases } else { bounded(cases, depth) };
        let fresh = Panel::fresh(depth).expect("a depth in range");
        ways(tally, random, fresh.clone())?;
        run(tally, random, fresh, steps)?;
        let some = random_panel(depth, random);
        ways(tally, random, some.clone())?;
        run(tally, random, some, steps)?;
        let all_cut = all_cut(depth, random);
        run(tally, random, all_cut, steps)?;
        let some = random_panel(depth, random);
        all_over(tally, random, some)?;
    }
    Ok(())
}
