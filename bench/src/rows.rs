//! What is measured: each row both sides, checked to compute the same, then timed.

use std::time::Duration;

use bench::ordinary::Triangle;
use bench::ours;
use bench::panels::{Kind, Panel, Random};
use bench::sides::Ordinary;
use bench::timing::{least, Times};

use crate::copies::{a_change, Side, COPIES};

/// A row of the table for one panel: what it is, the ratio to reach, and the times where the panel has such a call.
pub struct Row {
    pub what: &'static str,
    pub target: Option<f64>,
    pub times: Option<Times>,
}

/// How many leaves a split or a merge is measured on.
const LEAVES: usize = 8;
/// A run makes at least so many of the short calls.
const CALLS: usize = 1 << 14;

/// Leaf numbers or nodes to ask for in turn, often enough.
fn in_turn(items: &[u32]) -> Vec<u32> {
    items.repeat(CALLS.div_ceil(items.len()))
}

/// The same in no order, and in another each time: the processor learns a short order by heart and then guesses every jump right, so
/// that a panel of few leaves would be measured otherwise than one of many.
pub fn in_no_order(items: &[u32]) -> Vec<u32> {
    let mut random = Random(1);
    (0..CALLS.div_ceil(items.len())).flat_map(|_| random.shuffled(items.to_vec())).collect()
}

/// A call on each number, by both sides.
pub fn each(
    long: Duration,
    what: &str,
    asked: &[u32],
    ours: impl Fn(u32) -> u64,
    ordinary: impl Fn(u32) -> u64,
) -> Option<Times> {
    for k in asked {
        assert_eq!(ours(*k), ordinary(*k), "{what} of {k}");
    }
    let all = |call: &dyn Fn(u32) -> u64| asked.iter().fold(0u64, |sum, k| sum.wrapping_add(call(*k)));
    assert_eq!(all(&ours), all(&ordinary));
    let run_ours = |_: &mut ()| {
        std::hint::black_box(asked.iter().fold(0u64, |sum, k| sum.wrapping_add(ours(*k))));
    };
    let run_ordinary = |_: &mut ()| {
        std::hint::black_box(asked.iter().fold(0u64, |sum, k| sum.wrapping_add(ordinary(*k))));
    };
    Some(least(&mut (), asked.len(), long, |_| {}, run_ours, run_ordinary))
}

/// Three neighbours as a number that no other three have: no node needs more than a third of its bits.
pub fn around(n: [u32; 3]) -> u64 {
    const BITS: u32 = u64::BITS / 3;
    n.iter().fold(0, |all, node| (all << BITS) + u64::from(*node))
}

pub fn points(t: Triangle) -> u64 {
    t.iter().flatten().fold(0, |sum, x| sum * 512 + u64::from(*x))
}

/// Making, testing and judging, each beside making all sums in the ordinary way.
fn sums<S: Ordinary>(long: Duration, panel: &Panel) -> Vec<Row> {
    let deep = panel.deep;
    let mut one = panel.clone();
    let leaf_bits = 3 << (deep - 3);
    one.bytes[4..leaf_bits].fill(0);
    let mut other = one.clone();
    ours::make_sums(one.lent_mut(), deep);
    S::sums(&mut other.bytes, deep);
    assert!(one.bytes == panel.bytes && other.bytes == panel.bytes, "both make the same sums");

    let work = &mut panel.clone();
    let made = |p: &mut Panel| S::sums(&mut p.bytes, deep);
    let test = |p: &mut Panel| assert!(ours::all_right(p.lent(), deep));
    let judge = |p: &mut Panel| assert_eq!(ours::judge(p.lent()), 0);
    let make = |p: &mut Panel| ours::make_sums(p.lent_mut(), deep);
    vec![
        Row {
            what: "testing all sums (beside making them)",
            target: Some(0.15),
            times: Some(least(work, 1, long, |_| {}, test, made)),
        },
        Row {
            what: "the whole judge (beside making all sums)",
            target: Some(0.6),
            times: Some(least(work, 1, long, |_| {}, judge, made)),
        },
        Row {
            what: "making all sums",
            target: Some(0.15),
            times: Some(least(work, 1, long, |_| {}, make, made)),
        },
    ]
}

/// Leaf by number and number of leaf, in turn and in no order.
fn leaves<S: Ordinary>(long: Duration, panel: &Panel) -> Vec<Row> {
    let (deep, lent, bytes) = (panel.deep, panel.lent(), &panel.bytes[..]);
    let nodes = panel.leaves();
    let numbers: Vec<u32> = (0..nodes.len() as u32).collect();
    let leaf = |what, asked: &[u32]| Row {
        what,
        target: Some(0.9),
        times: each(
            long,
            what,
            asked,
            |i| u64::from(ours::leaf(lent, deep, i)),
            |i| u64::from(S::leaf(bytes, deep, i)),
        ),
    };
    let number = |what, asked: &[u32]| Row {
        what,
        target: Some(1.0),
        times: each(
            long,
            what,
            asked,
            |k| u64::from(ours::leaf_toward(lent, deep, k).1),
            |k| u64::from(S::number(bytes, deep, k)),
        ),
    };
    vec![
        leaf("leaf by number, in turn", &in_turn(&numbers)),
        leaf("leaf by number, in no order", &in_no_order(&numbers)),
        number("number of leaf, in turn", &in_turn(&nodes)),
        number("number of leaf, in no order", &in_no_order(&nodes)),
    ]
}

/// Neighbours and corners of the panel's leaves, in turn and in no order.
fn nodes<S: Ordinary>(long: Duration, panel: &Panel) -> Vec<Row> {
    let leaves = panel.leaves();
    let (in_turn, mixed) = (in_turn(&leaves), in_no_order(&leaves));
    let theirs = |k| {
        let n = S::neighbours(k);
        around([n.left, n.right, n.edge])
    };
    let neighbours = |what, asked: &[u32]| Row {
        what,
        target: Some(1.25),
        times: each(long, what, asked, |k| around(ours::neighbours(k)), theirs),
    };
    let corners = |what, asked: &[u32]| Row {
        what,
        target: Some(1.25),
        times: each(long, what, asked, |k| points(ours::corners(k)), |k| points(S::corners(k))),
    };
    vec![
        neighbours("neighbours, in turn", &in_turn),
        neighbours("neighbours, in no order", &mixed),
        corners("corners, in turn", &in_turn),
        corners("corners, in no order", &mixed),
    ]
}

type Ours = fn(&mut [u8], u32, u32) -> u32;
type Theirs = fn(&mut [u8], u32, u32);

/// A judged split or merge of several leaves, each from the same panel.
struct Judged<'a> {
    start: &'a Panel,
    asked: &'a [u32],
    call: Ours,
}

impl Judged<'_> {
    /// Beside an ordinary one, which changes so many copies in a run.
    fn beside(
        &self,
        long: Duration,
        what: &'static str,
        target: f64,
        (ordinary, copies): (Theirs, usize),
    ) -> Row {
        let one_leaf = |k: &u32| {
            let ours = |p: &mut Panel| assert_eq!((self.call)(p.lent_mut(), self.start.deep, *k), 0);
            let ordinary = |p: &mut Panel| ordinary(&mut p.bytes, self.start.deep, *k);
            let sides: [Side; 2] = [(&ours, COPIES), (&ordinary, copies)];
            let [ours, ordinary] = a_change(self.start, long / LEAVES as u32, sides);
            Times { ours, ordinary }
        };
        let times: Vec<Times> = self.asked.iter().map(one_leaf).collect();
        Row { what, target: Some(target), times: (!times.is_empty()).then(|| Times::mean(&times)) }
    }

    /// Beside the one that makes all sums, and the one that goes along the path.
    fn rows(&self, long: Duration, whats: [&'static str; 2], [all_sums, along]: [Theirs; 2]) -> [Row; 2] {
        [self.beside(long, whats[0], 0.01, (all_sums, 1)), self.beside(long, whats[1], 1.5, (along, COPIES))]
    }
}

/// The panel that splits are measured on: the same, or, where no leaf of it can be split, after one merge in its middle. What
/// comes back there is pinned on one side, so that each split passes a pin on.
pub fn to_split(panel: &Panel) -> Panel {
    if !panel.cuttable().is_empty() {
        return panel.clone();
    }
    let leaves = panel.leaves();
    let middle = leaves[leaves.len() / 3];
    let mut start = to_merge(panel, &[middle]);
    assert_eq!(ours::merge(start.lent_mut(), panel.deep, middle), 0);
    start.pin(middle / 2);
    start
}

/// The panel that merges of these leaves are measured on: the same, with no pin on what one of them takes away, a leaf and its
/// sibling and the two across. The other pins stay, so that it shows if a merge changes one.
pub fn to_merge(panel: &Panel, asked: &[u32]) -> Panel {
    let mut start = panel.clone();
    for parent in asked.iter().map(|k| k / 2) {
        for parent in [parent, ours::edge(parent)] {
            if parent != 0 {
                start.unpin(2 * parent);
                start.unpin(2 * parent + 1);
            }
        }
    }
    start
}

fn changes<S: Ordinary>(long: Duration, panel: &Panel) -> Vec<Row> {
    let start = to_split(panel);
    let asked = start.some_leaves(LEAVES, ours::split);
    let asked = if asked.is_empty() { start.cuttable() } else { asked };
    let split = Judged { start: &start, asked: &asked, call: ours::split };
    let asked = panel.some_leaves(LEAVES, ours::merge);
    let merge = Judged { start: &to_merge(panel, &asked), asked: &asked, call: ours::merge };
    let of_split = ["a judged split", "a judged split, along the path"];
    let of_merge = ["a judged merge", "a judged merge, along the path"];
    let mut rows = Vec::from(split.rows(long, of_split, [S::split, S::split_along]));
    rows.extend(merge.rows(long, of_merge, [S::merge, S::merge_along]));
    rows
}

/// All rows of a panel, beside one ordinary version.
pub fn all<S: Ordinary>(long: Duration, deep: u32, kind: Kind) -> Vec<Row> {
    let panel = Panel::new(deep, kind);
    let mut rows = sums::<S>(long, &panel);
    rows.extend(leaves::<S>(long, &panel));
    rows.extend(nodes::<S>(long, &panel));
    rows.extend(changes::<S>(long, &panel));
    rows
}
