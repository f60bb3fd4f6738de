//! Rows beside other ordinary versions of a call: what a part of a gain or a loss comes from.

use std::time::Duration;

use bench::ordinary;
use bench::ours;
use bench::panels::{Kind, Panel};
use bench::timing::least;

use crate::rows::{around, each, in_no_order, points, Row};

/// Making all sums, beside the way by rows.
fn sums(long: Duration, panel: &Panel) -> Row {
    let deep = panel.deep;
    let mut work = panel.clone();
    ordinary::ordinary_sums_by_row(&mut work.bytes, deep);
    assert!(work.bytes == panel.bytes, "the ordinary version by rows makes the same sums");
    let make = |p: &mut Panel| ours::make_sums(p.lent_mut(), deep);
    let by_row = |p: &mut Panel| ordinary::ordinary_sums_by_row(&mut p.bytes, deep);
    Row {
        what: "making all sums (ordinary: by rows)",
        target: None,
        times: Some(least(&mut work, 1, long, |_| {}, make, by_row)),
    }
}

/// A row of calls on the panel's leaves, in no order.
fn row(
    long: Duration,
    what: &'static str,
    panel: &Panel,
    ours: impl Fn(u32) -> u64,
    ordinary: impl Fn(u32) -> u64,
) -> Row {
    let asked = in_no_order(&panel.leaves());
    Row { what, target: None, times: each(long, what, &asked, ours, ordinary) }
}

fn neighbours_in_memory(node: u32) -> u64 {
    let [mut left, mut right, mut edge] = [0; 3];
    ordinary::ordinary_neighbours_in_memory(node, &mut left, &mut right, &mut edge);
    around([left, right, edge])
}

fn corners_in_memory(node: u32) -> u64 {
    let [[mut ax, mut ay], [mut bx, mut by], [mut cx, mut cy]] = [[0; 2]; 3];
    ordinary::ordinary_corners_in_memory(node, &mut ax, &mut ay, &mut bx, &mut by, &mut cx, &mut cy);
    points([[ax, ay], [bx, by], [cx, cy]])
}

pub fn all(long: Duration, deep: u32, kind: Kind) -> Vec<Row> {
    let panel = &Panel::new(deep, kind);
    let (lent, bytes) = (panel.lent(), &panel.bytes[..]);
    let number = |k| u64::from(ours::leaf_toward(lent, deep, k).1);
    let settled = |k| ordinary::ordinary_number_settled(bytes, deep, k).map_or(0, u64::from);
    let neighbours = |k| around(ours::neighbours(k));
    let corners = |k| points(ours::corners(k));
    let by_matrices = |k| points(ordinary::ordinary_corners_by_matrices(k));
    let edge = |k| u64::from(ours::edge(k));
    let edge_of_all = |k| u64::from(ordinary::ordinary_neighbours(k).edge);
    vec![
        sums(long, panel),
        row(long, "number of leaf (ordinary: settles that it is one)", panel, number, settled),
        row(long, "neighbours (ordinary: handed over in memory)", panel, neighbours, neighbours_in_memory),
        row(long, "corners (ordinary: handed over in memory)", panel, corners, corners_in_memory),
        row(long, "corners (ordinary: products of matrices)", panel, corners, by_matrices),
        row(long, "edge neighbour alone (ordinary: all three)", panel, edge, edge_of_all),
    ]
}
