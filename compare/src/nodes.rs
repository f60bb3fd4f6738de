//! The calls that take no panel: every node there is and as many behind the last, those around powers of two, and random ones.

use jolpibhar::exports;
use second::calls;
use second::triangles::LAST_NODE;

use crate::random::Random;
use crate::tally::{Compared, Tally};
use crate::JUNK;

fn one(tally: &mut Tally, node: u32) -> Compared {
    let asked = || format!("node {node}");
    let (answer, around) = calls::neighbours(node);
    let around = (answer, [around.left, around.right, around.edge]);
    tally.compare("node_neighbours", exports::neighbours(node, JUNK), around, asked)?;
    tally.compare("node_corners", exports::corners(node, JUNK), calls::corners(node), asked)
}

pub fn all(tally: &mut Tally, random: &mut Random, cases: usize) -> Compared {
    for node in 0..=2 * LAST_NODE {
        one(tally, node)?;
    }
    for power in 19..32 {
        for node in [(1 << power) - 1, 1 << power, (1 << power) + 1] {
            one(tally, node)?;
        }
    }
    one(tally, u32::MAX)?;
    for _ in 0..cases {
        one(tally, random.next() as u32)?;
    }
    Ok(())
}
