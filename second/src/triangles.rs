//! Depth, corners and neighbours of a node: what takes no panel.
//!
//! Corners come from the product of the child matrices along the node's path, and go out in the order that turns
//! counterclockwise. A neighbour is found by looking which other triangle of the same depth has the same side.

use std::collections::HashMap;
use std::sync::OnceLock;

use crate::{Answer, NO_SUCH_NODE};

/// "D is the panel's greatest depth", from 3 up to 17.
pub const LEAST_DEPTH: u32 = 3;
pub const GREATEST_DEPTH: u32 = 17;
/// "Node numbers without a panel go to 262,143."
pub const LAST_NODE: u32 = 262_143;

pub type Point = [u32; 2];
/// The corners A, B, C, in that order.
pub type Triangle = [Point; 3];
type Matrix = [[u64; 3]; 3];

/// A node's neighbours of its own depth; 0 is none.
#[derive(Clone, Copy, Debug, Default, PartialEq, Eq)]
pub struct Neighbours {
    pub left: u32,
    pub right: u32,
    pub edge: u32,
}

/// How often a node, from 1 up, can be halved before it is node 1.
pub fn depth(node: u32) -> u32 {
    let mut halves = 0;
    let mut n = node;
    while n > 1 {
        n /= 2;
        halves += 1;
    }
    halves
}

/// Node 2 is A(0,256), B(0,0), C(256,0). Node 3 is A(256,0), B(256,256), C(0,256).
const FIRST: [Triangle; 2] = [[[0, 256], [0, 0], [256, 0]], [[256, 0], [256, 256], [0, 256]]];

/// Twice the matrix of the left child (A, M, B): a row gives a corner's share in A, B and C.
const TWICE_LEFT: Matrix = [[2, 0, 0], [1, 0, 1], [0, 2, 0]];
/// Twice the matrix of the right child (B, M, C).
const TWICE_RIGHT: Matrix = [[0, 2, 0], [1, 0, 1], [0, 0, 2]];

fn product(x: &Matrix, y: &Matrix) -> Matrix {
    let mut z = [[0; 3]; 3];
    for (row, xs) in z.iter_mut().zip(x) {
        for (j, entry) in row.iter_mut().enumerate() {
            *entry = (0..3).map(|k| xs[k] * y[k][j]).sum();
        }
    }
    z
}

/// The triangle of a node from 2 to the last. A corner that is no whole number stops the program.
fn triangle(node: u32) -> Triangle {
    let mut path = Vec::new();
    let mut n = node;
    while n > 3 {
        path.push(n % 2);
        n /= 2;
    }
    let first = FIRST[(n - 2) as usize];
    let mut matrix = [[1, 0, 0], [0, 1, 0], [0, 0, 1]];
    for step in path.iter().rev() {
        matrix = product(if *step == 0 { &TWICE_LEFT } else { &TWICE_RIGHT }, &matrix);
    }
    let scale = 1u64 << path.len();
    let mut corners = [[0; 2]; 3];
    for (corner, shares) in corners.iter_mut().zip(&matrix) {
        for (axis, coordinate) in corner.iter_mut().enumerate() {
            let sum: u64 = (0..3).map(|k| shares[k] * u64::from(first[k][axis])).sum();
            assert_eq!(sum % scale, 0, "a corner of node {node} is no whole number");
            *coordinate = u32::try_from(sum / scale).expect("inside the panel");
        }
    }
    corners
}

/// A side by its two ends, the lesser first.
fn side(x: Point, y: Point) -> [Point; 2] {
    if x < y {
        [x, y]
    } else {
        [y, x]
    }
}

/// The neighbours of every node of one depth, from 2^depth on.
fn find_neighbours(depth: u32) -> Vec<Neighbours> {
    let nodes = 1u32 << depth..2u32 << depth;
    let triangles: Vec<(u32, Triangle)> = nodes.map(|node| (node, triangle(node))).collect();
    let mut owners: HashMap<[Point; 2], Vec<u32>> = HashMap::new();
    for (node, [a, b, c]) in &triangles {
        for s in [side(*a, *b), side(*b, *c), side(*a, *c)] {
            owners.entry(s).or_default().push(*node);
        }
    }
    let across = |node: u32, s: [Point; 2]| match owners[&s].as_slice() {
        [_] => 0,
        [x, y] => {
            if *x == node {
                *y
            } else {
                *x
            }
        }
        more => panic!("one side of {} triangles", more.len()),
    };
    let around = |(node, [a, b, c]): (u32, Triangle)| Neighbours {
        left: across(node, side(b, c)),
        right: across(node, side(a, b)),
        edge: across(node, side(a, c)),
    };
    triangles.into_iter().map(around).collect()
}

/// The neighbours of a node from 2 to the last: left shares the side B–C, right A–B, edge A–C.
pub fn neighbours_of(node: u32) -> Neighbours {
    static TABLES: [OnceLock<Vec<Neighbours>>; GREATEST_DEPTH as usize + 1] =
        [const { OnceLock::new() }; GREATEST_DEPTH as usize + 1];
    let depth = depth(node);
    let table = TABLES[depth as usize].get_or_init(|| find_neighbours(depth));
    table[(node - (1 << depth)) as usize]
}

fn known(node: u32) -> Answer<u32> {
    if (2..=LAST_NODE).contains(&node) {
        Ok(node)
    } else {
        Err(NO_SUCH_NODE)
    }
}

/// Left, right and edge of a node from 2 to the last, or 3.
pub fn neighbours(node: u32) -> Answer<Neighbours> {
    known(node).map(neighbours_of)
}

/// "Corners must turn counterclockwise with y upward": where they turn the other way, A and C change places.
fn counterclockwise([a, b, c]: Triangle) -> Triangle {
    let to = |p: Point| [0, 1].map(|axis| i64::from(p[axis]) - i64::from(b[axis]));
    let (back, on) = (to(a), to(c));
    if on[0] * back[1] > on[1] * back[0] {
        [a, b, c]
    } else {
        [c, b, a]
    }
}

/// The corners of a node from 2 to the last, or 3.
pub fn corners(node: u32) -> Answer<Triangle> {
    known(node).map(triangle).map(counterclockwise)
}
