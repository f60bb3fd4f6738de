//! The paper's algorithms (document 001) as one writes them in Rust for speed: every word is read through one 64-bit window, the
//! panel and the numbers are trusted, nothing is checked. The bytes have eight more behind the panel's last, for the window.
//!
//! Each is one function that is not inlined, under a name that the instruction counts find, as the proved calls are.

use std::mem::MaybeUninit;

/// Bytes behind the panel's last that a window may read and write back as they were.
pub const SPARE: usize = 8;

/// A split cuts at most two nodes at each depth, and none at D.
const MOST_CUTS: usize = 34;

#[inline(always)]
fn depth(node: u32) -> u32 {
    31 - node.leading_zeros()
}

/// Where a word starts and how many bits it has (section 3.3).
#[inline(always)]
fn place(deep: u32, node: u32) -> (usize, u32) {
    let d = depth(node);
    let bits = deep - d + 1;
    ((2usize << d) + node as usize * bits as usize, bits)
}

#[inline(always)]
fn word(bytes: &[u8], deep: u32, node: u32) -> u32 {
    let (start, bits) = place(deep, node);
    // SAFETY: a word ends inside the panel, so its window ends inside the spare bytes.
    let window = unsafe { bytes.as_ptr().add(start / 8).cast::<u64>().read_unaligned() };
    ((window >> (start % 8)) & ((1 << bits) - 1)) as u32
}

#[inline(always)]
fn put_word(bytes: &mut [u8], deep: u32, node: u32, value: u32) {
    let (start, bits) = place(deep, node);
    let mask = ((1u64 << bits) - 1) << (start % 8);
    // SAFETY: as above.
    unsafe {
        let at = bytes.as_mut_ptr().add(start / 8).cast::<u64>();
        let window = at.read_unaligned();
        at.write_unaligned((window & !mask) | (u64::from(value) << (start % 8)));
    }
}

/// The place of the leaf bit that a node has as a leaf.
#[inline(always)]
fn leaf_bit(deep: u32, node: u32) -> usize {
    (2usize << deep) + ((node as usize) << (deep - depth(node)))
}

/// The place of its pin: the pins come right behind the leaf bits, in the same order.
#[inline(always)]
fn pin_bit(deep: u32, node: u32) -> usize {
    leaf_bit(deep, node) + (1 << deep)
}

#[inline(always)]
fn is_set(bytes: &[u8], bit: usize) -> bool {
    // SAFETY: leaf bits and pins are the panel's, here and below.
    let byte = unsafe { bytes.get_unchecked(bit / 8) };
    (byte >> (bit % 8)) & 1 == 1
}

#[inline(always)]
fn set(bytes: &mut [u8], bit: usize) {
    unsafe { *bytes.get_unchecked_mut(bit / 8) |= 1 << (bit % 8) }
}

#[inline(always)]
fn clear(bytes: &mut [u8], bit: usize) {
    unsafe { *bytes.get_unchecked_mut(bit / 8) &= !(1 << (bit % 8)) }
}

/// Algorithm 1, with the left child's word both compared and subtracted.
#[no_mangle]
#[inline(never)]
pub fn ordinary_leaf(bytes: &[u8], deep: u32, number: u32) -> u32 {
    let mut number = number;
    let mut node = 1;
    while word(bytes, deep, node) > 1 {
        let left = word(bytes, deep, 2 * node);
        if number < left {
            node *= 2;
        } else {
            number -= left;
            node = 2 * node + 1;
        }
    }
    node
}

/// Algorithm 2.
#[no_mangle]
#[inline(never)]
pub fn ordinary_sums(bytes: &mut [u8], deep: u32) {
    for d in (0..deep).rev() {
        for node in 1u32 << d..2 << d {
            let sum = word(bytes, deep, 2 * node) + word(bytes, deep, 2 * node + 1);
            put_word(bytes, deep, node, sum);
        }
    }
}

/// Algorithm 2 with the place of each word taken from the row, not from its number: the same sums with less work. No target
/// is held to it; it is there to see how much of a gain anyone has for that step.
#[no_mangle]
#[inline(never)]
pub fn ordinary_sums_by_row(bytes: &mut [u8], deep: u32) {
    let at = bytes.as_mut_ptr();
    for d in (0..deep).rev() {
        let bits = (deep - d) as usize;
        let (mut from, mut to) =
            ((4usize << d) + (2usize << d) * bits, (2usize << d) + (1usize << d) * (bits + 1));
        for _ in 0..1u32 << d {
            // SAFETY: as above.
            unsafe {
                let read = |start: usize| at.add(start / 8).cast::<u64>().read_unaligned() >> (start % 8);
                let mask = (1u64 << bits) - 1;
                let sum = (read(from) & mask) + (read(from + bits) & mask);
                let put = at.add(to / 8).cast::<u64>();
                let window = put.read_unaligned();
                let here = ((1u64 << (bits + 1)) - 1) << (to % 8);
                put.write_unaligned((window & !here) | (sum << (to % 8)));
            }
            from += 2 * bits;
            to += bits + 1;
        }
    }
}

/// A node and its neighbours; 0 is none.
#[derive(Clone, Copy)]
#[repr(C)]
pub struct Around {
    pub left: u32,
    pub right: u32,
    pub edge: u32,
    pub node: u32,
}

/// "the algebraic rule 2∅ = ∅ + 1 = ∅"
#[inline(always)]
fn right_child(node: u32) -> u32 {
    2 * node + u32::from(node != 0)
}

#[inline(always)]
fn around(node: u32) -> Around {
    let levels = depth(node) - 1;
    let first = node >> levels;
    let mut n = Around { left: 0, right: 0, edge: 5 - first, node: first };
    for level in (0..levels).rev() {
        n = if (node >> level) & 1 == 0 {
            Around {
                left: 2 * n.node + 1,
                right: right_child(n.edge),
                edge: right_child(n.right),
                node: 2 * n.node,
            }
        } else {
            Around { left: 2 * n.edge, right: 2 * n.node, edge: 2 * n.left, node: 2 * n.node + 1 }
        };
    }
    n
}

/// The edge neighbour alone, which the paper has no algorithm for: the node's last digits turned over, two by two, up to the first two that differ. Where no two do but the first
/// ones of all, it lies across the diagonal, all digits but the first turned over, or there is none.
#[inline(always)]
pub fn edge(node: u32) -> u32 {
    let d = depth(node);
    let differ = ((node ^ (node / 2)) & 0x5555_5555).trailing_zeros();
    if differ + 3 <= d {
        node ^ ((4 << differ) - 1)
    } else if d % 2 == 1 {
        node ^ ((1 << d) - 1)
    } else {
        0
    }
}

/// Algorithm 6, from (∅, ∅, 3, 2) or (∅, ∅, 2, 3), as section 5.3 has it for a square.
#[no_mangle]
#[inline(never)]
pub fn ordinary_neighbours(node: u32) -> Around {
    around(node)
}

/// The same, each number handed over in memory, as a call from C hands them.
#[no_mangle]
#[inline(never)]
pub fn ordinary_neighbours_in_memory(node: u32, left: &mut u32, right: &mut u32, edge: &mut u32) {
    let n = around(node);
    (*left, *right, *edge) = (n.left, n.right, n.edge);
}

/// Three points of two coordinates.
pub type Triangle = [[u32; 2]; 3];

const LOWER: Triangle = [[0, 256], [0, 0], [256, 0]];
const UPPER: Triangle = [[256, 0], [256, 256], [0, 256]];

#[inline(always)]
fn points(node: u32) -> Triangle {
    let levels = depth(node) - 1;
    let [mut a, mut b, mut c] = if (node >> levels) & 1 == 0 { LOWER } else { UPPER };
    for level in (0..levels).rev() {
        let middle = [(a[0] + c[0]) / 2, (a[1] + c[1]) / 2];
        if (node >> level) & 1 == 0 {
            c = b;
        } else {
            a = b;
        }
        b = middle;
    }
    counterclockwise(node, [a, b, c])
}

/// At even depth the matrices give the corners clockwise.
#[inline(always)]
fn counterclockwise(node: u32, [a, b, c]: Triangle) -> Triangle {
    if depth(node) % 2 == 0 {
        [c, b, a]
    } else {
        [a, b, c]
    }
}

/// Algorithm 5 with each matrix of formula 3 applied to the corners at once: the same points, without a product of matrices. They go out
/// counterclockwise, as ours do.
#[no_mangle]
#[inline(never)]
pub fn ordinary_corners(node: u32) -> Triangle {
    points(node)
}

/// The same, each number handed over in memory, as a call from C hands them.
#[no_mangle]
#[inline(never)]
pub fn ordinary_corners_in_memory(
    node: u32,
    ax: &mut u32,
    ay: &mut u32,
    bx: &mut u32,
    by: &mut u32,
    cx: &mut u32,
    cy: &mut u32,
) {
    [[*ax, *ay], [*bx, *by], [*cx, *cy]] = points(node);
}

type Matrix = [[f32; 3]; 3];

const CHILDREN: [Matrix; 2] =
    [[[1., 0., 0.], [0.5, 0., 0.5], [0., 1., 0.]], [[0., 1., 0.], [0.5, 0., 0.5], [0., 0., 1.]]];

#[inline(always)]
fn times(a: &Matrix, b: &Matrix) -> Matrix {
    let mut product = [[0.; 3]; 3];
    for (row, of_a) in product.iter_mut().zip(a) {
        for (column, sum) in row.iter_mut().enumerate() {
            *sum = of_a[0] * b[0][column] + of_a[1] * b[1][column] + of_a[2] * b[2][column];
        }
    }
    product
}

/// Algorithm 5 as it stands: the product of the matrices on the way, and then the corners.
#[no_mangle]
#[inline(never)]
pub fn ordinary_corners_by_matrices(node: u32) -> Triangle {
    let levels = depth(node) - 1;
    let mut matrix = [[1., 0., 0.], [0., 1., 0.], [0., 0., 1.]];
    for level in (0..levels).rev() {
        matrix = times(&CHILDREN[((node >> level) & 1) as usize], &matrix);
    }
    let first = if (node >> levels) & 1 == 0 { LOWER } else { UPPER };
    let points = matrix.map(|row| {
        [0, 1].map(|i| row.iter().zip(first).map(|(part, p)| part * p[i] as f32).sum::<f32>() as u32)
    });
    counterclockwise(node, points)
}

/// Algorithm 12: sets the leaf bit of the right child, unless the node is cut already. A pin is copied to it; the left child has the
/// node's own bits.
#[inline(always)]
fn split_node(bytes: &mut [u8], deep: u32, node: u32) {
    let right = 2 * node + 1;
    if !is_set(bytes, leaf_bit(deep, right)) {
        set(bytes, leaf_bit(deep, right));
        if is_set(bytes, pin_bit(deep, node)) {
            set(bytes, pin_bit(deep, right));
        }
    }
}

/// Algorithm 12: clears the leaf bit of the right one of a node and its sibling.
#[inline(always)]
fn merge_node(bytes: &mut [u8], deep: u32, node: u32) {
    clear(bytes, leaf_bit(deep, node | 1));
}

/// Algorithm 7, the cuts alone, the coarsest first: a node is a leaf when it is cut, so that its pin is in its place.
pub fn cut(bytes: &mut [u8], deep: u32, node: u32) {
    if node > 1 {
        let across = around(node).edge;
        if across != 0 {
            cut(bytes, deep, across / 2);
            split_node(bytes, deep, across);
        }
        split_node(bytes, deep, node);
    }
}

/// Algorithm 7, then all sums.
#[no_mangle]
#[inline(never)]
pub fn ordinary_split(bytes: &mut [u8], deep: u32, node: u32) {
    cut(bytes, deep, node);
    ordinary_sums(bytes, deep);
}

/// Whether the leaf, its sibling and the pair across may go: all are leaves, and none is pinned. At the border there is no pair across.
#[inline(always)]
fn may_merge(bytes: &[u8], deep: u32, node: u32, across: u32) -> bool {
    let free = |node| !is_set(bytes, pin_bit(deep, node));
    let goes = |node| word(bytes, deep, node) == 1 && free(node);
    free(node) && goes(node ^ 1) && (across == 0 || (goes(2 * across) && goes(2 * across + 1)))
}

/// Algorithm 8, unless a leaf that would go is pinned, then all sums.
#[no_mangle]
#[inline(never)]
pub fn ordinary_merge(bytes: &mut [u8], deep: u32, node: u32) {
    let across = around(node / 2).edge;
    if may_merge(bytes, deep, node, across) {
        merge_node(bytes, deep, node);
        if across != 0 {
            merge_node(bytes, deep, 2 * across + 1);
        }
        ordinary_sums(bytes, deep);
    }
}

/// A row of words: that of a node starts `bits` times its number behind `top`.
#[derive(Clone, Copy)]
struct Row {
    top: usize,
    bits: usize,
}

impl Row {
    /// The row so many levels above the leaf bits.
    #[inline(always)]
    fn at(deep: u32, level: u32) -> Row {
        Row { top: 2 << (deep - level), bits: 1 + level as usize }
    }

    #[inline(always)]
    fn above(self) -> Row {
        Row { top: self.top / 2, bits: self.bits + 1 }
    }

    /// Adds to a word. It has room for all leaves below it, so that nothing is carried out of it.
    #[inline(always)]
    fn add(self, bytes: &mut [u8], node: usize, change: i32) {
        let start = self.top + node * self.bits;
        // SAFETY: as above. A word and what is before it in its byte have 25 bits at most; the narrower the window, the less often one
        // waits for what was written through another.
        unsafe {
            let at = bytes.as_mut_ptr().add(start / 8).cast::<u32>();
            at.write_unaligned(at.read_unaligned().wrapping_add((change as u32) << (start % 8)));
        }
    }

    /// Adds to the word of a node of this row and to each above it, up to node 1.
    #[inline(always)]
    fn add_along(self, bytes: &mut [u8], node: usize, change: i32) {
        let (mut row, mut node) = (self, node);
        while node > 0 {
            row.add(bytes, node, change);
            (row, node) = (row.above(), node / 2);
        }
    }
}

/// The node of depth D whose word is the leaf bit that is set where a node is cut.
#[inline(always)]
fn cut_place(deep: u32, node: u32) -> usize {
    (2 * node as usize + 1) << (deep - depth(node) - 1)
}

/// Sets or clears the leaf bit in a place, with the words above it.
#[inline(always)]
fn change_along(bytes: &mut [u8], deep: u32, place: usize, change: i32) {
    Row::at(deep, 0).add_along(bytes, place, change);
}

/// Copies the pin of a leaf to the right child of a node in it.
#[inline(always)]
fn pass_pin(bytes: &mut [u8], deep: u32, leaf: u32, right: u32) {
    if is_set(bytes, pin_bit(deep, leaf)) {
        set(bytes, pin_bit(deep, right));
    }
}

/// Algorithm 7 up to the first node that is cut already: the place of each node to cut is handed to `cut`, and its right child gets the pin of
/// the leaf that the node is or lies right below.
#[inline(always)]
fn cut_chain(
    bytes: &mut [u8],
    deep: u32,
    node: u32,
    edge: impl Fn(u32) -> u32,
    mut cut: impl FnMut(&mut [u8], usize),
) {
    let mut node = node;
    loop {
        pass_pin(bytes, deep, node, 2 * node + 1);
        cut(bytes, cut_place(deep, node));
        let across = edge(node);
        if across == 0 {
            return;
        }
        let up = across / 2;
        let was_cut = is_set(bytes, leaf_bit(deep, 2 * up + 1));
        pass_pin(bytes, deep, if was_cut { across } else { up }, 2 * across + 1);
        cut(bytes, cut_place(deep, across));
        if was_cut {
            return;
        }
        node = up;
    }
}

/// Algorithm 7, with the words above each leaf bit that is set; neighbours by algorithm 6.
#[no_mangle]
#[inline(never)]
pub fn ordinary_split_along(bytes: &mut [u8], deep: u32, node: u32) {
    let edge = |node| around(node).edge;
    cut_chain(bytes, deep, node, edge, |bytes, place| change_along(bytes, deep, place, 1));
}

/// The same, with the edge neighbour alone.
#[no_mangle]
#[inline(never)]
pub fn ordinary_split_tuned(bytes: &mut [u8], deep: u32, node: u32) {
    cut_chain(bytes, deep, node, edge, |bytes, place| change_along(bytes, deep, place, 1));
}

#[inline(always)]
fn merge_with(bytes: &mut [u8], deep: u32, node: u32, across: u32) {
    if may_merge(bytes, deep, node, across) {
        change_along(bytes, deep, cut_place(deep, node / 2), -1);
        if across != 0 {
            change_along(bytes, deep, cut_place(deep, across), -1);
        }
    }
}

/// Algorithm 8, unless a leaf that would go is pinned, with the words above each leaf bit that is cleared; neighbours by algorithm 6.
#[no_mangle]
#[inline(never)]
pub fn ordinary_merge_along(bytes: &mut [u8], deep: u32, node: u32) {
    merge_with(bytes, deep, node, around(node / 2).edge);
}

/// The same, with the edge neighbour alone.
#[no_mangle]
#[inline(never)]
pub fn ordinary_merge_tuned(bytes: &mut [u8], deep: u32, node: u32) {
    merge_with(bytes, deep, node, edge(node / 2));
}

/// Whether a node is a leaf, by going down from node 1, as the scope document settles it: as many nodes are cut down to it, itself among them, as
/// its depth says.
#[inline(always)]
fn settled(bytes: &[u8], deep: u32, node: u32) -> bool {
    let (d, to) = (depth(node), leaf_bit(deep, node));
    let mut half = 1usize << (deep - 1);
    let mut bit = (3 << deep) + half;
    let mut cuts = 0;
    for _ in 0..=d.min(deep - 1) {
        cuts += u32::from(is_set(bytes, bit));
        bit += to & half;
        half /= 2;
        bit -= half;
    }
    cuts == d
}

/// The tuned split of a node that is settled to be a leaf.
#[no_mangle]
#[inline(never)]
pub fn ordinary_split_settled(bytes: &mut [u8], deep: u32, node: u32) {
    if settled(bytes, deep, node) {
        cut_chain(bytes, deep, node, edge, |bytes, place| change_along(bytes, deep, place, 1));
    }
}

/// The tuned merge of a node that is settled to be a leaf, and the pair across with it.
#[no_mangle]
#[inline(never)]
pub fn ordinary_merge_settled(bytes: &mut [u8], deep: u32, node: u32) {
    let across = edge(node / 2);
    if settled(bytes, deep, node) && (across == 0 || settled(bytes, deep, 2 * across)) {
        merge_with(bytes, deep, node, across);
    }
}

/// Places of the leaf bits that a split or a merge changes, and the bits that the others differ in from the first.
struct Places {
    all: [MaybeUninit<u32>; MOST_CUTS],
    many: usize,
    first: usize,
    differ: usize,
}

impl Places {
    #[inline(always)]
    fn none() -> Places {
        Places { all: [MaybeUninit::uninit(); MOST_CUTS], many: 0, first: 0, differ: 0 }
    }

    #[inline(always)]
    fn push(&mut self, place: usize) {
        if self.many == 0 {
            self.first = place;
        }
        self.differ |= self.first ^ place;
        // SAFETY: there are no more than there is room for.
        unsafe { self.all.get_unchecked_mut(self.many).write(place as u32) };
        self.many += 1;
    }

    /// Changes the leaf bits: a path for each as far up as they differ, and from there one path for all. With a list of nodes at each level,
    /// equal ones joined, up to a fifth fewer words are written, and it takes twice as long.
    #[inline(always)]
    fn change_in_one_walk(&self, bytes: &mut [u8], deep: u32, change: i32) {
        let level = usize::BITS - self.differ.leading_zeros();
        for i in 0..self.many {
            // SAFETY: so many were written.
            let mut node = unsafe { self.all.get_unchecked(i).assume_init() } as usize;
            let mut row = Row::at(deep, 0);
            for _ in 0..level {
                row.add(bytes, node, change);
                (row, node) = (row.above(), node / 2);
            }
        }
        Row::at(deep, level).add_along(bytes, self.first >> level, change * self.many as i32);
    }
}

/// The tuned version, with the words near node 1 written once for all cuts.
#[no_mangle]
#[inline(never)]
pub fn ordinary_split_in_one_walk(bytes: &mut [u8], deep: u32, node: u32) {
    let mut places = Places::none();
    cut_chain(bytes, deep, node, edge, |_, place| places.push(place));
    places.change_in_one_walk(bytes, deep, 1);
}

/// The merge likewise.
#[no_mangle]
#[inline(never)]
pub fn ordinary_merge_in_one_walk(bytes: &mut [u8], deep: u32, node: u32) {
    let across = edge(node / 2);
    if may_merge(bytes, deep, node, across) {
        let mut places = Places::none();
        places.push(cut_place(deep, node / 2));
        if across != 0 {
            places.push(cut_place(deep, across));
        }
        places.change_in_one_walk(bytes, deep, -1);
    }
}

/// Algorithm 13, with the node's own last digit tested.
#[no_mangle]
#[inline(never)]
pub fn ordinary_number(bytes: &[u8], deep: u32, node: u32) -> u32 {
    let mut number = 0;
    let mut node = node;
    while node > 1 {
        if node & 1 == 1 {
            number += word(bytes, deep, node ^ 1);
        }
        node /= 2;
    }
    number
}

/// The number of a leaf, and none where the node is no leaf: going down from node 1, as the scope document settles it.
#[no_mangle]
#[inline(never)]
pub fn ordinary_number_settled(bytes: &[u8], deep: u32, node: u32) -> Option<u32> {
    let mut levels = depth(node);
    let (mut way, mut number) = (1, 0);
    while levels > 0 && word(bytes, deep, way) > 1 {
        levels -= 1;
        way *= 2;
        if (node >> levels) & 1 == 1 {
            number += word(bytes, deep, way);
            way += 1;
        }
    }
    (levels == 0 && word(bytes, deep, way) == 1).then_some(number)
}

/// Algorithm 10: the number of leaves.
pub fn count(bytes: &[u8], deep: u32) -> u32 {
    word(bytes, deep, 1)
}

/// Pins a leaf.
pub fn pin(bytes: &mut [u8], deep: u32, node: u32) {
    set(bytes, pin_bit(deep, node));
}

/// Takes a leaf's pin away.
pub fn unpin(bytes: &mut [u8], deep: u32, node: u32) {
    clear(bytes, pin_bit(deep, node));
}

/// A fresh panel: the depth word, the leaves 2 and 3, all sums, no pin.
pub fn open(bytes: &mut [u8], deep: u32) {
    bytes.fill(0);
    bytes[..4].copy_from_slice(&(deep << 2).to_le_bytes());
    for node in [2, 3] {
        set(bytes, leaf_bit(deep, node));
    }
    ordinary_sums(bytes, deep);
}
