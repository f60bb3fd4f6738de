//! A panel as a set of cuts and a set of pinned leaves, and as bytes.

use std::collections::BTreeSet;

use crate::triangles::{depth, neighbours_of, GREATEST_DEPTH, LEAST_DEPTH};
use crate::{
    below_leaf, Answer, AT_DEPTH_ONE, AT_GREATEST_DEPTH, IS_CUT, LEAF_PINNED, LEAVES_MISSING, NOT_GOOD,
    NO_SUCH_NODE, NO_SUCH_NUMBER, WRONG_LENGTH,
};

// ---- bytes

/// "The panel gets 2^D pin bits after its last byte [..], so its length is 2^(D−1) + 2^(D−3) bytes"
pub fn length_of(depth: u32) -> usize {
    (1 << (depth - 1)) + (1 << (depth - 3))
}

/// "D comes from the length"
pub fn depth_of_length(length: usize) -> Answer<u32> {
    let depths = LEAST_DEPTH..=GREATEST_DEPTH;
    depths.into_iter().find(|d| length_of(*d) == length).ok_or(WRONG_LENGTH)
}

/// "Bit p is in byte p/8 (whole part) with weight 2^(p mod 8)"
pub fn bit(bytes: &[u8], place: usize) -> bool {
    let weight = 2u32.pow((place % 8) as u32);
    u32::from(bytes[place / 8]) / weight % 2 == 1
}

/// The word of so many bits from bit `start` on, set to a number in bytes where those bits are zero.
fn write(bytes: &mut [u8], start: usize, bits: usize, number: usize) {
    let mut rest = number;
    for place in start..start + bits {
        bytes[place / 8] += (rest % 2) as u8 * 2u8.pow((place % 8) as u32);
        rest /= 2;
    }
    assert_eq!(rest, 0, "{number} has more than {bits} bits");
}

/// The leaf bits of a panel's bytes: "they start at bit 3·2^D".
fn leaf_bits_of(bytes: &[u8], depth: u32) -> Vec<bool> {
    let places = 1usize << depth;
    (0..places).map(|p| bit(bytes, 3 * places + p)).collect()
}

/// Where the pin bits start: after the 2^(D+2) bits that a panel had before them.
fn pins_start(depth: u32) -> usize {
    1 << (depth + 2)
}

/// The pin bits of a panel's bytes, "in leaf bit order".
fn pin_bits_of(bytes: &[u8], depth: u32) -> Vec<bool> {
    (0..1 << depth).map(|p| bit(bytes, pins_start(depth) + p)).collect()
}

/// The place of the leftmost leaf bit below a node.
fn leftmost(node: u32, panel_depth: u32) -> usize {
    ((node as usize) << (panel_depth - depth(node))) - (1 << panel_depth)
}

/// The panel with these leaf bits and pin bits: zero bits 0 and 1, the depth word, and each word from 1 up the
/// count of the set leaf bits below its node. Pin bits that are not given are zero. Whether it is good depends on both.
pub fn with_right_sums(panel_depth: u32, leaf_bits: &[bool], pin_bits: &[bool]) -> Vec<u8> {
    let deep = panel_depth as usize;
    let mut bytes = vec![0; length_of(panel_depth)];
    write(&mut bytes, 2, deep + 1, deep);
    for d in 0..=deep {
        let bits = deep - d + 1;
        // the leaf bits below the nodes of one depth lie side by side, as many below each
        for (node, part) in (1usize << d..).zip(leaf_bits.chunks(1 << (deep - d))) {
            let set = part.iter().filter(|b| **b).count();
            write(&mut bytes, (1 << (d + 1)) + node * bits, bits, set);
        }
    }
    for (place, pin) in (pins_start(panel_depth)..).zip(pin_bits) {
        write(&mut bytes, place, 1, usize::from(*pin));
    }
    bytes
}

// ---- cuts

/// "with t trailing zeros in p, the node (2^D + p)/2^t is a right child, and its parent is cut":
/// up from the leaf bit's node as long as it is a left child, then one more.
pub fn cut_named(panel_depth: u32, place: usize) -> u32 {
    let mut node = (1u32 << panel_depth) + place as u32;
    while node.is_multiple_of(2) {
        node /= 2;
    }
    node / 2
}

/// The cuts that a field's set leaf bits name: "each set leaf bit p, other than bit 0, names one cut".
fn named(panel_depth: u32, leaf_bits: &[bool]) -> BTreeSet<u32> {
    let places = (1..leaf_bits.len()).filter(|p| leaf_bits[*p]);
    places.map(|p| cut_named(panel_depth, p)).collect()
}

/// The nodes that cuts ask for beside themselves: a node's parent and, across its long side, its edge neighbour.
fn asked_by(node: u32) -> Vec<u32> {
    if node == 1 {
        return Vec::new();
    }
    let edge = neighbours_of(node).edge;
    if edge == 0 {
        vec![node / 2]
    } else {
        vec![node / 2, edge]
    }
}

/// "hold node 1, hold the parent of each cut node other than 1, and obey the long side rule"
pub fn good(cuts: &BTreeSet<u32>) -> bool {
    cuts.contains(&1) && cuts.iter().all(|n| asked_by(*n).iter().all(|m| cuts.contains(m)))
}

/// Adds a cut and what is asked for by what is new, until nothing is missing.
fn add(cuts: &mut BTreeSet<u32>, node: u32) {
    let mut new = vec![node];
    while let Some(n) = new.pop() {
        if cuts.insert(n) {
            new.extend(asked_by(n));
        }
    }
}

/// The least good set of cuts that holds these.
pub fn closed(cuts: &BTreeSet<u32>) -> BTreeSet<u32> {
    let mut all = BTreeSet::from([1]);
    cuts.iter().for_each(|n| add(&mut all, *n));
    all
}

/// A node that is not cut, and whose parent is.
fn is_leaf(cuts: &BTreeSet<u32>, node: u32) -> bool {
    node >= 2 && !cuts.contains(&node) && cuts.contains(&(node / 2))
}

/// What a node comes to as it is halved again and again, the last of them node 1.
fn ancestors(node: u32) -> impl Iterator<Item = u32> {
    std::iter::successors(Some(node / 2), |n| Some(n / 2)).take_while(|n| *n >= 1)
}

/// All leaves, from left to right.
fn leaves_of(panel_depth: u32, cuts: &BTreeSet<u32>) -> Vec<u32> {
    let children = cuts.iter().flat_map(|n| [2 * n, 2 * n + 1]);
    let mut leaves: Vec<u32> = children.filter(|n| is_leaf(cuts, *n)).collect();
    leaves.sort_by_cached_key(|n| leftmost(*n, panel_depth));
    leaves
}

/// The cuts that the merge of a leaf takes back: "its parent's cut and, if the parent has an edge neighbour, that neighbour's cut"
fn taken_back(leaf: u32) -> Vec<u32> {
    let parent = leaf / 2;
    let across = neighbours_of(parent).edge;
    if across == 0 {
        vec![parent]
    } else {
        vec![parent, across]
    }
}

/// The leaves that go with them, two on the leaf's own side and, if there is one, two on the other.
pub fn merged_away(leaf: u32) -> Vec<u32> {
    taken_back(leaf).into_iter().flat_map(|n| [2 * n, 2 * n + 1]).collect()
}

/// A good panel: its depth, its cuts, the leaves that follow from them, from left to right, and which of these are pinned.
#[derive(Clone, Debug, PartialEq, Eq)]
pub struct Panel {
    depth: u32,
    cuts: BTreeSet<u32>,
    leaves: Vec<u32>,
    pinned: BTreeSet<u32>,
}

impl Panel {
    /// The panel with these cuts, and those of its leaves pinned of which that is said.
    fn of(depth: u32, cuts: BTreeSet<u32>, is_pinned: impl Fn(u32) -> bool) -> Panel {
        let leaves = leaves_of(depth, &cuts);
        let pinned = leaves.iter().copied().filter(|leaf| is_pinned(*leaf)).collect();
        Panel { depth, cuts, leaves, pinned }
    }

    /// The panel whose only cut is node 1, "with pins zero on open", or 1 where the depth is out of range.
    pub fn fresh(depth: u32) -> Answer<Panel> {
        if !(LEAST_DEPTH..=GREATEST_DEPTH).contains(&depth) {
            return Err(WRONG_LENGTH);
        }
        Ok(Panel::of(depth, BTreeSet::from([1]), |_| false))
    }

    /// The smallest good panel of this depth with the given cuts, all above depth D. None of its leaves is pinned.
    pub fn holding(panel_depth: u32, cuts: &BTreeSet<u32>) -> Panel {
        assert!(cuts.iter().all(|n| *n >= 1 && depth(*n) < panel_depth));
        Panel::of(panel_depth, closed(cuts), |_| false)
    }

    /// The panel that the bytes hold, or 1 or 2.
    pub fn read(bytes: &[u8]) -> Answer<Panel> {
        let depth = depth_of_length(bytes.len())?;
        let (leaf_bits, pin_bits) = (leaf_bits_of(bytes, depth), pin_bits_of(bytes, depth));
        // "A pin bit set where no leaf bit is set makes the panel not good."
        let strays = (0..pin_bits.len()).any(|p| pin_bits[p] && !leaf_bits[p]);
        let cuts = named(depth, &leaf_bits);
        let right = leaf_bits[0] && good(&cuts) && with_right_sums(depth, &leaf_bits, &pin_bits) == bytes;
        if right && !strays {
            Ok(Panel::of(depth, cuts, |leaf| pin_bits[leftmost(leaf, depth)]))
        } else {
            Err(NOT_GOOD)
        }
    }

    /// "the smallest good panel whose cuts include every cut that the set leaf bits name; node 1 counts as named", of bytes "of a right
    /// length, whatever they hold", and "the cuts added: the new leaf count less one, less the old field's set bits other than bit 0"; or 1.
    /// "A pin stays where its bit is a leaf bit afterwards, others are cleared". What else the bytes hold plays no part.
    pub fn mended(bytes: &[u8]) -> Answer<(Panel, u32)> {
        let depth = depth_of_length(bytes.len())?;
        let (leaf_bits, pin_bits) = (leaf_bits_of(bytes, depth), pin_bits_of(bytes, depth));
        let cuts = closed(&named(depth, &leaf_bits));
        let panel = Panel::of(depth, cuts, |leaf| pin_bits[leftmost(leaf, depth)]);
        let set = leaf_bits[1..].iter().filter(|b| **b).count();
        let added = panel.leaves.len() - 1 - set;
        Ok((panel, added as u32))
    }

    pub fn depth(&self) -> u32 {
        self.depth
    }

    pub fn cuts(&self) -> &BTreeSet<u32> {
        &self.cuts
    }

    pub fn leaves(&self) -> &[u32] {
        &self.leaves
    }

    /// The leaves that are pinned.
    pub fn pinned(&self) -> &BTreeSet<u32> {
        &self.pinned
    }

    /// "A leaf k of depth d sets leaf bit k·2^(D−d) − 2^D, the leftmost below it, and no other": the bits of some leaves.
    fn bits_of<'a>(&self, leaves: impl IntoIterator<Item = &'a u32>) -> Vec<bool> {
        let mut bits = vec![false; 1 << self.depth];
        for leaf in leaves {
            bits[leftmost(*leaf, self.depth)] = true;
        }
        bits
    }

    pub fn leaf_bits(&self) -> Vec<bool> {
        self.bits_of(&self.leaves)
    }

    /// "the pin bit in the place of that leaf's own leaf bit"
    pub fn pin_bits(&self) -> Vec<bool> {
        self.bits_of(&self.pinned)
    }

    pub fn bytes(&self) -> Vec<u8> {
        with_right_sums(self.depth, &self.leaf_bits(), &self.pin_bits())
    }

    /// "The leaf bits fill whole bytes": where these start, and how many they are.
    pub fn leaf_bytes(&self) -> (usize, usize) {
        let places = 1 << self.depth;
        (3 * places / 8, places / 8)
    }

    /// The leaf of a number, counted from the left, or 8.
    pub fn leaf_at(&self, number: u32) -> Answer<u32> {
        self.leaves.get(number as usize).copied().ok_or(NO_SUCH_NUMBER)
    }

    /// The leaf that a node is or lies in, if it is not cut.
    fn leaf_around(&self, node: u32) -> Option<u32> {
        std::iter::once(node).chain(ancestors(node)).find(|n| is_leaf(&self.cuts, *n))
    }

    /// Nothing where the node is a leaf, else 3, 4 or 10.
    fn must_be_leaf(&self, node: u32) -> Answer<()> {
        if !(2..2u32 << self.depth).contains(&node) {
            return Err(NO_SUCH_NODE);
        }
        if is_leaf(&self.cuts, node) {
            return Ok(());
        }
        if self.cuts.contains(&node) {
            return Err(IS_CUT);
        }
        let leaf = self.leaf_around(node);
        Err(below_leaf(leaf.expect("a node that is not cut and no leaf has a leaf above it")))
    }

    /// How many leaves stand left of this one, or 3, 4 or 10.
    pub fn number_of(&self, node: u32) -> Answer<u32> {
        self.must_be_leaf(node)?;
        Ok(self.leaves.iter().take_while(|n| **n != node).count() as u32)
    }

    /// "the smallest good panel, by cuts, that holds every old cut and k's", or 3, 4, 10, 5. "A cut leaf's pin passes to
    /// both children, also where the cut was forced": a leaf is pinned if the old leaf that it is or lies in was.
    pub fn split(&mut self, node: u32) -> Answer<()> {
        self.must_be_leaf(node)?;
        if depth(node) == self.depth {
            return Err(AT_GREATEST_DEPTH);
        }
        // what the old cuts ask for is there: they are good
        let mut cuts = self.cuts.clone();
        add(&mut cuts, node);
        let was_pinned = |leaf| self.leaf_around(leaf).is_some_and(|old| self.pinned.contains(&old));
        *self = Panel::of(self.depth, cuts, was_pinned);
        Ok(())
    }

    /// Takes back a leaf's cuts, or 3, 4, 10, 6, 7, 11. "split and merge leave every other pin as it was": leaves of both
    /// panels keep theirs, and a leaf that comes back has none.
    pub fn merge(&mut self, node: u32) -> Answer<()> {
        self.must_be_leaf(node)?;
        if depth(node) == 1 {
            return Err(AT_DEPTH_ONE);
        }
        let gone = merged_away(node);
        if !gone.iter().all(|n| is_leaf(&self.cuts, *n)) {
            return Err(LEAVES_MISSING);
        }
        if gone.iter().any(|n| self.pinned.contains(n)) {
            return Err(LEAF_PINNED);
        }
        let back = taken_back(node);
        let cuts = self.cuts.iter().copied().filter(|n| !back.contains(n)).collect();
        *self = Panel::of(self.depth, cuts, |leaf| self.pinned.contains(&leaf));
        Ok(())
    }

    /// Pins a leaf, or 3, 4, 10: "Pin and unpin refuse as number of leaf does, else answer 0, also where the pin is already so".
    pub fn pin(&mut self, node: u32) -> Answer<()> {
        self.must_be_leaf(node)?;
        self.pinned.insert(node);
        Ok(())
    }

    /// Takes a leaf's pin away, or 3, 4, 10.
    pub fn unpin(&mut self, node: u32) -> Answer<()> {
        self.must_be_leaf(node)?;
        self.pinned.remove(&node);
        Ok(())
    }

    /// Whether a leaf is pinned, or 3, 4, 10.
    pub fn is_pinned(&self, node: u32) -> Answer<bool> {
        self.must_be_leaf(node)?;
        Ok(self.pinned.contains(&node))
    }
}
