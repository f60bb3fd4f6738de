//! The rules of document 01 once more, as it defines them: a panel is a set of cuts, a split is the
//! least set that is closed under the rules, a word is a count, a neighbour is the triangle that
//! shares a side. It is slow and plain, and it shares no code and no way of computing with the proved
//! crates, so that the two can be held against each other.
//!
//! Answers are document 01's numbers, 0 for done, with those of requests W4, what 4 means now, 10 and 18, W7, 11, and W1, 16 and 17.

pub mod calls;
pub mod panel;
pub mod requests;
pub mod triangles;

/// Why a call is refused: its number, and the ancestor that comes with it, which is 0 beside all but 10.
#[derive(Clone, Copy, Debug, PartialEq, Eq)]
pub struct Refusal {
    pub number: u32,
    pub ancestor: u32,
}

const fn alone(number: u32) -> Refusal {
    Refusal { number, ancestor: 0 }
}

/// "length isn't 2^(D−1) + 2^(D−3) for a D of 3 to 17; on open, also a depth that is out of range or doesn't fit the length"
pub const WRONG_LENGTH: Refusal = alone(1);
/// "length fits, panel isn't good"
pub const NOT_GOOD: Refusal = alone(2);
/// "node below 2, or above 2^(D+1)−1 (above 262,143 for neighbours and corners, which take no panel)"
pub const NO_SUCH_NODE: Refusal = alone(3);
/// "the node is itself cut"
pub const IS_CUT: Refusal = alone(4);
/// "leaf is at depth D"
pub const AT_GREATEST_DEPTH: Refusal = alone(5);
/// "leaf is at depth 1"
pub const AT_DEPTH_ONE: Refusal = alone(6);
/// "leaf is deeper, but not all the leaves the merge needs are there"
pub const LEAVES_MISSING: Refusal = alone(7);
/// "A merge that passes 7 but would remove a pinned leaf, on either side"
pub const LEAF_PINNED: Refusal = alone(11);
/// "leaf number is at or above the count"
pub const NO_SUCH_NUMBER: Refusal = alone(8);
/// "fewer answer bytes than whole records"
pub const NO_ROOM: Refusal = alone(16);
/// "bytes left over"
pub const BYTES_LEFT: Refusal = alone(17);
/// "bad record"
pub const BAD_RECORD: Refusal = alone(9);
/// "an open while its panel has more than two leaves"
pub const PANEL_IN_USE: Refusal = alone(18);

/// "an ancestor is the leaf, and that ancestor's number is returned beside it"
pub const fn below_leaf(ancestor: u32) -> Refusal {
    Refusal { number: 10, ancestor }
}

/// What a call hands out, or why it is refused.
pub type Answer<T> = Result<T, Refusal>;
