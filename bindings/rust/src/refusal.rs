//! Why a call is refused.

use std::fmt;

use crate::Node;

/// Why a call is refused, by the customer's table. The first that applies is answered; they are tested in the order in which they
/// stand here.
#[derive(Clone, Copy, Debug, PartialEq, Eq, Hash)]
pub enum Refusal {
    /// 1: the length isn't 2^(D−1) + 2^(D−3) bytes for a depth D of 3 to 17; on open, also a depth that is out of range or doesn't fit the
    /// length.
    WrongLength,
    /// 2: the length fits, the panel isn't good.
    NotGood,
    /// 3: the node is below 2, or above 2^(D+1)−1 (above 262,143 for calls that take no panel).
    NoSuchNode,
    /// 4: the node is in range and is itself cut.
    IsCut,
    /// 10: the node is in range and an ancestor of it is the leaf. It holds that leaf.
    BelowLeaf(Node),
    /// 5: the leaf is at depth D and can't be cut.
    AtGreatestDepth,
    /// 6: the leaf is at depth 1 and can't be merged.
    AtDepthOne,
    /// 7: not all the leaves that the merge needs are there.
    LeavesMissing,
    /// 11: the merge would remove a pinned leaf, on the leaf's own side or across the long side.
    LeafPinned,
    /// 8: there are not so many leaves.
    NoSuchNumber,
    /// 16: what is lent for the answers has fewer bytes than there are whole records.
    NoRoom,
    /// 17: bytes are left over behind the last whole record.
    BytesLeft,
    /// 9: a bad record. Given in a round as the byte of one record, and by the scanner program; tested before a record's others. No call is
    /// refused with it.
    BadRecord,
    /// 18: an open while the panel has more than two leaves. Given by the scanner program, never by a call.
    PanelInUse,
}

impl Refusal {
    /// Its number in the customer's table.
    pub fn number(self) -> u32 {
        match self {
            Refusal::WrongLength => 1,
            Refusal::NotGood => 2,
            Refusal::NoSuchNode => 3,
            Refusal::IsCut => 4,
            Refusal::BelowLeaf(_) => 10,
            Refusal::AtGreatestDepth => 5,
            Refusal::AtDepthOne => 6,
            Refusal::LeavesMissing => 7,
            Refusal::LeafPinned => 11,
            Refusal::NoSuchNumber => 8,
            Refusal::NoRoom => 16,
            Refusal::BytesLeft => 17,
            Refusal::BadRecord => 9,
            Refusal::PanelInUse => 18,
        }
    }

    /// The refusal of an answer's number and the ancestor beside it, which is 0 beside all but 10. None of other pairs, and of
    /// 0, which is done.
    pub fn of_answer(number: u32, ancestor: u32) -> Option<Refusal> {
        match (number, ancestor) {
            (1, 0) => Some(Refusal::WrongLength),
            (2, 0) => Some(Refusal::NotGood),
            (3, 0) => Some(Refusal::NoSuchNode),
            (4, 0) => Some(Refusal::IsCut),
            (10, 2..) => Some(Refusal::BelowLeaf(Node(ancestor))),
            (5, 0) => Some(Refusal::AtGreatestDepth),
            (6, 0) => Some(Refusal::AtDepthOne),
            (7, 0) => Some(Refusal::LeavesMissing),
            (11, 0) => Some(Refusal::LeafPinned),
            (8, 0) => Some(Refusal::NoSuchNumber),
            (16, 0) => Some(Refusal::NoRoom),
            (17, 0) => Some(Refusal::BytesLeft),
            (9, 0) => Some(Refusal::BadRecord),
            (18, 0) => Some(Refusal::PanelInUse),
            _ => None,
        }
    }
}

impl fmt::Display for Refusal {
    fn fmt(&self, f: &mut fmt::Formatter) -> fmt::Result {
        f.write_str(match self {
            Refusal::WrongLength => "the length is that of no panel, or the depth doesn't fit it",
            Refusal::NotGood => "the panel isn't good",
            Refusal::NoSuchNode => "there is no such node",
            Refusal::IsCut => "the node is itself cut",
            Refusal::BelowLeaf(Node(leaf)) => return write!(f, "the node is below leaf {leaf}"),
            Refusal::AtGreatestDepth => "the leaf is at the greatest depth and can't be cut",
            Refusal::AtDepthOne => "the leaf is at depth 1 and can't be merged",
            Refusal::LeavesMissing => "not all the leaves that the merge needs are there",
            Refusal::LeafPinned => "the merge would remove a pinned leaf",
            Refusal::NoSuchNumber => "there are not so many leaves",
            Refusal::NoRoom => "there are fewer bytes for answers than records",
            Refusal::BytesLeft => "bytes are left over behind the last record",
            Refusal::BadRecord => "the record is bad",
            Refusal::PanelInUse => "the panel has more than two leaves",
        })
    }
}

impl std::error::Error for Refusal {}
