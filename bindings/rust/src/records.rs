//! Records of a round, made one by one.

use crate::Node;

const SPLIT: u8 = 1;
const MERGE: u8 = 2;

/// The bytes of a record: its kind, three zero bytes, and a node as four bytes, lowest first.
const RECORD: usize = 8;

/// Splits and merges for [`Panel::round`](crate::Panel::round), in the order in which they are to be done. Every record is whole and of a kind that
/// a round takes, so that none is answered 9, and no byte is left over.
///
/// ```
/// use jolpibhar::{Node, Records};
///
/// let mut records = Records::new();
/// records.split(Node(2)).merge(Node(5));
/// assert_eq!(records.len(), 2);
/// assert_eq!(records.bytes(), [1, 0, 0, 0, 2, 0, 0, 0, 2, 0, 0, 0, 5, 0, 0, 0]);
/// ```
#[derive(Clone, Debug, Default, PartialEq, Eq)]
pub struct Records(Vec<u8>);

impl Records {
    /// No record.
    pub fn new() -> Self {
        Records::default()
    }

    /// One more record, which asks for the split of a leaf.
    pub fn split(&mut self, leaf: Node) -> &mut Self {
        self.push(SPLIT, leaf)
    }

    /// One more record, which asks for the merge of a leaf.
    pub fn merge(&mut self, leaf: Node) -> &mut Self {
        self.push(MERGE, leaf)
    }

    fn push(&mut self, kind: u8, leaf: Node) -> &mut Self {
        self.0.extend([kind, 0, 0, 0]);
        self.0.extend(leaf.0.to_le_bytes());
        self
    }

    /// How many records there are. A round needs as many bytes for its answers.
    pub fn len(&self) -> usize {
        self.0.len() / RECORD
    }

    /// Whether there is no record.
    pub fn is_empty(&self) -> bool {
        self.0.is_empty()
    }

    /// The records as a round takes them, eight bytes each.
    pub fn bytes(&self) -> &[u8] {
        &self.0
    }
}
