//! A panel that a scanner looks at, cut into triangles: the proved calls of this repository, for Rust.
//!
//! A panel is bytes that you own, 5 at depth 3 to 81,920 at depth 17; [`Panel`] lends them to the calls. Every call has an answer
//! whatever the bytes are, damaged ones too: what you asked for, or a [`Refusal`], and then no byte has changed. There is nothing to set
//! up, and nothing that can be called in the wrong order. What the calls promise is proved, see docs/PROMISES.md; this crate only
//! gives it Rust's types.
//!
//! Triangles are named in two ways, which are two types. A [`Node`] says where a triangle is: node 1 is the whole panel, and node
//! k is cut into 2k and 2k + 1. A [`LeafNumber`] counts the leaves, the triangles that are there at the moment, from 0 on the left.
//!
//! ```
//! use jolpibhar::{LeafNumber, Node, Panel, Records, Refusal};
//!
//! let mut panel = Panel::fresh(3)?; // leaves 2 and 3
//! panel.split(Node(2))?; // and 3 with it: triangles meet side to side
//! assert_eq!(panel.split(Node(8)), Err(Refusal::BelowLeaf(Node(4)))); // there is no node 8 yet, and 4 is what to cut first
//! panel.split(Node(4))?;
//! assert_eq!(panel.split(Node(4)), Err(Refusal::IsCut));
//!
//! let mut leaves = Vec::new();
//! for number in 0..panel.count()? {
//!     leaves.push(panel.leaf_at(LeafNumber(number))?);
//! }
//! assert_eq!(leaves, [8, 9, 5, 6, 7].map(Node));
//! assert_eq!(panel.number_of(Node(5))?, LeafNumber(2));
//! assert_eq!(panel.bytes(), [0x4C, 0x4D, 0x56, 0x57, 0x00]);
//!
//! panel.pin(Node(8))?; // not to be merged away
//! assert_eq!(panel.merge(Node(9)), Err(Refusal::LeafPinned));
//! panel.unpin(Node(8))?;
//! panel.merge(Node(9))?; // takes the cut of 4 back
//! assert_eq!(panel.count()?, 4);
//!
//! let mut records = Records::new(); // many splits and merges in one call, which judges the panel once
//! records.split(Node(4)).split(Node(10)).merge(Node(9));
//! let mut answers = [0xFF; 3];
//! panel.round(records.bytes(), &mut answers)?;
//! assert_eq!(answers, [0, 10, 0]); // 5 is the leaf above node 10; what is refused changes nothing, and the round goes on
//! assert_eq!(panel.count()?, 4);
//!
//! let mut card = Panel::over([0x00, 0xFF, 0x00, 0x03, 0x00]); // of the leaf bits of 8, 9, 5, 6 and 7 these bytes have two
//! assert_eq!(card.judge(), Err(Refusal::NotGood));
//! assert_eq!(card.mend()?, 3); // leaf bit 1 names the cut of 4, and so 1, 2 and 3 must be cut
//! assert_eq!(card.bytes(), [0x4C, 0x4D, 0x56, 0x57, 0x00]);
//!
//! let around = Node(8).neighbours()?; // at its own depth, whether they are leaves or not
//! assert_eq!((around.left, around.right, around.edge), (Some(Node(9)), None, Some(Node(15))));
//! assert_eq!(Node(10).corners()?, [[0, 0], [128, 0], [128, 128]]); // counterclockwise, and the long side is from first to last
//! # Ok::<(), Refusal>(())
//! ```
//!
//! To link, run `.ci/archive jolpibhar` in the repository first: it proves the calls and writes the archive.

#[doc(hidden)]
pub mod exports;
mod records;
mod refusal;

pub use records::Records;
pub use refusal::Refusal;

/// The depth of the finest panel. The coarsest is of depth 3; a panel of depth D has 2^(D−1) + 2^(D−3) bytes.
pub const GREATEST_DEPTH: u32 = 17;

/// A node's number, which says where its triangle is: node 1 is the whole panel, node k has the children 2k and 2k + 1.
#[derive(Clone, Copy, Debug, PartialEq, Eq, Hash)]
pub struct Node(pub u32);

/// A leaf's number: how many leaves stand left of it.
#[derive(Clone, Copy, Debug, PartialEq, Eq, PartialOrd, Ord, Hash)]
pub struct LeafNumber(pub u32);

/// The nodes of the same depth beside one: each on one of its sides, or none where that side is the panel's border. A, B, C are the corners in
/// the order of [`Node::corners`].
#[derive(Clone, Copy, Debug, PartialEq, Eq, Hash)]
pub struct Neighbours {
    /// Across the side B–C at odd depth, and across A–B at even depth.
    pub left: Option<Node>,
    /// Across the side A–B at odd depth, and across B–C at even depth.
    pub right: Option<Node>,
    /// Across the long side, A–C.
    pub edge: Option<Node>,
}

impl Node {
    /// The node's neighbours of its own depth. Refused: 3.
    pub fn neighbours(self) -> Result<Neighbours, Refusal> {
        let (answer, around) = exports::neighbours(self.0, 0);
        let [left, right, edge] = around.map(|k| (k != 0).then_some(Node(k)));
        done(answer, Neighbours { left, right, edge })
    }

    /// The corners A, B, C of the node's triangle, each x and y, in a panel from (0,0) to (256,256). They turn counterclockwise with y
    /// upward, at every depth. B is the corner across from the long side, which goes from the first point, A, to the last, C. Refused: 3.
    pub fn corners(self) -> Result<[[u32; 2]; 3], Refusal> {
        let (answer, corners) = exports::corners(self.0, 0);
        done(answer, corners)
    }
}

/// A panel over bytes of yours: a `Vec<u8>`, a `&mut [u8]`, or for the calls that only read a `&[u8]`.
///
/// It may hold any bytes. Each call judges them first, but for open and mend, which leave a good panel whatever they were; so none has to be
/// called before another.
#[derive(Clone, Debug, PartialEq, Eq)]
pub struct Panel<B>(B);

impl Panel<Vec<u8>> {
    /// A fresh panel of a depth from 3 to [`GREATEST_DEPTH`], in bytes of its own, with the leaves 2 and 3 and no pin. Refused: 1.
    pub fn fresh(depth: u32) -> Result<Self, Refusal> {
        // any other depth the call refuses, whatever the length
        let length = if (3..=GREATEST_DEPTH).contains(&depth) { 5 << (depth - 3) } else { 0 };
        let mut panel = Panel(vec![0; length]);
        panel.open(depth)?;
        Ok(panel)
    }
}

impl<B: AsRef<[u8]>> Panel<B> {
    /// A panel over these bytes, as they are.
    pub fn over(bytes: B) -> Self {
        Panel(bytes)
    }

    /// The bytes.
    pub fn bytes(&self) -> &[u8] {
        self.0.as_ref()
    }

    /// The bytes, handed back.
    pub fn into_bytes(self) -> B {
        self.0
    }

    /// Whether the panel is good. Refused: 1, 2.
    pub fn judge(&self) -> Result<(), Refusal> {
        done(exports::judge(self.bytes()), ())
    }

    /// How many leaves there are. Refused: 1, 2.
    pub fn count(&self) -> Result<u32, Refusal> {
        let (answer, count) = exports::count(self.bytes(), 0);
        done(answer, count)
    }

    /// The leaf of a number. Refused: 1, 2, 8.
    pub fn leaf_at(&self, number: LeafNumber) -> Result<Node, Refusal> {
        let (answer, node) = exports::leaf(self.bytes(), number.0, 0);
        done(answer, Node(node))
    }

    /// The number of a leaf. Refused: 1, 2, 3, 4, 10.
    pub fn number_of(&self, leaf: Node) -> Result<LeafNumber, Refusal> {
        let (answer, (number, ancestor)) = exports::number(self.bytes(), leaf.0, 0);
        done_or_below(answer, ancestor, LeafNumber(number))
    }

    /// The leaf bits: those bytes of the panel themselves. Refused: 1, 2.
    pub fn leaf_bits(&self) -> Result<&[u8], Refusal> {
        let bytes = self.bytes();
        let (answer, (start, size)) = exports::leaf_bits(bytes, 0);
        done(answer, &bytes[start..start + size])
    }

    /// Whether a leaf is pinned. Refused: 1, 2, 3, 4, 10.
    pub fn is_pinned(&self, leaf: Node) -> Result<bool, Refusal> {
        let (answer, (pinned, ancestor)) = exports::pinned(self.bytes(), leaf.0, 0);
        done_or_below(answer, ancestor, pinned != 0)
    }
}

impl<B: AsRef<[u8]> + AsMut<[u8]>> Panel<B> {
    /// Writes every byte: the fresh panel of a depth, with the leaves 2 and 3 and no pin. Refused: 1, also where the depth doesn't fit the
    /// bytes.
    pub fn open(&mut self, depth: u32) -> Result<(), Refusal> {
        done(exports::open(self.0.as_mut(), depth), ())
    }

    /// Cuts a leaf, and what must be cut with it so that the panel stays good. The pin of each leaf that is cut passes to both its children.
    /// Refused: 1, 2, 3, 4, 10, 5.
    pub fn split(&mut self, leaf: Node) -> Result<(), Refusal> {
        let (answer, ancestor) = exports::split(self.0.as_mut(), leaf.0, 0);
        done_or_below(answer, ancestor, ())
    }

    /// Takes back the cut that made a leaf, and the one across the long side. What comes back has no pin. Refused: 1, 2, 3, 4, 10, 6, 7, 11.
    pub fn merge(&mut self, leaf: Node) -> Result<(), Refusal> {
        let (answer, ancestor) = exports::merge(self.0.as_mut(), leaf.0, 0);
        done_or_below(answer, ancestor, ())
    }

    /// Pins a leaf, so that no merge takes it away. It may be pinned already. Refused: 1, 2, 3, 4, 10.
    pub fn pin(&mut self, leaf: Node) -> Result<(), Refusal> {
        let (answer, ancestor) = exports::pin(self.0.as_mut(), leaf.0, 0);
        done_or_below(answer, ancestor, ())
    }

    /// Takes a leaf's pin away. It may have none. Refused: 1, 2, 3, 4, 10.
    pub fn unpin(&mut self, leaf: Node) -> Result<(), Refusal> {
        let (answer, ancestor) = exports::unpin(self.0.as_mut(), leaf.0, 0);
        done_or_below(answer, ancestor, ())
    }

    /// A round: works through records of eight bytes in order, with the panel judged once. [`Records`] makes them. Each is a split or a merge,
    /// and `answers[i]` becomes the number that answers record i: 0, or 9, 3, 4, 10, 5, 6, 7, 11 where it is refused. That changes nothing, and
    /// the round goes on; beside 10 no ancestor is given. Bytes past the last answer stay. Refused: 1, 2, 16, 17; then neither the panel nor
    /// `answers` has changed.
    pub fn round(&mut self, records: &[u8], answers: &mut [u8]) -> Result<(), Refusal> {
        done(exports::round(self.0.as_mut(), records, answers), ())
    }

    /// Mends bytes of a right length, whatever they hold: writes the smallest good panel that has every cut that a set leaf bit names, and that
    /// of node 1. Sums, depth word and spare bits are made anew. A pin stays where a leaf bit is set afterwards; the others are cleared, and none
    /// is passed on. It gives the number of cuts added, those that no leaf bit named. A good panel stays as it is, with 0. Refused: 1.
    pub fn mend(&mut self) -> Result<u32, Refusal> {
        let (answer, added) = exports::mend(self.0.as_mut(), 0);
        done(answer, added)
    }
}

/// What a call hands out where its answer is 0, and else the refusal. A call that hands out no ancestor never answers 10.
fn done<T>(answer: u32, given: T) -> Result<T, Refusal> {
    done_or_below(answer, 0, given)
}

/// The same of a call that hands out an ancestor.
fn done_or_below<T>(answer: u32, ancestor: u32, given: T) -> Result<T, Refusal> {
    match answer {
        0 => Ok(given),
        number => Err(Refusal::of_answer(number, ancestor).expect("a number of the table, and its ancestor")),
    }
}
