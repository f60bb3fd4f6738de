//! Panels to measure on, and the numbers and nodes that the calls are asked for.

use crate::{ordinary, ours};

/// The greatest depth that the calls take.
pub const DEEPEST: u32 = 17;

/// The greatest depth that the program opens: its buffer has 65,536 bytes.
pub const DEEPEST_OPENED: u32 = 16;

/// The bytes of a panel of a depth: its words, and then a pin bit for each leaf bit.
pub const fn size(deep: u32) -> usize {
    (1 << (deep - 1)) + (1 << (deep - 3))
}

/// How much of a panel is cut.
#[derive(Clone, Copy, PartialEq)]
pub enum Kind {
    /// Two leaves.
    Fresh,
    /// Refined along one side: every leaf that touches it is as deep as can be.
    Adaptive,
    /// Every leaf is as deep as can be.
    Full,
}

pub const KINDS: [Kind; 3] = [Kind::Fresh, Kind::Adaptive, Kind::Full];

impl Kind {
    pub fn name(self) -> &'static str {
        match self {
            Kind::Fresh => "fresh",
            Kind::Adaptive => "adaptive",
            Kind::Full => "fully cut",
        }
    }
}

/// A good panel with the spare bytes that the ordinary version reads.
#[derive(Clone)]
pub struct Panel {
    pub deep: u32,
    pub bytes: Vec<u8>,
}

impl Panel {
    /// Every fourth leaf is pinned, so that the judge has pins to hold against leaf bits, and splits pass some on; but none of a
    /// fresh panel, which is as open writes it. What a merge is to take away is unpinned where merges are measured.
    pub fn new(deep: u32, kind: Kind) -> Panel {
        let mut panel = Panel { deep, bytes: vec![0; size(deep) + ordinary::SPARE] };
        ordinary::open(&mut panel.bytes, deep);
        match kind {
            Kind::Fresh => return panel.good(),
            Kind::Adaptive => panel.refine(|[a, b, c]| a[0] == 0 || b[0] == 0 || c[0] == 0),
            Kind::Full => panel.refine(|_| true),
        }
        panel.leaves().into_iter().step_by(4).for_each(|k| panel.pin(k));
        panel.good()
    }

    /// Refined towards one corner of the square as deep as can be, no leaf pinned: the farther from it, the coarser are the leaves.
    pub fn cornered(deep: u32) -> Panel {
        let mut panel = Panel::new(deep, Kind::Fresh);
        panel.refine(|corners| corners.contains(&[0, 0]));
        panel.good()
    }

    /// The panel, judged.
    fn good(self) -> Panel {
        assert_eq!(ours::judge(self.lent()), 0, "the panel is good");
        self
    }

    /// Splits leaves that are chosen by their corners until all that are left have the greatest depth.
    fn refine(&mut self, chosen: impl Fn(ordinary::Triangle) -> bool) {
        loop {
            let mut asked = self.cuttable();
            asked.retain(|k| chosen(ordinary::ordinary_corners(*k)));
            if asked.is_empty() {
                return;
            }
            for node in asked {
                ordinary::cut(&mut self.bytes, self.deep, node);
            }
            ordinary::ordinary_sums(&mut self.bytes, self.deep);
        }
    }

    /// The panel's own bytes, as one lends them.
    pub fn lent(&self) -> &[u8] {
        &self.bytes[..self.bytes.len() - ordinary::SPARE]
    }

    pub fn lent_mut(&mut self) -> &mut [u8] {
        let end = self.bytes.len() - ordinary::SPARE;
        &mut self.bytes[..end]
    }

    pub fn leaves(&self) -> Vec<u32> {
        let count = ordinary::count(&self.bytes, self.deep);
        (0..count).map(|i| ordinary::ordinary_leaf(&self.bytes, self.deep, i)).collect()
    }

    /// The leaves that can be split: those that are not at depth D.
    pub fn cuttable(&self) -> Vec<u32> {
        self.leaves().into_iter().filter(|k| depth(*k) < self.deep).collect()
    }

    pub fn pin(&mut self, leaf: u32) {
        ordinary::pin(&mut self.bytes, self.deep, leaf);
    }

    pub fn unpin(&mut self, leaf: u32) {
        ordinary::unpin(&mut self.bytes, self.deep, leaf);
    }

    /// Up to `most` leaves that a call answers 0 for where no leaf is pinned, spread over the panel.
    pub fn some_leaves(&self, most: usize, call: impl Fn(&mut [u8], u32, u32) -> u32) -> Vec<u32> {
        let leaves = self.leaves();
        let mut free = self.clone();
        leaves.iter().for_each(|k| free.unpin(*k));
        let allowed = |k: &u32| call(free.clone().lent_mut(), free.deep, *k) == 0;
        let step = leaves.len().div_ceil(4 * most);
        let allowed: Vec<u32> = leaves.into_iter().step_by(step).filter(allowed).collect();
        let step = allowed.len().div_ceil(most).max(1);
        allowed.into_iter().step_by(step).collect()
    }
}

pub fn depth(node: u32) -> u32 {
    31 - node.leading_zeros()
}

/// Numbers that look random and are the same in every run.
pub struct Random(pub u64);

impl Random {
    pub fn below(&mut self, end: usize) -> usize {
        self.0 = self.0.wrapping_mul(6364136223846793005).wrapping_add(1442695040888963407);
        ((self.0 >> 33) as usize * end) >> 31
    }

    /// The same items in another order.
    pub fn shuffled(&mut self, mut items: Vec<u32>) -> Vec<u32> {
        for i in (1..items.len()).rev() {
            items.swap(i, self.below(i + 1));
        }
        items
    }
}
