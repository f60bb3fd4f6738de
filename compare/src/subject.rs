//! One panel, good or not, and every call on it.

use std::fmt::Debug;

use jolpibhar::exports;
use second::calls::{self, told, told_with_ancestor};
use second::panel::{depth_of_length, merged_away, Panel};
use second::requests::hex;
use second::triangles::{depth, GREATEST_DEPTH, LAST_NODE};
use second::{Answer, LEAF_PINNED};

use crate::frame::Frame;
use crate::mending;
use crate::random::Random;
use crate::tally::{Compared, Difference, Tally};
use crate::JUNK;

/// What the calls are asked beside the panel.
pub struct Asked {
    pub nodes: Vec<u32>,
    pub numbers: Vec<u32>,
    pub depths: Vec<u32>,
}

/// Numbers that few panels have or none: around the last node of all, and at the ends of what a call can be asked.
const FAR: [u32; 7] = [65_535, 65_536, LAST_NODE, LAST_NODE + 1, 1 << 31, (1 << 31) + 2, u32::MAX];

/// The end of the depths that are asked for: some are too great.
const DEPTHS_END: u32 = GREATEST_DEPTH + 4;

pub fn any_depth(random: &mut Random) -> u32 {
    random.below(DEPTHS_END as usize) as u32
}

/// The nodes on the way from one of the greatest depth up to node 1, through a leaf: that is the ancestor of those before it, and those
/// after it are cut.
pub fn way_through(leaf: u32, panel_depth: u32, random: &mut Random) -> Vec<u32> {
    let levels = panel_depth - depth(leaf);
    let last = (leaf << levels) + random.below(1 << levels) as u32;
    (0..=panel_depth).map(|up| last >> up).collect()
}

impl Asked {
    /// Every node, number and depth in and around range.
    pub fn all(depth: u32) -> Asked {
        let and_far = |end: u32| (0..end).chain(FAR).collect();
        let (nodes, numbers) = (and_far((2 << depth) + 3), and_far((1 << depth) + 3));
        Asked { nodes, numbers, depths: and_far(DEPTHS_END) }
    }

    /// To depth 11 every node, number and depth in and around range; above, the ends of each range and many between.
    pub fn many(depth: u32, random: &mut Random) -> Asked {
        let mut asked = Asked::all(depth);
        for list in [&mut asked.nodes, &mut asked.numbers] {
            let last = list.len() - 16;
            let mut place = 0;
            list.retain(|_| {
                place += 1;
                depth <= 11 || place <= 16 || place > last || random.once_in(1 << (depth - 11))
            });
        }
        asked
    }

    /// The ends of each range, a few between, and the way through a leaf. There may be no leaves.
    pub fn some(depth: u32, leaves: &[u32], random: &mut Random) -> Asked {
        let (end, count) = (2u32 << depth, leaves.len() as u32);
        let mut nodes = vec![0, 1, 2, end - 1, end, random.pick(&FAR)];
        let mut numbers = vec![0, count.saturating_sub(1), count, count + 1, random.pick(&FAR)];
        for _ in 0..4 {
            nodes.push(random.below(end as usize) as u32);
            if count > 0 {
                nodes.push(random.pick(leaves));
                numbers.push(random.below(count as usize) as u32);
            }
        }
        if count > 0 {
            nodes.extend(way_through(random.pick(leaves), depth, random));
        }
        let depths = vec![depth, depth - 1, depth + 1, any_depth(random), random.pick(&FAR)];
        Asked { nodes, numbers, depths }
    }

    /// The ways through a few leaves.
    pub fn ways(depth: u32, leaves: &[u32], random: &mut Random) -> Asked {
        let mut nodes = Vec::new();
        for _ in 0..8 {
            nodes.extend(way_through(random.pick(leaves), depth, random));
        }
        Asked { nodes, numbers: Vec::new(), depths: Vec::new() }
    }
}

/// A call that changes a panel at a node: its name, what a request file calls it, and how either program does it.
pub struct Change {
    call: &'static str,
    pub request: &'static str,
    second: fn(&mut Panel, u32) -> Answer<()>,
    exports: fn(&mut [u8], u32, u32) -> (u32, u32),
}

pub const SPLIT: Change =
    Change { call: "panel_split", request: "split", second: Panel::split, exports: exports::split };
pub const MERGE: Change =
    Change { call: "panel_merge", request: "merge", second: Panel::merge, exports: exports::merge };
pub const PIN: Change =
    Change { call: "panel_pin", request: "pin", second: Panel::pin, exports: exports::pin };
pub const UNPIN: Change =
    Change { call: "panel_unpin", request: "unpin", second: Panel::unpin, exports: exports::unpin };

/// What a call is asked beside the panel, if anything: its kind and its number.
type What = Option<(&'static str, u32)>;

/// A panel's bytes between guards, and what the second program reads in them.
pub struct Subject<'a> {
    tally: &'a mut Tally,
    frame: Frame,
    panel: Answer<Panel>,
}

impl<'a> Subject<'a> {
    fn new(tally: &'a mut Tally, random: &mut Random, bytes: &[u8], panel: Answer<Panel>) -> Self {
        let leaves = panel.as_ref().ok().map(|p| p.leaves().len());
        tally.panel(depth_of_length(bytes.len()).ok(), leaves);
        Subject { tally, frame: Frame::around(bytes, random), panel }
    }

    /// Any bytes.
    pub fn read(tally: &'a mut Tally, random: &mut Random, bytes: &[u8]) -> Self {
        Subject::new(tally, random, bytes, Panel::read(bytes))
    }

    /// A panel that the second program made.
    pub fn made(tally: &'a mut Tally, random: &mut Random, panel: Panel) -> Self {
        Subject::new(tally, random, &panel.bytes(), Ok(panel))
    }

    pub fn is_good(&self) -> bool {
        self.panel.is_ok()
    }

    fn asked(what: What, frame: &Frame) -> String {
        let what = what.map_or(String::new(), |(kind, x)| format!("{kind} {x}, "));
        format!("{what}panel of {} bytes: {}", frame.original().len(), hex(frame.original()))
    }

    /// The answers are the same, and the bytes are as the second program leaves them.
    fn same<T: PartialEq + Debug>(
        &mut self,
        call: &'static str,
        what: What,
        exports: (u32, T),
        second: (u32, T),
        bytes: Option<&[u8]>,
    ) -> Compared {
        let spoiled = match bytes {
            Some(bytes) if exports.0 == 0 => self.frame.restore_from(bytes),
            _ => self.frame.restore(),
        };
        let frame = &self.frame;
        self.tally.compare(call, exports, second, || Subject::asked(what, frame))?;
        match spoiled {
            None => Ok(()),
            Some(found) => Err(Difference(format!(
                "{call} leaves other bytes\n  asked:   {}\n  {found}",
                Subject::asked(what, frame)
            ))),
        }
    }

    /// What the second program reads in the panel.
    fn by_second<T>(&self, read: impl Fn(&Panel) -> Answer<T>) -> Answer<T> {
        self.panel.as_ref().map_err(|refusal| *refusal).and_then(read)
    }

    /// Counts the ancestor of a node that both told, if they did.
    fn count_ancestor(&mut self, call: &'static str, node: u32, ancestor: u32) {
        if ancestor != 0 {
            self.tally.ancestor(call, depth(node) - depth(ancestor));
        }
    }

    /// Counts a merge that both refused for pins, if one alone is why.
    fn count_pin(&mut self, node: u32) {
        let pinned = self.panel.as_ref().map(Panel::pinned).expect("the second program reads pins in it");
        let mut leaves = merged_away(node);
        leaves[..2].sort_by_key(|leaf| *leaf != node); // itself first, then its sibling
        let places: Vec<usize> = (0..leaves.len()).filter(|place| pinned.contains(&leaves[*place])).collect();
        if let [place] = places[..] {
            self.tally.pin(place);
        }
    }

    /// A call that only reads, and tells no ancestor.
    fn reading<T: PartialEq + Debug + Default>(
        &mut self,
        call: &'static str,
        what: What,
        exports: (u32, T),
        second: impl Fn(&Panel) -> Answer<T>,
    ) -> Compared {
        let second = told(self.by_second(second));
        self.same(call, what, exports, second, None)
    }

    pub fn judge(&mut self) -> Compared {
        let exports = exports::judge(self.frame.lent());
        self.reading("panel_judge", None, (exports, ()), |_| Ok(()))
    }

    pub fn count(&mut self) -> Compared {
        let exports = exports::count(self.frame.lent(), JUNK);
        self.reading("panel_count", None, exports, |p| Ok(p.leaves().len() as u32))
    }

    pub fn leaf_bits(&mut self) -> Compared {
        let exports = exports::leaf_bits(self.frame.lent(), JUNK);
        self.reading("panel_leaf_bits", None, exports, |p| Ok(p.leaf_bytes()))
    }

    pub fn leaf(&mut self, number: u32) -> Compared {
        let exports = exports::leaf(self.frame.lent(), number, JUNK);
        self.reading("panel_leaf", Some(("number", number)), exports, |p| p.leaf_at(number))
    }

    /// A call that only reads, at a node, and tells a number and an ancestor.
    fn reading_at(
        &mut self,
        call: &'static str,
        node: u32,
        exports: (u32, (u32, u32)),
        second: impl Fn(&Panel) -> Answer<u32>,
    ) -> Compared {
        let second = told_with_ancestor(self.by_second(second));
        self.same(call, Some(("node", node)), exports, second, None)?;
        let (_, (_, ancestor)) = second;
        self.count_ancestor(call, node, ancestor);
        Ok(())
    }

    pub fn number(&mut self, node: u32) -> Compared {
        let exports = exports::number(self.frame.lent(), node, JUNK);
        self.reading_at("panel_number", node, exports, |p| p.number_of(node))
    }

    pub fn pinned(&mut self, node: u32) -> Compared {
        let exports = exports::pinned(self.frame.lent(), node, JUNK);
        self.reading_at("panel_pinned", node, exports, |p| p.is_pinned(node).map(u32::from))
    }

    pub fn open(&mut self, depth: u32) -> Compared {
        let exports = exports::open(self.frame.lent(), depth);
        let mut bytes = self.frame.original().to_vec();
        let second = calls::open(&mut bytes, depth);
        self.same("panel_open", Some(("depth", depth)), (exports, ()), (second, ()), Some(&bytes))
    }

    /// Mends the bytes, good or not: the answer, the cuts added, the bytes, and what follows of them. "A good panel comes back unchanged": of
    /// that the second program need not be asked.
    pub fn mend(&mut self) -> Compared {
        let exports = exports::mend(self.frame.lent(), JUNK);
        let mut left = self.frame.original().to_vec();
        let second = if self.is_good() { (0, 0) } else { calls::mend(&mut left) };
        self.same("panel_mend", None, exports, second, Some(&left))?;
        if self.is_good() {
            self.tally.count("mended, good", 0);
        }
        match second {
            (0, added) => mending::follows(self.tally, self.frame.original(), added, &left),
            _ => Ok(()),
        }
    }

    /// What a change makes of the panel, as the second program does it.
    fn after(&self, change: &Change, node: u32) -> Answer<Panel> {
        let mut panel = self.panel.clone()?;
        (change.second)(&mut panel, node)?;
        Ok(panel)
    }

    /// A call that changes the panel: the answer, the ancestor and the bytes. It hands back what the second program makes of it.
    pub fn change(&mut self, change: &Change, node: u32) -> Result<Answer<Panel>, Difference> {
        let after = self.after(change, node);
        let done = after.as_ref().map(|_| ()).map_err(|refusal| *refusal);
        let (second, ((), ancestor)) = told_with_ancestor(done);
        let bytes = after.as_ref().ok().map(Panel::bytes);
        let exports = (change.exports)(self.frame.lent(), node, JUNK);
        self.same(change.call, Some(("node", node)), exports, (second, ancestor), bytes.as_deref())?;
        self.count_ancestor(change.call, node, ancestor);
        if done == Err(LEAF_PINNED) {
            self.count_pin(node);
        }
        Ok(after)
    }

    /// The calls that read, and those that take any bytes, open and mend.
    pub fn reads(&mut self, asked: &Asked) -> Compared {
        self.judge()?;
        self.count()?;
        self.leaf_bits()?;
        self.mend()?;
        asked.numbers.iter().try_for_each(|number| self.leaf(*number))?;
        asked.nodes.iter().try_for_each(|node| self.number(*node))?;
        asked.nodes.iter().try_for_each(|node| self.pinned(*node))?;
        asked.depths.iter().try_for_each(|depth| self.open(*depth))
    }

    pub fn every_call(&mut self, asked: &Asked) -> Compared {
        self.reads(asked)?;
        for node in &asked.nodes {
            for change in [SPLIT, MERGE, PIN, UNPIN] {
                self.change(&change, *node)?.ok();
            }
        }
        Ok(())
    }
}
