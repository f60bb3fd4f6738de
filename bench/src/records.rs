//! Request files to run the scanner on, an open and then splits and merges that are all allowed; and such records for a round, without an
//! open.

use std::path::{Path, PathBuf};

use bench::panels::{depth, Kind, Panel, Random, DEEPEST_OPENED};
use bench::{ordinary, ours};

/// As many records as the scanner reads at most. A round is measured on as many.
pub const MOST: usize = 4096;
/// The depth of the file that leaves the most leaves.
const NEARLY_FULL: u32 = 14;

const OPEN: u8 = 0;
const SPLIT: u8 = 1;
const MERGE: u8 = 2;

/// Records, and the panel that they leave.
pub struct Requests {
    panel: Panel,
    bytes: Vec<u8>,
}

/// A split of a leaf, or else a merge.
#[derive(Clone, Copy)]
pub struct Change {
    pub split: bool,
    pub leaf: u32,
}

impl Requests {
    /// No record, on a fresh panel.
    fn none(deep: u32) -> Requests {
        Requests { panel: Panel::new(deep, Kind::Fresh), bytes: Vec::new() }
    }

    fn open(deep: u32) -> Requests {
        let mut requests = Requests::none(deep);
        requests.record(OPEN, deep);
        requests
    }

    fn record(&mut self, kind: u8, number: u32) {
        self.bytes.extend([kind, 0, 0, 0]);
        self.bytes.extend(number.to_le_bytes());
    }

    /// Asks for a split or a merge, unless it is refused or the file is full.
    fn ask(&mut self, kind: u8, node: u32) {
        let call = if kind == SPLIT { ours::split } else { ours::merge };
        let deep = self.panel.deep;
        if self.count() < MOST && call(self.panel.lent_mut(), deep, node) == 0 {
            self.record(kind, node);
        }
    }

    /// A leaf that looks random.
    fn some_leaf(&self, random: &mut Random) -> u32 {
        let number = random.below(self.leaves() as usize) as u32;
        ours::leaf(self.panel.lent(), self.panel.deep, number)
    }

    /// Fills up with leaves that look random, five splits to a merge. Where all leaves are at depth D only merges are allowed, and then
    /// splits again, so that it comes to an end at every depth.
    fn ask_random(&mut self) {
        let mut random = Random(5);
        while self.count() < MOST {
            let leaf = self.some_leaf(&mut random);
            self.ask(if random.below(6) == 0 { MERGE } else { SPLIT }, leaf);
        }
    }

    /// Fills up with splits alone or merges alone of leaves that look random, as long as there are others than `last` leaves: those of a
    /// fully cut panel, or of a fresh one.
    fn ask_alone(&mut self, kind: u8, last: u32, seed: u64) {
        let mut random = Random(seed);
        while self.count() < MOST && self.leaves() != last {
            let leaf = self.some_leaf(&mut random);
            self.ask(kind, leaf);
        }
    }

    pub fn count(&self) -> usize {
        self.bytes.len() / 8
    }

    pub fn bytes(&self) -> &[u8] {
        &self.bytes
    }

    /// What the records ask for, where no open is among them.
    pub fn changes(&self) -> Vec<Change> {
        let change = |record: &[u8]| {
            let leaf = u32::from_le_bytes([record[4], record[5], record[6], record[7]]);
            Change { split: record[0] == SPLIT, leaf }
        };
        self.bytes.chunks_exact(8).map(change).collect()
    }

    /// The panel that they leave.
    pub fn panel(&self) -> &Panel {
        &self.panel
    }

    pub fn leaves(&self) -> u32 {
        ordinary::count(&self.panel.bytes, self.panel.deep)
    }

    /// The leaves of depth D − 1.
    fn lowest(&self) -> Vec<u32> {
        let last = |k: &u32| depth(*k) == self.panel.deep - 1;
        self.panel.leaves().into_iter().filter(last).collect()
    }

    /// Whether a split of a leaf cuts coarser ones too: the neighbour across its long side is not a leaf yet.
    fn forces(&self, leaf: u32) -> bool {
        let across = ours::edge(leaf);
        across != 0 && ours::leaf_toward(self.panel.lent(), self.panel.deep, across).0 != across
    }
}

/// Leaves that look random, five splits to a merge.
pub fn random(deep: u32) -> Requests {
    let mut requests = Requests::open(deep);
    requests.ask_random();
    requests
}

/// The same for a round: no open, and a split or a merge more.
pub fn round(deep: u32) -> Requests {
    let mut requests = Requests::none(deep);
    requests.ask_random();
    requests
}

/// Splits alone of leaves that look random, from a fresh panel, as many as are allowed; others for each seed.
pub fn splits(deep: u32, seed: u64) -> Requests {
    let mut requests = Requests::none(deep);
    requests.ask_alone(SPLIT, 1 << deep, seed);
    requests
}

/// Merges alone of leaves that look random, from a panel without pins, as many as are allowed.
pub fn merges(start: &Panel, seed: u64) -> Requests {
    let mut requests = Requests { panel: start.clone(), bytes: Vec::new() };
    requests.ask_alone(MERGE, 2, seed);
    requests
}

/// Splits that leave as many leaves as can be: down to a first leaf of depth D − 1, and then such leaves alone, as long as there are
/// those whose split cuts coarser ones too, then the others.
pub fn most_leaves(deep: u32) -> Requests {
    let mut requests = Requests::open(deep);
    (1..deep - 1).for_each(|d| requests.ask(SPLIT, 1 << d));
    loop {
        let before = requests.count();
        for leaf in requests.lowest() {
            if requests.forces(leaf) {
                requests.ask(SPLIT, leaf);
            }
        }
        if requests.count() == before {
            break;
        }
    }
    requests.lowest().into_iter().for_each(|leaf| requests.ask(SPLIT, leaf));
    requests
}

/// A request file, and what is in it.
pub struct Input {
    pub name: &'static str,
    pub says: String,
    pub path: PathBuf,
}

/// Why no file leaves a fully cut panel of this depth, and what comes next to it.
fn why_not_full(deep: u32, requests: &Requests) -> String {
    let (before, pairs) = (deep - 2, 1usize << (deep - 2));
    let (all, needed) = (1u32 << deep, 1 + before as usize + pairs);
    let smaller = most_leaves(deep - 1);
    assert_eq!(
        requests.leaves() as usize,
        all as usize - 2 * (needed - requests.count()),
        "the most there can be"
    );
    assert_eq!(smaller.leaves(), all / 2, "fully cut");
    format!(
        "splits alone, at D = {deep}, that leave {} leaves, as many as so many records can. All {all} would take {needed} records, since a \
         split cuts at most one of the {pairs} pairs of triangles of depth {}, and the first {before} none. At D = {} a fully cut panel \
         takes {} records.",
        requests.leaves(), deep - 1, deep - 1, smaller.count()
    )
}

/// Writes the files into a folder.
pub fn write(folder: &Path) -> [Input; 2] {
    std::fs::create_dir_all(folder).expect("the folder can be made");
    let (random, most) = (random(DEEPEST_OPENED), most_leaves(NEARLY_FULL));
    let of_random = format!(
        "splits and merges of leaves that look random, at D = {DEEPEST_OPENED}, five splits to a merge; {} leaves are left.",
        random.leaves()
    );
    let of_most = why_not_full(NEARLY_FULL, &most);
    [("random", of_random, random), ("most leaves", of_most, most)].map(|(name, says, requests)| {
        let path = folder.join(name.replace(' ', "-")).with_extension("records");
        std::fs::write(&path, &requests.bytes).expect("a file can be written there");
        Input { name, says, path }
    })
}
