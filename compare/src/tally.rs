//! What was compared, and the first difference.

use std::collections::BTreeMap;
use std::fmt::{Debug, Display};

use second::triangles::GREATEST_DEPTH;

use crate::{CALLS, WITH_ANCESTOR};

/// The message that says where the two programs differ.
pub struct Difference(pub String);
pub type Compared = Result<(), Difference>;

/// The panels compared at one depth.
#[derive(Default)]
struct Depth {
    panels: u64,
    good: u64,
    most_leaves: usize,
}

/// The leaves that a merge removes, "on either side".
const MERGED_AWAY: [&str; 4] = ["itself", "its sibling", "the left one across", "the right one across"];

/// How many cuts a mending adds.
const ADDED: [&str; 5] = ["none", "one", "to 10", "to 1000", "more"];

/// What becomes of a pin as a panel is mended.
const MENDED_PINS: [&str; 3] = ["kept on a leaf bit", "kept on a new one", "cleared"];

#[derive(Default)]
pub struct Tally {
    answers: BTreeMap<(&'static str, u32), u64>,
    distances: BTreeMap<(&'static str, u32), u64>,
    pins: [u64; MERGED_AWAY.len()],
    added: [u64; ADDED.len()],
    mended_pins: [u64; MENDED_PINS.len()],
    depths: BTreeMap<u32, Depth>,
    other_lengths: u64,
    known: u64,
}

/// Prints how often each was seen of what a call can give; whether all were.
fn print_seen<N: Display>(call: &str, what: &str, seen: impl Iterator<Item = (N, u64)>) -> bool {
    let mut line = format!("{call:<16}{what}");
    let mut complete = true;
    for (name, seen) in seen {
        line += &format!("  {name}: {seen}");
        if seen == 0 {
            line += " NEVER SEEN";
            complete = false;
        }
    }
    println!("{line}");
    complete
}

impl Tally {
    /// Counts a case, or says how the two differ. `asked` says what the call was asked.
    pub fn compare<T: PartialEq + Debug>(
        &mut self,
        call: &'static str,
        exports: (u32, T),
        second: (u32, T),
        asked: impl Fn() -> String,
    ) -> Compared {
        if exports != second {
            let line = |(answer, with): (u32, T)| format!("answer {answer} with {with:?}");
            return Err(Difference(format!(
                "{call} differs\n  asked:   {}\n  exports: {}\n  second:  {}",
                asked(),
                line(exports).trim_end_matches(" with ()"),
                line(second).trim_end_matches(" with ()")
            )));
        }
        self.count(call, second.0);
        Ok(())
    }

    /// Counts a case in which both gave this answer.
    pub fn count(&mut self, call: &'static str, answer: u32) {
        *self.answers.entry((call, answer)).or_default() += 1;
    }

    /// Counts an ancestor that both told, so many levels above the node.
    pub fn ancestor(&mut self, call: &'static str, levels: u32) {
        *self.distances.entry((call, levels)).or_default() += 1;
    }

    /// Counts a merge that both refused for one pin: that of the leaf itself, of its sibling, of the left or of the right one across.
    pub fn pin(&mut self, place: usize) {
        self.pins[place] += 1;
    }

    /// Counts a mending that was done, by the cuts added, and the pins that it met, by the leaf bits before it and after it.
    pub fn mended(&mut self, added: u32, before: &[u8], pins: &[u8], after: &[u8]) {
        self.added[[0, 1, 10, 1000].iter().filter(|most| added > **most).count()] += 1;
        for ((before, pins), after) in before.iter().zip(pins).zip(after) {
            let kinds = [pins & before & after, pins & !before & after, pins & !after];
            let many = kinds.map(|bits| u64::from(bits.count_ones()));
            self.mended_pins.iter_mut().zip(many).for_each(|(all, new)| *all += new);
        }
    }

    /// Counts a known value that both gave.
    pub fn known(&mut self) {
        self.known += 1;
    }

    /// Counts a panel of a right length, with its leaves if it is good, or one of another length.
    pub fn panel(&mut self, depth: Option<u32>, leaves: Option<usize>) {
        match depth {
            None => self.other_lengths += 1,
            Some(depth) => {
                let row = self.depths.entry(depth).or_default();
                row.panels += 1;
                row.good += u64::from(leaves.is_some());
                row.most_leaves = row.most_leaves.max(leaves.unwrap_or(0));
            }
        }
    }

    /// Prints the cases by call and answer; whether every answer that a call has was seen, an ancestor at every distance, a pin on
    /// each leaf that refuses a merge, and mendings that add none, few and many cuts and keep and clear pins.
    fn print_cases(&self) -> bool {
        let mut complete = true;
        for (call, answers) in CALLS {
            let seen = answers.iter().map(|n| (n, self.answers.get(&(*call, *n)).copied().unwrap_or(0)));
            complete &= print_seen(call, "", seen);
        }
        for call in WITH_ANCESTOR {
            // from a leaf of depth 1 to a node of the greatest depth
            let levels = 1..GREATEST_DEPTH;
            let seen = levels.map(|n| (n, self.distances.get(&(*call, n)).copied().unwrap_or(0)));
            complete &= print_seen(call, "  ancestor, levels above", seen);
        }
        complete &= print_seen("panel_merge", "  one pin, on", MERGED_AWAY.iter().zip(self.pins));
        complete &= print_seen("panel_mend", "  cuts added", ADDED.iter().zip(self.added));
        complete & print_seen("panel_mend", "  pins", MENDED_PINS.iter().zip(self.mended_pins))
    }

    /// Prints all that was compared; whether nothing was missing.
    pub fn print(&self) -> bool {
        let complete = self.print_cases();
        for (depth, row) in &self.depths {
            println!(
                "depth {depth:>2}: {} panels, {} good, up to {} leaves",
                row.panels, row.good, row.most_leaves
            );
        }
        if self.other_lengths > 0 {
            println!("other lengths: {} panels", self.other_lengths);
        }
        println!("known values: {} cases", self.known);
        let all = self.known + self.answers.values().sum::<u64>();
        println!("{all} cases compared, no difference");
        complete
    }
}
