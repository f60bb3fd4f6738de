//! Rounds on panels of every depth: the exported call against the second program, and a round that is done against the exported single calls
//! in order. The panel, the records and the answers are each lent between guard bytes.

use jolpibhar::exports;
use second::calls;
use second::panel::{length_of, Panel};
use second::requests::{hex, MOST_RECORDS, RECORD};
use second::triangles::{GREATEST_DEPTH, LEAST_DEPTH};

use crate::frame::Frame;
use crate::random::Random;
use crate::runs::{all_cut, bounded, node, random_panel, with_pins};
use crate::tally::{Compared, Difference, Tally};
use crate::{damage, fields, JUNK};

const SPLIT: u8 = 1;
const MERGE: u8 = 2;

/// More records than a counter of two bytes counts.
const VERY_MANY: usize = 70_000;

// ---- one round

/// The panel and the answers that a round left.
struct Left {
    panel: Vec<u8>,
    answers: Vec<u8>,
}

fn asked(panel: &[u8], records: &[u8], answers: usize) -> String {
    let (records, length) = (hex(records), panel.len());
    format!("{answers} bytes for answers, records {records}, panel of {length} bytes: {}", hex(panel))
}

/// A round by both programs: they answer the same, and leave the same panel and answers and, as they were, the records. `before` is
/// what the answers' bytes hold.
fn one(
    tally: &mut Tally,
    random: &mut Random,
    panel: &[u8],
    records: &[u8],
    before: &[u8],
) -> Result<Left, Difference> {
    let [mut of_panel, mut of_records, mut of_answers] =
        [panel, records, before].map(|bytes| Frame::around(bytes, random));
    let exports = exports::round(of_panel.lent(), of_records.lent(), of_answers.lent());
    let mut left = Left { panel: panel.to_vec(), answers: before.to_vec() };
    let second = calls::round(&mut left.panel, records, &mut left.answers);
    let asked = || asked(panel, records, before.len());
    tally.compare("panel_round", (exports, ()), (second, ()), asked)?;
    let spoiled = [
        ("panel", of_panel.restore_from(&left.panel)),
        ("records", of_records.restore()),
        ("answers", of_answers.restore_from(&left.answers)),
    ];
    for (what, found) in spoiled {
        if let Some(found) = found {
            let asked = asked();
            return Err(Difference(format!("panel_round leaves other {what}\n  {found}\n  asked: {asked}")));
        }
    }
    Ok(left)
}

/// The same where only the answer and that nothing is written is of interest: there are so many answer bytes.
fn with_room(tally: &mut Tally, random: &mut Random, panel: &[u8], records: &[u8], room: usize) -> Compared {
    let before = random.bytes(room);
    one(tally, random, panel, records, &before).map(|_| ())
}

// ---- records

fn record(kind: u8, node: u32) -> [u8; RECORD] {
    let [a, b, c, d] = node.to_le_bytes();
    [kind, 0, 0, 0, a, b, c, d]
}

/// A run of records that is being written, and what the exported single calls have made of it so far.
struct Draft {
    depth: u32,
    panel: Vec<u8>,
    records: Vec<u8>,
    answers: Vec<u8>,
}

impl Draft {
    fn on(panel: &Panel) -> Draft {
        Draft { depth: panel.depth(), panel: panel.bytes(), records: Vec::new(), answers: Vec::new() }
    }

    /// One more record, and the call that it asks for.
    fn add(&mut self, record: [u8; RECORD]) {
        let answer = match record {
            [SPLIT, 0, 0, 0, node @ ..] => exports::split(&mut self.panel, u32::from_le_bytes(node), JUNK).0,
            [MERGE, 0, 0, 0, node @ ..] => exports::merge(&mut self.panel, u32::from_le_bytes(node), JUNK).0,
            _ => 9,
        };
        self.records.extend(record);
        self.answers.push(u8::try_from(answer).expect("a number of the table"));
    }

    fn any_leaf(&self, random: &mut Random) -> u32 {
        let (_, count) = exports::count(&self.panel, JUNK);
        exports::leaf(&self.panel, random.below(count as usize) as u32, JUNK).1
    }

    /// A record of any kind, mostly to split as the panel is to grow, and else to merge; at times with a spare byte that is not zero.
    fn any_record(&self, grow: bool, random: &mut Random) -> [u8; RECORD] {
        let leaves = [(); 2].map(|()| self.any_leaf(random));
        let kind = if random.once_in(4) != grow { SPLIT } else { MERGE };
        let mut record = record(kind, node(self.depth, leaves, random));
        match random.below(24) {
            0 => {
                let any = random.next() as u8;
                record[0] = random.pick(&[0, 3, 4, 5, any]);
            }
            1 => record[1 + random.below(3)] = 1 + random.below(255) as u8,
            _ => {}
        }
        record
    }

    /// So many records from a panel on, growing and shrinking by turns.
    fn mixed(panel: &Panel, many: usize, random: &mut Random) -> Draft {
        let mut draft = Draft::on(panel);
        for step in 0..many {
            let grow = (step * 6 / many).is_multiple_of(2);
            draft.add(draft.any_record(grow, random));
        }
        draft
    }

    fn many(&self) -> usize {
        self.answers.len()
    }

    /// The records, and behind them the first bytes of a good one.
    fn with_tail(&self, length: usize) -> Vec<u8> {
        [&self.records[..], &record(SPLIT, 2)[..length]].concat()
    }
}

// ---- cases

/// The round of a draft is done, with so many answer bytes more than it needs: it leaves what the single calls left, and these bytes.
fn done(tally: &mut Tally, random: &mut Random, panel: &[u8], draft: &Draft, more: usize) -> Compared {
    let before = random.bytes(draft.many() + more);
    let left = one(tally, random, panel, &draft.records, &before)?;
    let answers = [&draft.answers[..], &before[draft.many()..]].concat();
    if left.panel != draft.panel || left.answers != answers {
        let asked = asked(panel, &draft.records, before.len());
        return Err(Difference(format!("panel_round and the single calls differ\n  asked: {asked}")));
    }
    draft.answers.iter().for_each(|answer| tally.count("round records", (*answer).into()));
    Ok(())
}

/// Rounds of so many records: just room enough for the answers and more, one byte less and none, and with a tail.
fn rounds(tally: &mut Tally, random: &mut Random, panel: &Panel, many: usize) -> Compared {
    let draft = Draft::mixed(panel, many, random);
    let (panel, more, tail) = (panel.bytes(), 1 + random.below(20), 1 + random.below(RECORD - 1));
    done(tally, random, &panel, &draft, 0)?;
    done(tally, random, &panel, &draft, more)?;
    with_room(tally, random, &panel, &draft.records, many - 1)?;
    with_room(tally, random, &panel, &draft.records, 0)?;
    with_room(tally, random, &panel, &draft.with_tail(tail), many)?;
    with_room(tally, random, &panel, &draft.with_tail(tail), many - 1)
}

/// Each kind, and each spare byte not zero, of each node in and around range, up and down, and of some that are in range but for one bit.
fn every_record(tally: &mut Tally, random: &mut Random, panel: &Panel) -> Compared {
    let far = (8..32).flat_map(|bit| [2, 5, 9].map(|node| (1 << bit) + node));
    let mut all: Vec<[u8; RECORD]> = Vec::new();
    for node in (0..(2 << panel.depth()) + 3).chain(far) {
        all.extend([SPLIT, MERGE, 0, 3, 4, 5, 0x81, 0xFF].map(|kind| record(kind, node)));
        for (place, byte) in [(1, 1), (2, 0x80), (3, 0xFF)] {
            all.extend([SPLIT, MERGE].map(|kind| {
                let mut record = record(kind, node);
                record[place] = byte;
                record
            }));
        }
    }
    let mut draft = Draft::on(panel);
    all.iter().chain(all.iter().rev()).for_each(|record| draft.add(*record));
    done(tally, random, &panel.bytes(), &draft, 1)
}

/// No record, with and without bytes left over, and with and without room for answers.
fn empty(tally: &mut Tally, random: &mut Random, panel: &[u8]) -> Compared {
    for tail in 0..RECORD {
        for room in [0, 1, 8] {
            with_room(tally, random, panel, &record(SPLIT, 2)[..tail], room)?;
        }
    }
    Ok(())
}

/// Few records on these bytes with every tail, and just room enough, more, too little and none: each refusal beside each other one.
fn every_refusal(tally: &mut Tally, random: &mut Random, panel: &[u8], draft: &Draft) -> Compared {
    let many = draft.many();
    for tail in 0..RECORD {
        for room in [many, many + 3, many - 1, 0] {
            with_room(tally, random, panel, &draft.with_tail(tail), room)?;
        }
    }
    Ok(())
}

/// The same on a good panel, on damaged ones and on bytes of a wrong length, with records drafted on the good one.
fn refusals(tally: &mut Tally, random: &mut Random, depth: u32) -> Compared {
    let panel = random_panel(depth, random);
    let draft = Draft::mixed(&panel, 2 + random.below(4), random);
    let good = panel.bytes();
    every_refusal(tally, random, &good, &draft)?;
    empty(tally, random, &good)?;
    for kind in damage::KINDS {
        let bytes = kind(depth, random);
        every_refusal(tally, random, &bytes, &draft)?;
        empty(tally, random, &bytes)?;
    }
    for length in [0, good.len() - 1, good.len() + 1, 1 << (depth - 1), length_of(depth + 1) - 1] {
        let bytes = damage::wrong_length(length, random);
        every_refusal(tally, random, &bytes, &draft)?;
        empty(tally, random, &bytes)?;
    }
    Ok(())
}

/// The fresh panel, also with one leaf pinned, which passes the pin on as it is cut; random panels; all cut.
fn panels(depth: u32, random: &mut Random) -> [Panel; 5] {
    let fresh = Panel::fresh(depth).expect("a depth in range");
    let mut pinned = fresh.clone();
    pinned.pin(random.pick(&[2, 3])).expect("a leaf");
    let [some, other] = [(); 2].map(|()| random_panel(depth, random));
    [fresh, pinned, some, other, all_cut(depth, random)]
}

pub fn all(tally: &mut Tally, random: &mut Random, cases: usize) -> Compared {
    for panel in [fields::good(3), fields::good(4)].concat() {
        let panel = with_pins(panel, random);
        every_record(tally, random, &panel)?;
    }
    for depth in LEAST_DEPTH..=GREATEST_DEPTH {
        refusals(tally, random, depth)?;
        let many = if depth <= 10 { 2 * cases.max(1) } else { bounded(cases, depth) };
        for panel in panels(depth, random) {
            rounds(tally, random, &panel, many)?;
        }
        if depth <= 8 {
            let some = random_panel(depth, random);
            for many in [MOST_RECORDS, MOST_RECORDS + 1, 2 * MOST_RECORDS] {
                rounds(tally, random, &some, many)?;
            }
        }
    }
    let coarsest = Panel::fresh(LEAST_DEPTH).expect("a depth in range");
    rounds(tally, random, &coarsest, VERY_MANY)
}
