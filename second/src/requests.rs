//! The request file: its records, their text for people, and what the program prints.

use std::fmt::Write;

use crate::panel::{length_of, Panel};
use crate::{Answer, BAD_RECORD, PANEL_IN_USE, WRONG_LENGTH};

/// "Records of eight bytes"
pub const RECORD: usize = 8;
/// "at most 4,096 records; later bytes are ignored"
pub const MOST_RECORDS: usize = 4096;

/// "The program's buffer stays at 65,536 bytes, so it answers 1 to an open deeper than 16"
const BUFFER: usize = 65_536;

const KINDS: [&str; 5] = ["open", "split", "merge", "pin", "unpin"];

/// "kind (0 open, 1 split, 2 merge), three zero bytes, then depth or node as four bytes, lowest first";
/// "The request file gains kinds 3 (pin) and 4 (unpin) [..]; 9 starts at kind 5"
fn decode(record: &[u8]) -> Answer<(u8, u32)> {
    match *record {
        [kind @ 0..=4, 0, 0, 0, a, b, c, d] => {
            let number = [a, b, c, d].iter().rev().fold(0, |sum, byte| 256 * sum + u32::from(*byte));
            Ok((kind, number))
        }
        _ => Err(BAD_RECORD),
    }
}

fn encode(kind: u8, number: u32) -> [u8; RECORD] {
    let mut record = [kind, 0, 0, 0, 0, 0, 0, 0];
    let mut rest = number;
    for byte in &mut record[4..] {
        *byte = (rest % 256) as u8;
        rest /= 256;
    }
    record
}

// ---- a run

/// What a run of records leaves: the answer of each, and the panel, if one is open.
#[derive(Debug, Default)]
pub struct Run {
    pub answers: Vec<u32>,
    pub panel: Option<Panel>,
}

impl Run {
    /// "18, tested after 9 and 1, to an open while its panel has more than two leaves, and keeps that panel"
    fn open(&mut self, depth: u32) -> Answer<()> {
        let fresh = Panel::fresh(depth)?;
        if length_of(depth) > BUFFER {
            return Err(WRONG_LENGTH);
        }
        if self.panel.as_ref().is_some_and(|panel| panel.leaves().len() > 2) {
            return Err(PANEL_IN_USE);
        }
        self.panel = Some(fresh);
        Ok(())
    }

    fn step(&mut self, record: &[u8]) -> Answer<()> {
        let (kind, number) = decode(record)?;
        if kind == 0 {
            return self.open(number);
        }
        let panel = self.panel.as_mut().ok_or(WRONG_LENGTH)?;
        match kind {
            1 => panel.split(number),
            2 => panel.merge(number),
            3 => panel.pin(number),
            _ => panel.unpin(number),
        }
    }

    /// Works through one more record. The program gives no ancestor.
    pub fn take(&mut self, record: &[u8]) {
        let answer = self.step(record).err().map_or(0, |refusal| refusal.number);
        self.answers.push(answer);
    }

    /// "Each record prints one line: its number from 1, a space, its answer. After the last record, if a
    /// panel is open, each leaf prints one line: its leaf number, a space, its node."
    pub fn printed(&self) -> String {
        let leaves = self.panel.as_ref().map_or(&[][..], Panel::leaves);
        let answers = self.answers.iter().enumerate().map(|(i, answer)| format!("{} {answer}\n", i + 1));
        let leaves = leaves.iter().enumerate().map(|(i, node)| format!("{i} {node}\n"));
        answers.chain(leaves).collect()
    }
}

/// Works through a request file; a tail of 1 to 7 bytes is a record too, and a bad one.
pub fn run(file: &[u8]) -> Run {
    let mut run = Run::default();
    file.chunks(RECORD).take(MOST_RECORDS).for_each(|record| run.take(record));
    run
}

// ---- a round

/// One record of a round: "an open, a kind above 2 or a spare byte not zero is 9 for that record"; kinds 3 and 4 too, "in a round both are 9".
pub fn in_round(panel: &mut Panel, record: &[u8]) -> Answer<()> {
    match decode(record)? {
        (1, node) => panel.split(node),
        (2, node) => panel.merge(node),
        _ => Err(BAD_RECORD),
    }
}

// ---- text

/// The records of a text: `open 3`, `split 2`, `merge 5`, `pin 4` or `unpin 4` on a line, `#` before a comment, and for
/// what is no good record its bytes, `bytes 05 00 00 00 02 00 00 00` (fewer than eight only on the last line).
pub fn records_of_text(text: &str) -> Result<Vec<u8>, String> {
    let mut records: Vec<u8> = Vec::new();
    for (i, line) in text.lines().enumerate() {
        let words: Vec<&str> = line.split('#').next().unwrap_or("").split_whitespace().collect();
        if words.is_empty() {
            continue;
        }
        let wrong = |what: String| format!("line {}: {what}", i + 1);
        if !records.len().is_multiple_of(RECORD) {
            return Err(wrong("nothing may follow a record of fewer than 8 bytes".into()));
        }
        records.extend(record_of(&words).map_err(wrong)?);
    }
    Ok(records)
}

fn record_of(words: &[&str]) -> Result<Vec<u8>, String> {
    if words[0] == "bytes" {
        return raw_record(&words[1..]);
    }
    let Some(kind) = KINDS.iter().position(|k| *k == words[0]) else {
        return Err(format!("'{}' is none of {}, bytes", words[0], KINDS.join(", ")));
    };
    let what = if kind == 0 { "depth" } else { "node" };
    match words[1..] {
        [number] => match number.parse::<u32>() {
            Ok(n) if !number.starts_with('+') => Ok(encode(kind as u8, n).to_vec()),
            _ => Err(format!("'{number}' is no {what} from 0 to 4294967295")),
        },
        _ => Err(format!("'{}' takes one {what}", words[0])),
    }
}

fn raw_record(words: &[&str]) -> Result<Vec<u8>, String> {
    if words.is_empty() || words.len() > RECORD {
        return Err(format!("'bytes' takes 1 to 8 bytes, not {}", words.len()));
    }
    let two_digits = |w: &str| w.len() == 2 && w.chars().all(|c| c.is_ascii_hexdigit());
    let byte = |w: &&str| match u8::from_str_radix(w, 16) {
        Ok(byte) if two_digits(w) => Ok(byte),
        _ => Err(format!("'{w}' is no byte of two digits from 00 to FF")),
    };
    words.iter().map(byte).collect()
}

/// Bytes as people write them: two digits each, a space between.
pub fn hex(bytes: &[u8]) -> String {
    let words: Vec<String> = bytes.iter().map(|b| format!("{b:02X}")).collect();
    words.join(" ")
}

/// The text of a request file, a line for each record, so that `records_of_text` gives the same bytes back.
pub fn text_of_records(file: &[u8]) -> String {
    let mut text = String::new();
    for (i, record) in file.chunks(RECORD).enumerate() {
        if i == MOST_RECORDS {
            text.push_str("# the program ignores what follows\n");
        }
        match decode(record) {
            Ok((kind, number)) => writeln!(text, "{} {number}", KINDS[usize::from(kind)]),
            Err(_) => writeln!(text, "bytes {}", hex(record)),
        }
        .expect("a string takes all");
    }
    text
}
