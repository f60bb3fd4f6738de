//! The scanner program on request files: it prints what the second program prints, however its input comes.

use std::io::{self, ErrorKind, Read, Write};
use std::process::{ChildStdin, Command, Stdio};
use std::thread::{self, sleep};
use std::time::Duration;

use second::panel::Panel;
use second::requests::{self, records_of_text, Run, MOST_RECORDS, RECORD};
use second::triangles::LEAST_DEPTH;

use crate::random::Random;
use crate::runs::change;
use crate::subject::any_depth;
use crate::tally::{Compared, Difference, Tally};

const PROGRAM: &str = concat!(env!("CARGO_MANIFEST_DIR"), "/../.ci/scanner");

/// Where an input that is read in parts, and lines that are written in blocks, have their borders: 512 records, and 8 KiB of text.
const PART: usize = 512;
const BLOCK: usize = 8192;

/// "it answers 1 to an open deeper than 16"
const DEEPEST: u32 = 16;

/// How long the program takes to start, under an emulator too. What comes earlier comes as one part.
const START: Duration = Duration::from_millis(200);

/// How the input comes: whole, or in parts that the program reads one by one.
#[derive(Clone, Copy)]
enum Comes {
    Whole,
    /// Parts of so many bytes.
    Even(usize),
    /// Parts of one byte to so many.
    Uneven(usize),
}
use Comes::*;

/// Writes the file to the program. That reads no more than it takes, so the pipe may close before all is written.
fn feed(mut input: ChildStdin, file: &[u8], comes: Comes, random: &mut Random) -> io::Result<()> {
    let mut rest = file;
    if !matches!(comes, Whole) {
        sleep(START);
    }
    while !rest.is_empty() {
        let length = match comes {
            Whole => rest.len(),
            Even(bytes) => bytes,
            Uneven(most) => 1 + random.below(most),
        };
        let (part, later) = rest.split_at(length.min(rest.len()));
        match input.write_all(part) {
            Err(e) if e.kind() == ErrorKind::BrokenPipe => break,
            written => written?,
        }
        rest = later;
        if !matches!(comes, Whole) {
            sleep(Duration::from_micros(200));
        }
    }
    Ok(())
}

/// What the scanner prints. It is read while the input is written: the program may print before it has read all.
fn printed(file: &[u8], comes: Comes, random: &mut Random) -> io::Result<String> {
    let mut child = Command::new(PROGRAM).stdin(Stdio::piped()).stdout(Stdio::piped()).spawn()?;
    let input = child.stdin.take().expect("a pipe");
    let mut output = child.stdout.take().expect("a pipe");
    let reader = thread::spawn(move || {
        let mut text = String::new();
        output.read_to_string(&mut text).map(|_| text)
    });
    feed(input, file, comes, random)?;
    let mut text = reader.join().expect("reading does not panic")?;
    if !child.wait()?.success() {
        text += "(and stops with an error)";
    }
    Ok(text)
}

fn one(tally: &mut Tally, random: &mut Random, file: &[u8], comes: Comes) -> Compared {
    let scanner = printed(file, comes, random)
        .map_err(|e| Difference(format!("target/bin/scanner: {e}; `.ci/program scanner` builds it")))?;
    let run = requests::run(file);
    let second = run.printed();
    if scanner != second {
        let place = scanner.lines().zip(second.lines()).position(|(x, y)| x != y);
        let place = place.unwrap_or(scanner.lines().count().min(second.lines().count()));
        let line = |text: &str| text.lines().nth(place).unwrap_or("(nothing)").to_string();
        return Err(Difference(format!(
            "the scanner prints other lines, first line {}\n  scanner: {}\n  second:  {}\n  asked:\n{}",
            place + 1,
            line(&scanner),
            line(&second),
            requests::text_of_records(file)
        )));
    }
    run.answers.iter().for_each(|answer| tally.count("scanner", *answer));
    Ok(())
}

// ---- request files

fn records(text: &str) -> Vec<u8> {
    records_of_text(text).expect("request text")
}

/// An open, and a split of every node from 2 up.
fn level_by_level(depth: u32, many: usize) -> Vec<u8> {
    let splits = (2..).map(|k| format!("split {k}\n"));
    records(&[format!("open {depth}\n")].into_iter().chain(splits).take(many).collect::<String>())
}

/// So many records, the last of them an open and splits: the leaves show which of these were done.
fn opened_late(many: usize) -> Vec<u8> {
    let late = level_by_level(5, 9);
    [records("merge 2").repeat(many - late.len() / RECORD), late].concat()
}

/// The file with the first bytes of a good record behind it.
fn with_tail(file: &[u8], length: usize) -> Vec<u8> {
    [file, &records("split 4")[..length]].concat()
}

/// A record that is bad by its kind or by one of its spare bytes.
fn bad(random: &mut Random) -> String {
    let mut record = [random.below(5) as u8, 0, 0, 0, 1 + random.below(9) as u8, 0, 0, 0];
    match random.below(4) {
        0 => record[0] = if random.once_in(2) { 5 } else { 5 + random.below(251) as u8 },
        place => record[place] = 1 + random.below(255) as u8,
    }
    format!("bytes {}\n", requests::hex(&record))
}

/// A request file that is being written, and what the second program has made of it so far.
#[derive(Default)]
struct Draft {
    file: Vec<u8>,
    run: Run,
}

impl Draft {
    fn add(&mut self, records: &[u8]) {
        records.chunks(RECORD).for_each(|record| self.run.take(record));
        self.file.extend(records);
    }

    fn ask(&mut self, request: &str, number: u32) {
        self.add(&records(&format!("{request} {number}")));
    }

    /// None where no panel is open.
    fn leaves(&self) -> &[u32] {
        self.run.panel.as_ref().map_or(&[], Panel::leaves)
    }

    /// Unpins all, and merges down to two leaves. Of the deepest leaf the sibling and the two across are as deep, so that each merge is
    /// allowed.
    fn merge_back(&mut self) {
        let pinned = self.run.panel.as_ref().map(|panel| panel.pinned().clone());
        pinned.unwrap_or_default().into_iter().for_each(|leaf| self.ask("unpin", leaf));
        while self.leaves().len() > 2 {
            let deepest = self.leaves().iter().copied().max().expect("more than two");
            self.ask("merge", deepest);
        }
    }
}

/// So many requests: mostly splits and merges of leaves, pins, opens and bad records among them. Over a scan an open is rare, and refused
/// unless all is merged back before; over two leaves it comes more often.
fn some(depth: u32, many: usize, random: &mut Random) -> Vec<u8> {
    let mut draft = Draft::default();
    for step in 0..many {
        let rarely = match draft.leaves().len() {
            0 => 2,
            2 => 4,
            _ => 40,
        };
        if random.once_in(rarely) {
            if random.once_in(3) {
                draft.merge_back();
            }
            draft.ask("open", if random.once_in(2) { depth } else { any_depth(random) });
        } else if let Some(panel) = &draft.run.panel {
            let (change, node) = change(panel, (step * 4 / many).is_multiple_of(2), random);
            draft.ask(change.request, node);
        } else {
            draft.ask(random.pick(&["split", "merge", "pin", "unpin"]), 2);
        }
        if random.once_in(30) {
            draft.add(&records(&bad(random)));
        }
    }
    draft.file
}

/// An open and so many splits, mostly of leaves just above the greatest depth: few requests, many leaves.
fn deep(depth: u32, many: usize, random: &mut Random) -> Vec<u8> {
    let mut draft = Draft::default();
    draft.ask("open", depth);
    for _ in 0..many {
        let some = (0..8).map(|_| random.pick(draft.leaves()));
        let leaf = some.filter(|n| n.ilog2() < depth).max().unwrap_or(draft.leaves()[0]);
        draft.ask("split", leaf);
    }
    draft.file
}

/// An open, splits, and then refused requests, so many that what is printed has exactly so many bytes.
fn printing(bytes: usize) -> Vec<u8> {
    let file = (2..100).find_map(|many| {
        let mut file = level_by_level(5, many);
        let mut length = requests::run(&file).printed().len();
        while length < bytes {
            file.extend(records("merge 1"));
            length += format!("{} 3\n", file.len() / RECORD).len();
        }
        (length == bytes).then_some(file)
    });
    let file = file.expect("panels whose leaves print texts of many lengths");
    assert_eq!(requests::run(&file).printed().len(), bytes);
    file
}

// ---- cases

/// Nothing, and tails of every length.
fn tails(tally: &mut Tally, random: &mut Random) -> Compared {
    let opened = records("open 3\nsplit 2\n");
    for tail in 0..RECORD {
        one(tally, random, &with_tail(&[], tail), Whole)?;
        one(tally, random, &with_tail(&opened, tail), Uneven(13))?;
    }
    Ok(())
}

/// As many records as the program takes, one less and some more, each with no tail, the shortest and the longest.
fn limit(tally: &mut Tally, random: &mut Random) -> Compared {
    for many in [MOST_RECORDS - 1, MOST_RECORDS, MOST_RECORDS + 1, MOST_RECORDS + 4] {
        let file = opened_late(many);
        for tail in [0, 1, RECORD - 1] {
            one(tally, random, &with_tail(&file, tail), Whole)?;
        }
        one(tally, random, &with_tail(&file, 3), Uneven(700))?;
    }
    one(tally, random, &level_by_level(DEEPEST, MOST_RECORDS + 900), Whole)
}

/// One part of records, one record less and more, and two parts, with and without a tail, however they come.
fn parts(tally: &mut Tally, random: &mut Random) -> Compared {
    let bytes = PART * RECORD;
    for many in [PART - 1, PART, PART + 1, 2 * PART] {
        let file = level_by_level(10, many);
        for tail in [0, 1, RECORD - 1] {
            for comes in [Whole, Uneven(13), Uneven(700)] {
                one(tally, random, &with_tail(&file, tail), comes)?;
            }
        }
    }
    for comes in [Even(bytes - 1), Even(bytes), Even(bytes + 1)] {
        one(tally, random, &with_tail(&level_by_level(10, 3 * PART), 5), comes)?;
    }
    Ok(())
}

/// Texts that end around the borders of blocks, and long ones of short and of long lines.
fn blocks(tally: &mut Tally, random: &mut Random) -> Compared {
    for border in [BLOCK, 2 * BLOCK, 3 * BLOCK] {
        for end in border - 1..=border + 1 {
            one(tally, random, &printing(end), Whole)?;
        }
    }
    // a split of each node above depth 12: all is cut
    one(tally, random, &level_by_level(12, (1 << 12) - 1), Whole)?;
    let file = deep(DEEPEST, 700, random);
    one(tally, random, &file, Whole)
}

/// The finest panel, the coarsest and the finest again in the program's one buffer, between opens that are refused for their depth or
/// as bad records: each open over the scan before it, where it is refused, and then each after that is merged back.
fn opens(tally: &mut Tally, random: &mut Random) -> Compared {
    let finest = deep(DEEPEST, 40, random);
    let coarsest = level_by_level(LEAST_DEPTH, 6);
    let refused = records(
        "open 2\nopen 17\nopen 18\nopen 19\nopen 49\nopen 4294967295\nbytes 00 01 00 00 03 00 00 00\n",
    );
    for merged_back in [false, true] {
        let mut draft = Draft::default();
        for more in [&refused, &finest, &refused, &coarsest, &refused, &finest, &refused] {
            if merged_back {
                draft.merge_back();
            }
            draft.add(more);
            one(tally, random, &draft.file, Whole)?;
        }
        assert!(draft.file.len() <= MOST_RECORDS * RECORD, "all of it is worked through");
    }
    Ok(())
}

/// Around two leaves, at every depth: an open is done over a fresh panel, refused after its first split, and done at another depth once
/// that is merged back. Which panel is there shows by its last node, which lies below a leaf, and the next one. Pins of two leaves don't
/// refuse an open, and go with it; where it is refused, they stay.
fn two_leaves(tally: &mut Tally, random: &mut Random) -> Compared {
    let depths: Vec<u32> = (LEAST_DEPTH..=DEEPEST).collect();
    for depth in &depths {
        let other = random.pick(&depths);
        let [ends, other_ends] =
            [*depth, other].map(|d| format!("split {}\nmerge {}\n", (2 << d) - 1, 2 << d));
        let fresh = format!("open {depth}\npin 2\npin 3\nopen {other}\n{other_ends}open {depth}\n{ends}");
        let refused =
            format!("split 2\nopen {other}\nopen 17\nbytes 00 00 00 01 {other:02X} 00 00 00\n{ends}");
        let pinned = format!("pin 5\nmerge 7\nopen {other}\nmerge 4\nunpin 5\n{ends}");
        let anew = format!("merge 7\nopen {other}\n{other_ends}split 3\nopen {depth}\n{other_ends}");
        one(tally, random, &records(&(fresh + &refused + &pinned + &anew)), Whole)?;
    }
    Ok(())
}

pub fn all(tally: &mut Tally, random: &mut Random, cases: usize) -> Compared {
    tails(tally, random)?;
    limit(tally, random)?;
    parts(tally, random)?;
    blocks(tally, random)?;
    opens(tally, random)?;
    two_leaves(tally, random)?;
    for depth in LEAST_DEPTH..=DEEPEST {
        for case in 0..cases.div_ceil(40) {
            let many = 1 + random.below(400);
            let file = some(depth, many, random);
            one(tally, random, &file, if case == 0 { Uneven(13) } else { Whole })?;
        }
    }
    Ok(())
}
