//! Rounds: small ones whose bytes and answers are known, and what request W1 says of their refusals.

use second::calls::{judge, merge, round, split};
use second::requests::{records_of_text, run};

// Panels of depth 3, with no pin: leaves 2, 3; leaves 4, 5, 6, 7; leaves 8, 9, 5, 6, 7.
const FRESH: [u8; 5] = [0x8C, 0x24, 0x11, 0x11, 0x00];
const FOUR: [u8; 5] = [0x0C, 0x49, 0x55, 0x55, 0x00];
const FIVE: [u8; 5] = [0x4C, 0x4D, 0x56, 0x57, 0x00];

/// The same leaves, with these pins.
fn pinned(panel: [u8; 5], pins: u8) -> [u8; 5] {
    [panel[0], panel[1], panel[2], panel[3], pins]
}

/// The answer, the panel and the answers that a round leaves, where there are so many answer bytes, all EE.
fn after(panel: &[u8], records: &[u8], room: usize) -> (u32, Vec<u8>, Vec<u8>) {
    let (mut panel, mut answers) = (panel.to_vec(), vec![0xEE; room]);
    let answer = round(&mut panel, records, &mut answers);
    (answer, panel, answers)
}

/// Each record has the answer that stands beside it, and the round leaves these bytes. Bytes past the last answer stay.
fn answered(panel: [u8; 5], requests: &[(&str, u8)], left: [u8; 5]) {
    let text: String = requests.iter().map(|(request, _)| format!("{request}\n")).collect();
    let answers: Vec<u8> = requests.iter().map(|(_, answer)| *answer).collect();
    let records = records_of_text(&text).unwrap();
    for more in [0, 1, 9] {
        let answers = [&answers[..], &vec![0xEE; more]].concat();
        assert_eq!(after(&panel, &records, answers.len()), (0, left.to_vec(), answers));
    }
}

#[test]
fn splits_and_merges() {
    answered(FRESH, &[("split 2", 0), ("split 8", 10), ("split 4", 0)], FIVE);
    answered(FIVE, &[("split 8", 5), ("merge 5", 7), ("merge 2", 4), ("split 16", 3), ("merge 9", 0)], FOUR);
    answered(FOUR, &[("merge 6", 0), ("merge 3", 6), ("split 1", 3), ("split 4294967295", 3)], FRESH);
    let there = [("split 3", 0), ("split 4", 0), ("split 4", 4), ("merge 8", 0), ("merge 8", 10)];
    answered(FRESH, &[&there[..], &[("merge 4", 0), ("merge 4", 10), ("split 2", 0)]].concat(), FOUR);
}

#[test]
fn with_pins() {
    answered(pinned(FRESH, 0x10), &[("split 2", 0), ("merge 4", 11), ("split 4", 0)], pinned(FIVE, 0x50));
    answered(pinned(FIVE, 0x54), &[("merge 5", 7), ("merge 8", 0), ("merge 5", 11)], pinned(FOUR, 0x54));
}

#[test]
fn bad_records() {
    let nine =
        [("open 3", 9), ("open 2", 9), ("pin 8", 9), ("unpin 8", 9), ("bytes 05 00 00 00 05 00 00 00", 9)];
    answered(FIVE, &nine, FIVE);
    let spare = [
        ("bytes 01 01 00 00 05 00 00 00", 9),
        ("bytes 01 00 80 00 05 00 00 00", 9),
        ("bytes 02 00 00 FF 09 00 00 00", 9),
        ("bytes FF 00 00 00 09 00 00 00", 9),
        ("bytes 00 00 01 00 09 00 00 00", 9),
    ];
    answered(FIVE, &spare, FIVE);
    // what comes behind them is done
    answered(FIVE, &[&nine[..], &[("merge 9", 0)], &spare[..], &[("merge 7", 0)]].concat(), FRESH);
}

#[test]
fn no_records() {
    for panel in [FRESH, pinned(FOUR, 0x05), FIVE] {
        answered(panel, &[], panel);
    }
}

/// The round is refused with this number, and neither the panel nor an answer has changed.
fn refused(panel: &[u8], records: &[u8], room: usize, answer: u32) {
    assert_eq!(after(panel, records, room), (answer, panel.to_vec(), vec![0xEE; room]));
}

#[test]
fn refusals_in_their_order() {
    let records = records_of_text("split 5\nmerge 9\nbytes 01 00 00 00 06 00 00").unwrap();
    let (whole, two) = (&records[..16], 2);
    // 16 where there is no room, with or without bytes left over; 17 where there is
    (0..two).for_each(|room| refused(&FIVE, whole, room, 16));
    for tail in 1..8 {
        let records = &records[..16 + tail];
        (0..two).for_each(|room| refused(&FIVE, records, room, 16));
        (two..5).for_each(|room| refused(&FIVE, records, room, 17));
        refused(&FIVE, &records[16..], 0, 17);
    }
    // 1 and 2 before both
    let bad = [0x4C, 0x4D, 0x56, 0x57, 0x08];
    for (panel, answer) in [(&FIVE[..4], 1), (&[], 1), (&bad[..], 2), (&[0; 10], 2)] {
        assert_eq!(judge(panel), answer);
        for (records, room) in [(whole, 2), (whole, 1), (&records, 2), (&records, 0), (&[], 0)] {
            refused(panel, records, room, answer);
        }
    }
}

/// A split and a merge of every node of depth 3 and some more, five times over.
fn all_over() -> Vec<u8> {
    let requests: String = (0..20).map(|node| format!("split {node}\nmerge {}\n", 19 - node)).collect();
    records_of_text(&requests.repeat(5)).unwrap()
}

#[test]
fn the_single_calls_in_order() {
    for panel in [FRESH, FOUR, FIVE, pinned(FRESH, 0x01), pinned(FOUR, 0x40), pinned(FIVE, 0x57)] {
        let (mut single, mut answers) = (panel, Vec::new());
        for (i, record) in all_over().chunks(8).enumerate() {
            let call = if i % 2 == 0 { split } else { merge };
            answers.push(call(&mut single, record[4].into()).0 as u8);
        }
        assert_eq!(after(&panel, &all_over(), answers.len()), (0, single.to_vec(), answers));
    }
}

#[test]
fn the_programs_run_with_no_limit() {
    let text = "open 3\nsplit 2\nsplit 8\nsplit 4\nmerge 9\nmerge 5\n";
    let file = records_of_text(text).unwrap();
    let run = run(&file);
    let answers: Vec<u8> = run.answers[1..].iter().map(|answer| *answer as u8).collect();
    let left = run.panel.unwrap().bytes();
    assert_eq!(after(&FRESH, &file[8..], 5), (0, left, answers.clone()));
    assert_eq!(after(&FRESH, &file[8..].repeat(2000), 10_000), (0, FRESH.to_vec(), answers.repeat(2000)));
}
