//! Request files: document 01's example, and what its rules and those of requests W4 and W7 say at the limits.

use second::requests::{records_of_text, run, text_of_records};

fn printed(text: &str) -> String {
    run(&records_of_text(text).unwrap()).printed()
}

/// Each request has the answer that stands beside it, and the panel that is left has these leaves.
fn answered(requests: &[(&str, u32)], leaves: &[u32]) {
    let text: String = requests.iter().map(|(request, _)| format!("{request}\n")).collect();
    let run = run(&records_of_text(&text).unwrap());
    let answers: Vec<u32> = requests.iter().map(|(_, answer)| *answer).collect();
    assert_eq!(run.answers, answers);
    assert_eq!(run.panel.unwrap().leaves(), leaves);
}

#[test]
fn the_example() {
    assert_eq!(
        printed("open 3\nsplit 2\nsplit 8\nsplit 4\n"),
        "1 0\n2 0\n3 10\n4 0\n0 8\n1 9\n2 5\n3 6\n4 7\n"
    );
}

#[test]
fn nothing_for_nothing() {
    assert_eq!(printed(""), "");
}

#[test]
fn before_an_open() {
    let requests =
        ["split 2", "merge 2", "pin 2", "unpin 2", "open 17", "open 18", "open 2", "open 4294967295"];
    let refused: String = (1..=requests.len()).map(|number| format!("{number} 1\n")).collect();
    assert_eq!(printed(&requests.join("\n")), refused);
}

#[test]
fn the_buffer_holds_depth_16() {
    answered(&[("open 16", 0), ("open 17", 1), ("merge 131071", 10), ("merge 131072", 3)], &[2, 3]);
}

#[test]
fn pins_and_merges() {
    let passed =
        [("open 4", 0), ("pin 3", 0), ("pin 3", 0), ("split 2", 0), ("merge 4", 11), ("merge 7", 11)];
    answered(&passed, &[4, 5, 6, 7]);
    let unpinned = [("unpin 6", 0), ("merge 4", 11), ("unpin 7", 0), ("unpin 7", 0), ("merge 4", 0)];
    answered(&[&passed[..], &unpinned[..]].concat(), &[2, 3]);
    let refused = [("pin 1", 3), ("pin 32", 3), ("unpin 2", 4), ("pin 8", 10), ("unpin 31", 10)];
    answered(&[&passed[..], &refused[..]].concat(), &[4, 5, 6, 7]);
}

#[test]
fn an_open_takes_pins_away() {
    answered(&[("open 3", 0), ("pin 2", 0), ("open 3", 0), ("split 2", 0), ("merge 4", 0)], &[2, 3]);
    answered(&[("open 3", 0), ("pin 2", 0), ("open 17", 1), ("split 2", 0), ("merge 4", 11)], &[4, 5, 6, 7]);
}

#[test]
fn cut_or_below_a_leaf() {
    answered(&[("open 4", 0), ("split 4", 10), ("merge 8", 10), ("split 31", 10)], &[2, 3]);
    let cut =
        [("open 4", 0), ("split 3", 0), ("split 2", 4), ("merge 3", 4), ("split 9", 10), ("merge 31", 10)];
    answered(&cut, &[4, 5, 6, 7]);
}

#[test]
fn a_refused_open_keeps_the_panel() {
    answered(&[("open 3", 0), ("open 99", 1)], &[2, 3]);
    answered(&[("open 3", 0), ("split 2", 0), ("open 99", 1)], &[4, 5, 6, 7]);
    answered(&[("open 3", 0), ("split 2", 0), ("open 5", 18)], &[4, 5, 6, 7]);
    answered(&[("open 3", 0), ("split 2", 0), ("open 3", 18), ("split 4", 0)], &[8, 9, 5, 6, 7]);
}

#[test]
fn nine_and_one_come_before_eighteen() {
    let refused = [
        ("open 3", 0),
        ("split 2", 0),
        ("bytes 00 00 01 00 04 00 00 00", 9),
        ("bytes 00 00 00 01 02 00 00 00", 9),
        ("open 2", 1),
        ("open 17", 1),
        ("open 16", 18),
        ("bytes 00 00 00 00 03", 9),
    ];
    answered(&refused, &[4, 5, 6, 7]);
}

#[test]
fn two_leaves_may_be_opened_anew() {
    answered(&[("open 3", 0), ("open 3", 0), ("open 16", 0), ("open 4", 0), ("split 16", 10)], &[2, 3]);
    let merged_back =
        [("open 3", 0), ("split 2", 0), ("split 4", 0), ("merge 8", 0), ("open 3", 18), ("merge 6", 0)];
    answered(&[&merged_back[..], &[("open 3", 0), ("split 16", 3)]].concat(), &[2, 3]);
    answered(&[&merged_back[..], &[("open 4", 0), ("split 16", 10), ("split 3", 0)]].concat(), &[4, 5, 6, 7]);
}

#[test]
fn the_finest_the_coarsest_and_back() {
    let there =
        [("open 16", 0), ("split 2", 0), ("open 3", 18), ("merge 4", 0), ("open 3", 0), ("split 8", 10)];
    answered(&there, &[2, 3]);
    let back = [("split 2", 0), ("merge 7", 0), ("open 16", 0), ("merge 131071", 10), ("merge 131072", 3)];
    answered(&[&there[..], &back[..]].concat(), &[2, 3]);
}

#[test]
fn bad_records_come_first() {
    let text = "bytes 05 00 00 00 03 00 00 00\nbytes 01 00 00 01 02 00 00 00\nopen 3\nbytes 00 01 00 00 04 00 00 00\nbytes 00 00";
    assert_eq!(printed(text), "1 9\n2 9\n3 0\n4 9\n5 9\n0 2\n1 3\n");
}

#[test]
fn the_limit() {
    let many = |n: usize| records_of_text(&"open 3\n".repeat(n)).unwrap();
    assert_eq!(run(&many(4096)).answers.len(), 4096);
    assert_eq!(run(&many(4097)).answers.len(), 4096);
    for tail in [vec![7], vec![0; 7]] {
        let answers = |whole: usize| run(&[many(whole), tail.clone()].concat()).answers;
        assert_eq!((answers(4096).len(), answers(4096)[4095]), (4096, 0));
        assert_eq!((answers(4095).len(), answers(4095)[4095]), (4096, 9));
    }
}

#[test]
fn text_there_and_back() {
    let text =
        "open 3\nsplit 4294967295\nmerge 5\npin 4\nunpin 6\nbytes 05 00 00 00 02 00 00 00\nbytes FF 00 0A\n";
    let records = records_of_text(text).unwrap();
    assert_eq!(records.len(), 51);
    assert_eq!(records[24..40], [3, 0, 0, 0, 4, 0, 0, 0, 4, 0, 0, 0, 6, 0, 0, 0]);
    assert_eq!(records[8..16], [1, 0, 0, 0, 0xFF, 0xFF, 0xFF, 0xFF]);
    assert_eq!(text_of_records(&records), text);
    assert_eq!(records_of_text(" open  3 # the panel\n\n# no more\r\n").unwrap(), [0, 0, 0, 0, 3, 0, 0, 0]);
}

#[test]
fn wrong_text_is_named() {
    let wrong = |text| records_of_text(text).unwrap_err();
    assert_eq!(wrong("open 3\nsplt 2"), "line 2: 'splt' is none of open, split, merge, pin, unpin, bytes");
    assert_eq!(wrong("open"), "line 1: 'open' takes one depth");
    assert_eq!(wrong("split 2 3"), "line 1: 'split' takes one node");
    assert_eq!(wrong("merge 4294967296"), "line 1: '4294967296' is no node from 0 to 4294967295");
    assert_eq!(wrong("open +3"), "line 1: '+3' is no depth from 0 to 4294967295");
    assert_eq!(wrong("bytes"), "line 1: 'bytes' takes 1 to 8 bytes, not 0");
    assert_eq!(wrong("bytes +1"), "line 1: '+1' is no byte of two digits from 00 to FF");
    assert_eq!(wrong("bytes 01\nopen 3"), "line 2: nothing may follow a record of fewer than 8 bytes");
}
