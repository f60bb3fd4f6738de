//! The damaged card in examples/: its page says how it is made, and what its bytes are before, in the file and mended.

use second::calls::{judge, mend};
use second::requests::{hex, records_of_text, run};

const PAGE: &str = include_str!("../../examples/mend.card.md");
const CARD: &[u8] = include_bytes!("../../examples/mend.card");

/// The panel that the page's requests leave, and the places that are flipped in it.
fn read_page() -> (Vec<u8>, Vec<usize>) {
    let lines = PAGE.lines().filter_map(|line| line.strip_prefix("    "));
    let (flips, requests): (Vec<&str>, Vec<&str>) = lines.partition(|line| line.starts_with("flip "));
    let run = run(&records_of_text(&requests.join("\n")).unwrap());
    assert!(run.answers.iter().all(|answer| *answer == 0));
    let place = |flip: &str| flip.split_whitespace().nth(1).unwrap().parse().unwrap();
    (run.panel.unwrap().bytes(), flips.into_iter().map(place).collect())
}

#[test]
fn the_page_says_what_the_card_is() {
    let (before, flips) = read_page();
    let mut card = before.clone();
    flips.iter().for_each(|place| card[place / 8] ^= 1 << (place % 8));
    assert_eq!((card.as_slice(), judge(&card)), (CARD, 2));
    let mut mended = card.clone();
    assert_eq!((mend(&mut mended), judge(&mended)), ((0, 2), 0));
    for (what, bytes) in [("before", before), ("damaged, as in the file", card), ("mended", mended)] {
        let row = format!("| {what} | {} |", hex(&bytes));
        assert!(PAGE.lines().any(|line| line == row), "{row}");
    }
}
