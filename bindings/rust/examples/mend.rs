//! A card is a panel's bytes in a file, and may be damaged. This reads the one that it is given, says what it is, mends it, and says what came of
//! that: how many cuts were added, and the leaves, the pinned ones with a star. The file stays as it is.
//!
//!     cargo run -p jolpibhar --example mend examples/mend.card

use std::error::Error;

use jolpibhar::{LeafNumber, Panel, Refusal, GREATEST_DEPTH};

fn judge(card: &Panel<Vec<u8>>) {
    match card.judge() {
        Ok(()) => println!("judge answers 0: a good panel"),
        Err(refusal) => println!("judge answers {}: not a good panel", refusal.number()),
    }
}

fn print_leaves(card: &Panel<Vec<u8>>) -> Result<(), Refusal> {
    print!("{} leaves:", card.count()?);
    for number in 0..card.count()? {
        let leaf = card.leaf_at(LeafNumber(number))?;
        print!(" {}{}", leaf.0, if card.is_pinned(leaf)? { "*" } else { "" });
    }
    println!();
    Ok(())
}

fn main() -> Result<(), Box<dyn Error>> {
    let name = std::env::args().nth(1).ok_or("which card? give it a file")?;
    let mut card = Panel::over(std::fs::read(name)?);
    let length = card.bytes().len();
    let depth = (3..=GREATEST_DEPTH).find(|depth| 5 << (depth - 3) == length);
    let depth = depth.ok_or(Refusal::WrongLength)?; // the one thing that mend refuses
    println!("a card of {length} bytes, as a panel of depth {depth} has");
    judge(&card);
    println!("mended: {} cuts added", card.mend()?);
    judge(&card);
    Ok(print_leaves(&card)?)
}
