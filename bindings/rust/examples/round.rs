//! A round: splits and merges in one call, which judges the panel once. Each record prints its answer. Two are refused, with 10 and 7: they
//! change nothing, and the round goes on. With too little room for the answers, or with bytes left over, a round writes nothing.
//!
//!     cargo run -p jolpibhar --example round

use jolpibhar::{Node, Panel, Records, Refusal};

fn show(round: &str, answer: Result<(), Refusal>, panel: &Panel<[u8; 10]>) -> Result<(), Refusal> {
    let number = answer.map_or_else(Refusal::number, |()| 0);
    println!("{round}: {number}, {} leaves", panel.count()?);
    Ok(())
}

fn main() -> Result<(), Refusal> {
    let mut records = Records::new();
    records.split(Node(2)).split(Node(8)).split(Node(4)).merge(Node(5)).merge(Node(9)).split(Node(7));
    let names = ["split 2", "split 8", "split 4", "merge 5", "merge 9", "split 7"];
    let (records, mut answers) = (records.bytes(), vec![0; records.len()]);

    let mut panel = Panel::over([0; 10]);
    let opened = panel.open(4);
    show("open 4", opened, &panel)?;
    let done = panel.round(records, &mut answers);
    show("a round", done, &panel)?;
    for (name, answer) in names.iter().zip(&answers) {
        println!("  {name}: {answer}");
    }

    let less_room = panel.round(records, &mut answers[1..]);
    show("room for an answer less", less_room, &panel)?;
    let left_over = panel.round(&records[..9], &mut answers);
    show("a byte left over", left_over, &panel)
}
