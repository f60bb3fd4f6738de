//! Four requests on one panel, as the scanner program takes and prints them: open 3, split 2, split 8, split 4. Node 8 isn't there yet
//! at the third, which says what is above it: that is the node that the fourth splits.
//!
//!     cargo run -p jolpibhar --example four

use jolpibhar::{LeafNumber, Node, Panel, Refusal};

fn print(request: u32, answer: Result<(), Refusal>) {
    println!("{request} {}", answer.map_or_else(Refusal::number, |()| 0));
}

fn main() -> Result<(), Refusal> {
    let mut panel = Panel::over([0; 5]);
    print(1, panel.open(3));
    print(2, panel.split(Node(2)));
    let answer = panel.split(Node(8));
    print(3, answer);
    if let Err(Refusal::BelowLeaf(leaf)) = answer {
        print(4, panel.split(leaf)); // node 4, the leaf above node 8
    }

    for number in 0..panel.count()? {
        println!("{number} {}", panel.leaf_at(LeafNumber(number))?.0);
    }
    Ok(())
}
