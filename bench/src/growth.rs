//! Cost in step with the panel's bytes, its pins among them: nanoseconds a byte, from depth 3 to the greatest.

use std::time::Duration;

use bench::ours;
use bench::panels::{size, Panel, DEEPEST, KINDS};
use bench::timing::least;

pub fn print(long: Duration) {
    println!("| D | bytes | panel | judge, ns | ns a byte | making all sums, ns | ns a byte |");
    println!("|---|---|---|---|---|---|---|");
    for deep in 3..=DEEPEST {
        for kind in KINDS {
            let mut panel = Panel::new(deep, kind);
            let bytes = size(deep);
            // A small panel's calls are shorter than the clock can tell.
            let calls = size(DEEPEST) / bytes;
            let judge = |p: &mut Panel| (0..calls).for_each(|_| assert_eq!(ours::judge(p.lent()), 0));
            let make = |p: &mut Panel| (0..calls).for_each(|_| ours::make_sums(p.lent_mut(), deep));
            let times = least(&mut panel, calls, long, |_| {}, judge, make);
            // Here the two sides are two of ours.
            let (judge, make) = (times.ours, times.ordinary);
            let a_byte = |t: f64| t / bytes as f64;
            println!(
                "| {deep} | {bytes} | {} | {judge:.0} | {:.2} | {make:.0} | {:.2} |",
                kind.name(),
                a_byte(judge),
                a_byte(make)
            );
        }
    }
}
