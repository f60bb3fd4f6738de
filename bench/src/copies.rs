//! One split or merge, timed on several copies of its panel in one run: it can be shorter than the clock tells.

use std::time::Duration;

use bench::panels::Panel;
use bench::timing::shortest;

/// How many copies a side changes in a run.
pub const COPIES: usize = 16;

/// A side: what it does to a panel, and to how many of the copies; one is enough for what takes long.
pub type Side<'a> = (&'a dyn Fn(&mut Panel), usize);

/// What all sides leave of a panel, which is the same.
fn left(start: &Panel, sides: &[Side]) -> Panel {
    let after = |(change, _): &Side| {
        let mut panel = start.clone();
        change(&mut panel);
        panel
    };
    let all: Vec<Panel> = sides.iter().map(after).collect();
    assert!(all[0].bytes != start.bytes, "it is changed");
    assert!(all.iter().all(|panel| panel.bytes == all[0].bytes), "all leave the same bytes");
    all.into_iter().next().expect("there is a side")
}

/// Nanoseconds of a change by each side. Before each run the bytes that it changes are put back, and no others: so the words on the way are at
/// hand for every side, and the rest of a great panel takes no part.
pub fn a_change<const N: usize>(start: &Panel, long: Duration, sides: [Side; N]) -> [f64; N] {
    let after = left(start, &sides);
    let changed: Vec<usize> = (0..start.bytes.len()).filter(|i| start.bytes[*i] != after.bytes[*i]).collect();
    let put_back = |copies: &mut Vec<Panel>| {
        for copy in copies {
            changed.iter().for_each(|i| copy.bytes[*i] = start.bytes[*i]);
        }
    };
    let runs =
        sides.map(|(change, many)| move |all: &mut Vec<Panel>| all[..many].iter_mut().for_each(change));
    let runs = runs.each_ref().map(|run| run as &dyn Fn(&mut Vec<Panel>));
    let times = shortest(&mut vec![start.clone(); COPIES], (10, long), put_back, runs, |_| {});
    std::array::from_fn(|i| times[i] / sides[i].1 as f64)
}
