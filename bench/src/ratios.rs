//! The tables of times and ratios: the one of docs/SPEED.md, all sides at the greatest depth; then beside ordinary Rust, beside C and
//! beside other versions, at three depths.

use std::time::Duration;

use bench::panels::{Kind, DEEPEST, KINDS};
use bench::sides::{Rust, C};
use bench::timing::Times;

use crate::others;
use crate::rows::{self, Row};

/// The depth whose ratios those at the greatest depth are held to, and how many times as great they may be.
const HELD_TO: u32 = 14;
const AT_MOST: f64 = 1.1;

const DEPTHS: [u32; 3] = [10, HELD_TO, DEEPEST];

/// A row on one panel: its times at each of the depths.
struct Line {
    what: &'static str,
    panel: &'static str,
    target: Option<f64>,
    times: [Times; DEPTHS.len()],
}

/// A number that may be so great at most, and whether it is greater.
pub fn held(number: String, to: bool) -> String {
    if to {
        number
    } else {
        number + ", missed"
    }
}

/// A ratio with two decimals; below a hundredth with two digits behind the zeros.
pub fn ratio(ratio: f64) -> String {
    let mut decimals = 2;
    while ratio < 0.01 && ratio * 10f64.powi(decimals - 1) < 1.0 {
        decimals += 1;
    }
    format!("{ratio:.*}", decimals as usize)
}

impl Line {
    fn deepest(&self) -> Times {
        self.times[2]
    }

    /// The ratio to reach, and whether it is missed.
    fn to_reach(&self) -> String {
        self.target.map_or(String::new(), |most| held(format!("{most:.2}"), self.deepest().ratio() <= most))
    }

    /// The ratio at the depth that the greatest is held to, and by how much the one there differs.
    fn cells_of_both(&self) -> String {
        let (last, before) = (self.deepest().ratio(), self.times[1].ratio());
        let times = last / before;
        format!(" {} | {} | {} |", ratio(last), ratio(before), held(format!("{times:.2}"), times <= AT_MOST))
    }
}

/// Measures all rows, panel by panel. A line for each row and panel that has such a call, row by row.
fn measured(rows: impl Fn(u32, Kind) -> Vec<Row>) -> Vec<Line> {
    let mut lines: Vec<(usize, Line)> = Vec::new();
    for kind in KINDS {
        let by_depth = DEPTHS.map(|deep| rows(deep, kind));
        for (i, Row { what, target, .. }) in by_depth[0].iter().enumerate() {
            let times: Option<Vec<Times>> = by_depth.iter().map(|rows| rows[i].times).collect();
            if let Some(Ok(times)) = times.map(TryInto::try_into) {
                lines.push((i, Line { what, panel: kind.name(), target: *target, times }));
            }
        }
    }
    lines.sort_by_key(|(i, _)| *i);
    lines.into_iter().map(|(_, line)| line).collect()
}

fn time(ns: f64) -> String {
    if ns < 1000.0 {
        format!("{ns:.1}")
    } else {
        format!("{ns:.0}")
    }
}

/// All sides at the greatest depth. Ours is what was measured beside Rust, so that the ratio is of the two times before it.
fn print_deepest(beside_rust: &[Line], beside_c: &[Line]) {
    println!(
        "| call | panel | ours, ns | Rust, ns | C, ns | ours / Rust | at D = {HELD_TO} | {DEEPEST} / {HELD_TO}, at most {AT_MOST:.2} | to reach |"
    );
    println!("|---|---|---|---|---|---|---|---|---|");
    for (line, c) in beside_rust.iter().zip(beside_c) {
        assert_eq!((line.what, line.panel), (c.what, c.panel), "both sides have the same rows");
        let rust = line.deepest();
        let [ours, ordinary, in_c] = [rust.ours, rust.ordinary, c.deepest().ordinary].map(time);
        println!(
            "| {} | {} | {ours} | {ordinary} | {in_c} |{} {} |",
            line.what,
            line.panel,
            line.cells_of_both(),
            line.to_reach()
        );
    }
}

/// A column for each depth; the last one's ratio in bold, and what is to be reached, if that is asked.
fn print_lines(reach: bool, lines: &[Line]) {
    let columns = DEPTHS.map(|deep| format!(" D = {deep} |")).concat();
    let more = if reach { " to reach |" } else { "" };
    println!("| what | panel |{columns} ratio at D = {DEEPEST} |{more}");
    println!("|---|---|{}---|{}", "---|".repeat(DEPTHS.len()), if reach { "---|" } else { "" });
    for line in lines {
        let cell = |t: Times| format!(" {} / {} = {} |", time(t.ours), time(t.ordinary), ratio(t.ratio()));
        let cells = line.times.map(cell).concat();
        let reached = if reach { format!(" {} |", line.to_reach()) } else { String::new() };
        println!(
            "| {} | {} |{cells} **{}** |{reached}",
            line.what,
            line.panel,
            ratio(line.deepest().ratio())
        );
    }
}

pub fn print(long: Duration) {
    let beside_rust = measured(|deep, kind| rows::all::<Rust>(long, deep, kind));
    let beside_c = measured(|deep, kind| rows::all::<C>(long, deep, kind));
    let beside_others = measured(|deep, kind| others::all(long, deep, kind));
    println!("## All sides at D = {DEEPEST}\n");
    print_deepest(&beside_rust, &beside_c);
    println!("\n## Times and ratios\n");
    println!("Nanoseconds a call, ours / ordinary Rust = ratio.\n");
    print_lines(true, &beside_rust);
    println!("\n### Beside C\n");
    println!("The same beside ordinary C, compiled with `-O3`: ours / C = ratio.\n");
    print_lines(false, &beside_c);
    println!("\n### Beside other ordinary versions in Rust\n");
    println!("Leaves in no order.\n");
    print_lines(false, &beside_others);
}
