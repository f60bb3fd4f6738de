//! Measures the proved calls beside ordinary Rust and C versions of the paper's algorithms. `bench/run` builds and runs all of it.
//!
//!     bench ratios [--quick]    the table of docs/SPEED.md, then those of times and ratios; both sides are checked to compute the same
//!     bench growth [--quick]    judging and making sums, in nanoseconds a byte, at every depth
//!     bench rounds [--quick]    a round of splits and merges beside as many single calls and ordinary versions, in nanoseconds a record
//!     bench paths [--quick]     splits and merges beside ordinary versions that go along the path, and the cost of a split by depth and chain
//!     bench scanner [--quick]   the scanner on two request files beside three other programs; bench/native builds it
//!     bench records             writes those files to target/bench/
//!     bench calls KIND DEPTH    the calls whose instructions bench/counts counts; KIND is fresh, adaptive or full
//!
//! Exit status: 0 done; 2 wrong arguments. It stops where the two sides differ.

mod calls;
mod copies;
mod growth;
mod others;
mod paths;
mod ratios;
mod records;
mod rounds;
mod rows;
mod scanner;

use std::path::PathBuf;
use std::process::ExitCode;
use std::time::Duration;

use bench::panels::{Kind, DEEPEST};

fn main() -> ExitCode {
    let words: Vec<String> = std::env::args().skip(1).collect();
    let words: Vec<&str> = words.iter().map(String::as_str).collect();
    let quick = words.last() == Some(&"--quick");
    let long = Duration::from_millis(if quick { 10 } else { 250 });
    match words.as_slice() {
        ["ratios"] | ["ratios", "--quick"] => ratios::print(long),
        ["growth"] | ["growth", "--quick"] => growth::print(long),
        ["rounds"] | ["rounds", "--quick"] => rounds::print(if quick { 1 } else { 4 }, 10 * long),
        ["paths"] | ["paths", "--quick"] => paths::print(if quick { 1 } else { 4 }, long),
        ["scanner"] | ["scanner", "--quick"] => {
            scanner::print(&built(), &target(), if quick { 1 } else { 3 })
        }
        ["records"] => _ = records::write(&target()),
        ["calls", kind, depth] => {
            let kind = match *kind {
                "fresh" => Kind::Fresh,
                "adaptive" => Kind::Adaptive,
                "full" => Kind::Full,
                _ => return wrong(),
            };
            match depth.parse() {
                Ok(deep) if (6..=DEEPEST).contains(&deep) => calls::make(deep, kind),
                _ => return wrong(),
            }
        }
        _ => return wrong(),
    }
    ExitCode::SUCCESS
}

/// The folder where cargo put this program.
fn built() -> PathBuf {
    std::env::current_exe().expect("this program").parent().expect("a folder").to_path_buf()
}

/// target/bench, for what is made to be measured.
fn target() -> PathBuf {
    built().join("../../bench")
}

fn wrong() -> ExitCode {
    eprintln!(
        "bench ratios|growth|rounds|paths|scanner [--quick], bench records, or bench calls fresh|adaptive|full DEPTH, \
         which is 6 to {DEEPEST}"
    );
    ExitCode::from(2)
}
