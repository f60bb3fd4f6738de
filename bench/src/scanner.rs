//! The scanner program on two request files, beside the second program and the unchecked ordinary ones.

use std::fs::File;
use std::path::{Path, PathBuf};
use std::process::{Command, Stdio};
use std::thread::sleep;
use std::time::{Duration, Instant};

use crate::records::{self, Input};

/// No program is waited for any longer.
const LONGEST: Duration = Duration::from_secs(60);

struct Program {
    name: &'static str,
    path: PathBuf,
    words: &'static [&'static str],
    /// The second program takes so long that its one run is enough.
    once: bool,
}

/// What a program took on a file: milliseconds of processor time, none where it was not waited for, and how often it called write,
/// none where that could not be counted.
struct Took {
    ms: Option<f64>,
    writes: Option<usize>,
}

mod raw {
    extern "C" {
        pub fn getrusage(who: i32, usage: *mut [i64; 18]) -> i32;
    }
}

/// Milliseconds of processor time, their own and the system's for them, of the programs that ran and ended.
fn spent() -> f64 {
    const CHILDREN: i32 = -1;
    let mut usage = [0; 18];
    // SAFETY: on 64-bit Linux it is 18 numbers, the first four seconds and microseconds of both times.
    assert_eq!(unsafe { raw::getrusage(CHILDREN, &mut usage) }, 0);
    let [own, own_micro, system, system_micro] = [usage[0], usage[1], usage[2], usage[3]];
    (own + system) as f64 * 1e3 + (own_micro + system_micro) as f64 / 1e3
}

/// Runs a command to its end: the processor time it took, or none if it was stopped.
fn run(command: &mut Command) -> Option<f64> {
    let (start, end) = (spent(), Instant::now() + LONGEST);
    let mut child = command.spawn().unwrap_or_else(|e| panic!("{command:?}: {e}"));
    loop {
        if let Some(status) = child.try_wait().expect("it was started") {
            assert!(status.success(), "{command:?}: {status}");
            return Some(spent() - start);
        }
        if Instant::now() > end {
            child.kill().and_then(|()| child.wait()).expect("it was started");
            return None;
        }
        sleep(Duration::from_millis(1));
    }
}

impl Program {
    fn command(&self, input: &Path, output: Stdio) -> Command {
        let mut command = Command::new(&self.path);
        let input = File::open(input).expect("the records were written");
        command.args(self.words).stdin(input).stdout(output);
        command
    }

    /// What it prints, and the processor time of that run; nothing if it was stopped.
    fn printed(&self, input: &Path) -> Option<(Vec<u8>, f64)> {
        let to = input.with_extension("printed");
        let file = File::create(&to).expect("a file can be written beside the records");
        let ms = run(&mut self.command(input, file.into()))?;
        Some((std::fs::read(&to).expect("it was written"), ms))
    }

    /// How often it calls write for its output; nothing if there is no strace that may trace it.
    fn writes(&self, input: &Path) -> Option<usize> {
        let to = input.with_extension("writes");
        let own = self.command(input, Stdio::null());
        let mut strace = Command::new("strace");
        strace
            .args(["-f", "-e", "trace=write,writev", "-o"])
            .arg(&to)
            .arg(own.get_program())
            .args(own.get_args());
        let input = File::open(input).expect("the records were written");
        let status = strace.stdin(input).stdout(Stdio::null()).stderr(Stdio::null()).status().ok()?;
        let calls = std::fs::read_to_string(&to).ok().filter(|_| status.success())?;
        Some(calls.lines().filter(|call| call.contains("write(1, ") || call.contains("writev(1, ")).count())
    }
}

/// All programs on one file, checked to print the same, and how many lines that is.
fn measured(programs: &[Program], input: &Path, runs: usize) -> (Vec<Took>, usize) {
    let printed: Vec<_> = programs.iter().map(|p| p.printed(input)).collect();
    let all: Vec<&Vec<u8>> = printed.iter().flatten().map(|(text, _)| text).collect();
    assert!(all.iter().all(|text| *text == all[0]), "{}: all print the same", input.display());
    let lines = all[0].iter().filter(|b| **b == b'\n').count();
    let mut best: Vec<Option<f64>> = printed.iter().map(|p| p.as_ref().map(|(_, ms)| *ms)).collect();
    for _ in 0..runs {
        for (program, best) in programs.iter().zip(&mut best).filter(|(program, _)| !program.once) {
            let again = run(&mut program.command(input, Stdio::null()));
            *best = best.zip(again).map(|(a, b)| a.min(b));
        }
    }
    // A program that was stopped would not end under strace.
    let writes = |(program, ms): (&Program, &Option<f64>)| ms.and_then(|_| program.writes(input));
    let writes: Vec<_> = programs.iter().zip(&best).map(writes).collect();
    (best.into_iter().zip(writes).map(|(ms, writes)| Took { ms, writes }).collect(), lines)
}

fn print_file(programs: &[Program], input: &Input, runs: usize) {
    let (took, lines) = measured(programs, &input.path, runs);
    for (program, Took { ms, writes }) in programs.iter().zip(&took) {
        let stopped = format!("over {}", LONGEST.as_millis());
        let time = ms.map_or(stopped, |ms| format!("{ms:.1}"));
        let ratio = took[0].ms.zip(*ms).map_or(String::new(), |(ours, ms)| format!("{:.3}", ours / ms));
        let writes = writes.map_or("not counted".into(), |writes| writes.to_string());
        println!("| {} | {} | {time} | {ratio} | {writes} | {lines} |", input.name, program.name);
    }
}

/// The programs are in `built`, but for the scanner, which bench/native writes into `folder`.
pub fn print(built: &Path, folder: &Path, runs: usize) {
    let program = |name, path, words, once| Program { name, path, words, once };
    let programs = [
        program("the scanner", folder.join("scanner"), &[][..], false),
        program("ordinary Rust, unchecked", built.join("ordinary_scanner"), &[], false),
        program(
            "ordinary Rust, unchecked, along the path",
            built.join("ordinary_scanner"),
            &["along"],
            false,
        ),
        program("the second program", built.join("second"), &["run"], true),
    ];
    let inputs = records::write(folder);
    println!("{} records, an open and then:\n", records::MOST);
    for Input { name, says, .. } in &inputs {
        println!("- *{name}*: {says}");
    }
    println!("\nWhat ran to its end printed the same. Write calls are those for standard output, counted by `strace`.\n");
    println!(
        "| file | program | ms of processor time | the scanner's / its own | write calls | lines printed |"
    );
    println!("|---|---|---|---|---|---|");
    for input in &inputs {
        print_file(&programs, input, runs);
    }
}
