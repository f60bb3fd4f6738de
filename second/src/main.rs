//! The command line tool. `second help` says what it does.

use std::io::{self, Read, Write};
use std::process::ExitCode;

use second::requests::{self, MOST_RECORDS, RECORD};

const HELP: &str = "\
second: request files for the panel scanner, written, read and run by an independent program

  second text-to-records [FILE]   request text to records of eight bytes
  second records-to-text [FILE]   records back to text
  second run [FILE]               run records, and print exactly what the scanner prints
  second panel [FILE]             run records, and print the bytes of the panel they leave, pins last, if one is open
  second help                     print this

Each reads FILE, or standard input where there is none, and writes to standard output.

Request text has one request on a line; '#' starts a comment, empty lines are skipped:

  open 3      a fresh panel of depth 3 (3 to 16); refused while there are more than two leaves
  split 2     cut leaf 2, and what must be cut with it
  merge 5     take back the cut that made leaf 5, and the one across; refused if a leaf is pinned that would go
  pin 4       pin leaf 4: no merge takes it away, and if it is cut, its children are pinned
  unpin 4     take that pin away
  bytes 05 00 00 00 02 00 00 00   a record as it stands, good or bad; 1 to 7 bytes on the last line are a tail

Exit status: 0 done; 1 the text is wrong (the message names the line); 2 the command is wrong; 3 a file
cannot be read or written. A refused request is no error: its answer is printed, as the scanner does.
";

/// A message, and the exit status that goes with it.
struct Failure(u8, String);

fn input(file: Option<&String>) -> Result<Vec<u8>, Failure> {
    let mut bytes = Vec::new();
    match file {
        Some(name) => std::fs::read(name).map_err(|e| Failure(3, format!("{name}: {e}"))),
        None => match io::stdin().lock().read_to_end(&mut bytes) {
            Ok(_) => Ok(bytes),
            Err(e) => Err(Failure(3, format!("standard input: {e}"))),
        },
    }
}

fn output(bytes: &[u8]) -> Result<(), Failure> {
    let mut out = io::stdout().lock();
    let written = out.write_all(bytes).and_then(|()| out.flush());
    written.map_err(|e| Failure(3, format!("standard output: {e}")))
}

fn text_to_records(bytes: Vec<u8>) -> Result<Vec<u8>, Failure> {
    let text = String::from_utf8(bytes);
    let text = text.map_err(|_| Failure(1, "the input is no text; did you mean records-to-text?".into()))?;
    let records = requests::records_of_text(&text).map_err(|e| Failure(1, e))?;
    let many = records.len().div_ceil(RECORD);
    if many > MOST_RECORDS {
        eprintln!(
            "second: of these {many} records the scanner reads the first {MOST_RECORDS} and ignores the rest"
        );
    }
    Ok(records)
}

fn panel_after(file: &[u8]) -> String {
    let panel = requests::run(file).panel;
    panel.map_or(String::new(), |p| requests::hex(&p.bytes()) + "\n")
}

fn command(words: &[String]) -> Result<(), Failure> {
    let Some(name) = words.first() else {
        return Err(Failure(2, "which command? 'second help' lists them".into()));
    };
    if matches!(name.as_str(), "help" | "--help" | "-h") {
        return output(HELP.as_bytes());
    }
    if words.len() > 2 {
        return Err(Failure(2, format!("'{name}' takes one file at most")));
    }
    let file = words.get(1);
    match name.as_str() {
        "text-to-records" => output(&text_to_records(input(file)?)?),
        "records-to-text" => output(requests::text_of_records(&input(file)?).as_bytes()),
        "run" => output(requests::run(&input(file)?).printed().as_bytes()),
        "panel" => output(panel_after(&input(file)?).as_bytes()),
        _ => Err(Failure(2, format!("there is no command '{name}'; 'second help' lists them"))),
    }
}

fn main() -> ExitCode {
    let words: Vec<String> = std::env::args().skip(1).collect();
    match command(&words) {
        Ok(()) => ExitCode::SUCCESS,
        Err(Failure(status, message)) => {
            eprintln!("second: {message}");
            ExitCode::from(status)
        }
    }
}
