//! An ordinary program that answers the lines of bench61499, as a yardstick for its speed and memory.

mod classes;
mod faults;
// Nothing reads the records: they are kept because bench61499 keeps its own.
#[allow(dead_code)]
mod history;
mod index;
mod json;
mod keywords;
mod library;
mod lines;
mod machine;
mod names;
mod nets;
mod parser;
mod plans;
mod replies;
mod requests;
mod tokens;
mod tree;

use lines::Desk;
use machine::Workbench;
use std::io::{self, BufRead, BufReader, Read, Write};
use std::process::ExitCode;

const LONGEST_LINE: usize = 1_048_576;

/// The limits that the words of the program ask for.
struct Limits {
    units: usize,
    history: usize,
}

fn limits(words: &[String]) -> Option<Limits> {
    let (mut units, mut history) = (1024, 100_000);
    let options = words.strip_prefix(&["script".to_string()])?;
    for option in options.chunks(2) {
        let number = option.get(1)?.parse().ok().filter(|number| *number > 0)?;
        match option[0].as_str() {
            "--units" if number <= 16_384 => units = number,
            "--history" if number <= 10_000_000 => history = number,
            _ => return None,
        }
    }
    Some(Limits { units, history })
}

/// Answers the lines of the input up to its end.
fn run(desk: &mut Desk) -> Result<(), &'static str> {
    let mut input = BufReader::new(io::stdin().lock());
    let mut output = io::stdout().lock();
    let mut line = Vec::new();
    loop {
        line.clear();
        // Two bytes more than a line may have: its end, and one that shows that it is too long.
        let mut limited = input.by_ref().take(LONGEST_LINE as u64 + 2);
        let count = limited.read_until(b'\n', &mut line).map_err(|_| "read failed")?;
        let text = line.strip_suffix(b"\n").unwrap_or(&line);
        if text.len() > LONGEST_LINE {
            return Err("line too long");
        }
        if let Some(mut reply) = desk.reply(text) {
            reply.push('\n');
            output
                .write_all(reply.as_bytes())
                .and_then(|()| output.flush())
                .map_err(|_| "write failed")?;
        }
        if count == 0 {
            return Ok(());
        }
    }
}

fn main() -> ExitCode {
    let words: Vec<String> = std::env::args().skip(1).collect();
    let Some(limits) = limits(&words) else {
        eprintln!("usage: plain61499 script [--units N] [--history N]");
        return ExitCode::from(2);
    };
    let mut desk = Desk::new(Workbench::new(limits.units, limits.history));
    match run(&mut desk) {
        Ok(()) => ExitCode::SUCCESS,
        Err(fault) => {
            eprintln!("plain61499: {fault}");
            ExitCode::FAILURE
        }
    }
}
