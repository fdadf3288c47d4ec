//! Answers a request list with the second implementation: `replay-second [FILE]`, or
//! the list on standard input if no file is named.

use std::io::{self, Read, Write};
use std::process::ExitCode;

use second::{requests, Second};

fn main() -> ExitCode {
    let arguments: Vec<_> = std::env::args_os().skip(1).collect();
    if arguments.len() > 1 {
        eprintln!("replay-second: one file at most");
        return ExitCode::from(2);
    }
    let (name, list) = match arguments.first() {
        Some(file) => (file.to_string_lossy().into_owned(), std::fs::read(file)),
        None => (String::from("standard input"), standard_input()),
    };
    match list {
        Ok(list) => print(&requests::run(Second, &list)),
        Err(error) => {
            eprintln!("replay-second: cannot read {name}: {error}");
            ExitCode::from(2)
        }
    }
}

fn standard_input() -> io::Result<Vec<u8>> {
    let mut list = Vec::new();
    io::stdin().read_to_end(&mut list)?;
    Ok(list)
}

fn print(lines: &[String]) -> ExitCode {
    let mut out = io::BufWriter::new(io::stdout().lock());
    let printed = lines.iter().try_for_each(|line| writeln!(out, "{line}"));
    match printed.and_then(|()| out.flush()) {
        Ok(()) => ExitCode::SUCCESS,
        Err(error) => {
            eprintln!("replay-second: cannot print: {error}");
            ExitCode::from(2)
        }
    }
}
