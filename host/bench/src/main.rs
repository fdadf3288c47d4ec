//! `bench` prints the tables of docs/BENCHMARK.md; `bench calls`, `bench growth`, `bench map`
//! and `bench size` print one of them, `bench quick` tries all on little. `bench size FOLDER`
//! tells how long the code of the library in a folder is.

use std::process::ExitCode;

use bench::lent::Sample;
use bench::{calls, growth, map, size};

fn main() -> ExitCode {
    let arguments: Vec<String> = std::env::args().skip(1).collect();
    let words: Vec<&str> = arguments.iter().map(String::as_str).collect();
    match words[..] {
        [] => {
            warn_of_emulation();
            print(calls::table(&calls::SAMPLES));
            print(growth::table(&growth::SAMPLES));
            map::tables(false).into_iter().for_each(print);
            return print_or_say(size::table(size::LINKED));
        }
        ["calls"] => {
            warn_of_emulation();
            print(calls::table(&calls::SAMPLES));
        }
        ["growth"] => {
            warn_of_emulation();
            print(growth::table(&growth::SAMPLES));
        }
        ["map"] => map::tables(false).into_iter().for_each(print),
        ["size"] => {
            warn_of_emulation();
            return print_or_say(size::table(size::LINKED));
        }
        ["size", folder] => return print_or_say(size::table(folder)),
        ["quick"] => {
            warn_of_emulation();
            let few = |sample: &Sample| Sample { rounds: 51, ..*sample };
            print(calls::table(&calls::SAMPLES[..4].iter().map(few).collect::<Vec<_>>()));
            print(growth::table(&growth::SAMPLES[..1].iter().map(few).collect::<Vec<_>>()));
            map::tables(true).into_iter().for_each(print);
            return print_or_say(size::table(size::LINKED));
        }
        _ => {
            eprintln!("usage: bench [calls | growth | map | size [FOLDER] | quick]");
            return ExitCode::from(2);
        }
    }
    ExitCode::SUCCESS
}

/// Says so where the figures mean nothing: the library is compiled for x86-64.
fn warn_of_emulation() {
    if std::env::consts::ARCH != "x86_64" {
        println!("This machine is no x86-64, for which the library is compiled: the figures below mean");
        println!("something only if UTASIRO_LIB_DIR was the folder that host/native/make prints.\n");
    }
}

/// A table, and an empty line behind it.
fn print(table: Vec<String>) {
    table.iter().for_each(|line| println!("{line}"));
    println!();
}

/// A table, or why there is none.
fn print_or_say(table: Result<Vec<String>, String>) -> ExitCode {
    match table {
        Ok(table) => {
            print(table);
            ExitCode::SUCCESS
        }
        Err(why) => {
            eprintln!("{why}");
            ExitCode::FAILURE
        }
    }
}
