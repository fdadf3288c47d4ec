//! How long the code of the library is and how much stack its calls take.

use std::fs;
use std::path::Path;

use crate::calls;
use crate::lent::{black_box, Call, Kind, Lent, Sample};
use crate::object::Object;
use crate::progress;
use crate::stack::depth;

/// The folder of the library that is linked, as host/utasiro/build.rs finds it.
pub const LINKED: &str = match option_env!("UTASIRO_LIB_DIR") {
    Some(folder) => folder,
    None => concat!(env!("CARGO_MANIFEST_DIR"), "/../../crates/utasiro/out"),
};

/// The object of the library in a folder, or why there is none.
fn object(folder: &str) -> Result<Object, String> {
    let path = Path::new(folder).join("libutasiro.a");
    let archive =
        fs::read(&path).map_err(|why| format!("There is no library at {}: {why}.", path.display()))?;
    Object::of_archive(&archive)
        .ok_or_else(|| format!("{} is no archive with an ELF object in it.", path.display()))
}

/// The calls that try an exported function.
fn calls_of(function: &str) -> &'static [Call] {
    match function {
        "utasiro_fresh" => &[Call::Fresh],
        "utasiro_write" => &[Call::Write],
        "utasiro_trim" => &[Call::Trim],
        "utasiro_read" => &[Call::Read, Call::ReadAll],
        "utasiro_read_records" => &[Call::ReadRecords],
        "utasiro_reclaim" => &[Call::Reclaim],
        "utasiro_report" => &[Call::Report],
        _ => &[],
    }
}

/// The most stack that an accepted call of a function takes on any of some samples; none if
/// no call of it is tried.
fn stack_of(function: &str, samples: &[Sample]) -> Option<usize> {
    let depths = samples.iter().flat_map(|sample| {
        let mut lent = Lent::of(sample);
        let state = lent.words.clone();
        calls_of(function).iter().map(move |&call| {
            lent.take(&state);
            depth(|| assert_eq!(black_box(lent.library(call)), 0))
        })
    });
    depths.max()
}

/// The samples of the calls, and a device on which a write has many pieces.
fn samples() -> Vec<Sample> {
    let mut samples = calls::SAMPLES.to_vec();
    samples.push(Sample { kind: Kind::NearlyFull, ..calls::SAMPLES[0] });
    samples
}

/// The table, as lines of Markdown. The stack is that of the library that is linked; of
/// another one only the code is told.
pub fn table(folder: &str) -> Result<Vec<String>, String> {
    let object = object(folder)?;
    let samples = if folder == LINKED { samples() } else { Vec::new() };
    let mut lines = vec![
        String::from("| function | bytes of code | with what it calls | bytes of stack |"),
        String::from("|---|---:|---:|---:|"),
    ];
    for function in &object.functions {
        progress::show(&format!("size: {}", function.name));
        let stack = stack_of(&function.name, &samples).map_or(String::new(), |bytes| format!(" {bytes}"));
        let (own, all) = (function.bytes, object.code_of(function));
        lines.push(format!("| {} | {own} | {all} |{stack} |", function.name));
    }
    progress::clear();
    lines.push(format!("| all code | {} | | |", object.code()));
    lines.push(format!("| constants beside it | {} | | |", object.data()));
    Ok(lines)
}

#[cfg(test)]
mod tests {
    use super::{calls_of, object, samples, stack_of, LINKED};

    /// A function is part of what it calls, and that of all code. Every call is tried.
    #[test]
    fn the_code_of_the_library_is_found() {
        let object = object(LINKED).expect("the library that is linked");
        for function in &object.functions {
            let (own, all) = (function.bytes, object.code_of(function));
            assert!(0 < own && own <= all && all <= object.code(), "{}", function.name);
        }
        let tried = object.functions.iter().map(|function| calls_of(&function.name).len());
        assert_eq!(tried.sum::<usize>(), 8);
    }

    /// include/utasiro.h says how much stack does for a call. Of a library that is emulated
    /// this asks the bridge to it.
    #[test]
    fn calls_take_no_more_stack_than_is_said() {
        let samples = samples();
        for function in &object(LINKED).expect("the library that is linked").functions {
            let records = if function.name == "utasiro_read_records" { 98_304 } else { 0 };
            let stack = stack_of(&function.name, &samples).unwrap_or(0);
            assert!(stack <= 8192 + records, "{}: {stack} bytes", function.name);
        }
    }
}
