//! A line on standard error that says how far the benchmark is.

use std::io::{stderr, Write};

extern "C" {
    fn isatty(file: i32) -> i32;
}

/// Whether standard error is a terminal.
fn on_a_terminal() -> bool {
    // Safety: any number may be asked about, and 2 is standard error.
    unsafe { isatty(2) == 1 }
}

/// Shows what is done now: over the line before on a terminal, else below it.
pub fn show(what: &str) {
    let mut out = stderr().lock();
    // Nothing is lost if the line cannot be shown.
    let _ = if on_a_terminal() { write!(out, "\r\x1b[K{what}") } else { writeln!(out, "{what}") };
    let _ = out.flush();
}

/// Takes the line away.
pub fn clear() {
    if on_a_terminal() {
        let _ = write!(stderr().lock(), "\r\x1b[K");
    }
}
