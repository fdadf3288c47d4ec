//! The program `replay-second` from outside: where its list comes from, and what
//! it does when there is none.

use std::io::Write;
use std::path::Path;
use std::process::{Command, Output, Stdio};

fn program() -> Command {
    Command::new(env!("CARGO_BIN_EXE_replay-second"))
}

fn with_input(list: &[u8]) -> Output {
    let mut child = program()
        .stdin(Stdio::piped())
        .stdout(Stdio::piped())
        .stderr(Stdio::piped())
        .spawn()
        .expect("the program starts");
    child.stdin.take().expect("its input").write_all(list).expect("the list is taken");
    child.wait_with_output().expect("the program ends")
}

fn with_file(path: &Path) -> Output {
    program().arg(path).output().expect("the program runs")
}

fn text(bytes: &[u8]) -> String {
    String::from_utf8(bytes.to_vec()).expect("text")
}

#[test]
fn a_list_on_standard_input() {
    let output = with_input(b"fresh 4 16 32 16\nwrite 1 0 2\nwrite 1 0 2\nreport");
    assert!(output.status.success());
    assert_eq!(text(&output.stdout), "ok\nok 1 0 0 2\nrefused 4 Applied\nok 46 2 0\n");
}

#[test]
fn a_list_in_a_file() {
    let folder = Path::new(env!("CARGO_MANIFEST_DIR")).join("../../tests/requests");
    let output = with_file(&folder.join("p12.txt"));
    assert!(output.status.success());
    let expected = std::fs::read_to_string(folder.join("p12.expected")).expect("its expected output");
    assert_eq!(text(&output.stdout), expected);
}

#[test]
fn an_empty_list_has_no_answer() {
    for list in [&b""[..], b"\n", b"\n\n# nothing\n"] {
        let output = with_input(list);
        assert!(output.status.success());
        assert!(output.stdout.is_empty());
    }
}

#[test]
fn garbage_gets_error_lines_and_the_list_goes_on() {
    let output = with_input(b"\xff\xfe\0\nfresh 3 1 1 1\r\nfresh 3 1 1 1\nreport\n");
    assert!(output.status.success());
    let expected = "line 1: unknown request\nline 2: word 5 is not a number\nok\nok 2 0 0\n";
    assert_eq!(text(&output.stdout), expected);
}

#[test]
fn no_file_or_a_folder_or_two_files_end_with_a_message() {
    let here = Path::new(env!("CARGO_MANIFEST_DIR"));
    let two = program().args(["a", "b"]).output().expect("the program runs");
    for output in [with_file(&here.join("no-such-list.txt")), with_file(here), two] {
        assert_eq!(output.status.code(), Some(2));
        assert!(output.stdout.is_empty());
        assert!(text(&output.stderr).starts_with("replay-second: "));
    }
}
