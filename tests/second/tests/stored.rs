//! The stored results in `crates/trial/data` are what this implementation writes, and trial runs all of them.

use std::fs;
use std::path::PathBuf;

use second::stored::{case_of, files, line, row, row_line};

fn trial() -> PathBuf {
    PathBuf::from(env!("CARGO_MANIFEST_DIR")).join("../../crates/trial")
}

#[test]
fn stored_results_are_what_is_written() {
    for (name, lines) in files() {
        let stored = fs::read_to_string(trial().join("data").join(name)).unwrap();
        for (at, (stored, written)) in stored.lines().zip(&lines).enumerate() {
            assert_eq!(stored, written, "{name}, line {}", at + 1);
        }
        let text: String = lines.iter().map(|line| format!("{line}\n")).collect();
        assert!(stored == text, "{name} has more or fewer lines than are written, or other line ends");
    }
}

#[test]
fn a_line_tells_its_call() {
    let letters = ["N", "I", "Q", "G"]; // more than one call, or memory that a line has only a part of
    for stored in files().iter().flat_map(|(_, lines)| lines) {
        match (case_of(stored), row(stored)) {
            (Some(case), _) => assert_eq!(line(&case), *stored),
            (None, Some(pages)) => assert_eq!(row_line(&pages), *stored),
            (None, None) => assert!(letters.contains(&&stored[..1]), "{stored}"),
        }
    }
}

#[test]
fn trial_runs_every_file() {
    let arguments = fs::read_to_string(trial().join("args")).unwrap();
    let mut given: Vec<&str> = arguments.lines().collect();
    given.sort_unstable();
    let entries = fs::read_dir(trial().join("data")).unwrap();
    let mut there: Vec<String> = entries.map(|entry| entry.unwrap().file_name().into_string().unwrap()).collect();
    there.sort_unstable();
    assert_eq!(given, there);
    assert!(files().iter().all(|(name, _)| given.contains(name)));
}
