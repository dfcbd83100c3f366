//! The scenarios, the codec cases and the RDS cases of tests/, played through the libraries and compared line by line.

mod compared;

use compared::{compare, difference, file};

type Play = fn(&str, &mut String) -> Result<(), String>;

/// Plays the commands of a folder.
fn played(play: Play, folder: &str) {
    let mut told = String::new();
    play(&file(&format!("{folder}/commands.txt")), &mut told).unwrap();
    compare(&told, &format!("{folder}/expected.txt"));
}

#[test]
fn the_library_plays_what_document_01_says() {
    played(scenarios::play, "scenarios");
}

#[test]
fn the_library_reads_and_writes_what_document_01_says() {
    played(scenarios::play, "codec_cases");
}

#[test]
fn the_library_gives_what_the_worked_examples_of_rds_say() {
    played(scenarios::rds::play, "rds_cases");
}

#[test]
fn a_difference_is_named_by_its_line() {
    assert_eq!(difference("a\nb\n", "a\nb\n"), None);
    assert_eq!(difference("a\nb\n", "a\nc\n").as_deref(), Some("line 2:\n told     b\n expected c"));
    assert_eq!(difference("a\n", "a\nc\n").as_deref(), Some("line 2:\n told     nothing\n expected c"));
}
