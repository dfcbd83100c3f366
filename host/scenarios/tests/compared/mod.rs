//! What was told, compared with what document 01 says, line by line.

use std::fs;

/// A file of tests/.
pub fn file(name: &str) -> String {
    let path = format!("{}/../../tests/{name}", env!("CARGO_MANIFEST_DIR"));
    fs::read_to_string(&path).unwrap_or_else(|error| panic!("{path}: {error}"))
}

/// Panics with the first line that differs from a file of tests/.
pub fn compare(told: &str, name: &str) {
    if let Some(difference) = difference(told, &file(name)) {
        panic!("{name}, {difference}");
    }
}

/// The first line that differs, in words.
pub fn difference(told: &str, expected: &str) -> Option<String> {
    let (mut told, mut expected) = (told.lines(), expected.lines());
    (1..).find_map(|number| match (told.next(), expected.next()) {
        (None, None) => Some(None),
        (told, expected) if told == expected => None,
        (told, expected) => {
            let line = |line: Option<&str>| line.unwrap_or("nothing").to_string();
            Some(Some(format!("line {number}:\n told     {}\n expected {}", line(told), line(expected))))
        }
    })?
}
