//! The counts that the script beside this program made: a line a case, its key, the library's count and the twin's, by tabs.

use std::collections::HashMap;

pub type Counts = HashMap<String, [u64; 2]>;

pub fn parse(text: &str) -> Result<Counts, String> {
    let wrong = |place: usize| format!("line {} isn't a case and two counts, divided by tabs", place + 1);
    text.lines().enumerate().map(|(place, line)| row(line).ok_or_else(|| wrong(place))).collect()
}

fn row(line: &str) -> Option<(String, [u64; 2])> {
    let mut parts = line.split('\t');
    let key = parts.next()?.to_string();
    let counts = [parts.next()?.parse().ok()?, parts.next()?.parse().ok()?];
    parts.next().is_none().then_some((key, counts))
}

#[cfg(test)]
mod tests {
    use super::*;

    #[test]
    fn a_line_is_a_case_and_two_counts() {
        let counts = parse("request:48\t6647\t5000\nread an Ack\t90\t80\n").unwrap();
        assert_eq!(counts.get("request:48"), Some(&[6647, 5000]));
        assert_eq!(counts.get("read an Ack"), Some(&[90, 80]));
    }

    #[test]
    fn a_wrong_line_is_named_with_its_number() {
        for wrong in ["request:1\t5", "request:1\t5\tx", "request:1\t5\t6\t7", "", "request:1\t-5\t6"] {
            let said = parse(&format!("request:8\t1\t2\n{wrong}\n")).unwrap_err();
            assert!(said.starts_with("line 2 "), "{said}");
        }
    }
}
