//! A line on stderr while the reader waits, whenever it has changed: in place on a terminal, else a line of its own, but not too often.

use std::io::Write;

const IN_PLACE_EVERY: u64 = 100;
const LINES_EVERY: u64 = 2_000;

pub struct Progress {
    in_place: bool,
    /// The time from which on another line may be shown.
    free_from: u64,
    shown: String,
    /// Whether the latest line came too soon and is still to be shown.
    held_back: bool,
}

impl Progress {
    pub fn new() -> Progress {
        Progress::with(stderr_is_a_terminal())
    }

    fn with(in_place: bool) -> Progress {
        Progress { in_place, free_from: 0, shown: String::new(), held_back: false }
    }

    /// Shows the text, unless it is the one that is shown or it is too soon for another.
    pub fn show(&mut self, now: u64, text: String) {
        self.held_back = text != self.shown && now < self.free_from;
        if text == self.shown || self.held_back {
            return;
        }
        self.free_from = now.saturating_add(if self.in_place { IN_PLACE_EVERY } else { LINES_EVERY });
        if self.in_place {
            self.replace(&text);
        } else {
            kit::say::err(&text);
        }
        self.shown = text;
    }

    /// When a line that came too soon may be shown.
    pub fn next(&self) -> Option<u64> {
        self.held_back.then_some(self.free_from)
    }

    /// Takes the line away, so that another can be printed.
    pub fn clear(&mut self) {
        if self.in_place {
            self.replace("");
            let _ = write!(std::io::stderr(), "\r");
            self.shown.clear();
        }
    }

    fn replace(&self, text: &str) {
        let width = self.shown.chars().count();
        let _ = write!(std::io::stderr(), "\r{text:width$}");
    }
}

/// Linux says so by the name of the open file; the standard library has no other way in Rust 1.63.
fn stderr_is_a_terminal() -> bool {
    let file = std::fs::read_link("/proc/self/fd/2").unwrap_or_default();
    ["/dev/pts/", "/dev/tty", "/dev/console"].iter().any(|start| file.to_string_lossy().starts_with(start))
}

#[cfg(test)]
mod tests {
    use super::*;

    #[test]
    fn a_line_that_came_too_soon_is_shown_later_and_the_same_line_never_again() {
        let mut progress = Progress::with(false);
        progress.show(10, "1 of 3".into());
        assert_eq!(progress.next(), None);
        progress.show(20, "2 of 3".into());
        assert_eq!((progress.next(), &*progress.shown), (Some(2_010), "1 of 3"));
        progress.show(2_010, "2 of 3".into());
        assert_eq!((progress.next(), &*progress.shown), (None, "2 of 3"));
        progress.show(9_000, "2 of 3".into());
        assert_eq!((progress.next(), progress.free_from), (None, 4_010));
    }
}
