//! A file that is written whole or not at all: beside its place first, then moved there.

use crate::whole;
use std::fs::{self, File, OpenOptions};
use std::io::Write;

pub struct Draft {
    place: String,
    beside: String,
    file: File,
}

impl Draft {
    /// Begins one, so that a place where nothing can be written is known before there is something to write.
    pub fn of(place: &str) -> Result<Draft, String> {
        whole::is_plain(place)?;
        let beside = format!("{place}.{}.part", std::process::id());
        let file = OpenOptions::new().write(true).create_new(true).open(&beside);
        let file = file.map_err(|why| format!("{place}: can't be written: {why}"))?;
        Ok(Draft { place: place.into(), beside, file })
    }

    /// Writes the text and moves it to its place, where it replaces an earlier file.
    pub fn keep(mut self, text: &str) -> Result<(), String> {
        let written = self.file.write_all(text.as_bytes()).and_then(|()| self.file.sync_all());
        let moved = written.and_then(|()| fs::rename(&self.beside, &self.place));
        moved.map_err(|why| format!("{}: can't be written: {why}", self.place))
    }
}

/// What wasn't moved to its place is taken away.
impl Drop for Draft {
    fn drop(&mut self) {
        let _ = fs::remove_file(&self.beside);
    }
}

#[cfg(test)]
mod tests {
    use super::*;
    use std::path::Path;

    /// An empty directory of this name; gives a file's name in it.
    fn place(name: &str) -> String {
        let directory = std::env::temp_dir().join(format!("draft-{name}-{}", std::process::id()));
        fs::create_dir(&directory).unwrap();
        directory.join("file.csv").to_str().unwrap().into()
    }

    /// The names in the file's directory, which is then removed.
    fn left(place: &str) -> Vec<String> {
        let directory = Path::new(place).parent().unwrap();
        let name = |entry: Result<fs::DirEntry, _>| entry.unwrap().file_name().into_string().unwrap();
        let names = fs::read_dir(directory).unwrap().map(name).collect();
        fs::remove_dir_all(directory).unwrap();
        names
    }

    #[test]
    fn an_earlier_file_is_there_until_the_new_one_is_whole() {
        let place = place("replaced");
        fs::write(&place, "old").unwrap();
        let draft = Draft::of(&place).unwrap();
        assert_eq!(fs::read_to_string(&place).unwrap(), "old");
        draft.keep("new").unwrap();
        assert_eq!(fs::read_to_string(&place).unwrap(), "new");
        assert_eq!(left(&place), ["file.csv"]);
    }

    #[test]
    fn a_draft_that_is_not_kept_leaves_nothing() {
        let place = place("dropped");
        drop(Draft::of(&place).unwrap());
        assert_eq!(left(&place), [""; 0]);
    }

    #[test]
    fn what_cannot_be_moved_to_its_place_leaves_nothing() {
        let place = place("blocked");
        let draft = Draft::of(&place).unwrap();
        fs::create_dir(&place).unwrap();
        assert!(draft.keep("new").unwrap_err().starts_with(&format!("{place}: can't be written: ")));
        assert_eq!(left(&place), ["file.csv"], "the directory that is in the way");
    }

    #[test]
    fn a_place_for_no_file_is_named_at_once() {
        for place in ["", "/", "..", "/dev/null", "/dev/stdout"] {
            assert_eq!(Draft::of(place).err().unwrap(), format!("{place}: isn't the name of a plain file"));
        }
        let message = Draft::of("no/such/file.csv").err().unwrap();
        assert!(message.starts_with("no/such/file.csv: can't be written: "), "{message}");
    }
}
