//! A file that is read whole and replaced whole. The new octets are written beside their place and brought to the disk, then moved
//! there: who is cut off at any moment finds the old file or the new one.

use std::fs::{self, File};
use std::io::{self, ErrorKind, Read, Write};
use std::path::Path;

/// The octets of a file of at most so many; none where there is no such file.
pub fn read(place: &str, most: u64) -> Result<Option<Vec<u8>>, String> {
    let mut octets = Vec::new();
    let length = File::open(place).and_then(|file| file.take(most.saturating_add(1)).read_to_end(&mut octets));
    match length {
        Ok(length) if u64::try_from(length).map_or(true, |length| length > most) => {
            Err(format!("{place}: is over {most} octets long"))
        }
        Ok(_) => Ok(Some(octets)),
        Err(why) if why.kind() == ErrorKind::NotFound => Ok(None),
        Err(why) => Err(format!("{place}: can't be read: {why}")),
    }
}

/// Whether there is a plain file, or room for one; else what is wrong with the name.
pub fn is_plain(place: &str) -> Result<(), String> {
    let taken = fs::symlink_metadata(place).map_or(false, |found| !found.is_file());
    if taken || Path::new(place).file_name().is_none() {
        return Err(format!("{place}: isn't the name of a plain file"));
    }
    Ok(())
}

/// Replaces the file, which keeps its permissions, or makes it.
pub fn replace(place: &str, octets: &[u8]) -> Result<(), String> {
    let beside = format!("{place}.part");
    let written = write(place, &beside, octets).and_then(|()| fs::rename(&beside, place)).and_then(|()| settle(place));
    written.map_err(|why| format!("{place}: can't be written: {why}"))
}

/// What a writer that was cut off left beside the place is overwritten.
fn write(place: &str, beside: &str, octets: &[u8]) -> io::Result<()> {
    let mut file = File::create(beside)?;
    if let Ok(found) = fs::metadata(place) {
        file.set_permissions(found.permissions())?;
    }
    file.write_all(octets)?;
    file.sync_all()
}

/// Brings the move to the disk.
fn settle(place: &str) -> io::Result<()> {
    let directory = Path::new(place).parent().filter(|directory| !directory.as_os_str().is_empty());
    File::open(directory.unwrap_or_else(|| Path::new(".")))?.sync_all()
}

#[cfg(test)]
mod tests {
    use super::*;
    use std::os::unix::fs::PermissionsExt;

    /// An empty directory of this name, and a file's name in it.
    fn place(name: &str) -> (String, String) {
        let directory = std::env::temp_dir().join(format!("whole-{name}-{}", std::process::id()));
        fs::create_dir(&directory).unwrap();
        let directory = directory.to_str().unwrap().to_string();
        (format!("{directory}/file"), directory)
    }

    #[test]
    fn a_file_is_replaced_and_keeps_its_permissions() {
        let (place, directory) = place("replaced");
        assert_eq!(read(&place, 9), Ok(None));
        replace(&place, b"old").unwrap();
        fs::set_permissions(&place, fs::Permissions::from_mode(0o600)).unwrap();
        fs::write(format!("{place}.part"), "a writer that was cut off left this").unwrap();
        replace(&place, b"new").unwrap();
        assert_eq!(read(&place, 3), Ok(Some(b"new".to_vec())));
        assert_eq!(fs::metadata(&place).unwrap().permissions().mode() & 0o777, 0o600);
        assert_eq!(fs::read_dir(&directory).unwrap().count(), 1);
        fs::remove_dir_all(directory).unwrap();
    }

    #[test]
    fn what_cannot_be_read_or_written_is_named() {
        let (place, directory) = place("named");
        fs::write(&place, "1234").unwrap();
        assert_eq!(read(&place, 3), Err(format!("{place}: is over 3 octets long")));
        assert!(read(&directory, 9).unwrap_err().starts_with(&format!("{directory}: can't be read: ")));
        let missing = format!("{directory}/no/file");
        assert!(replace(&missing, b"x").unwrap_err().starts_with(&format!("{missing}: can't be written: ")));
        for name in ["", "/", "..", "/dev/null", &directory] {
            assert_eq!(is_plain(name), Err(format!("{name}: isn't the name of a plain file")));
        }
        assert_eq!((is_plain(&place), is_plain(&format!("{place}2"))), (Ok(()), Ok(())));
        fs::remove_dir_all(directory).unwrap();
    }
}
