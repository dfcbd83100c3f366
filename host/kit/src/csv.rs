//! Small CSV files: a header line, then cells between commas. They are read without quotes, and a wrong line is named with its
//! number; they are written with quotes around the cells that need them.

use std::fs::File;
use std::io::Read;

const LARGEST: usize = 1_000_000;
/// Some programs begin a UTF-8 file with it.
const BYTE_ORDER_MARK: &[u8] = b"\xEF\xBB\xBF";

/// A line with its number in the file; blanks around a cell are cut off.
#[derive(Debug, PartialEq, Eq)]
pub struct Row<const N: usize> {
    pub number: usize,
    pub cells: [String; N],
}

/// The message for a line.
pub fn wrong(file: &str, number: usize, what: &str) -> String {
    format!("{file}, line {number}: {what}")
}

/// The rows of a file that is on disk.
pub fn read<const N: usize>(file: &str, header: [&str; N]) -> Result<Vec<Row<N>>, String> {
    let mut octets = Vec::new();
    let length = File::open(file).and_then(|opened| opened.take(LARGEST as u64 + 1).read_to_end(&mut octets));
    match length.map(|length| length > LARGEST) {
        Err(why) => Err(format!("{file}: can't be read: {why}")),
        Ok(true) => Err(format!("{file}: is over {LARGEST} octets long")),
        Ok(false) => rows(file, &octets, header),
    }
}

/// The rows after the header; lines that are blank don't count.
pub fn rows<const N: usize>(file: &str, octets: &[u8], header: [&str; N]) -> Result<Vec<Row<N>>, String> {
    let mut rows = Vec::new();
    let octets = octets.strip_prefix(BYTE_ORDER_MARK).unwrap_or(octets);
    for (line, number) in octets.split(|octet| *octet == b'\n').zip(1..) {
        let text = printable(line).ok_or_else(|| wrong(file, number, "that isn't plain UTF-8 text"))?;
        if !text.trim().is_empty() {
            rows.push(row(file, number, text)?);
        }
    }
    let expected = format!("the header must be {}", header.join(","));
    match rows.first() {
        None => return Err(wrong(file, 1, &expected)),
        Some(first) if first.cells != header.map(String::from) => return Err(wrong(file, first.number, &expected)),
        Some(_) => rows.remove(0),
    };
    Ok(rows)
}

/// Text that a screen can show as it is.
fn printable(line: &[u8]) -> Option<&str> {
    let text = std::str::from_utf8(line.strip_suffix(b"\r").unwrap_or(line)).ok()?;
    (!text.chars().any(char::is_control)).then_some(text)
}

fn row<const N: usize>(file: &str, number: usize, text: &str) -> Result<Row<N>, String> {
    let cells: Vec<_> = text.split(',').map(|cell| cell.trim().to_string()).collect();
    let count = cells.len();
    let cells = cells.try_into().map_err(|_| wrong(file, number, &format!("{N} cells are expected, {count} are there")))?;
    Ok(Row { number, cells })
}

/// A line of a file. What another reader could take for more than one cell, or trim, is quoted, and a quote in it doubled.
pub fn line<const N: usize>(cells: [&str; N]) -> String {
    let quoted = |cell: &str| {
        let plain = !cell.contains([',', '"', '\r', '\n']) && cell.trim() == cell;
        if plain {
            cell.to_string()
        } else {
            format!("\"{}\"", cell.replace('"', "\"\""))
        }
    };
    cells.map(quoted).join(",") + "\n"
}

#[cfg(test)]
mod tests {
    use super::*;

    fn read(octets: &[u8]) -> Result<Vec<Row<2>>, String> {
        rows("f.csv", octets, ["sampler", "site"])
    }

    #[test]
    fn rows_keep_their_line_numbers() {
        let rows = read(b"\xEF\xBB\xBFsampler,site\r\n\n 7 , Market \n8,\n").unwrap();
        assert_eq!((rows[0].number, rows[0].cells.clone()), (3, ["7".to_string(), "Market".to_string()]));
        assert_eq!((rows[1].number, rows[1].cells.clone()), (4, ["8".to_string(), String::new()]));
    }

    #[test]
    fn a_wrong_line_is_named_with_its_number() {
        let two = "f.csv, line 3: 2 cells are expected, 1 are there";
        assert_eq!(read(b"sampler,site\n1,a\n2\n").unwrap_err(), two);
        let many = "f.csv, line 2: 2 cells are expected, 3 are there";
        assert_eq!(read(b"sampler,site\n1,a,b").unwrap_err(), many);
        for line in [&b"\xFF,a"[..], b"1,a\x1b[2J", b"1,a\0"] {
            let octets = [b"sampler,site\n", line].concat();
            assert_eq!(read(&octets).unwrap_err(), "f.csv, line 2: that isn't plain UTF-8 text");
        }
    }

    #[test]
    fn a_missing_header_is_a_wrong_line() {
        assert_eq!(read(b"").unwrap_err(), "f.csv, line 1: the header must be sampler,site");
        assert_eq!(read(b"\n1,a\n").unwrap_err(), "f.csv, line 2: the header must be sampler,site");
    }

    #[test]
    fn a_cell_is_quoted_where_it_has_to_be() {
        assert_eq!(line(["0042", "", "<0.5 µg/m³", "isn't"]), "0042,,<0.5 µg/m³,isn't\n");
        assert_eq!(line(["a,b", "\"", "a\nb", "a\rb"]), "\"a,b\",\"\"\"\",\"a\nb\",\"a\rb\"\n");
        assert_eq!(line([" a", "a ", "a b"]), "\" a\",\"a \",a b\n");
    }

    #[test]
    fn a_file_without_an_end_is_refused() {
        assert_eq!(super::read("/dev/zero", ["a"]).unwrap_err(), "/dev/zero: is over 1000000 octets long");
    }

    #[test]
    fn a_missing_file_is_named() {
        let message = super::read("no/such/file.csv", ["a"]).unwrap_err();
        assert!(message.starts_with("no/such/file.csv: can't be read: "), "{message}");
    }
}
