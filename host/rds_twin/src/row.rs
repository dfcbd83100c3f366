//! The rows of section 5, and the conditions of section 3, by their names.

use crate::parse::Malformed;

#[derive(Clone, Copy, Debug, PartialEq, Eq, PartialOrd, Ord)]
pub enum Row {
    /// Our calls: O1 to O4.
    Ours(u8),
    /// A frame from the peer: R1 to R15.
    Peers(u8),
    Malformed(Malformed),
}

impl Row {
    /// All of them.
    pub fn all() -> Vec<Row> {
        let malformed = Malformed::ALL.iter().map(|why| Row::Malformed(*why));
        (1..=4).map(Row::Ours).chain((1..=15).map(Row::Peers)).chain(malformed).collect()
    }

    pub fn name(self) -> String {
        match self {
            Row::Ours(number) => format!("O{number}"),
            Row::Peers(number) => format!("R{number}"),
            Row::Malformed(why) => format!("malformed, {}: {why:?}", why as u8),
        }
    }
}
