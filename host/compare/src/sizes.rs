//! How much of each buffer a call is lent: what it asks for, seldom a little more or less.

use crate::calls::{Kind, Sizes};
use kit::layout;
use kit::Random;
use wtp::ffi::{ANSWER, DUE, FIELDS, OUTPUT, PART, SALVAGED, SENDING};

/// The sizes that the call asks for, with an output that may be longer.
pub fn right(random: &mut Random, kind: Kind, records: usize) -> Sizes {
    let (out, words) = match kind {
        Kind::Read | Kind::ReadPart { .. } => (OUTPUT, FIELDS),
        Kind::Separate { .. } => (OUTPUT, PART),
        Kind::Deadline => (OUTPUT, DUE),
        Kind::Salvage => (OUTPUT, SALVAGED),
        Kind::Write | Kind::Join | Kind::Data { .. } => (OUTPUT, ANSWER),
        _ => (random.of(&[SENDING, OUTPUT]), ANSWER),
    };
    Sizes { table: layout::table_bytes(records), store: layout::CELL * records, out, words }
}

/// Changes one of the sizes that matter to the call, or those of table and store together.
pub fn change(random: &mut Random, kind: Kind, sizes: &mut Sizes) {
    let choice = match kind {
        Kind::Read | Kind::ReadPart { .. } | Kind::Separate { .. } => 3,
        Kind::Data { .. } => 2,
        Kind::Write | Kind::Join => 2 + random.below(2),
        Kind::Fresh { .. } => 0,
        Kind::Deadline | Kind::Salvage => random.of(&[0, 3]),
        _ => random.below(6),
    };
    match choice {
        0 => sizes.table = other(random, sizes.table, layout::RECORD),
        1 => sizes.store = other(random, sizes.store, layout::CELL),
        2 => sizes.out = other(random, sizes.out, 100),
        3 => sizes.words = other(random, sizes.words, 2),
        4 => {
            sizes.table -= layout::RECORD;
            sizes.store -= layout::CELL;
        }
        _ => {
            sizes.table += layout::RECORD;
            sizes.store += layout::CELL;
        }
    }
}

fn other(random: &mut Random, size: usize, step: usize) -> usize {
    random.of(&[0, 1, size - 1, size + 1, size - step, size + step])
}
