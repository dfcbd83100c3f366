//! The octets of a port book (decision 87), as far as calls are aimed at it and as it is damaged.

use kit::Random;

const PLACE: usize = 276;
pub const BOOK: usize = 2 + 16 * PLACE;
/// The octets of a place before its Application ID.
const FIELDS: usize = 4;

/// Where the place of a port begins; place 0 is that of our outstanding command.
fn place(port: usize) -> usize {
    2 + PLACE * port
}

/// What is kept at a place.
#[derive(Clone, Copy)]
pub struct Kept<'a> {
    /// Of a command the Action, of a port by whom.
    pub first: u8,
    pub own: u8,
    pub peers: u8,
    pub application: &'a [u8],
}

/// None where nothing is kept there.
pub fn kept(book: &[u8], port: usize) -> Option<Kept<'_>> {
    let octets = &book[place(port)..place(port) + PLACE];
    let own = if port == 0 { octets[1] } else { port as u8 };
    let length = 17 + usize::from(octets[FIELDS + 16]);
    let application = &octets[FIELDS..FIELDS + length.min(PLACE - FIELDS)];
    (octets[0] != 0).then_some(Kept { first: octets[0], own, peers: octets[2], application })
}

/// Whether our side is the network.
pub fn is_network(book: &[u8]) -> bool {
    book[0] != 0
}

/// A command or a port that is kept, from a random place on.
pub fn any_kept<'a>(random: &mut Random, book: &'a [u8]) -> Option<Kept<'a>> {
    let start = random.place(16);
    (0..16).find_map(|step| kept(book, (start + step) % 16))
}

/// Changes an octet: a field of the book or of a place, the length of an Application ID, what follows it, or any.
pub fn damage(random: &mut Random, book: &mut [u8]) {
    let start = random.place(16);
    let port = (0..16).map(|step| (start + step) % 16).find(|port| random.percent(20) || kept(book, *port).is_some());
    let at = place(port.unwrap_or(0));
    let length = usize::from(book[at + FIELDS + 16]);
    let (place, value) = match random.below(12) {
        0 => (0, random.of(&[0, 1, 2, 255])),
        1 => (1, random.of(&[0, 3, 7, 8, 255])),
        2..=4 => (at, random.of(&[0, 1, 2, 3, 4, 5, 6])),
        5 => (at + 1, random.of(&[0, 1, 15, 16])),
        6 => (at + 2, random.of(&[0, 15, 16, 255])),
        7 => (at + 3, random.of(&[0, 7, 8, 255])),
        8 => (at + FIELDS + 16, random.octet()),
        9 => (at + FIELDS + 17 + length.min(254), random.octet()),
        10 => (at + random.place(PLACE), random.octet()),
        _ => (random.place(BOOK), random.octet()),
    };
    book[place] = value;
}
