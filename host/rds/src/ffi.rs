//! The library's calls, each behind a safe function. The only file with `unsafe`.
//!
//! A caller owes the library pointers that aren't null, counts that are true and buffers that don't overlap. A Rust slice
//! has the first two, and the third holds because a `&mut` slice shares its memory with no other: so every call is sound.
//! The library has no memory of its own: calls may come from any thread.

/// Words of a frame.
pub const FIELDS: usize = 100;
/// Words of a part.
pub const PART: usize = 8;
/// Words of an answer.
pub const ANSWER: usize = 16;
/// Octets of the output that writing and putting ask for.
pub const OUTPUT: usize = 1523;
/// Octets of the output that the book's calls ask for.
pub const SENDING: usize = 277;
/// Octets of an Application ID, at most.
pub const APP: usize = 272;

/// The buffers that a call over the book is lent.
pub struct Lent<'a> {
    pub book: &'a mut [u8],
    pub out: &'a mut [u8],
    pub answer: &'a mut [u64],
}

#[rustfmt::skip]
#[link(name = "rds", kind = "static")]
extern "C" {
    fn rds_read(frame: *const u8, frame_len: usize, from_network: u64, fields: *mut u64, fields_len: usize) -> u64;
    fn rds_take(frame: *const u8, frame_len: usize, from_network: u64, part: *mut u64, part_len: usize) -> u64;
    fn rds_put(datagram: *const u8, datagram_len: usize, ports: u64, source: u64, destination: u64, number: u64,
               out: *mut u8, out_len: usize, answer: *mut u64, answer_len: usize) -> u64;
    fn rds_write(fields: *const u64, fields_len: usize, bytes: *const u8, bytes_len: usize, from_network: u64,
                 out: *mut u8, out_len: usize, answer: *mut u64, answer_len: usize) -> u64;
    fn rds_ports_bytes() -> u64;
    fn rds_ports_fresh(book: *mut u8, book_len: usize, network: u64, formats: u64) -> u64;
    fn rds_reserve(book: *mut u8, book_len: usize, out: *mut u8, out_len: usize, answer: *mut u64, answer_len: usize,
                   own: u64, peers: u64, with_format: u64, app: *const u8, app_len: usize) -> u64;
    fn rds_release(book: *mut u8, book_len: usize, out: *mut u8, out_len: usize, answer: *mut u64, answer_len: usize,
                   own: u64) -> u64;
    fn rds_again(book: *const u8, book_len: usize, out: *mut u8, out_len: usize, answer: *mut u64, answer_len: usize) -> u64;
    fn rds_abandon(book: *mut u8, book_len: usize) -> u64;
    fn rds_receive(book: *mut u8, book_len: usize, out: *mut u8, out_len: usize, answer: *mut u64, answer_len: usize,
                   frame: *const u8, frame_len: usize) -> u64;
    fn rds_port(book: *const u8, book_len: usize, port: u64, out: *mut u8, out_len: usize, answer: *mut u64,
                answer_len: usize) -> u64;
}

/// Calls a function over the book with the lent buffers and then the parameters of its own.
macro_rules! over_the_book {
    ($call:ident, $lent:expr $(, $own:expr)*) => {{
        let Lent { book, out, answer } = $lent;
        // SAFETY: pointers and counts come from slices, and slices that may be written to share no memory.
        unsafe {
            $call(
                book.as_mut_ptr(), book.len(), out.as_mut_ptr(), out.len(), answer.as_mut_ptr(), answer.len() $(, $own)*
            )
        }
    }};
}

pub fn read(frame: &[u8], from_network: u64, fields: &mut [u64]) -> u64 {
    // SAFETY: as in `over_the_book`.
    unsafe { rds_read(frame.as_ptr(), frame.len(), from_network, fields.as_mut_ptr(), fields.len()) }
}

pub fn take(frame: &[u8], from_network: u64, part: &mut [u64]) -> u64 {
    // SAFETY: as in `over_the_book`.
    unsafe { rds_take(frame.as_ptr(), frame.len(), from_network, part.as_mut_ptr(), part.len()) }
}

/// Flag, Source Port, Destination Port and number of a datagram, as the library takes them.
#[derive(Clone, Copy, Debug, PartialEq, Eq)]
pub struct Sent {
    pub ports: u64,
    pub source: u64,
    pub destination: u64,
    pub number: u64,
}

pub fn put(datagram: &[u8], sent: Sent, out: &mut [u8], answer: &mut [u64]) -> u64 {
    let Sent { ports, source, destination, number } = sent;
    // SAFETY: as in `over_the_book`.
    unsafe {
        rds_put(
            datagram.as_ptr(),
            datagram.len(),
            ports,
            source,
            destination,
            number,
            out.as_mut_ptr(),
            out.len(),
            answer.as_mut_ptr(),
            answer.len(),
        )
    }
}

pub fn write(fields: &[u64], bytes: &[u8], from_network: u64, out: &mut [u8], answer: &mut [u64]) -> u64 {
    // SAFETY: as in `over_the_book`.
    unsafe {
        rds_write(
            fields.as_ptr(),
            fields.len(),
            bytes.as_ptr(),
            bytes.len(),
            from_network,
            out.as_mut_ptr(),
            out.len(),
            answer.as_mut_ptr(),
            answer.len(),
        )
    }
}

pub fn ports_bytes() -> u64 {
    // SAFETY: no memory is lent.
    unsafe { rds_ports_bytes() }
}

pub fn ports_fresh(book: &mut [u8], network: u64, formats: u64) -> u64 {
    // SAFETY: as in `over_the_book`.
    unsafe { rds_ports_fresh(book.as_mut_ptr(), book.len(), network, formats) }
}

pub fn reserve(lent: Lent, own: u64, peers: u64, with_format: u64, app: &[u8]) -> u64 {
    over_the_book!(rds_reserve, lent, own, peers, with_format, app.as_ptr(), app.len())
}

pub fn release(lent: Lent, own: u64) -> u64 {
    over_the_book!(rds_release, lent, own)
}

pub fn again(book: &[u8], out: &mut [u8], answer: &mut [u64]) -> u64 {
    // SAFETY: as in `over_the_book`.
    unsafe { rds_again(book.as_ptr(), book.len(), out.as_mut_ptr(), out.len(), answer.as_mut_ptr(), answer.len()) }
}

pub fn abandon(book: &mut [u8]) -> u64 {
    // SAFETY: as in `over_the_book`.
    unsafe { rds_abandon(book.as_mut_ptr(), book.len()) }
}

pub fn receive(lent: Lent, frame: &[u8]) -> u64 {
    over_the_book!(rds_receive, lent, frame.as_ptr(), frame.len())
}

pub fn port(book: &[u8], port: u64, out: &mut [u8], answer: &mut [u64]) -> u64 {
    // SAFETY: as in `over_the_book`.
    unsafe { rds_port(book.as_ptr(), book.len(), port, out.as_mut_ptr(), out.len(), answer.as_mut_ptr(), answer.len()) }
}
