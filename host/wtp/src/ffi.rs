//! The library's calls, each behind a safe function. The only file with `unsafe`.
//!
//! A caller owes the library pointers that aren't null, counts that are true and buffers that don't overlap. A Rust slice
//! has the first two, and the third holds because a `&mut` slice shares its memory with no other: so every call is sound.
//! The library has no memory of its own: calls may come from any thread.

/// Words of an answer.
pub const ANSWER: usize = 40;
/// Words of settings.
pub const SETTINGS: usize = 32;
/// Words of a PDU.
pub const FIELDS: usize = 88;
/// Words of a part.
pub const PART: usize = 3;
/// Words of a deadline.
pub const DUE: usize = 5;
/// Words of a list of salvaged places.
pub const SALVAGED: usize = 97;
/// Octets of the store for each record.
pub const CELL: usize = 1024;
/// Octets of the output that the engine asks for.
pub const SENDING: usize = 1028;
/// Octets of the output that the writer and the joiner ask for.
pub const OUTPUT: usize = 1500;

/// The buffers that every call of the engine is lent.
pub struct Lent<'a> {
    pub table: &'a mut [u8],
    pub store: &'a mut [u8],
    pub out: &'a mut [u8],
    pub answer: &'a mut [u64],
}

/// Role, peer and TID of a record, as the library takes them.
#[derive(Clone, Copy)]
pub struct Record {
    pub role: u64,
    pub peer: u64,
    pub tid: u64,
}

#[rustfmt::skip]
#[link(name = "wtp", kind = "static")]
extern "C" {
    fn wtp_table_bytes(records: u64) -> u64;
    fn wtp_fresh(table: *mut u8, table_len: usize, settings: *const u64, settings_len: usize, first_tid: u64) -> u64;
    fn wtp_request(table: *mut u8, table_len: usize, store: *mut u8, store_len: usize, out: *mut u8, out_len: usize,
                   answer: *mut u64, answer_len: usize, now: u64, peer: u64, cls: u64, user_ack: u64,
                   data: *const u8, data_len: usize) -> u64;
    fn wtp_answer(table: *mut u8, table_len: usize, store: *mut u8, store_len: usize, out: *mut u8, out_len: usize,
                  answer: *mut u64, answer_len: usize, now: u64, role: u64, peer: u64, tid: u64,
                  exit_information: *const u8, exit_information_len: usize) -> u64;
    fn wtp_result(table: *mut u8, table_len: usize, store: *mut u8, store_len: usize, out: *mut u8, out_len: usize,
                  answer: *mut u64, answer_len: usize, now: u64, role: u64, peer: u64, tid: u64,
                  data: *const u8, data_len: usize) -> u64;
    fn wtp_abort(table: *mut u8, table_len: usize, store: *mut u8, store_len: usize, out: *mut u8, out_len: usize,
                 answer: *mut u64, answer_len: usize, now: u64, role: u64, peer: u64, tid: u64, reason: u8) -> u64;
    fn wtp_receive(table: *mut u8, table_len: usize, store: *mut u8, store_len: usize, out: *mut u8, out_len: usize,
                   answer: *mut u64, answer_len: usize, now: u64, peer: u64, pdu: *const u8, pdu_len: usize) -> u64;
    fn wtp_timer(table: *mut u8, table_len: usize, store: *mut u8, store_len: usize, out: *mut u8, out_len: usize,
                 answer: *mut u64, answer_len: usize, now: u64) -> u64;
    fn wtp_deadline(table: *const u8, table_len: usize, due: *mut u64, due_len: usize) -> u64;
    fn wtp_fire(table: *mut u8, table_len: usize, store: *mut u8, store_len: usize, out: *mut u8, out_len: usize,
                answer: *mut u64, answer_len: usize, now: u64, role: u64, peer: u64, tid: u64) -> u64;
    fn wtp_salvage(table: *mut u8, table_len: usize, list: *mut u64, list_len: usize) -> u64;
    fn wtp_read(pdu: *const u8, pdu_len: usize, fields: *mut u64, fields_len: usize) -> u64;
    fn wtp_write(fields: *const u64, fields_len: usize, bytes: *const u8, bytes_len: usize,
                 out: *mut u8, out_len: usize, answer: *mut u64, answer_len: usize) -> u64;
    fn wtp_separate(datagram: *const u8, datagram_len: usize, k: u64, part: *mut u64, part_len: usize) -> u64;
    fn wtp_read_part(datagram: *const u8, datagram_len: usize, k: u64, fields: *mut u64, fields_len: usize) -> u64;
    fn wtp_data(datagram: *const u8, datagram_len: usize, store: *const u8, store_len: usize,
                answer: *const u64, answer_len: usize, k: u64, out: *mut u8, out_len: usize) -> u64;
    fn wtp_join(bytes: *const u8, bytes_len: usize, lengths: *const u64, lengths_len: usize,
                out: *mut u8, out_len: usize, answer: *mut u64, answer_len: usize) -> u64;
}

/// Calls an engine function with the lent buffers and then the parameters of its own.
macro_rules! engine {
    ($call:ident, $lent:expr $(, $own:expr)*) => {{
        let Lent { table, store, out, answer } = $lent;
        // SAFETY: pointers and counts come from slices, and slices that may be written to share no memory.
        unsafe {
            $call(
                table.as_mut_ptr(), table.len(), store.as_mut_ptr(), store.len(), out.as_mut_ptr(), out.len(),
                answer.as_mut_ptr(), answer.len() $(, $own)*
            )
        }
    }};
}

#[inline]
pub fn table_bytes(records: u64) -> u64 {
    // SAFETY: no memory is lent.
    unsafe { wtp_table_bytes(records) }
}

#[inline]
pub fn fresh(table: &mut [u8], settings: &[u64], first_tid: u64) -> u64 {
    // SAFETY: as in `engine`.
    unsafe { wtp_fresh(table.as_mut_ptr(), table.len(), settings.as_ptr(), settings.len(), first_tid) }
}

#[inline]
pub fn request(lent: Lent, now: u64, peer: u64, class: u64, user_ack: u64, data: &[u8]) -> u64 {
    engine!(wtp_request, lent, now, peer, class, user_ack, data.as_ptr(), data.len())
}

#[inline]
pub fn answer(lent: Lent, now: u64, of: Record, exit: &[u8]) -> u64 {
    engine!(wtp_answer, lent, now, of.role, of.peer, of.tid, exit.as_ptr(), exit.len())
}

#[inline]
pub fn result(lent: Lent, now: u64, of: Record, data: &[u8]) -> u64 {
    engine!(wtp_result, lent, now, of.role, of.peer, of.tid, data.as_ptr(), data.len())
}

#[inline]
pub fn abort(lent: Lent, now: u64, of: Record, reason: u8) -> u64 {
    engine!(wtp_abort, lent, now, of.role, of.peer, of.tid, reason)
}

#[inline]
pub fn receive(lent: Lent, now: u64, peer: u64, pdu: &[u8]) -> u64 {
    engine!(wtp_receive, lent, now, peer, pdu.as_ptr(), pdu.len())
}

#[inline]
pub fn timer(lent: Lent, now: u64) -> u64 {
    engine!(wtp_timer, lent, now)
}

#[inline]
pub fn deadline(table: &[u8], due: &mut [u64]) -> u64 {
    // SAFETY: as in `engine`.
    unsafe { wtp_deadline(table.as_ptr(), table.len(), due.as_mut_ptr(), due.len()) }
}

#[inline]
pub fn fire(lent: Lent, now: u64, of: Record) -> u64 {
    engine!(wtp_fire, lent, now, of.role, of.peer, of.tid)
}

#[inline]
pub fn salvage(table: &mut [u8], list: &mut [u64]) -> u64 {
    // SAFETY: as in `engine`.
    unsafe { wtp_salvage(table.as_mut_ptr(), table.len(), list.as_mut_ptr(), list.len()) }
}

#[inline]
pub fn read(pdu: &[u8], fields: &mut [u64]) -> u64 {
    // SAFETY: as in `engine`.
    unsafe { wtp_read(pdu.as_ptr(), pdu.len(), fields.as_mut_ptr(), fields.len()) }
}

#[inline]
pub fn write(fields: &[u64], bytes: &[u8], out: &mut [u8], answer: &mut [u64]) -> u64 {
    // SAFETY: as in `engine`.
    unsafe {
        wtp_write(
            fields.as_ptr(),
            fields.len(),
            bytes.as_ptr(),
            bytes.len(),
            out.as_mut_ptr(),
            out.len(),
            answer.as_mut_ptr(),
            answer.len(),
        )
    }
}

#[inline]
pub fn separate(datagram: &[u8], k: u64, part: &mut [u64]) -> u64 {
    // SAFETY: as in `engine`.
    unsafe { wtp_separate(datagram.as_ptr(), datagram.len(), k, part.as_mut_ptr(), part.len()) }
}

#[inline]
pub fn read_part(datagram: &[u8], k: u64, fields: &mut [u64]) -> u64 {
    // SAFETY: as in `engine`.
    unsafe { wtp_read_part(datagram.as_ptr(), datagram.len(), k, fields.as_mut_ptr(), fields.len()) }
}

#[inline]
pub fn data(datagram: &[u8], store: &[u8], answer: &[u64], k: u64, out: &mut [u8]) -> u64 {
    // SAFETY: as in `engine`.
    unsafe {
        wtp_data(
            datagram.as_ptr(),
            datagram.len(),
            store.as_ptr(),
            store.len(),
            answer.as_ptr(),
            answer.len(),
            k,
            out.as_mut_ptr(),
            out.len(),
        )
    }
}

#[inline]
pub fn join(bytes: &[u8], lengths: &[u64], out: &mut [u8], answer: &mut [u64]) -> u64 {
    // SAFETY: as in `engine`.
    unsafe {
        wtp_join(
            bytes.as_ptr(),
            bytes.len(),
            lengths.as_ptr(),
            lengths.len(),
            out.as_mut_ptr(),
            out.len(),
            answer.as_mut_ptr(),
            answer.len(),
        )
    }
}
