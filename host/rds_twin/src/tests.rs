//! What the comparison rests on: some rows of docs/RDS.md, as the twin reads them.

use crate::parse::{parse, Malformed};
use crate::{again, port, ports_bytes, ports_fresh, read, receive, reserve, take, write, Lent, Row, Said};

const A: [u8; 20] = *b"\x00\x11\x22\x33\x44\x55\x66\x77\x88\x99\xAA\xBB\xCC\xDD\xEE\xFF\x03wtp";

fn with_a(before: &[u8], after: &[u8]) -> Vec<u8> {
    [before, &A, after].concat()
}

/// A book with the buffers of its calls.
struct Side {
    book: Vec<u8>,
    out: [u8; 277],
    answer: [u64; 16],
}

impl Side {
    fn fresh(network: u64, formats: u64) -> Side {
        let mut book = vec![7; ports_bytes() as usize];
        assert_eq!(ports_fresh(&mut book, network, formats), Said { number: 0, row: None });
        Side { book, out: [7; 277], answer: [7; 16] }
    }

    fn lent(&mut self) -> Lent<'_> {
        Lent { book: &mut self.book, out: &mut self.out, answer: &mut self.answer }
    }

    fn sent(&self) -> &[u8] {
        &self.out[..self.answer[0] as usize]
    }
}

#[test]
fn each_condition_of_section_3_is_told() {
    let malformed = |frame: &[u8]| parse(frame, false).unwrap_err();
    for (frame, why) in [
        (&[][..], Malformed::NoOctet),
        (&[0xC0, 0xAA], Malformed::OtherProtocol),
        (&[0x28, 0x0B], Malformed::HeaderCut),
        (&[0x64, 0x40], Malformed::NotSack),
        (&[0x40; 1522], Malformed::TooLong),
        (&[0x60, 0x43, 0], Malformed::InformationInS),
        (&[0x70, 0x06], Malformed::UnknownM),
        (&[0x70, 0x04, 0], Malformed::InformationWhereNone),
        (&[0x70, 0x0B, 0, 2, 0, 0], Malformed::Items),
        (&[0x78, 0x0A, 0x35, 1], Malformed::PortsInManagePort),
        (&[0x70, 0x0A, 8], Malformed::Action),
        (&[0x74, 0x0A, 1, 4], Malformed::Status),
        (&[0x70, 0x0A, 1, 0x35, 0], Malformed::BodyCut),
        (&[0x70, 0x0A, 3, 0x22], Malformed::OctetsLeft),
    ] {
        assert_eq!(malformed(frame), why, "{frame:02X?}");
    }
    assert_eq!(Row::all().len(), 33);
}

#[test]
fn what_was_read_is_written_with_its_spare_bits_cleared() {
    let frame = with_a(&[0x73, 0xAA, 0xF5, 0x35], &[0xFB]);
    let (mut words, mut out, mut answer) = ([0; 100], [0; 1523], [0; 16]);
    assert_eq!(read(&frame, 0, &mut words).number, 0);
    assert_eq!((words[13], words[15], words[16], words[17], words[18], words[19]), (5, 3, 5, 4, 20, 3));
    assert_eq!(write(&words, &frame, 0, &mut out, &mut answer).number, 0);
    assert_eq!(out[..25], with_a(&[0x70, 0x0A, 0x05, 0x35], &[3]));
    words[99] = 1;
    assert_eq!(write(&words, &frame, 0, &mut out, &mut answer).number, 16);
}

#[test]
fn a_part_of_a_frame_is_told() {
    let mut part = [9; 8];
    assert_eq!(take(&[0x4B, 0x35, 0xAA], 1, &mut part).number, 0);
    assert_eq!(part, [3, 2, 1, 1, 3, 5, 3, 0]);
}

#[test]
fn a_collision_of_two_reserves_is_answered_success_by_both() {
    let mut ue = Side::fresh(0, 0);
    assert_eq!(reserve(ue.lent(), 3, 5, 0, &A).row, Some(Row::Ours(1)));
    assert_eq!(ue.sent(), with_a(&[0x70, 0x0A, 0x01, 0x35], &[]));
    let kept = ue.book.clone();
    assert_eq!(again(&ue.book.clone(), &mut ue.out, &mut ue.answer).row, Some(Row::Ours(3)));
    assert_eq!(ue.book, kept);
    assert_eq!(receive(ue.lent(), &with_a(&[0x74, 0x0A, 1, 0x63], &[])).row, Some(Row::Peers(2)));
    assert_eq!(receive(ue.lent(), &with_a(&[0x74, 0x0A, 1, 0x53], &[])).row, Some(Row::Peers(5)));
    assert_eq!(ue.sent(), [0x74, 0x0A, 1, 0]);
    assert_eq!(receive(ue.lent(), &[0x70, 0x0A, 1, 0]).row, Some(Row::Peers(10)));
    assert_eq!(port(&ue.book.clone(), 3, &mut ue.out, &mut ue.answer).number, 0);
    assert_eq!(ue.answer, [20, 0, 0, 0, 3, 5, 0, 0, 0, 0, 0, 1, 0, 0, 0, 0]);
}

#[test]
fn an_octet_that_should_be_zero_makes_the_book_unusable() {
    for at in [0, 1, 2, 3, 277, 278, 279, 4417] {
        let mut ue = Side::fresh(1, 7);
        ue.book[at] ^= 0x80;
        assert_eq!(receive(ue.lent(), &[0x40]).number, 1, "{at}");
    }
}
