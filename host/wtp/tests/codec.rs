//! The bench cases of document 01, over the wrapper.

use wtp::codec::{join, read, read_part, separate, unknown, word, write};
use wtp::{Refused, Unknown};

#[test]
fn what_is_read_is_written_again() {
    let ack = [0x98, 0x00, 0x05, 0x0A, 0xAA, 0xBB];
    let fields = read(&ack).unwrap();
    assert_eq!((fields[word::TYPE], fields[word::TID], fields[word::ITEMS]), (3, 5, 1));
    assert_eq!(fields[word::ITEM..word::ITEM + 4], [1, 0, 4, 2]);
    assert_eq!(write(&fields, &ack).unwrap(), ack);
}

#[test]
fn the_first_unknown_item_is_told_and_written_again() {
    let invoke = [0x8E, 0, 0x40, 0x11, 0x91, 9, 0x9A, 1, 2, 0xF9, 2, 0x30, 0xEE];
    let fields = read(&invoke).unwrap();
    assert_eq!(unknown(&fields), Some(Unknown { identity: 15, place: 9 }));
    assert_eq!(write(&fields, &invoke).unwrap(), invoke);
    assert_eq!(unknown(&read(&[0x98, 0, 5, 0x81, 0x1F, 0x28]).unwrap()), None);
}

#[test]
fn user_data_may_be_empty() {
    let fields = read(&[0x16, 0x80, 0x05]).unwrap();
    assert_eq!((fields[word::TYPE], fields[word::TID]), (2, 0x8005));
    assert_eq!((fields[word::USER_START], fields[word::USER_LENGTH]), (3, 0));
}

#[test]
fn malformed_pdus_have_their_numbers() {
    let items = [[0x96, 0x80, 0x05].as_slice(), &[0x80; 16]].concat();
    let cases: [(&[u8], Refused, u64); 8] = [
        (&[], Refused::WrongLength, 11),
        (&[0x0E, 0x00, 0x05], Refused::CutShort, 101),
        (&[0x00], Refused::WrongType, 102),
        (&[0x96, 0x80, 0x05, 0x0A, 0xAA], Refused::ItemPastEnd, 103),
        (&items, Refused::TooManyItems, 104),
        (&[0x0E, 0x00, 0x05, 0x03], Refused::ClassThree, 105),
        (&[0x22, 0x00, 0x05, 0x01], Refused::WrongAbortType, 106),
        (&[0x18, 0x80, 0x05, 0x00], Refused::BytesLeft, 107),
    ];
    for (pdu, why, number) in cases {
        assert_eq!(read(pdu), Err(why));
        assert_eq!(why.number(), number);
    }
}

#[test]
fn datagrams_are_separated_and_joined() {
    let datagram = [0x00, 0x03, 0x18, 0x80, 0x05, 0x04, 0x20, 0x80, 0x06, 0x08];
    let pdus = separate(&datagram).unwrap();
    assert_eq!(pdus, [&[0x18, 0x80, 0x05][..], &[0x20, 0x80, 0x06, 0x08]]);
    assert_eq!(join(&pdus).unwrap(), datagram);
    assert_eq!(separate(&[0x16, 0x80, 0x05]).unwrap(), [&[0x16, 0x80, 0x05]]);
}

#[test]
fn a_part_is_read_as_the_pdu_that_it_is() {
    let datagram = [0x00, 0x03, 0x18, 0x80, 0x05, 0x04, 0x20, 0x80, 0x06, 0x08];
    assert_eq!(read_part(&datagram, 0), read(&[0x18, 0x80, 0x05]));
    assert_eq!(read_part(&datagram, 1), read(&[0x20, 0x80, 0x06, 0x08]));
    assert_eq!(read_part(&datagram, 2), Err(Refused::WrongLength));
    assert_eq!(read_part(&[0x00, 0x01, 0x18], 0), read(&[0x18]));
    assert_eq!(read_part(&[0x00, 0x00], 0), Err(Refused::WrongLength));
}

#[test]
fn what_cannot_be_separated_or_joined_is_number_11() {
    assert_eq!(separate(&[0x00, 0x00]), Err(Refused::WrongLength));
    assert_eq!(separate(&[]), Err(Refused::WrongLength));
    assert_eq!(join(&[]), Err(Refused::WrongLength));
    assert_eq!(join(&[&[]]), Err(Refused::WrongLength));
    assert_eq!(join(&[&[1; 1_500]]), Err(Refused::WrongLength));
}
