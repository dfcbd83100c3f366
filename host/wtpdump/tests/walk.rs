//! The walk and the library say the same of every PDU and every datagram.

use kit::Random;
use wtp::codec::{read, separate};
use wtp::Refused;
use wtpdump::{fault, unseparated, Fault};

/// A PDU that is often well formed: a header, up to 18 items, some octets; then perhaps cut.
fn made(random: &mut Random) -> Vec<u8> {
    let items = if random.below(2) == 0 { 0 } else { random.below(18) };
    let kind = random.below(9) as u8;
    let first = kind << 3 | random.below(8) as u8 | if items > 0 { 0x80 } else { 0 };
    let mut pdu = vec![first, random.octet(), random.octet()];
    if !matches!(kind, 2 | 3) {
        pdu.push(random.below(8) as u8);
    }
    if kind == 7 {
        let count = usize::from(pdu[3]);
        pdu.extend(random.octets(count));
    }
    for left in (0..items).rev() {
        pdu.extend(item(random, left > 0));
    }
    let rest = random.place(3);
    pdu.extend(random.octets(rest));
    let kept = if random.below(3) == 0 { random.place(pdu.len() + 1) } else { pdu.len() };
    pdu.truncate(kept);
    pdu
}

fn item(random: &mut Random, more: bool) -> Vec<u8> {
    let con = if more { 0x80 } else { 0 };
    let identity = (random.below(16) as u8) << 3;
    let length = random.place(4);
    let head = if random.below(2) == 0 { vec![con | identity | length as u8] } else { vec![con | identity | 4, length as u8] };
    [head, random.octets(length)].concat()
}

fn agrees(pdu: &[u8]) -> Result<(), Refused> {
    let said = read(pdu).map(|_| ());
    assert_eq!(fault(pdu).map(|fault| fault.refused), said.err(), "{pdu:02X?}");
    if let Some(Fault { at, .. }) = fault(pdu) {
        assert!(at <= pdu.len());
    }
    said
}

#[test]
fn the_walk_finds_the_librarys_d_in_every_made_pdu() {
    let mut random = Random::new(1);
    let mut seen = std::collections::BTreeMap::new();
    for _ in 0..12_000 {
        let said = agrees(&made(&mut random)).map_or_else(Refused::number, |()| 0);
        *seen.entry(said).or_insert(0) += 1;
    }
    let numbers: Vec<u64> = seen.keys().copied().collect();
    assert_eq!(numbers, [0, 11, 101, 102, 103, 104, 105, 106, 107], "{seen:?}");
}

#[test]
fn the_walk_finds_the_librarys_d_in_noise_of_every_length() {
    let mut random = Random::new(2);
    for length in (0..200).chain([1_499, 1_500, 1_501]) {
        for _ in 0..40 {
            agrees(&random.octets(length)).ok();
        }
    }
}

#[test]
fn the_place_is_where_the_rule_fails() {
    let sixteen = [[0x96, 0x80, 0x05].as_slice(), &[0x80; 16]].concat();
    let cases: [(&[u8], Refused, usize); 11] = [
        (&[], Refused::WrongLength, 0),
        (&[0; 1_501], Refused::WrongLength, 1_500),
        (&[0x00], Refused::WrongType, 0),
        (&[0x0E, 0x00, 0x05], Refused::CutShort, 3),
        (&[0x38, 0x00, 0x05, 0x02, 0x01], Refused::CutShort, 5),
        (&[0x0E, 0x00, 0x05, 0x03], Refused::ClassThree, 3),
        (&[0x22, 0x00, 0x05, 0x01], Refused::WrongAbortType, 0),
        (&[0x96, 0x80, 0x05, 0x88, 0x0A, 0xAA], Refused::ItemPastEnd, 4),
        (&[0x96, 0x80, 0x05], Refused::ItemPastEnd, 3),
        (&sixteen, Refused::TooManyItems, 18),
        (&[0x98, 0x80, 0x05, 0x09, 0xAA, 0x00], Refused::BytesLeft, 5),
    ];
    for (pdu, refused, at) in cases {
        assert_eq!(fault(pdu), Some(Fault { refused, at }), "{pdu:02X?}");
        assert_eq!(read(pdu).err(), Some(refused));
    }
}

#[test]
fn a_place_is_given_for_just_those_datagrams_that_the_library_cannot_separate() {
    let mut random = Random::new(3);
    let mut seen = [0; 2];
    for _ in 0..6_000 {
        let mut datagram = vec![0];
        for _ in 0..random.below(4) {
            let length = random.place(5);
            let head = if random.below(2) == 0 { vec![length as u8] } else { vec![0x80, length as u8] };
            datagram.extend(head);
            datagram.extend(random.octets(length));
        }
        let kept = datagram.len() - usize::from(random.below(4) == 0 && datagram.len() > 1);
        let datagram = &datagram[..kept];
        let refused = separate(datagram).is_err();
        assert_eq!(unseparated(datagram).is_some(), refused, "{datagram:02X?}");
        seen[usize::from(refused)] += 1;
    }
    assert!(seen.iter().all(|count| *count > 500), "{seen:?}");
}

#[test]
fn a_datagram_that_cannot_be_separated_has_a_place() {
    let cases: [(&[u8], Option<usize>); 8] = [
        (&[], Some(0)),
        (&[0x18; 1_501], Some(1_500)),
        (&[0x00], Some(1)),
        (&[0x00, 0x00], Some(1)),
        (&[0x00, 0x01, 0x18, 0x02, 0x18], Some(3)),
        (&[0x00, 0x01, 0x18, 0x80], Some(3)),
        (&[0x00, 0x01, 0x18], None),
        (&[0x18, 0x80, 0x05], None),
    ];
    for (datagram, at) in cases {
        assert_eq!(unseparated(datagram), at, "{datagram:02X?}");
        assert_eq!(separate(datagram).is_err(), at.is_some());
    }
}
