//! Each number of document 01, and that a refused call changes no buffer.

mod common;

use common::{initiator, responder, table, PEER, SETTINGS};
use wtp::{Name, Refused, Settings, Table, Taken};

/// The call is refused so, and leaves table, store, output and answer as they were.
fn refused(table: &mut Table, why: Refused, call: impl FnOnce(&mut Table) -> Result<Taken, Refused>) {
    let before = table.clone();
    assert_eq!(call(table), Err(why));
    assert!(*table == before, "{why}: a buffer changed");
}

/// A table with one live class 2 request, of TID 5, at the time 10.
fn with_request() -> Table {
    let mut reader = table(2);
    reader.request(10, PEER, 2, false, b"sampler").unwrap();
    reader
}

/// A table that was shown a class 2 Invoke, of TID 5, at the time 10.
fn with_invoke() -> Table {
    let mut gateway = table(2);
    gateway.receive(10, PEER, &[0x0E, 0x00, 0x05, 0x02]).unwrap();
    gateway.receive(10, PEER, &[0x1C, 0x00, 0x05]).unwrap();
    gateway
}

#[test]
fn number_1_sizes_and_damaged_tables() {
    for records in [0, 49, u64::MAX] {
        assert_eq!(Table::fresh(records, &SETTINGS, 5).err(), Some(Refused::WrongSize));
    }
    let whole = with_request();
    let (octets, store) = whole.octets();
    let mut damaged = Table::kept(vec![0xFF; octets.len()], store.to_vec());
    refused(&mut damaged, Refused::WrongSize, |t| t.timer(20));
    refused(&mut damaged, Refused::WrongSize, |t| t.request(20, PEER, 2, false, b"x"));
    refused(&mut damaged, Refused::WrongSize, |t| t.receive(20, PEER, &[0x16, 0x80, 0x05]));
    refused(&mut damaged, Refused::WrongSize, |t| t.fire(20, initiator(5)));
    assert_eq!(damaged.deadline(), Err(Refused::WrongSize));
    refused(&mut Table::kept(octets.to_vec(), vec![]), Refused::WrongSize, |t| t.timer(20));
    refused(&mut Table::kept(vec![], vec![]), Refused::WrongSize, |t| t.timer(20));
}

#[test]
fn one_damaged_octet_is_borne_or_refused() {
    let whole = with_request();
    let (octets, store) = whole.octets();
    let mut not_well_formed = 0;
    for at in 0..octets.len() {
        let mut octets = octets.to_vec();
        octets[at] ^= 0xFF;
        let mut damaged = Table::kept(octets, store.to_vec());
        let before = damaged.clone();
        let told = damaged.deadline();
        match damaged.timer(10) {
            Ok(_) => assert!(told.is_ok(), "octet {at}"),
            Err(why) => {
                // Of another refusal the octet was one of the clock's.
                assert!(matches!(why, Refused::WrongSize | Refused::WrongTime));
                assert_eq!(told.is_err(), why == Refused::WrongSize, "octet {at}");
                assert!(damaged == before, "octet {at}: a buffer changed");
                not_well_formed += usize::from(told.is_err());
            }
        }
    }
    assert!(not_well_formed > octets.len() / 4, "only {not_well_formed} of {} octets", octets.len());
}

#[test]
fn number_2_time() {
    let mut reader = with_request();
    refused(&mut reader, Refused::WrongTime, |t| t.timer(9));
    refused(&mut reader, Refused::WrongTime, |t| t.timer(1_000_000_000_001));
    refused(&mut reader, Refused::WrongTime, |t| t.fire(9, initiator(5)));
    reader.timer(10).unwrap();
}

#[test]
fn number_3_peer() {
    let mut reader = with_request();
    refused(&mut reader, Refused::PeerTooLarge, |t| t.fire(10, Name { peer: 256, ..initiator(5) }));
    refused(&mut reader, Refused::PeerTooLarge, |t| t.request(10, 256, 2, false, b""));
    refused(&mut reader, Refused::PeerTooLarge, |t| t.receive(10, u16::MAX, &[0x16, 0x80, 0x05]));
}

#[test]
fn number_4_length_of_data() {
    let mut reader = with_request();
    refused(&mut reader, Refused::TooLong, |t| t.request(10, PEER, 2, false, &[0; 1_025]));
    refused(&mut reader, Refused::TooLong, |t| t.answer(10, initiator(5), &[0; 129]));
    reader.request(10, PEER, 2, false, &[0; 1_024]).unwrap();
    let mut gateway = with_invoke();
    refused(&mut gateway, Refused::TooLong, |t| t.answer(10, responder(5), b"x"));
}

#[test]
fn number_5_class() {
    refused(&mut table(1), Refused::WrongClass, |t| t.request(0, PEER, 3, false, b""));
}

#[test]
fn number_6_tid_in_use() {
    let mut reader = with_request();
    for _ in 0..32_767 {
        reader.request(10, PEER, 0, false, b"").unwrap();
    }
    refused(&mut reader, Refused::TidInUse, |t| t.request(10, PEER, 0, false, b""));
}

#[test]
fn number_7_a_49th_record() {
    let mut reader = table(48);
    for tid in 5..53 {
        assert_eq!(reader.request(0, PEER, 1, false, b"").unwrap().tid, Some(tid));
    }
    refused(&mut reader, Refused::TableFull, |t| t.request(0, PEER, 1, false, b""));
    assert_eq!(reader.request(0, PEER, 0, false, b"").unwrap().tid, Some(53));
}

#[test]
fn number_8_no_record() {
    let mut reader = with_request();
    refused(&mut reader, Refused::NoRecord, |t| t.answer(10, initiator(6), b""));
    refused(&mut reader, Refused::NoRecord, |t| t.abort(10, responder(5), 1));
    refused(&mut reader, Refused::NoRecord, |t| t.fire(5_010, initiator(6)));
    refused(&mut reader, Refused::NoRecord, |t| t.fire(5_010, responder(5)));
    refused(&mut reader, Refused::NoRecord, |t| t.fire(5_010, initiator(0x8005)));
}

#[test]
fn number_9_state() {
    let mut reader = with_request();
    refused(&mut reader, Refused::NotAllowed, |t| t.answer(10, initiator(5), b""));
    refused(&mut reader, Refused::NotAllowed, |t| t.result(10, initiator(5), b""));
    let mut gateway = with_invoke();
    gateway.result(10, responder(5), b"").unwrap();
    refused(&mut gateway, Refused::NotAllowed, |t| t.result(10, responder(5), b""));
}

#[test]
fn number_9_not_due() {
    let mut reader = with_request();
    refused(&mut reader, Refused::NotAllowed, |t| t.fire(5_009, initiator(5)));
    reader.receive(20, PEER, &[0x18, 0x80, 0x05]).unwrap();
    assert_eq!(reader.deadline(), Ok(None), "held on");
    refused(&mut reader, Refused::NotAllowed, |t| t.fire(1_000_000_000_000, initiator(5)));
}

#[test]
fn number_10_settings() {
    let limited = |limit| Settings { waiting_limit: Some(limit), ..SETTINGS };
    let wrong =
        [Settings { rcr_max: 9, ..SETTINGS }, Settings { w: 0, ..SETTINGS }, Settings { a: 86_400_001, ..SETTINGS }, limited(0)];
    for settings in wrong.iter().chain(&[limited(86_400_001), limited(u64::MAX)]) {
        assert_eq!(Table::fresh(1, settings, 5).err(), Some(Refused::WrongSetting), "{settings:?}");
    }
    assert!([1, 86_400_000].iter().all(|limit| Table::fresh(1, &limited(*limit), 5).is_ok()));
    assert_eq!(Table::fresh(1, &SETTINGS, 32_768).err(), Some(Refused::WrongSetting));
}

#[test]
fn number_11_length_of_a_pdu() {
    let mut reader = with_request();
    refused(&mut reader, Refused::WrongLength, |t| t.receive(10, PEER, &[]));
    refused(&mut reader, Refused::WrongLength, |t| t.receive(10, PEER, &[0; 1_501]));
    reader.receive(10, PEER, &[0; 1_500]).unwrap();
}

#[test]
fn a_refusal_says_its_number_in_words() {
    assert_eq!(Refused::TableFull.to_string(), "no record is free (number 7)");
    assert_eq!(Refused::Unknown(12).to_string(), "refused with the number 12");
    assert_eq!((Refused::WrongLength.number(), Refused::BytesLeft.number()), (11, 107));
}
