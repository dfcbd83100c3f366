//! Frames typed: what is read, and that it is written as it was read.

use rds::{
    put, read, take, write, Asked, Command, Content, Entry, Frame, Kind, List, Ports, Refused, Response, Side, Status, Taken,
    Told,
};

const A: &[u8; 20] = b"\x00\x11\x22\x33\x44\x55\x66\x77\x88\x99\xAA\xBB\xCC\xDD\xEE\xFF\x03wtp";

fn ports(source: u8, destination: u8) -> Ports {
    Ports { source, destination }
}

fn asked(source: u8, destination: u8) -> Asked<'static> {
    Asked { ports: ports(source, destination), application: A }
}

/// Every case that a frame can be, with its octets; spare bits are 0.
fn frames() -> Vec<(Side, Vec<u8>, Frame<'static>)> {
    let told = Told { ask: true, nr: 7, r: 1 };
    let list = |with_formats| List {
        with_formats,
        entries: vec![Entry { asked: asked(5, 3), format: if with_formats { 4 } else { 0 } }],
        not_available: Some(32_768),
    };
    let plain = |content| Frame { ports: None, content };
    let from_ue = [
        (vec![0x4B, 0x35, 0xAA], Frame { ports: Some(ports(3, 5)), content: Content::Ui { number: 3, information: &[0xAA] } }),
        (vec![0x22, 0xE7], plain(Content::I { told, ns: 2, information: &[] })),
        (vec![0x64, 0xE7], plain(Content::S(told))),
        (vec![0x70, 0x01], plain(Content::Command(Command::Error))),
        (vec![0x70, 0x04], plain(Content::Command(Command::Disconnect))),
        (vec![0x70, 0x07, 9], plain(Content::Command(Command::SetAckMode(&[9])))),
        (vec![0x70, 0x0B, 0, 1, 0], plain(Content::Command(Command::SetParameters(&[0, 1, 0])))),
        ([&[0x70, 0x0A, 1, 0x35], &A[..]].concat(), plain(Content::Command(Command::Reserve(asked(3, 5))))),
        ([&[0x70, 0x0A, 2, 0x35], &A[..]].concat(), plain(Content::Command(Command::Release(asked(3, 5))))),
        ([&[0x70, 0x0A, 5, 0x35], &A[..], &[3]].concat(), plain(Content::Command(Command::ReserveWithFormat(asked(3, 5), 3)))),
        (vec![0x70, 0x0A, 3], plain(Content::Command(Command::Query { with_formats: false, requested: None }))),
        (
            vec![0x70, 0x0A, 6, 0x22, 0x80],
            plain(Content::Command(Command::Query { with_formats: true, requested: Some(32_802) })),
        ),
        ([&[0x70, 0x0A, 0x14, 0x53], &A[..], &[0, 0x80]].concat(), plain(Content::Command(Command::Notify(list(false))))),
        ([&[0x70, 0x0A, 0x17, 0x53], &A[..], &[4, 0, 0x80]].concat(), plain(Content::Command(Command::Notify(list(true))))),
    ];
    let from_network = [
        (vec![0x70, 0x01], plain(Content::Response(Response::Error))),
        (vec![0x70, 0x06, 1, 2], plain(Content::Response(Response::Accept(&[1, 2])))),
        (vec![0x70, 0x0B, 7, 0], plain(Content::Response(Response::SetParameters(&[7, 0])))),
        (vec![0x70, 0x0A, 1, 1], plain(Content::Response(Response::Reserve(Status::NotFree)))),
        (vec![0x70, 0x0A, 5, 4, 3], plain(Content::Response(Response::ReserveWithFormat(4, Status::FormatNotSupported)))),
        (vec![0x70, 0x0A, 2, 2], plain(Content::Response(Response::Release(Status::NotAssociated)))),
        ([&[0x70, 0x0A, 0x13, 0x53], &A[..], &[0, 0x80]].concat(), plain(Content::Response(Response::Query(list(false))))),
        ([&[0x70, 0x0A, 0x16, 0x53], &A[..], &[4, 0, 0x80]].concat(), plain(Content::Response(Response::Query(list(true))))),
    ];
    let of = |side| move |(octets, frame)| (side, octets, frame);
    from_ue.into_iter().map(of(Side::Ue)).chain(from_network.into_iter().map(of(Side::Network))).collect()
}

#[test]
fn every_case_is_read_and_written_as_it_was_read() {
    for (side, octets, frame) in frames() {
        assert_eq!(read(&octets, side).as_ref(), Ok(&frame));
        assert_eq!(write(&frame, side), Ok(octets));
    }
}

#[test]
fn what_no_frame_is_is_refused() {
    let ui = |number| Frame { ports: None, content: Content::Ui { number, information: &[] } };
    assert_eq!(write(&ui(7), Side::Ue), Ok(vec![0x47]));
    assert_eq!(write(&ui(8), Side::Ue), Err(Refused::Malformed));
    let short = Asked { application: &A[..19], ..asked(3, 5) };
    let reserve = |asked| Frame { ports: None, content: Content::Command(Command::Reserve(asked)) };
    assert_eq!(write(&reserve(short), Side::Ue), Err(Refused::Malformed));
    assert_eq!(write(&Frame { ports: Some(ports(1, 2)), ..reserve(asked(3, 5)) }, Side::Ue), Err(Refused::Malformed));
    let list =
        |count| List { with_formats: false, entries: vec![Entry { asked: asked(1, 2), format: 0 }; count], not_available: None };
    let notify = |count| Frame { ports: None, content: Content::Command(Command::Notify(list(count))) };
    assert_eq!(write(&notify(15), Side::Ue).map(|octets| octets.len()), Ok(3 + 15 * 21));
    assert_eq!(write(&notify(16), Side::Ue), Err(Refused::Malformed));
    assert_eq!(write(&notify(40), Side::Ue), Err(Refused::Malformed));
}

#[test]
fn what_is_put_is_taken() {
    let put = put(&[0x0E, 0, 5, 2], Some(ports(3, 5)), 7).unwrap();
    assert_eq!((&put.frame[..], put.next), (&[0x4F, 0x35, 0x0E, 0, 5, 2][..], 0));
    let taken = Taken { kind: Kind::Ui, datagram: &[0x0E, 0, 5, 2], ports: Some(ports(3, 5)), number: 7 };
    assert_eq!(take(&put.frame, Side::Network), Ok(taken));
    assert_eq!(rds::put(&[], None, 0), Err(Refused::WrongLength));
    assert_eq!(rds::put(&[1], None, 8), Err(Refused::WrongValue));
    assert_eq!(take(&[0xC0], Side::Ue), Err(Refused::Malformed));
}
