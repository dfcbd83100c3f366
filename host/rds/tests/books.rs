//! A book of the UE and one of the network, and what each tells.

use rds::{Book, Event, Kept, Managed, Outstanding, Received, Refused, Side, Status, Whom};

const A: &[u8; 20] = b"\x00\x11\x22\x33\x44\x55\x66\x77\x88\x99\xAA\xBB\xCC\xDD\xEE\xFF\x03wtp";

fn managed(action: u8, own: u8, peers: u8, changed: bool) -> Managed {
    Managed { action, own, peers, format: 0, changed }
}

#[test]
fn a_port_is_reserved_and_released_between_two_books() {
    let (mut ue, mut network) = (Book::fresh(Side::Ue, 0).unwrap(), Book::fresh(Side::Network, 0).unwrap());
    let frame = ue.reserve(3, 5, false, A).unwrap();
    let outstanding = Outstanding { action: 1, own: 3, peers: 5, application: A.to_vec(), formats: 0 };
    assert_eq!((ue.outstanding(), ue.port(3)), (Ok(Some(outstanding)), Ok(None)));
    assert_eq!(ue.again(), Ok(frame.clone()));
    let answered = network.receive(&frame).unwrap();
    let event = Event::Answered { managed: managed(1, 5, 3, true), status: Status::Success, application: A.to_vec() };
    assert_eq!(answered.event, event);
    let settled = Event::Settled { managed: managed(1, 3, 5, true), status: Some(Status::Success) };
    assert_eq!(ue.receive(&answered.sent.unwrap()), Ok(Received { sent: None, event: settled }));
    let kept = |whom, peers| Ok(Some(Kept { whom, peers, application: A.to_vec(), format: 0 }));
    assert_eq!((ue.port(3), network.port(5)), (kept(Whom::Us, 5), kept(Whom::Peer, 3)));
    let released = network.receive(&ue.release(3).unwrap()).unwrap();
    assert_eq!((network.port(5), ue.outstanding().map(|command| command.is_some())), (Ok(None), Ok(true)));
    assert_eq!(ue.receive(&released.sent.unwrap()).unwrap().sent, None);
    assert_eq!((ue.port(3), ue.outstanding(), ue.port(0)), (Ok(None), Ok(None), Ok(None)));
}

#[test]
fn an_error_settles_a_command_and_a_command_that_is_not_built_is_answered() {
    let mut ue = Book::fresh(Side::Ue, 0).unwrap();
    ue.reserve(3, 5, false, A).unwrap();
    let settled = Event::Settled { managed: managed(1, 3, 5, false), status: None };
    assert_eq!(ue.receive(&[0x70, 0x01]), Ok(Received { sent: None, event: settled }));
    let query = Received { sent: Some(vec![0x74, 0x01]), event: Event::NotBuilt { m: 10, action: Some(3) } };
    assert_eq!(ue.receive(&[0x74, 0x0A, 3]), Ok(query));
    let mode = Received { sent: Some(vec![0x7C, 0x01, 0x42]), event: Event::NotBuilt { m: 7, action: None } };
    assert_eq!(ue.receive(&[0x7C, 0x07, 0x24]), Ok(mode));
    assert_eq!(ue.receive(&[0x40]), Ok(Received { sent: None, event: Event::Nothing }));
}

#[test]
fn each_refusal_has_its_case_and_changes_nothing() {
    let mut ue = Book::fresh(Side::Ue, 0).unwrap();
    let before = ue.clone();
    assert_eq!(Book::fresh(Side::Ue, 8), Err(Refused::WrongValue));
    assert_eq!(
        (ue.release(3), ue.again(), ue.abandon()),
        (Err(Refused::NothingKept), Err(Refused::NothingKept), Err(Refused::NothingKept))
    );
    assert_eq!(ue.reserve(3, 5, true, A), Err(Refused::NotNow));
    assert_eq!(ue.reserve(0, 5, false, A), Err(Refused::WrongValue));
    assert_eq!(ue.reserve(3, 5, false, &A[..19]), Err(Refused::WrongLength));
    assert_eq!(ue.receive(&[0xC0]), Err(Refused::Malformed));
    assert_eq!(ue.port(16), Err(Refused::WrongValue));
    assert_eq!(ue, before);
    for octets in [vec![], vec![0xFF; 4_418]] {
        let mut damaged = Book::kept(octets);
        assert_eq!((damaged.receive(&[0x40]), damaged.abandon()), (Err(Refused::WrongSize), Err(Refused::WrongSize)));
    }
}
