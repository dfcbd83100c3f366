//! Captures that are made here, whole, cut and damaged.

use super::*;

const PAYLOAD: [u8; 4] = [0x0E, 0x00, 0x05, 0x02];

fn udp_of(payload: &[u8]) -> Vec<u8> {
    let length = (payload.len() as u16 + 8).to_be_bytes();
    [&[0x23, 0xF1, 0x9C, 0x40][..], &length, &[0, 0], payload].concat()
}

fn ipv4_with(options: &[u8], fragment: [u8; 2], inside: &[u8]) -> Vec<u8> {
    let header = 20 + options.len();
    let length = ((header + inside.len()) as u16).to_be_bytes();
    let start = [0x40 | (header / 4) as u8, 0, length[0], length[1], 0, 0, fragment[0], fragment[1], 64, 17, 0, 0];
    [&start[..], &[127, 0, 0, 1, 127, 0, 0, 2], options, inside].concat()
}

fn ipv4() -> Vec<u8> {
    ipv4_with(&[], [0x40, 0], &udp_of(&PAYLOAD))
}

fn ipv6_with(next: u8, inside: &[u8]) -> Vec<u8> {
    let length = (inside.len() as u16).to_be_bytes();
    let address = [0, 0, 0, 0, 0, 0, 0, 0, 0, 0, 0, 0, 0, 0, 0, 1];
    [&[0x60, 0, 0, 0, length[0], length[1], next, 64][..], &address, &address, inside].concat()
}

fn ethernet(kind: &[u8], packet: &[u8]) -> Vec<u8> {
    [&[2; 12], kind, packet].concat()
}

/// A number of the file, in its byte order.
fn word(value: u32, order: octets::Order) -> [u8; 4] {
    match order {
        octets::Order::High => value.to_be_bytes(),
        octets::Order::Low => value.to_le_bytes(),
    }
}

fn half(value: u16, order: octets::Order) -> [u8; 2] {
    match order {
        octets::Order::High => value.to_be_bytes(),
        octets::Order::Low => value.to_le_bytes(),
    }
}

const ORDERS: [octets::Order; 2] = [octets::Order::High, octets::Order::Low];

fn pcap(magic: u32, order: octets::Order, link: u32, frame: &[u8], length: u32) -> Vec<u8> {
    let w = |value| word(value, order);
    let header = [w(magic), w(0x0002_0004), w(0), w(0), w(65_535), w(link)].concat();
    let record = [w(3), w(5_000), w(frame.len() as u32), w(length)].concat();
    [header, record, frame.to_vec()].concat()
}

fn block(kind: u32, order: octets::Order, body: &[u8]) -> Vec<u8> {
    let filled = [body, &vec![0; (4 - body.len() % 4) % 4]].concat();
    let length = word(filled.len() as u32 + 12, order);
    [&word(kind, order)[..], &length, &filled, &length].concat()
}

/// A section with one interface, whose time counts nanoseconds, and the frame in an enhanced and in a simple block.
fn pcapng(order: octets::Order, frame: &[u8]) -> Vec<u8> {
    let (w, h) = (|value| word(value, order), |value| half(value, order));
    let section = [&w(0x1A2B_3C4D)[..], &h(1), &h(0), &[0xFF; 8]].concat();
    let options = [&h(2)[..], &h(2), b"lo\0\0", &h(9), &h(1), &[9, 0, 0, 0], &h(0), &h(0)].concat();
    let interface = [&h(1)[..], &h(0), &w(0), &options].concat();
    let length = w(frame.len() as u32);
    let enhanced = [&w(0)[..], &w(1), &w(7), &length, &length, frame].concat();
    let simple = [&length[..], frame].concat();
    let name_resolution = block(4, order, &[0; 4]);
    let blocks = [block(0x0A0D_0D0A, order, &section), block(1, order, &interface), name_resolution];
    [blocks.concat(), block(6, order, &enhanced), block(3, order, &simple)].concat()
}

fn only(link: u32, frame: &[u8]) -> Entry {
    let content = pcap(0xA1B2_C3D4, octets::Order::Low, link, frame, frame.len() as u32);
    let (mut entries, broken) = entries(&content, &[]);
    assert_eq!((entries.len(), broken), (1, None));
    entries.pop().unwrap()
}

fn payload(entry: &Entry) -> Option<&[u8]> {
    match entry {
        Entry::Datagram(datagram) => Some(&datagram.octets),
        Entry::Passed { .. } => None,
    }
}

fn why(entry: &Entry) -> Option<Passed> {
    match entry {
        Entry::Datagram(_) => None,
        Entry::Passed { why, .. } => Some(why.clone()),
    }
}

/// How the whole program ends on this content.
fn program_status(content: &[u8]) -> u8 {
    crate::run(["-".into()].into_iter(), &mut &*content, &mut std::io::sink(), &mut std::io::sink())
}

#[test]
fn both_byte_orders_and_both_units_of_time_are_read() {
    let frame = ethernet(&[8, 0], &ipv4());
    for order in ORDERS {
        for (magic, time) in [(0xA1B2_C3D4, 3_005_000_000), (0xA1B2_3C4D, 3_000_005_000)] {
            let content = pcap(magic, order, 1, &frame, frame.len() as u32);
            let ends = ("127.0.0.1:9201".parse().unwrap(), "127.0.0.2:40000".parse().unwrap());
            let expected = Datagram { number: 1, time: Some(time), ends: Some(ends), octets: PAYLOAD.to_vec() };
            assert_eq!(entries(&content, &[]), (vec![Entry::Datagram(expected)], None));
        }
    }
}

#[test]
fn enhanced_and_simple_blocks_are_read_in_both_byte_orders() {
    for order in ORDERS {
        let (entries, broken) = entries(&pcapng(order, &ethernet(&[8, 0], &ipv4())), &[]);
        assert_eq!(broken, None);
        let times = entries.iter().map(|entry| match entry {
            Entry::Datagram(datagram) => datagram.time,
            Entry::Passed { .. } => Some(0),
        });
        assert_eq!(times.collect::<Vec<_>>(), [Some((1 << 32) + 7), None]);
        assert!(entries.iter().all(|entry| payload(entry) == Some(&PAYLOAD)));
    }
}

#[test]
fn a_frame_of_an_interface_that_is_not_described_is_named() {
    let order = octets::Order::Low;
    let mut content = pcapng(order, &ethernet(&[8, 0], &ipv4()));
    // The interface's block follows the section's, which has 28 octets.
    let length = octets::u32_at(&content, 32, order).unwrap();
    content.drain(28..28 + length as usize);
    let found = entries(&content, &[]).0;
    assert_eq!(found.iter().map(why).collect::<Vec<_>>(), [Some(Passed::NoInterface), Some(Passed::NoInterface)]);
}

#[test]
fn every_link_header_is_passed_over() {
    let cooked = |header: usize, at: usize| {
        let mut frame = vec![0; header];
        frame[at] = 8;
        [frame, ipv4()].concat()
    };
    let frames = [
        (1, ethernet(&[8, 0], &ipv4())),
        (1, ethernet(&[0x81, 0, 0, 7, 8, 0], &ipv4())),
        (1, ethernet(&[0x88, 0xA8, 0, 7, 0x81, 0, 0, 7, 8, 0], &ipv4())),
        (1, [ethernet(&[8, 0], &ipv4()), vec![0; 14]].concat()),
        (101, ipv4()),
        (228, ipv4()),
        (113, cooked(16, 14)),
        (276, cooked(20, 0)),
        (0, [vec![2, 0, 0, 0], ipv4()].concat()),
        (0, [vec![0, 0, 0, 2], ipv4()].concat()),
        (108, [vec![0, 0, 0, 24], ipv6_with(17, &udp_of(&PAYLOAD))].concat()),
        (229, ipv6_with(17, &udp_of(&PAYLOAD))),
    ];
    for (link, frame) in frames {
        assert_eq!(payload(&only(link, &frame)), Some(&PAYLOAD[..]), "{link} {frame:02X?}");
    }
    assert_eq!(why(&only(147, &ipv4())), Some(Passed::LinkType(147)));
    assert_eq!(why(&only(1, &ethernet(&[8, 6], &[0; 28]))), Some(Passed::Other));
}

#[test]
fn options_and_extension_headers_are_passed_over() {
    let udp = udp_of(&PAYLOAD);
    assert_eq!(payload(&only(101, &ipv4_with(&[1; 8], [0, 0], &udp))), Some(&PAYLOAD[..]));
    let hop_by_hop = [&[60, 0, 1, 4, 0, 0, 0, 0][..], &[17, 1], &[0; 14], &udp].concat();
    assert_eq!(payload(&only(101, &ipv6_with(0, &hop_by_hop))), Some(&PAYLOAD[..]));
    let whole = [&[17, 0, 0, 0, 0, 0, 0, 9][..], &udp].concat();
    assert_eq!(payload(&only(101, &ipv6_with(44, &whole))), Some(&PAYLOAD[..]));
    let authenticated = [&[17, 1, 0, 0][..], &[0; 8], &udp].concat();
    assert_eq!(payload(&only(101, &ipv6_with(51, &authenticated))), Some(&PAYLOAD[..]));
}

#[test]
fn fragments_are_named() {
    let udp = udp_of(&PAYLOAD);
    for fragment in [[0x20, 0], [0, 1], [0x1F, 0xFF]] {
        assert_eq!(why(&only(101, &ipv4_with(&[], fragment, &udp))), Some(Passed::Fragment));
    }
    for fragment in [[0, 1], [0, 8], [1, 0]] {
        let part = [&[17, 0][..], &fragment, &[0, 0, 0, 9], &udp].concat();
        assert_eq!(why(&only(101, &ipv6_with(44, &part))), Some(Passed::Fragment));
    }
}

#[test]
fn only_the_ports_that_were_asked_for_are_shown() {
    let frame = ethernet(&[8, 0], &ipv4());
    let content = pcap(0xA1B2_C3D4, octets::Order::High, 1, &frame, frame.len() as u32);
    for (ports, shown) in [(&[][..], true), (&[9201][..], true), (&[1, 40_000], true), (&[9200], false)] {
        assert_eq!(payload(&entries(&content, ports).0[0]).is_some(), shown);
    }
}

#[test]
fn a_frame_that_the_capture_cut_is_not_judged() {
    let frame = ethernet(&[8, 0], &ipv4());
    for kept in 0..frame.len() {
        let content = pcap(0xA1B2_C3D4, octets::Order::Low, 1, &frame[..kept], frame.len() as u32);
        let expected = Passed::CutShort { kept: kept as u64, length: frame.len() as u64 };
        assert_eq!(why(&entries(&content, &[]).0[0]), Some(expected));
    }
}

#[test]
fn a_header_that_does_not_fit_is_named() {
    let mut short = udp_of(&PAYLOAD);
    short[5] = 7;
    assert_eq!(why(&only(101, &ipv4_with(&[], [0, 0], &short))), Some(Passed::Damaged("UDP")));
    let mut long = ipv4();
    long[3] += 1;
    assert_eq!(why(&only(101, &long)), Some(Passed::Damaged("IPv4")));
    assert_eq!(why(&only(101, &[0x20; 40])), Some(Passed::Damaged("IP")));
}

#[test]
fn a_capture_is_read_up_to_where_it_is_cut() {
    let frame = ethernet(&[8, 0], &ipv4());
    for content in [
        pcap(0xA1B2_C3D4, octets::Order::Low, 1, &frame, frame.len() as u32),
        pcapng(octets::Order::Low, &frame),
        pcapng(octets::Order::High, &frame),
    ] {
        let whole = entries(&content, &[]).0;
        for kept in 4..content.len() {
            let (found, _) = entries(&content[..kept], &[]);
            assert!(whole.starts_with(&found) && found.len() < whole.len());
            assert!(program_status(&content[..kept]) <= 1);
        }
    }
}

#[test]
fn no_octet_that_is_changed_makes_the_reader_fall() {
    let frame =
        ethernet(&[0x81, 0, 0, 7, 0x86, 0xDD], &ipv6_with(0, &[&[17, 0, 1, 4, 0, 0, 0, 0][..], &udp_of(&PAYLOAD)].concat()));
    for content in [
        pcap(0xA1B2_C3D4, octets::Order::Low, 1, &frame, frame.len() as u32),
        pcapng(octets::Order::Low, &frame),
        pcapng(octets::Order::High, &frame),
    ] {
        for at in 4..content.len() {
            for value in [0, 1, 0x80, 0xFF] {
                let mut changed = content.clone();
                changed[at] = value;
                assert!(program_status(&changed) <= 1);
            }
        }
    }
}
