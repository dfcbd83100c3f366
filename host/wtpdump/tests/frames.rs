//! The lines for frames of the Reliable Data Service.

use std::ffi::OsString;

const A: &str = "00112233445566778899AABBCCDDEEFF03777470";
const A_SHOWN: &str =
    "Application ID 20 octets: 00 11 22 33 44 55 66 77 88 99 AA BB CC DD EE FF 03 77 74 70 \"...3DUfw.........wtp\"";

fn run(arguments: &[&str], input: &[u8]) -> (u8, String) {
    let (mut out, mut errors) = (Vec::new(), Vec::new());
    let arguments = std::iter::once("--rds").chain(arguments.iter().copied()).map(OsString::from);
    let status = wtpdump::run(arguments, &mut &*input, &mut out, &mut errors);
    assert!(errors.is_empty(), "{}", String::from_utf8_lossy(&errors));
    (status, String::from_utf8(out).unwrap())
}

/// The words of the first line for one frame.
fn words(by: &str, hex: &str) -> String {
    let (status, out) = run(&["--sent-by", by, hex], &[]);
    assert_eq!(status, 0);
    let side = if by == "ue" { "the UE" } else { "the network" };
    let head = format!("#1: frame of {} octets from {side}: ", hex.len() / 2);
    out.lines().next().unwrap().strip_prefix(&head).unwrap_or_else(|| panic!("{out}")).to_string()
}

#[test]
fn every_frame_has_its_words() {
    for (by, hex, expected) in [
        ("ue", "4B35AA", "UI, N(U) 3, a datagram of 1 octet, ports 3 to 5"),
        ("ue", "220BAA", "I, N(S) 2, A 1, N(R) 0, R 2, a datagram of 1 octet"),
        ("network", "6FE751", "S, A 1, N(R) 7, R 1, ports 5 to 1"),
        ("ue", "7004", "DISCONNECT command"),
        ("network", "7001", "ERROR response"),
        ("ue", "7001", "ERROR command"),
        ("ue", "740601", "ACCEPT response, 1 octet: 01 \".\""),
        ("ue", "7BF73501", "SET_ACK_MODE command, 1 octet: 01 \".\", ports 3 to 5"),
        ("ue", "700B000100", "SET_PARAMETERS command, 3 octets: 00 01 00 \"...\""),
        ("network", "700A0100", "MANAGE_PORT response, Reserve port: Success"),
        ("network", "700A0202", "MANAGE_PORT response, Release port: Port not associated with specified application"),
        (
            "network",
            "700A050403",
            "MANAGE_PORT response, Reserve port and serialization format: Serialization format not supported, XML",
        ),
        ("ue", "700A03", "MANAGE_PORT command, Query port"),
        ("ue", "700A062380", "MANAGE_PORT command, Query port and serialization format, requested: ports 1 5 15"),
        ("ue", "700A040000", "MANAGE_PORT command, Notify port, entries 0; not available: no port"),
        ("ue", "C0AA", "malformed (number 16) and dropped: C0 AA"),
        ("ue", "", "malformed (number 16) and dropped"),
    ] {
        assert_eq!(words(by, hex), expected);
    }
    let reserve = format!("MANAGE_PORT command, Reserve port 3 to 5, {A_SHOWN}");
    assert_eq!(words("ue", &format!("700A0135{A}")), reserve);
    let with_format = format!("MANAGE_PORT command, Reserve port and serialization format 3 to 5, {A_SHOWN}, CBOR JSON");
    assert_eq!(words("ue", &format!("700A0535{A}03")), with_format);
    let query = format!("MANAGE_PORT response, Query port and serialization format, entries 1; 5 to 3, {A_SHOWN}, no format; not available: ports 15");
    assert_eq!(words("network", &format!("700A1653{A}000080")), query);
}

#[test]
fn the_pdus_in_a_frame_are_shown_and_those_of_a_malformed_one_are_not() {
    let (status, out) = run(&["4B35168005", "4000031880050420800608", "C00E000502", "40"], &[]);
    let lines: Vec<_> = out.lines().collect();
    assert_eq!(status, 0);
    assert_eq!(lines[1], "#1: in it: octets 0 to 2: Result, TID 5 towards the initiator, GTR 1 TTR 1 RID 0, data 0 octets");
    assert!(lines[3].starts_with("#2: in it: PDU 1 of 2, octets 2 to 4: Ack") && lines[4].contains("Abort"), "{out}");
    assert_eq!(lines[5], "#3: frame of 5 octets from the UE: malformed (number 16) and dropped: C0 0E 00 05 02");
    assert_eq!(lines[7], "#4: in it: number 11 at octet 0: the datagram is empty");
    assert_eq!(lines[8], "frames: 4, malformed: 1; datagrams: 3, PDUs: 3, malformed: 0, can't be separated: 1");
}

#[test]
fn in_a_capture_the_networks_port_says_who_sent_a_frame() {
    let (_, out) = run(&["--sent-by", "9201", "-"], &capture(&[(9201, 1), (1, 9201)], &[0x70, 0x01]));
    assert!(out.contains("from the network: ERROR response") && out.contains("from the UE: ERROR command"), "{out}");
}

/// A capture of raw IPv4 with a UDP datagram for each pair of ports.
fn capture(ports: &[(u16, u16)], payload: &[u8]) -> Vec<u8> {
    let words = [0xA1B2_C3D4_u32, 0x0002_0004, 0, 0, 65_535, 101];
    let mut octets: Vec<u8> = words.iter().flat_map(|word| word.to_le_bytes()).collect();
    for (from, to) in ports {
        let udp = 8 + payload.len() as u16;
        let ip = [&[0x45, 0][..], &(20 + udp).to_be_bytes(), &[0, 0, 0, 0, 64, 17, 0, 0, 127, 0, 0, 1, 127, 0, 0, 1]].concat();
        let head = [from.to_be_bytes(), to.to_be_bytes(), udp.to_be_bytes(), [0, 0]].concat();
        let packet = [ip, head, payload.to_vec()].concat();
        let record = [0, 0, packet.len() as u32, packet.len() as u32];
        octets.extend(record.iter().flat_map(|word| word.to_le_bytes()));
        octets.extend(packet);
    }
    octets
}
