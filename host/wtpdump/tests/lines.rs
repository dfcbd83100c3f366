//! The lines for hex, as a person reads them.

use std::ffi::OsString;
use std::io::{self, ErrorKind, Write};

/// Status, output and errors.
fn run(arguments: &[&str], input: &[u8]) -> (u8, String, String) {
    let (mut out, mut errors) = (Vec::new(), Vec::new());
    let arguments = arguments.iter().map(OsString::from);
    let status = wtpdump::run(arguments, &mut &*input, &mut out, &mut errors);
    (status, String::from_utf8(out).unwrap(), String::from_utf8(errors).unwrap())
}

/// The words of the only line for one datagram.
fn words(hex: &str) -> String {
    let (status, out, _) = run(&[hex], &[]);
    assert_eq!(status, 0);
    out.trim_end().to_string()
}

#[test]
fn every_type_has_its_words() {
    let invoke = "#1: octets 0 to 4: Invoke, TID 5 towards the responder, GTR 1 TTR 1 RID 1, version 0, TIDnew 1, U/P 1, class 2, data 1 octet: 41 \"A\"";
    for (hex, expected) in [
        ("0F00053241", invoke),
        ("168005", "#1: octets 0 to 2: Result, TID 5 towards the initiator, GTR 1 TTR 1 RID 0, data 0 octets"),
        ("180005", "#1: octets 0 to 2: Ack, TID 5 towards the responder, Tve/Tok 0, RID 0"),
        ("1D8005", "#1: octets 0 to 2: Ack TIDve, TID 5 towards the initiator, Tve/Tok 1, RID 1"),
        ("1C0005", "#1: octets 0 to 2: Ack TIDok, TID 5 towards the responder, Tve/Tok 1, RID 0"),
        ("20000502", "#1: octets 0 to 3: Abort, TID 5 towards the responder, by the provider, reason 2 INVALIDTID: invalid TID"),
        ("20000509", "#1: octets 0 to 3: Abort, TID 5 towards the responder, by the provider, reason 9"),
        ("21FFFF08", "#1: octets 0 to 3: Abort, TID 32767 towards the initiator, by the user, reason 8"),
        (
            "2C000507",
            "#1: octets 0 to 3: Segmented Invoke, TID 5 towards the responder, GTR 1 TTR 0 RID 0, packet 7, data 0 octets",
        ),
        (
            "32800507",
            "#1: octets 0 to 3: Segmented Result, TID 5 towards the initiator, GTR 0 TTR 1 RID 0, packet 7, data 0 octets",
        ),
        ("398005020304", "#1: octets 0 to 5: Nack, TID 5 towards the initiator, RID 1, packets missing 2: 3 4"),
        ("38000500", "#1: octets 0 to 3: Nack, TID 5 towards the responder, RID 0, packets missing 0"),
    ] {
        assert_eq!(words(hex), expected);
    }
}

#[test]
fn items_have_identity_form_length_and_data() {
    let line = words("9800050AAABB00");
    assert!(line.contains("malformed D7 at octet 6:"), "{line}");
    let line = words("9800058AAABB140101");
    assert!(
        line.ends_with(
            "item 1: identity 1 Info, short, 2 octets: AA BB \"..\", item 2: identity 2 Option, long, 1 octet: 01 \".\""
        ),
        "{line}"
    );
}

#[test]
fn an_error_item_has_its_code_and_the_identity_that_it_names() {
    for (hex, expected) in [
        ("988040811F0AAABB", "item 1: identity 0 Error, error code 1 (unknown item) for identity 15, short, 1 octet: 1F \".\", item 2: identity 1 Info, short, 2 octets: AA BB \"..\""),
        ("998042 0116", "Tve/Tok 0, RID 1, item 1: identity 0 Error, error code 1 (unknown item) for identity 6, short, 1 octet: 16 \".\""),
        ("980005 02 22 41", "item 1: identity 0 Error, error code 2 (unknown content of a known item) for identity 2, short, 2 octets: 22 41 \".A\""),
        ("980005 04 01 7F", "item 1: identity 0 Error, error code 7 for identity 15, long, 1 octet: 7F \".\""),
        ("980005 00", "item 1: identity 0 Error, no error code, short, 0 octets"),
    ] {
        assert!(words(hex).ends_with(expected), "{}", words(hex));
    }
}

#[test]
fn every_item_has_its_name_and_one_that_is_not_in_section_8_4_is_unknown() {
    let names = ["Error", "Info", "Option", "Packet Sequence Number", "SDU Boundary", "Frame Boundary"];
    for identity in 0..16 {
        let name = names.get(identity).copied().unwrap_or("unknown");
        let line = words(&format!("980005{:02X}0111", 8 * identity + 4));
        assert!(line.contains(&format!(", item 1: identity {identity} {name}, ")), "{line}");
    }
}

#[test]
fn malformed_pdus_have_their_d_and_the_place() {
    for (hex, expected) in [
        ("00", "#1: number 11 at octet 1: the datagram can't be separated: 00"),
        ("000100", "#1: PDU 1 of 1, octet 2: malformed D2 at octet 0 (octet 2 of the datagram): the type is 0 or over 7: 00"),
        ("0E0005", "#1: octets 0 to 2: malformed D1 at octet 3: the fixed header is cut short (Invoke, TID 5 towards the responder): 0E 00 05"),
        ("40000502", "#1: octets 0 to 3: malformed D2 at octet 0: the type is 0 or over 7 (type over 7, TID 5 towards the responder): 40 00 05 02"),
        ("0000", "#1: number 11 at octet 1: the datagram can't be separated: 00 00"),
        ("", "#1: number 11 at octet 0: the datagram is empty"),
    ] {
        assert_eq!(words(hex), expected);
    }
}

#[test]
fn a_datagram_that_is_too_long_is_number_11() {
    let line = words(&"18".repeat(1_501));
    assert!(line.starts_with("#1: number 11 at octet 1500: the datagram has more than 1,500 octets: 18 18"), "{line}");
}

#[test]
fn data_is_shortened_unless_all_is_asked_for() {
    let hex = format!("168005{}", "41".repeat(33));
    assert!(words(&hex).ends_with(&format!("data 33 octets: {}... \"{}\" ...", "41 ".repeat(32), "A".repeat(32))));
    let (_, out, _) = run(&["--all", &hex], &[]);
    assert!(out.trim_end().ends_with(&format!("41 \"{}\"", "A".repeat(33))), "{out}");
}

#[test]
fn more_than_one_datagram_are_counted() {
    let (status, out, errors) = run(&["0E000502", "00 03 18 80 05 04 20 80 06 08", "0E000503", "00"], &[]);
    assert_eq!((status, errors.as_str()), (0, ""));
    assert_eq!(out.lines().count(), 6);
    assert_eq!(out.lines().last(), Some("datagrams: 4, PDUs: 4, malformed: 1, can't be separated: 1"));
}

#[test]
fn a_line_of_text_is_a_datagram() {
    let (status, out, _) = run(&["-"], b"# two\n0e:00:05:02\n\n16 80 05\n");
    assert_eq!(status, 0);
    assert!(out.starts_with("#2: octets 0 to 3: Invoke"), "{out}");
    assert!(out.contains("\n#4: octets 0 to 2: Result"), "{out}");
}

#[test]
fn what_cannot_be_read_is_named_and_fails() {
    for (arguments, input, status, word) in [
        (&["no such file"][..], &b""[..], 1, "no such file"),
        (&["0E0"], b"", 1, "argument 1, column 3"),
        (&["-"], b"0E00\n0E 0", 1, "standard input: line 2, column 4"),
        (&["-"], b"\xFF\xFE", 1, "neither a capture"),
        (&["-"], b"\xA1\xB2\xC3\xD4\0\0", 1, "octet 6: the capture's header is cut short"),
        (&["--wide"], b"", 2, "--help"),
        (&[], b"", 2, "--help"),
    ] {
        let (found, _, errors) = run(arguments, input);
        assert_eq!(found, status, "{errors}");
        assert!(errors.contains(word) && errors.lines().count() == 1, "{errors}");
    }
}

#[test]
fn what_was_read_before_a_wrong_line_is_shown() {
    let (status, out, _) = run(&["-"], b"168005\nx");
    assert_eq!((status, out.lines().count()), (1, 1));
}

#[test]
fn help_names_every_switch() {
    let (status, out, _) = run(&["--help"], &[]);
    assert_eq!(status, 0);
    assert!(["--port", "--all", "--help", "exit status", "example"].iter().all(|word| out.contains(word)));
}

/// An output that fails as the other end of a pipe does, or otherwise.
struct Failing(ErrorKind);

impl Write for Failing {
    fn write(&mut self, _: &[u8]) -> io::Result<usize> {
        Err(self.0.into())
    }

    fn flush(&mut self) -> io::Result<()> {
        Err(self.0.into())
    }
}

#[test]
fn a_broken_pipe_ends_quietly_and_another_fault_does_not() {
    for (kind, expected) in [(ErrorKind::BrokenPipe, 0), (ErrorKind::Other, 1)] {
        let mut errors = Vec::new();
        let arguments = ["168005"].iter().map(OsString::from);
        let status = wtpdump::run(arguments, &mut &[][..], &mut Failing(kind), &mut errors);
        assert_eq!((status, errors.is_empty()), (expected, expected == 0));
    }
}
