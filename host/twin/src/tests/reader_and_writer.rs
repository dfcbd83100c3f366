//! Every D of the reader and of the writer, in their order, and what is read and written back.

const D1: u64 = 101;
const D2: u64 = 102;
const D3: u64 = 103;
const D4: u64 = 104;
const D5: u64 = 105;
const D6: u64 = 106;
const D7: u64 = 107;

/// Items of identity 2, short and empty, the last with CON as wanted.
fn items(count: usize, last_con: bool) -> Vec<u8> {
    let mut octets = vec![0x90; count];
    if let (Some(last), false) = (octets.last_mut(), last_con) {
        *last = 0x10;
    }
    octets
}

fn read(pdu: &[u8]) -> u64 {
    let mut fields = vec![7; 90];
    let number = crate::read(pdu, &mut fields);
    assert_eq!(fields[88..], [7, 7]);
    assert!(number == 0 || fields == [7; 90]);
    number
}

#[test]
fn the_reader_gives_1_and_11_before_any_d() {
    assert_eq!(crate::read(&[], &mut [0; 87]), 1);
    assert_eq!(read(&[]), 11);
    assert_eq!(read(&[0; 1501]), 11);
    assert_eq!(read(&[0; 1500]), D2);
}

#[test]
fn the_reader_names_each_malformed_pdu() {
    let cases: [(&[u8], u64); 16] = [
        (&[0x40, 0, 5, 0], D2),
        (&[0x18, 0], D1),
        (&[0x38, 0, 5], D1),
        (&[0x38, 0, 5, 2, 1], D1),
        (&[0xB8, 0, 5, 1, 1], D3),
        (&[0x8E, 0, 5, 3], D5),
        (&[0xA2, 0, 5, 0], D6),
        (&[0x98, 0, 5], D3),
        (&[0x98, 0, 5, 0x0A, 1], D3),
        (&[0x98, 0, 5, 0x0C], D3),
        (&[0x98, 0, 5, 0x0C, 2, 1], D3),
        (&[0x98, 0, 5, 0x88], D3),
        (&[0x98, 0, 5, 0x08, 0], D7),
        (&[0x20, 0, 5, 0, 0], D7),
        (&[0x38, 0, 5, 1, 1, 1], D7),
        (&[0x16, 0x80, 5], 0),
    ];
    for (pdu, number) in cases {
        assert_eq!(read(pdu), number, "{pdu:02X?}");
    }
}

#[test]
fn the_sixteenth_item_with_con_is_d4_and_a_cut_one_d3() {
    let with = |items: Vec<u8>| [vec![0x98, 0, 5], items].concat();
    assert_eq!(read(&with(items(16, false))), 0);
    assert_eq!(read(&with(items(16, true))), D4);
    assert_eq!(read(&with([items(16, true), vec![0xFF]].concat())), D4);
    assert_eq!(read(&with(items(15, true))), D3);
    assert_eq!(read(&with([items(15, true), vec![0x93]].concat())), D3);
}

fn write(fields: &[u64], bytes: &[u8]) -> Result<Vec<u8>, u64> {
    let (mut out, mut answer) = (vec![0xEE; 1502], vec![7; 42]);
    let number = crate::write(fields, bytes, &mut out, &mut answer);
    if number != 0 {
        assert!(out == vec![0xEE; 1502] && answer == [7; 42]);
        return Err(number);
    }
    let length = answer[0] as usize;
    assert!(out[length..].iter().all(|octet| *octet == 0xEE));
    assert_eq!((answer[1..40].iter().sum::<u64>(), &answer[40..]), (0, &[7, 7][..]));
    Ok(out[..length].to_vec())
}

#[test]
fn what_is_read_and_written_has_its_reserved_bits_cleared() {
    let cases: [(&[u8], &[u8]); 8] = [
        (&[0x0F, 0x7F, 0xFF, 0xFE, 1, 2], &[0x0F, 0x7F, 0xFF, 0xF2, 1, 2]),
        (&[0x92, 0x80, 5, 0xFF, 2, 1, 2, 0x2B, 1, 2, 3, 9], &[0x92, 0x80, 5, 0xFC, 2, 1, 2, 0x2B, 1, 2, 3, 9]),
        (&[0x9F, 0, 5, 0x0C, 0], &[0x9D, 0, 5, 0x0C, 0]),
        (&[0x21, 0, 5, 0xFF], &[0x21, 0, 5, 0xFF]),
        (&[0x2D, 0, 5, 8, 1], &[0x2D, 0, 5, 8, 1]),
        (&[0x32, 0, 5, 8], &[0x32, 0, 5, 8]),
        (&[0xBF, 0, 5, 2, 8, 9, 0x08], &[0xB9, 0, 5, 2, 8, 9, 0x08]),
        (&[0x38, 0, 5, 0], &[0x38, 0, 5, 0]),
    ];
    for (pdu, written) in cases {
        let mut fields = [7; 88];
        assert_eq!(crate::read(pdu, &mut fields), 0, "{pdu:02X?}");
        assert_eq!(write(&fields, pdu), Ok(written.to_vec()));
    }
}

#[test]
fn the_reader_tells_every_field_and_place() {
    let mut fields = [7; 88];
    assert_eq!(crate::read(&[0x8D, 0x81, 2, 0x72, 0x84, 1, 5, 0x0A, 6, 7, 8], &mut fields), 0);
    assert_eq!(fields[..18], [1, 1, 0, 1, 0x8102, 1, 1, 1, 2, 0, 0, 0, 0, 0, 0, 2, 10, 1]);
    assert_eq!(fields[18..32], [0, 0, 0, 0, 0, 0, 0, 1, 6, 1, 1, 0, 8, 2]);
    assert_eq!(fields[32..], [0; 56]);
    assert_eq!(crate::read(&[0x39, 0, 5, 0], &mut fields), 0);
    assert_eq!(fields[..18], [7, 0, 0, 1, 5, 0, 0, 0, 0, 0, 0, 0, 0, 0, 4, 0, 0, 0]);
}

/// Words and their values.
type Set<'a> = &'a [(usize, u64)];

/// The words of a PDU of a type, with some of them set.
fn words(kind: u64, set: Set) -> [u64; 88] {
    let mut words = [0; 88];
    words[0] = kind;
    for (word, value) in set {
        words[*word] = *value;
    }
    words
}

#[test]
fn the_writer_judges_in_the_order_of_the_paper() {
    let cases: [(u64, Set, u64); 12] = [
        (0, &[(17, 2000)], D2),
        (8, &[], D2),
        (u64::MAX, &[], D2),
        (3, &[(17, u64::MAX), (15, 17)], 11),
        (7, &[(13, 1497)], 11),
        (1, &[(15, u64::MAX), (24, 16), (27, 1500)], 11),
        (1, &[(8, 3), (5, 4)], D1),
        (1, &[(8, 3), (15, 17)], D5),
        (4, &[(10, 2), (17, 1)], D6),
        (4, &[(10, 1), (15, 17), (17, 1)], D4),
        (3, &[(15, 17), (26, 11)], D3),
        (3, &[(17, 10)], D7),
    ];
    for (kind, set, number) in cases {
        assert_eq!(write(&words(kind, set), &[0; 10]), Err(number), "{kind} {set:?}");
    }
    assert_eq!(crate::write(&[0; 87], &[], &mut [0; 1500], &mut [0; 40]), 1);
    assert_eq!(crate::write(&[0; 88], &[], &mut [0; 1499], &mut [0; 40]), 1);
    assert_eq!(crate::write(&[0; 88], &[], &mut [0; 1500], &mut [0; 39]), 1);
}

#[test]
fn a_value_too_wide_or_in_a_word_that_the_type_has_not_is_d1() {
    let cases: [(u64, Set); 24] = [
        (1, &[(1, 2)]),
        (1, &[(4, 65_536)]),
        (1, &[(5, 4)]),
        (1, &[(8, 4)]),
        (1, &[(9, 1)]),
        (1, &[(16, 11)]),
        (1, &[(16, 10), (17, 1)]),
        (1, &[(16, u64::MAX), (17, 1)]),
        (1, &[(20, 1)]),
        (1, &[(23, 1)]),
        (1, &[(24, 1)]),
        (1, &[(87, 1)]),
        (2, &[(8, 1)]),
        (3, &[(2, 1)]),
        (3, &[(16, 1)]),
        (3, &[(17, 11)]),
        (4, &[(3, 1)]),
        (4, &[(10, 8)]),
        (5, &[(12, 256)]),
        (7, &[(13, 256)]),
        (7, &[(14, 10), (13, 1)]),
        (3, &[(15, 1), (24, 16)]),
        (3, &[(15, 1), (27, 4)]),
        (3, &[(15, 1), (25, 1), (27, 256)]),
    ];
    for (kind, set) in cases {
        assert_eq!(write(&words(kind, set), &[0; 10]), Err(D1), "{kind} {set:?}");
    }
}

#[test]
fn an_empty_part_may_start_just_at_the_end() {
    assert_eq!(write(&words(2, &[(16, 10), (15, 1), (26, 10)]), &[0; 10]), Ok(vec![0x90, 0, 0, 0]));
    assert_eq!(write(&words(2, &[(15, 1), (26, 11)]), &[0; 10]), Err(D3));
}
