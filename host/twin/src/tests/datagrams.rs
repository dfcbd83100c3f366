//! Separation and joining at their edges.

fn parts(datagram: &[u8]) -> Result<Vec<[u64; 2]>, u64> {
    let mut part = [0; 3];
    match crate::separate(datagram, 0, &mut part) {
        0 => {}
        number => return Err(number),
    }
    Ok((0..part[2])
        .map(|k| {
            assert_eq!(crate::separate(datagram, k, &mut part), 0);
            [part[0], part[1]]
        })
        .collect())
}

#[test]
fn a_datagram_that_does_not_begin_with_octet_0_is_one_pdu() {
    assert_eq!(parts(&[0x18, 0, 5]), Ok(vec![[0, 3]]));
    let mut part = [7; 4];
    assert_eq!((crate::separate(&[0x18], u64::MAX, &mut part), part), (0, [0, 0, 1, 7]));
}

#[test]
fn a_reader_takes_either_form_of_a_length() {
    assert_eq!(parts(&[0, 0x80, 1, 9, 1, 8]), Ok(vec![[3, 1], [5, 1]]));
}

#[test]
fn what_cannot_be_separated_gives_11_for_the_whole() {
    let long = vec![1; 1501];
    let bad: [&[u8]; 8] = [&[], &long, &[0], &[0, 0], &[0, 2, 1], &[0, 1, 1, 0], &[0, 1, 1, 0x80], &[0, 0x80, 0, 1]];
    for datagram in bad {
        assert_eq!(parts(datagram), Err(11), "{datagram:?}");
    }
    assert_eq!(crate::separate(&[], 0, &mut [0; 2]), 1);
}

fn join(bytes: &[u8], lengths: &[u64]) -> u64 {
    let (mut out, mut answer) = (vec![0xEE; 1500], vec![7; 40]);
    let number = crate::join(bytes, lengths, &mut out, &mut answer);
    let untouched = out.iter().all(|octet| *octet == 0xEE) && answer == [7; 40];
    assert_eq!(number != 0, untouched);
    number
}

#[test]
fn what_cannot_be_joined_gives_11() {
    assert_eq!(join(&[], &[]), 11);
    assert_eq!(join(&[1], &[1, 0]), 11);
    assert_eq!(join(&[1; 3], &[1, 1]), 11);
    assert_eq!(join(&[1; 3], &[u64::MAX, 4]), 11);
    assert_eq!(join(&[1; 1498], &[1498]), 11);
    assert_eq!(join(&[1; 1497], &[1497]), 0);
    assert_eq!(crate::join(&[], &[], &mut [0; 1499], &mut [0; 40]), 1);
    assert_eq!(crate::join(&[], &[], &mut [0; 1500], &mut [0; 39]), 1);
}

#[test]
fn joined_pdus_are_separated_again() {
    let (mut out, mut answer) = (vec![0; 1500], vec![7; 41]);
    assert_eq!(crate::join(&[1; 330], &[130, 200], &mut out, &mut answer), 0);
    assert_eq!((answer[0], &answer[1..]), (335, &[&[0; 39][..], &[7]].concat()[..]));
    assert_eq!(parts(&out[..335]), Ok(vec![[3, 130], [135, 200]]));
}
