//! Fixed-size fields in the octets of a table.

pub fn array_at<const N: usize>(octets: &[u8], from: usize) -> [u8; N] {
    let mut array = [0; N];
    array.copy_from_slice(&octets[from..from + N]);
    array
}

pub fn put_at(octets: &mut [u8], from: usize, field: &[u8]) {
    octets[from..from + field.len()].copy_from_slice(field);
}
