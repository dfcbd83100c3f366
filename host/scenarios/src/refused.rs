//! A call that was not accepted, in words.

/// The number as document 01 has it; such a call must not have changed anything.
pub fn refused(number: u64, changed: bool) -> String {
    let number = number.checked_sub(100).map_or_else(|| format!("refused {number}"), |malformed| format!("D{malformed}"));
    format!(": {number}{}", if changed { "; A REFUSED CALL CHANGED SOMETHING" } else { "" })
}
