//! What tshark should show for a PDU, worked out from what the library reads in it.

use wtp::codec::{read, word, Fields};

/// The identity of an Info item.
const INFO: u64 = 1;

/// A field by tshark's name. Its value is a number; `wtp.tpi` and `data` are octets in hex.
pub type Field = (&'static str, String);

/// The fields of a datagram that joins these PDUs, in tshark's order.
pub fn joined_fields(pdus: &[&[u8]]) -> Result<Vec<Field>, String> {
    let with_size = |pdu: &&[u8]| {
        let size = ("wtp.sub_pdu_size", pdu.len().to_string());
        fields(pdu).map(|fields| std::iter::once(size).chain(fields).collect::<Vec<_>>())
    };
    pdus.iter().map(with_size).collect::<Result<Vec<_>, _>>().map(|all| all.concat())
}

/// The fields of one PDU, in tshark's order.
pub fn fields(pdu: &[u8]) -> Result<Vec<Field>, String> {
    let words = read(pdu).map_err(|refused| refused.to_string())?;
    let at = |place: usize| words.get(place).copied().unwrap_or(0);
    let number = |name, place| (name, at(place).to_string());
    let mut fields = vec![("wtp.continue_flag", u64::from(at(word::ITEMS) > 0).to_string())];
    fields.push(number("wtp.pdu_type", word::TYPE));
    // GTR and TTR are one field of two bits there.
    let trailer = ("wtp.trailer_flags", (at(word::GTR) << 1 | at(word::TTR)).to_string());
    let rid = number("wtp.RID", word::RID);
    match at(word::TYPE) {
        1 | 2 => fields.extend([trailer, rid]),
        3 => fields.extend([number("wtp.ack.tvetok", word::TVE), rid]),
        _ => fields.push(number("wtp.abort.type", word::ABORT_TYPE)),
    }
    fields.push(("wtp.TID.response", (at(word::TID) >> 15).to_string()));
    fields.push(("wtp.TID", (at(word::TID) & 0x7FFF).to_string()));
    match (at(word::TYPE), at(word::ABORT_TYPE)) {
        (1, _) => fields.extend(invoke(&words)),
        (4, 0) => fields.push(number("wtp.abort.reason.provider", word::ABORT_REASON)),
        (4, _) => fields.push(number("wtp.abort.reason.user", word::ABORT_REASON)),
        _ => {}
    }
    fields.extend((0..at(word::ITEMS)).flat_map(|k| item(&words, pdu, k)));
    // Empty data is no field.
    fields.extend(part(pdu, at(word::USER_START), at(word::USER_LENGTH)).map(|data| ("data", data)));
    Ok(fields)
}

fn invoke(words: &Fields) -> Vec<Field> {
    let named = [
        ("wtp.header.version", word::VERSION),
        ("wtp.header.TIDNew", word::TID_NEW),
        ("wtp.header.UP", word::USER_ACK),
        ("wtp.inv.transaction_class", word::CLASS),
    ];
    let value = |place: usize| words.get(place).copied().unwrap_or(0).to_string();
    let mut fields: Vec<_> = named.iter().map(|(name, place)| (*name, value(*place))).collect();
    // The library doesn't show reserved bits; it writes them zero.
    fields.push(("wtp.inv.reserved", "0".to_string()));
    fields
}

/// An item: its header and data as octets, its identity, and of an Info item the length of its data. Of an Error item tshark shows no more.
fn item(words: &Fields, pdu: &[u8], k: u64) -> Vec<Field> {
    let first = usize::try_from(k).ok().and_then(|k| k.checked_mul(4)).and_then(|k| k.checked_add(word::ITEM));
    match first.and_then(|first| words.get(first..)) {
        Some([identity, long, start, length, ..]) => {
            let header = if *long == 0 { 1 } else { 2 };
            let whole = part(pdu, start.saturating_sub(header), length.saturating_add(header));
            let octets = whole.map(|octets| ("wtp.tpi", octets));
            let info = (*identity == INFO).then(|| ("wtp.tpi.info.length", length.to_string()));
            octets.into_iter().chain([("wtp.tpi.identity", identity.to_string())]).chain(info).collect()
        }
        _ => vec![],
    }
}

/// A part of the PDU in hex, where it isn't empty.
fn part(pdu: &[u8], start: u64, length: u64) -> Option<String> {
    let (start, end) = (usize::try_from(start).ok()?, usize::try_from(start.checked_add(length)?).ok()?);
    let octets = pdu.get(start..end).filter(|octets| !octets.is_empty())?;
    Some(octets.iter().map(|octet| format!("{octet:02x}")).collect())
}
