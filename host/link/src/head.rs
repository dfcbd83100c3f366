//! What the header of a PDU says of a transaction in which this end is the responder.

use wtp::codec::{self, word};
use wtp::{Name, Role};

pub const INVOKE: u64 = 1;
pub const RESULT: u64 = 2;
const ACK: u64 = 3;
/// Towards the initiator the top bit of the TID is 1.
const TOP: u64 = 0x8000;

pub struct Head {
    pub of: Name,
    pub pdu_type: u64,
    tve: bool,
    rid: bool,
}

impl Head {
    /// Of a PDU that is sent to the initiator.
    pub fn sent(peer: u16, pdu: &[u8]) -> Option<Head> {
        let fields = codec::read(pdu).ok().filter(|fields| fields[word::TID] & TOP == TOP)?;
        let tid = u16::try_from(fields[word::TID] & !TOP).ok()?;
        let of = Name { role: Role::Responder, peer, tid };
        Some(Head { of, pdu_type: fields[word::TYPE], tve: fields[word::TVE] == 1, rid: fields[word::RID] == 1 })
    }

    /// With it a verification begins; its repeats have RID set.
    pub fn is_first_tidve(&self) -> bool {
        self.pdu_type == ACK && self.tve && !self.rid
    }
}

/// The user data of an Invoke.
pub fn invoke_data(pdu: &[u8]) -> Option<&[u8]> {
    let fields = codec::read(pdu).ok().filter(|fields| fields[word::TYPE] == INVOKE)?;
    pdu.get(usize::try_from(fields[word::USER_START]).ok()?..)
}

#[cfg(test)]
mod tests {
    use super::*;

    #[test]
    fn the_top_bit_says_whose_transaction_it_is() {
        assert!(Head::sent(0, &[0x16, 0x80, 5]).map_or(false, |head| head.pdu_type == RESULT && head.of.tid == 5));
        assert!(Head::sent(0, &[0x20, 0, 5, 2]).is_none());
        assert!(Head::sent(0, &[]).is_none());
    }

    #[test]
    fn only_an_ack_with_tve_and_without_rid_is_a_first_tidve() {
        let is_first_tidve = |first: u8| Head::sent(0, &[first, 0x80, 5]).map(|head| head.is_first_tidve());
        assert_eq!([0x1C, 0x1D, 0x18, 0x16].map(is_first_tidve), [Some(true), Some(false), Some(false), Some(false)]);
    }

    #[test]
    fn the_data_of_an_invoke_begins_after_its_items() {
        assert_eq!(invoke_data(b"\x0E\x00\x05\x02abc"), Some(&b"abc"[..]));
        assert_eq!(invoke_data(b"\x8E\x00\x05\x02\x09xabc"), Some(&b"abc"[..]));
        assert_eq!((invoke_data(b"\x16\x80\x05abc"), invoke_data(b"")), (None, None));
    }
}
