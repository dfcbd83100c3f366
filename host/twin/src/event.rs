//! What can happen to a live record.

use crate::answer::Data;
use crate::pdu::{Body, Pdu};

/// `unknown` is the identity of a Result's first unknown item, 0 where it has none.
#[derive(Clone, Copy, Debug)]
pub enum Event<'e> {
    Invoke { rid: bool },
    Result { ttr: bool, rid: bool, data: Data, unknown: u8 },
    Ack { tid_test: bool, rid: bool, info: Data },
    Abort { kind: u8, reason: u8 },
    SegmentedOrNack,
    Malformed,
    Timer,
    UserAnswer { exit: &'e [u8] },
    UserResult { data: &'e [u8] },
    UserAbort { reason: u8 },
}

impl Event<'_> {
    pub fn of(pdu: &Pdu) -> Event<'static> {
        match pdu.body {
            Body::Invoke { flags, .. } => Event::Invoke { rid: flags.rid },
            Body::Result { flags, data } => {
                let unknown = pdu.items.unknown_identity();
                Event::Result { ttr: flags.ttr, rid: flags.rid, data: Data::Datagram(data), unknown }
            }
            Body::Ack { tid_test, rid } => {
                Event::Ack { tid_test, rid, info: pdu.items.info().map_or(Data::none(), Data::Datagram) }
            }
            Body::Abort { kind, reason } => Event::Abort { kind, reason },
            Body::SegmentedInvoke { .. } | Body::SegmentedResult { .. } | Body::Nack { .. } => Event::SegmentedOrNack,
        }
    }
}
