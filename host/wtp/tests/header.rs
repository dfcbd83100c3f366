//! The header beside the proved source that it declares, and the wrapper's declarations and constants beside the header.

use kit::header::{brought_in, joined, Header};
use wtp::codec::word;
use wtp::{ffi, Damage, Refused};

const HEADER: Header = Header {
    header: include_str!("../../../include/wtp.h"),
    wrapper: include_str!("../src/ffi.rs"),
    proved: include_str!("../../../crates/wtp_c/src/lib.rt"),
    prefix: "wtp_",
};

const CALLED: &str = include_str!("../../../crates/wtp/src/lib.rt");

fn value(name: &str) -> usize {
    HEADER.value(name)
}

#[test]
fn every_function_has_the_parameters_of_the_header() {
    let in_c = HEADER.declared_in_c();
    assert_eq!(in_c.len(), 17);
    assert_eq!(in_c, HEADER.declared_in_rust());
}

#[test]
fn the_header_declares_what_the_library_exports() {
    assert_eq!(joined(HEADER.declared_in_c()), joined(HEADER.exported()));
}

#[test]
fn an_export_promises_what_the_function_that_it_calls_promises() {
    let promised = HEADER.promised(HEADER.proved);
    assert_eq!(promised.len(), 17);
    assert_eq!(promised, HEADER.promised(CALLED));
    assert!(brought_in(HEADER.proved).is_subset(&brought_in(CALLED)));
}

#[test]
fn the_sizes_are_those_of_the_header() {
    let sizes = [
        ("WTP_ANSWER", ffi::ANSWER),
        ("WTP_SETTINGS", ffi::SETTINGS),
        ("WTP_FIELDS", ffi::FIELDS),
        ("WTP_PART", ffi::PART),
        ("WTP_DUE", ffi::DUE),
        ("WTP_SALVAGED", ffi::SALVAGED),
        ("WTP_CELL", ffi::CELL),
        ("WTP_SENDING", ffi::SENDING),
        ("WTP_OUTPUT", ffi::OUTPUT),
    ];
    for (name, size) in sizes {
        assert_eq!(value(name), size, "{name}");
    }
}

#[test]
fn the_words_of_settings_are_where_the_wrapper_puts_them() {
    let singles = ["WTP_RCR_MAX", "WTP_AEC_MAX", "WTP_A", "WTP_W", "WTP_R_CLASS_1"];
    assert!(singles.iter().map(|name| value(name)).eq(0..5));
    assert_eq!(["WTP_R_CLASS_2", "WTP_MODES", "WTP_WAITING_LIMIT"].map(value), [13, 22, 23]);
    assert_eq!(value("WTP_MODE_WAITING_LIMIT"), 1);
}

#[test]
fn the_words_of_an_answer_are_where_the_wrapper_reads_them() {
    let first = ["WTP_SENT", "WTP_INDICATIONS", "WTP_GIVEN_TID", "WTP_FIRED", "WTP_FIRST"];
    assert!(first.iter().map(|name| value(name)).eq(0..5));
    assert_eq!(["WTP_SECOND", "WTP_FIRED_ROLE", "WTP_FIRED_PEER", "WTP_FIRED_TID"].map(value), [16, 28, 29, 30]);
    assert_eq!(["WTP_COST", "WTP_COST_ENDED"].map(value), [32, 33]);
    assert_eq!(["WTP_TOLD_UNKNOWN_IDENTITY", "WTP_TOLD_UNKNOWN_PLACE"].map(value), [34, 35]);
}

#[test]
fn the_words_of_a_deadline_are_in_the_order_in_which_the_wrapper_reads_them() {
    let words = ["WTP_DUE_ANY", "WTP_DUE_AT", "WTP_DUE_ROLE", "WTP_DUE_PEER", "WTP_DUE_TID"];
    assert!(words.iter().map(|name| value(name)).eq(0..ffi::DUE));
}

#[test]
fn the_words_of_a_list_of_salvaged_places_are_in_the_order_in_which_the_wrapper_reads_them() {
    let words = ["WTP_SALVAGED_PLACES", "WTP_SALVAGED_PLACE", "WTP_SALVAGED_REASON"];
    assert!(words.iter().map(|name| value(name)).eq(0..3));
    let reasons = [
        ("WTP_SALVAGED_OUT_OF_RANGE", Damage::OutOfRange),
        ("WTP_SALVAGED_NOT_ZERO", Damage::FreeNotZero),
        ("WTP_SALVAGED_SAME_NAME", Damage::SameName),
    ];
    for (name, damage) in reasons {
        assert_eq!(value(name) as u64, damage.number(), "{name}");
    }
    assert_eq!(value("WTP_WRONG_HEADER") as u64, Refused::WrongHeader.number());
}

#[test]
fn the_words_of_a_pdu_are_those_of_the_header() {
    let words = [
        ("WTP_TYPE", word::TYPE),
        ("WTP_GTR", word::GTR),
        ("WTP_TTR", word::TTR),
        ("WTP_RID", word::RID),
        ("WTP_TID", word::TID),
        ("WTP_VERSION", word::VERSION),
        ("WTP_TIDNEW", word::TID_NEW),
        ("WTP_UP", word::USER_ACK),
        ("WTP_CLASS", word::CLASS),
        ("WTP_TVE", word::TVE),
        ("WTP_ABORT_TYPE", word::ABORT_TYPE),
        ("WTP_ABORT_REASON", word::ABORT_REASON),
        ("WTP_PACKET", word::PACKET),
        ("WTP_NACK_COUNT", word::NACK_COUNT),
        ("WTP_NACK_START", word::NACK_START),
        ("WTP_ITEMS", word::ITEMS),
        ("WTP_USER_START", word::USER_START),
        ("WTP_USER_LENGTH", word::USER_LENGTH),
        ("WTP_UNKNOWN_IDENTITY", word::UNKNOWN_IDENTITY),
        ("WTP_UNKNOWN_PLACE", word::UNKNOWN_PLACE),
        ("WTP_ITEM", word::ITEM),
    ];
    for (name, place) in words {
        assert_eq!(value(name), place, "{name}");
    }
}
