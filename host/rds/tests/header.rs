//! The header beside the proved source that it declares, and the wrapper's declarations and constants beside the header.

use kit::header::{brought_in, joined, Header};
use rds::{ffi, m, word};

const HEADER: Header = Header {
    header: include_str!("../../../include/rds.h"),
    wrapper: include_str!("../src/ffi.rs"),
    proved: include_str!("../../../crates/rds_c/src/lib.rt"),
    prefix: "rds_",
};

const CALLED: &str = include_str!("../../../crates/rds/src/lib.rt");

#[test]
fn every_function_has_the_parameters_of_the_header() {
    let in_c = HEADER.declared_in_c();
    assert_eq!(in_c.len(), 12);
    assert_eq!(in_c, HEADER.declared_in_rust());
}

#[test]
fn the_header_declares_what_the_library_exports() {
    assert_eq!(joined(HEADER.declared_in_c()), joined(HEADER.exported()));
}

#[test]
fn an_export_promises_what_the_function_that_it_calls_promises() {
    let promised = HEADER.promised(HEADER.proved);
    assert_eq!(promised.len(), 12);
    assert_eq!(promised, HEADER.promised(CALLED));
    assert!(brought_in(HEADER.proved).is_subset(&brought_in(CALLED)));
}

#[test]
fn the_sizes_are_those_of_the_header() {
    let sizes = [
        ("RDS_FIELDS", ffi::FIELDS),
        ("RDS_PART", ffi::PART),
        ("RDS_ANSWER", ffi::ANSWER),
        ("RDS_OUTPUT", ffi::OUTPUT),
        ("RDS_SENDING", ffi::SENDING),
        ("RDS_APP", ffi::APP),
    ];
    for (name, size) in sizes {
        assert_eq!(HEADER.value(name), size, "{name}");
    }
}

#[test]
fn the_refusals_of_the_header_have_words() {
    let names = ["WRONG_SIZE", "NOTHING_KEPT", "NOT_NOW", "WRONG_VALUE", "WRONG_LENGTH", "MALFORMED"];
    let numbers = names.map(|name| HEADER.value(&format!("RDS_{name}")));
    assert_eq!(numbers, [1, 8, 9, 10, 11, 16]);
}

#[test]
fn the_kinds_of_a_frame_and_its_m_are_those_of_the_header() {
    let kinds = [("RDS_I", word::I), ("RDS_S", word::S), ("RDS_UI", word::UI), ("RDS_U", word::U)];
    let ms = [
        ("RDS_ERROR", m::ERROR),
        ("RDS_DISCONNECT", m::DISCONNECT),
        ("RDS_ACCEPT", m::ACCEPT),
        ("RDS_SET_ACK_MODE", m::SET_ACK_MODE),
        ("RDS_MANAGE_PORT", m::MANAGE_PORT),
        ("RDS_SET_PARAMETERS", m::SET_PARAMETERS),
    ];
    for (name, number) in kinds.into_iter().chain(ms) {
        assert_eq!(HEADER.value(name) as u64, number, "{name}");
    }
}

#[test]
fn the_words_of_a_frame_are_those_of_the_header() {
    let words = [
        ("RDS_KIND", word::KIND),
        ("RDS_ADS", word::ADS),
        ("RDS_SOURCE", word::SOURCE),
        ("RDS_DESTINATION", word::DESTINATION),
        ("RDS_A", word::A),
        ("RDS_NS", word::NS),
        ("RDS_NR", word::NR),
        ("RDS_R", word::R),
        ("RDS_NU", word::NU),
        ("RDS_M", word::M),
        ("RDS_RESPONSE", word::RESPONSE),
        ("RDS_START", word::START),
        ("RDS_LENGTH", word::LENGTH),
        ("RDS_ACTION", word::ACTION),
        ("RDS_STATUS", word::STATUS),
        ("RDS_BODY_SOURCE", word::BODY_SOURCE),
        ("RDS_BODY_DESTINATION", word::BODY_DESTINATION),
        ("RDS_APP_START", word::APP_START),
        ("RDS_APP_LENGTH", word::APP_LENGTH),
        ("RDS_FORMAT", word::FORMAT),
        ("RDS_BITMAP_THERE", word::BITMAP_THERE),
        ("RDS_BITMAP", word::BITMAP),
        ("RDS_ENTRIES", word::ENTRIES),
        ("RDS_FIRST_ENTRY", word::FIRST_ENTRY),
        ("RDS_ENTRY", word::ENTRY),
    ];
    for (name, place) in words {
        assert_eq!(HEADER.value(name), place, "{name}");
    }
}

#[test]
fn the_words_of_a_part_and_of_an_answer_are_in_the_order_in_which_the_wrapper_reads_them() {
    let part = ["KIND", "START", "LENGTH", "ADS", "SOURCE", "DESTINATION", "NUMBER"];
    assert!(part.iter().map(|name| HEADER.value(&format!("RDS_PART_{name}"))).eq(0..7));
    let received = ["SENT", "EVENT", "TOLD_ACTION", "TOLD_STATUS", "TOLD_OWN", "TOLD_PEERS", "TOLD_FORMAT", "CHANGED"];
    let rest = ["TOLD_APP_START", "TOLD_APP_LENGTH", "TOLD_M", "WHOM", "NEXT"];
    assert!(received.iter().chain(&rest).map(|name| HEADER.value(&format!("RDS_{name}"))).eq(0..13));
}
