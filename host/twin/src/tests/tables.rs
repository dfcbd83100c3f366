//! Tables that are not well formed, and those that look damaged and are.

use super::*;
use crate::Row;

/// A record in each state octet, TID 5 of peer 9, fired late.
pub fn live(state: u8) -> [u8; 176] {
    let mut record = [0; 176];
    record[..4].copy_from_slice(&[state, 9, 5, 0]);
    record
}

fn end_with(records: &[[u8; 176]]) -> End {
    let mut end = End::new(records.len() as u64, 0);
    for (place, record) in records.iter().enumerate() {
        end.record(place).copy_from_slice(record);
    }
    end
}

#[test]
fn a_table_has_800_octets_for_1_record_and_9_072_for_48() {
    assert_eq!([0, 1, 48, 49, u64::MAX].map(crate::table_bytes), [0, 800, 9072, 0, 0]);
}

#[test]
fn a_fresh_table_is_made_of_any_old_contents() {
    let mut end = End::with(2, 0x1234, &settings(8, 7));
    assert_eq!(end.table[..12], [0, 0, 0, 0, 0, 0, 0, 0, 0x34, 0x12, 8, 7]);
    assert_eq!(end.table[12..24], [100, 0, 0, 0, 200, 0, 0, 0, 0xE8, 3, 0, 0]);
    assert_eq!(end.table[56..60], [0xD0, 7, 0, 0]);
    assert_eq!(end.table[97], 1);
    assert!(end.table[92..].iter().enumerate().all(|(at, octet)| *octet == 0 || at == 5));
    assert_eq!(end.timer(0).row, Row::TimerNoneDue);
}

#[test]
fn a_fresh_table_keeps_the_waiting_limit_and_its_mode() {
    let mut end = End::with(1, 0, &limited(settings(2, 1), 86_400_000));
    assert_eq!(end.table[92..98], [0x00, 0x5C, 0x26, 0x05, 1, 1]);
    assert!(end.table[98..].iter().all(|octet| *octet == 0));
    assert_eq!(end.timer(0).row, Row::TimerNoneDue);
}

#[test]
fn fresh_judges_the_size_first_and_then_every_setting() {
    let good = settings(2, 1);
    let fresh = |octets: usize, settings: &[u64], first_tid: u64| {
        let mut table = vec![7; octets];
        let number = crate::fresh(&mut table, settings, first_tid);
        assert!(number == 0 || table == vec![7; octets]);
        number
    };
    assert_eq!(fresh(800, &good, 32_767), 0);
    assert_eq!(fresh(800, &good, 32_768), 10);
    assert_eq!(fresh(800, &good[..31], 0), 10);
    assert_eq!(fresh(800, &[good.to_vec(), vec![0]].concat(), 0), 10);
    for (word, most) in [(0, 8), (1, 8), (2, 86_400_000), (21, 86_400_000), (22, 0), (23, 0), (24, 0), (31, 0)] {
        let with = |value: u64| {
            let mut settings = good;
            settings[word] = value;
            fresh(800, &settings, 0)
        };
        assert_eq!((with(most), with(most + 1), with(u64::MAX)), (0, 10, 10), "word {word}");
        assert_eq!(with(0), if (2..22).contains(&word) { 10 } else { 0 }, "word {word}");
    }
    for octets in [0, 623, 624, 799, 801, 9073, 9248] {
        assert_eq!(fresh(octets, &[], u64::MAX), 1);
    }
}

#[test]
fn fresh_takes_mode_1_with_a_limit_in_range_and_no_other() {
    let fresh = |modes: u64, limit: u64| {
        let mut settings = settings(2, 1);
        settings[22..24].copy_from_slice(&[modes, limit]);
        crate::fresh(&mut vec![7; 800], &settings, 0)
    };
    for (modes, limit) in [(0, 0), (1, 1), (1, 86_400_000)] {
        assert_eq!(fresh(modes, limit), 0, "({modes}, {limit})");
    }
    for limit in [0, 86_400_001, 1 << 32, (1 << 32) + 5, u64::MAX] {
        assert_eq!(fresh(1, limit), 10, "(1, {limit})");
    }
    for limit in [1, 86_400_000, u64::MAX] {
        assert_eq!(fresh(0, limit), 10, "(0, {limit})");
    }
    for modes in [2, 3, 4, 5, 8, 15, 256, 257, u64::MAX] {
        assert_eq!((fresh(modes, 0), fresh(modes, 5000)), (10, 10), "modes {modes}");
    }
}

#[test]
fn a_wrong_size_is_refused_with_1() {
    let end = End::new(2, 0);
    let damage: [fn(&mut End); 6] = [
        |end| end.table.truncate(975),
        |end| end.table.truncate(800),
        |end| end.store.truncate(2047),
        |end| end.store.push(0),
        |end| end.out.truncate(1027),
        |end| end.answer.truncate(39),
    ];
    for (case, damage) in damage.iter().enumerate() {
        let mut end = end.clone();
        damage(&mut end);
        assert_eq!(end.timer(u64::MAX).number, 1, "case {case}");
    }
    let mut least = end;
    least.out.truncate(1028);
    assert_eq!(least.timer(0).number, 0);
}

#[test]
fn a_header_field_out_of_range_is_refused_with_1() {
    let bad: [(usize, &[u8]); 21] = [
        (0, &1_000_000_000_001_u64.to_le_bytes()),
        (8, &32_768_u16.to_le_bytes()),
        (10, &[9]),
        (11, &[9]),
        (12, &[0; 4]),
        (12, &86_400_001_u32.to_le_bytes()),
        (16, &[0; 4]),
        (52, &[0; 4]),
        (88, &86_400_001_u32.to_le_bytes()),
        (92, &[1]),
        (92, &86_400_000_u32.to_le_bytes()),
        (96, &[1]),
        (96, &[2]),
        (92, &[1, 0, 0, 0, 2]),
        (92, &[1, 0x5C, 0x26, 0x05, 1]),
        (97, &[2]),
        (97, &[255]),
        (98, &[1]),
        (111, &[1]),
        (112, &32_769_u16.to_le_bytes()),
        (622, &[0xFF, 0xFF]),
    ];
    for (from, octets) in bad {
        let mut end = End::new(1, 0);
        end.table[from..from + octets.len()].copy_from_slice(octets);
        assert_eq!(end.timer(0).row, Row::Timer1, "at {from}");
    }
}

#[test]
fn a_record_field_out_of_range_is_refused_with_1() {
    let bad: [(usize, &[u8]); 20] = [
        (0, &[12]),
        (0, &[0]),
        (2, &32_768_u16.to_le_bytes()),
        (4, &[3]),
        (5, &[2]),
        (6, &[32]),
        (7, &[129]),
        (8, &1_000_086_400_001_u64.to_le_bytes()),
        (16, &1025_u32.to_le_bytes()),
        (20, &86_400_001_u32.to_le_bytes()),
        (20, &[0xFF; 4]),
        (24, &[1]),
        (24, &[5]),
        (24, &[16]),
        (24, &[255]),
        (25, &3_085_u32.to_le_bytes()),
        (25, &[0xFF; 4]),
        (29, &[1]),
        (40, &[6]),
        (47, &[1]),
    ];
    for (from, octets) in bad {
        let mut end = end_with(&[live(2)]);
        end.record(0)[from..from + octets.len()].copy_from_slice(octets);
        assert_eq!(end.timer(0).row, Row::Timer1, "at {from}");
    }
}

#[test]
fn the_flag_tidnew_is_in_range_for_an_initiator_alone() {
    for state in 1..=11 {
        let mut record = live(state);
        record[6] = 16;
        assert_eq!(end_with(&[record]).timer(0).number, u64::from(state > 4), "state {state}");
    }
}

#[test]
fn a_cost_is_in_range_up_to_the_tables_own_bound_and_for_an_initiator_alone() {
    for (rcr_max, most) in [(0, 1_028_u32), (1, 2_056), (8, 9_252)] {
        for state in 1..=11 {
            let number = |cost: u32| {
                let mut end = End::with(1, 0, &settings(rcr_max, 1));
                end.record(0).copy_from_slice(&live(state));
                end.record(0)[25..29].copy_from_slice(&cost.to_le_bytes());
                end.timer(0).number
            };
            let expected = if state <= 4 { [0, 0, 0, 1] } else { [0, 1, 1, 1] };
            assert_eq!([0, 1, most, most + 1].map(number), expected, "state {state}, RCR_MAX {rcr_max}");
        }
    }
}

#[test]
fn the_largest_fields_are_well_formed() {
    for state in 1..=11 {
        let mut end = end_with(&[live(state)]);
        let record = end.record(0);
        record[1..8].copy_from_slice(&[255, 255, 127, 2, 1, if state <= 4 { 31 } else { 15 }, 128]);
        record[8..16].copy_from_slice(&1_000_086_400_000_u64.to_le_bytes());
        record[16..20].copy_from_slice(&1024_u32.to_le_bytes());
        record[20..24].copy_from_slice(&86_400_000_u32.to_le_bytes());
        record[24] = 15;
        record[25..29].copy_from_slice(&if state <= 4 { 3_084_u32 } else { 0 }.to_le_bytes());
        end.cache(255, 32_767);
        assert_eq!(end.timer(1_000_000_000_000).row, Row::TimerNoneDue, "state {state}");
    }
}

#[test]
fn a_free_record_must_be_zero_to_its_last_octet() {
    for octet in [1, 24, 25, 28, 48, 175] {
        let mut end = End::new(1, 0);
        end.record(0)[octet] = 1;
        assert_eq!(end.timer(0).number, 1, "octet {octet}");
    }
}

#[test]
fn no_two_live_records_share_a_name() {
    assert_eq!(end_with(&[live(7), [0; 176], live(10)]).timer(0).number, 1);
    assert_eq!(end_with(&[live(7), [0; 176], live(2)]).timer(0).number, 0);
    let mut other_peer = live(7);
    other_peer[1] = 8;
    assert_eq!(end_with(&[live(7), other_peer]).timer(0).number, 0);
}

#[test]
fn octets_past_the_exit_information_are_not_judged_and_stay() {
    let mut end = end_with(&[live(3)]);
    end.record(0)[48..].fill(0xCC);
    assert_eq!(end.answer(0, [INITIATOR, 9, 5], &[1, 2]).row, Row::IResultRespWaitAnswerExit);
    assert_eq!(end.record(0)[7], 2);
    assert_eq!(end.record(0)[48..52], [1, 2, 0xCC, 0xCC]);
}

#[test]
fn a_firing_without_a_row_changes_the_clock_alone() {
    let mut record = live(6);
    record[8] = 50;
    let mut end = end_with(&[record]);
    let before = end.table.clone();
    assert_eq!(end.timer(60).row, Row::RTidokWaitTimer);
    assert_eq!((end.answer[3], &end.answer[28..31]), (1, &[RESPONDER, 9, 5][..]));
    assert_eq!((end.table[0], &end.table[8..]), (60, &before[8..]));
}
