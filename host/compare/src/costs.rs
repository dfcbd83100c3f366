//! Costs, row by row: whether a call that reached the row of an initiator's record told what it has cost, and that it ended where it does.

use crate::buffers::Buffers;
use std::collections::BTreeMap;
use twin::Row;

/// The words of an answer that tell a cost, and that its transaction ended.
const COST: usize = 32;
const ENDED: usize = 33;

/// How many calls of a row told no cost, that of a transaction that goes on, and that of one that ended.
#[derive(Default)]
pub struct Costs {
    counts: BTreeMap<Row, [u64; 3]>,
}

impl Costs {
    pub fn count(&mut self, row: Row, left: &Buffers) {
        let told = match (left.words[COST], left.words[ENDED]) {
            (0, 0) => 0,
            (_, 0) => 1,
            _ => 2,
        };
        self.counts.entry(row).or_default()[told] += 1;
    }

    /// Each row with a cost in words and its count: that of a row which ends its record, where it ended.
    pub fn all(&self) -> impl Iterator<Item = (String, u64)> + '_ {
        let costly = self.counts.iter().filter(|(row, [_, goes_on, ended])| is_initiators(**row) || goes_on + ended > 0);
        costly.map(|(row, [_, goes_on, ended])| match ends(*row) {
            true => (format!("a cost told, ended: {}", row.name()), *ended),
            false => (format!("a cost told: {}", row.name()), *goes_on),
        })
    }

    /// What was only reached without a cost, or without the end.
    pub fn never_reached(&self) -> impl Iterator<Item = String> + '_ {
        self.all().filter(|(_, count)| *count == 0).map(|(name, _)| name)
    }
}

/// Whether the row is that of a record that a request of class 1 or 2 opens, or of an initiator's live record.
fn is_initiators(row: Row) -> bool {
    (Row::RequestClass1..=Row::RequestClass2TidnewWraps).contains(&row)
        || (Row::IResultWaitFirstTidok..=Row::IWaitTimeoutUserResult).contains(&row)
}

/// Whether the row frees an initiator's record.
fn ends(row: Row) -> bool {
    matches!(
        row,
        Row::IResultWaitAckClass1
            | Row::IResultWaitResultTtrClear
            | Row::IResultWaitTimerEnd
            | Row::IResultWaitLimit
            | Row::IResultWaitAbort
            | Row::IResultWaitMalformed
            | Row::IResultWaitUserAbort
            | Row::IResultRespWaitTimerEnd
            | Row::IResultRespWaitAbort
            | Row::IResultRespWaitMalformed
            | Row::IResultRespWaitUserAbort
            | Row::IWaitTimeoutTimer
            | Row::IWaitTimeoutAbort
            | Row::IWaitTimeoutMalformed
            | Row::IWaitTimeoutUserAbort
    )
}

#[cfg(test)]
mod tests {
    use super::*;

    /// The buffers after a call that told this.
    fn left(cost: u64, ended: u64) -> Buffers {
        let mut buffers = Buffers::default();
        buffers.resize(1);
        buffers.words[COST] = cost;
        buffers.words[ENDED] = ended;
        buffers
    }

    #[test]
    fn a_row_that_was_only_reached_without_a_cost_or_without_its_end_is_named() {
        let mut costs = Costs::default();
        costs.count(Row::TimerNoneDue, &left(0, 0));
        costs.count(Row::IResultWaitTimerInvoke, &left(0, 0));
        costs.count(Row::IResultWaitTimerEnd, &left(9, 0));
        let missing: Vec<String> = costs.never_reached().collect();
        let goes_on = format!("a cost told: {}", Row::IResultWaitTimerInvoke.name());
        assert_eq!(missing, [goes_on, format!("a cost told, ended: {}", Row::IResultWaitTimerEnd.name())]);
        costs.count(Row::IResultWaitTimerInvoke, &left(9, 0));
        costs.count(Row::IResultWaitTimerEnd, &left(0, 1));
        assert_eq!(costs.never_reached().count(), 0);
        assert_eq!(costs.all().count(), 2, "what concerns no initiator's record isn't listed");
    }

    #[test]
    fn a_cost_where_none_is_expected_is_listed() {
        let mut costs = Costs::default();
        costs.count(Row::RResultWaitTimer, &left(3, 0));
        assert!(costs.all().eq([(format!("a cost told: {}", Row::RResultWaitTimer.name()), 1)]));
    }
}
