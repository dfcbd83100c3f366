//! The switches that reader and gateway share.

use crate::keeper::{Keeper, Resumed};
use crate::line::{Faults, Line};
use crate::modem::Modem;
use crate::state::Whose;
use crate::step::End;
use crate::wire::Repeats;
use kit::args::Given;
use kit::Random;
use rds::Side;
use wtp::{Settings, Table};

pub const DEFAULT_ADDRESS: &str = "127.0.0.1:9201";
pub const VALUED: [&str; 9] =
    ["--records", "--retries", "--interval", "--loss", "--duplicate", "--delay", "--seed", "--first-tid", "--state"];

pub const FLAGS: [&str; 1] = ["--rds"];

pub const HELP: &str =
    "  --rds                each datagram in a UI frame of the Reliable Data Service (the reader is the UE), between ports that
                       the reader reserves at the start and releases at the end; repeats as for PDUs; both ends or none (no)
  --records N          records of the table, 1 to 48: so many transactions at a time (8; a gateway 48)
  --retries N          RCR_MAX, 0 to 8: how often a PDU is sent again (8)
  --interval MS        R and A, 1 to 60000: how long an answer is waited for; W is (retries + 1) of them (350)
  --loss PERCENT       so many of the datagrams sent are lost, 0 to 100 (0)
  --duplicate PERCENT  so many are sent twice, 0 to 100 (0)
  --delay MS           each is delayed by a random time up to this, 0 to 60000: one may overtake another (0)
  --seed N             seed of loss, duplication, delay and first TID (1)
  --first-tid N        the TID of the first request, 0 to 32767 (drawn from the seed)
  --state FILE         keep table, store and what else is needed in FILE, at each event before its datagrams leave, and go on from
                       it where it is there; its table keeps its records and settings, and what is damaged in it is freed, with a
                       line for each place; not with --rds (no file)";

const AEC_MAX: u64 = 2;
const TIDS: u64 = 32_768;

pub struct Common {
    records: u64,
    retries: u64,
    interval: u64,
    faults: Faults,
    seed: u64,
    first_tid: u16,
    rds: bool,
}

impl Common {
    pub fn of(given: &Given, default_records: u64) -> Result<Common, String> {
        let faults = Faults {
            loss: given.number("--loss", 0, 0..=100)?,
            duplicate: given.number("--duplicate", 0, 0..=100)?,
            delay: given.number("--delay", 0, 0..=60_000)?,
        };
        let seed = given.number("--seed", 1, 0..=u64::MAX)?;
        let first_tid = given.number("--first-tid", Random::new(seed).below(TIDS), 0..=TIDS - 1)?;
        Ok(Common {
            records: given.number("--records", default_records, 1..=48)?,
            retries: given.number("--retries", 8, 0..=8)?,
            interval: given.number("--interval", 350, 1..=60_000)?,
            faults,
            seed,
            first_tid: u16::try_from(first_tid).unwrap_or_default(),
            rds: given.has("--rds"),
        })
    }

    /// The state file, and what it holds; none where none is asked for.
    pub fn state(&self, given: &Given, whose: Whose) -> Result<(Option<Keeper>, Option<Resumed>), String> {
        match given.text("--state")? {
            None => Ok((None, None)),
            Some(_) if self.rds => Err("--state can't be used with --rds: the books of ports aren't kept".into()),
            Some(file) => Keeper::open(file, whose).map(|(keeper, resumed)| (Some(keeper), resumed)),
        }
    }

    /// W, and how long a PDU is repeated until RCR is used up.
    pub fn last_repeat(&self) -> u64 {
        self.interval.saturating_mul(self.retries.saturating_add(1))
    }

    /// A fresh table that ends its waits without a timer after so long.
    pub fn table(&self, waiting_limit: u64) -> Result<Table, String> {
        let rows = [self.interval; 9];
        let settings = Settings {
            rcr_max: self.retries,
            aec_max: AEC_MAX,
            a: self.interval,
            w: self.last_repeat(),
            r_class_1: rows,
            r_class_2: rows,
            waiting_limit: Some(waiting_limit),
        };
        Table::fresh(self.records, &settings, self.first_tid).map_err(|why| format!("the settings were refused: {why}"))
    }

    pub fn line(&self) -> Line {
        Line::new(self.faults, self.seed)
    }

    /// The end behind its modem.
    pub fn modem<E: End>(&self, end: E, side: Side) -> Modem<E> {
        if self.rds {
            Modem::rds(end, side, Repeats { after: self.interval, times: self.retries })
        } else {
            Modem::plain(end)
        }
    }
}

#[cfg(test)]
mod tests {
    use super::*;
    use kit::args::Switches;

    fn common(args: &[&str]) -> Result<Common, String> {
        let switches = Switches { valued: &VALUED, flags: &[] };
        Common::of(&Given::of(args.iter().map(Into::into), &switches)?, 8)
    }

    #[test]
    fn the_library_takes_the_settings_at_either_end_of_their_range() {
        let least = common(&["--records", "1", "--retries", "0", "--interval", "1", "--seed", "0"]).unwrap();
        assert!(least.table(1).is_ok() && least.last_repeat() == 1);
        let most = ["--records", "48", "--retries", "8", "--interval", "60000", "--seed", "18446744073709551615"];
        assert!(common(&most).unwrap().table(86_400_000).is_ok());
        assert!(common(&[]).unwrap().table(30_000).is_ok());
    }

    #[test]
    fn the_first_request_has_the_first_tid() {
        let mut table = common(&["--first-tid", "32767"]).unwrap().table(1).unwrap();
        let tids = [(); 2].map(|()| table.request(0, 0, 2, false, b"").unwrap().tid);
        assert_eq!(tids, [Some(32_767), Some(0)]);
    }

    #[test]
    fn a_value_out_of_range_is_refused() {
        for (switch, value) in [
            ("--records", "0"),
            ("--records", "49"),
            ("--retries", "9"),
            ("--interval", "0"),
            ("--loss", "101"),
            ("--first-tid", "32768"),
        ] {
            assert!(common(&[switch, value]).is_err(), "{switch} {value}");
        }
    }
}
