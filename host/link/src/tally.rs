//! What a gateway counts.

use std::fmt;

#[derive(Debug, Clone, Default, PartialEq, Eq)]
pub struct Tally {
    pub asked: u64,
    pub values: u64,
    pub empty_results: u64,
    pub aborts: u64,
    pub unanswered: u64,
    pub unheard: u64,
    /// Invokes whose TID had to be verified first.
    pub verifications: u64,
    pub confirmed: u64,
    pub aborted: u64,
}

impl fmt::Display for Tally {
    fn fmt(&self, f: &mut fmt::Formatter<'_>) -> fmt::Result {
        write!(f, "{} Invokes shown: {} answered with a value, ", self.asked, self.values)?;
        write!(f, "{} with an empty result, {} with an abort, ", self.empty_results, self.aborts)?;
        writeln!(f, "{} not answered; {} thrown away unheard", self.unanswered, self.unheard)?;
        write!(f, "{} verifications begun, {} results confirmed, ", self.verifications, self.confirmed)?;
        write!(f, "{} transactions aborted by the provider or the reader", self.aborted)
    }
}
