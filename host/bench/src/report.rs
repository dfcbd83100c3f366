//! The table, in Markdown.

use crate::cases::Case;
use crate::ns::Ns;
use kit::with_commas;

pub const HEAD: &str = "\
| Call | Records | Instructions, library | twin | ratio | ns, library | twin | ratio | spread |
|---|---:|---:|---:|---:|---:|---:|---:|---:|";

/// One row. Without counts their columns say so.
pub fn row(case: &Case, counts: Option<&[u64; 2]>, ns: &[Ns; 2]) -> String {
    let records = case.records.map_or("".to_string(), |records| records.to_string());
    let counted = counts.map_or("not counted | | ".to_string(), |[library, twin]| {
        format!("{} | {} | {:.2}", with_commas(*library), with_commas(*twin), *library as f64 / *twin as f64)
    });
    let [library, twin] = ns;
    let ratio = library.median / twin.median;
    let spread = library.spread.max(twin.spread);
    format!(
        "| {} | {records} | {counted} | {} | {} | {ratio:.2} | {spread:.0} % |",
        case.name,
        with_commas(library.median.round() as u64),
        with_commas(twin.median.round() as u64),
    )
}

#[cfg(test)]
mod tests {
    use super::*;
    use crate::cases;

    #[test]
    fn a_row_has_as_many_columns_as_the_head() {
        let case = &cases::all(cases::Of::Wtp).unwrap()[0];
        let ns = [Ns { median: 20.0, spread: 1.0 }, Ns { median: 10.0, spread: 3.0 }];
        let columns = HEAD.lines().next().unwrap().matches('|').count();
        let counted = row(case, Some(&[3000, 2000]), &ns);
        assert_eq!(counted, "| read an Invoke |  | 3,000 | 2,000 | 1.50 | 20 | 10 | 2.00 | 3 % |");
        assert_eq!(counted.matches('|').count(), columns);
        assert_eq!(row(case, None, &ns).matches('|').count(), columns);
    }
}
