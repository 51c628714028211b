//! Rows with what is due known beforehand, put to the programs.

use crate::block::Reading;
use crate::cases::stored_rows;
use crate::row_cases::RowCase;
use crate::row_programs::Rows;
use crate::row_stations::row_stations;
use crate::trial::{agreeing, SHOWN};

/// Each list with its name.
pub fn row_suites() -> Reading<[(&'static str, Vec<RowCase>); 2]> {
    Ok([
        ("the row stations", row_stations()),
        ("F-6.txt", stored_rows()?),
    ])
}

/// All of them; gives how many fail.
pub fn hold_rows(rows: &dyn Rows) -> usize {
    match row_suites() {
        Ok(suites) => suites
            .into_iter()
            .map(|(of, all)| hold(rows, of, &all))
            .sum(),
        Err(why) => {
            println!("FAILS {why}");
            1
        }
    }
}

fn hold(rows: &dyn Rows, of: &str, cases: &[RowCase]) -> usize {
    let mut failed = 0;
    for case in cases {
        let found = case.check(rows);
        if !found.is_empty() {
            failed += 1;
            if failed <= SHOWN {
                println!("DIFFERS {of}, {}: {found:?}", case.name());
            }
        }
    }
    agreeing(of, cases.len(), failed)
}
