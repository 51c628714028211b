//! Rows of maps with what both calls are due to answer, known beforehand: the
//! stations of bare maps, and the blocks of stored cases that tell such rows.

use crate::block::{Block, Reading};
use crate::call::Library;
use crate::cases::stored_maps;
use crate::compare::Difference;
use crate::map_compare::{answers_apart, Answers, Asked};
use crate::map_rows::bare_stations;
use crate::trial::{agreeing, SHOWN};

#[derive(Clone)]
pub struct MapCase {
    pub name: String,
    pub asked: Asked,
    pub due: Answers,
}

impl MapCase {
    pub fn check(&self, library: &dyn Library) -> Vec<Difference> {
        answers_apart(self.asked.said(library), self.due)
    }
}

/// "the two row calls on any map. `lit_words`, `lit_len` (how many words), `row`,
/// `width`; then `row_lit` and `row_first_unlit`, what is due".
pub fn map_case(block: &mut Block) -> Reading<MapCase> {
    let about = block.text("about")?;
    let words = block.words("lit_words")?;
    let lit: Box<[u64]> = block.lit_words(&words)?;
    if block.number::<usize>("lit_len")? != lit.len() {
        return Err(block.wrong("not as many words as are told"));
    }
    let asked = Asked {
        lit,
        row: block.number("row")?,
        width: block.number("width")?,
    };
    Ok(MapCase {
        name: format!("{} {} ({about})", block.kind, block.number),
        asked,
        due: [block.number("row_lit")?, block.number("row_first_unlit")?],
    })
}

/// Each list with its name.
pub fn map_suites() -> Reading<[(&'static str, Vec<MapCase>); 2]> {
    Ok([
        ("the rows of bare maps", bare_stations()),
        ("the rows of F-8.txt", stored_maps()?),
    ])
}

/// All of them; gives how many fail.
pub fn hold_maps(library: &dyn Library) -> usize {
    match map_suites() {
        Ok(suites) => suites
            .into_iter()
            .map(|(of, all)| hold(library, of, &all))
            .sum(),
        Err(why) => {
            println!("FAILS {why}");
            1
        }
    }
}

fn hold(library: &dyn Library, of: &str, cases: &[MapCase]) -> usize {
    let mut failed = 0;
    for case in cases {
        let found = case.check(library);
        if !found.is_empty() {
            failed += 1;
            if failed <= SHOWN {
                println!("DIFFERS {of}, {}: {found:?}", case.name);
            }
        }
    }
    agreeing(of, cases.len(), failed)
}
