//! The stored cases: calls with all that is due for them, spans laid on rows, and
//! rows of maps, from another program that was written from the same papers.

use std::fs;
use std::path::PathBuf;

use crate::block::{blocks, Block, Reading};
use crate::call_cases::{complete, survey_call, two_cuttings, LIT_MAP, PATCH_TABLE, TILES};
use crate::map_cases::{map_case, MapCase};
use crate::ray::Sight;
use crate::row_cases::{row_case, RowCase};
use crate::tile_cases::{groups_hold, whole_case, Group, WholeCase};
use crate::trial::{Suite, Trial};

/// A file, and how many blocks it has: one cut short is seen, and so is one
/// that nobody reads.
pub struct File {
    pub name: &'static str,
    blocks: usize,
    /// "Each file takes its own request and all before it as in force."
    request: u32,
}

const fn file(name: &'static str, blocks: usize, request: u32) -> File {
    File {
        name,
        blocks,
        request,
    }
}

const FILES: &[File] = &[
    file("F-1.txt", 187, 1),
    file("F-2.txt", 187, 2),
    file("F-3.txt", 187, 3),
    file("F-5.txt", 80, 5),
    file("F-6.txt", 61, 6),
    file("F-7.txt", 195, 7),
    file("F-8.txt", 275, 8),
    file("F-9.txt", 258, 9),
];

/// The request by which joints no longer see through.
const JOINTS: u32 = 3;
/// The request that compares two cuttings.
const CUTTINGS: u32 = 5;
/// The request that asks what the spans of a row look at.
const ROWS: u32 = 6;
/// How many spans its file tells of: one line left out is seen.
const SPANS: usize = 832;

impl File {
    /// How its cases read a sight line.
    fn sight(&self) -> Sight {
        match self.request < JOINTS {
            true => Sight::Plain,
            false => Sight::Beside,
        }
    }

    /// Is each of its blocks two calls, on two cuttings?
    fn is_of_cuttings(&self) -> bool {
        self.request == CUTTINGS
    }

    /// The kinds of its blocks.
    fn kinds(&self) -> &'static [&'static str] {
        match self.request {
            CUTTINGS => &["pair"],
            ROWS => &["bounds", "spans"],
            LIT_MAP => &["case", "rows"],
            TILES => &["case", "whole"],
            _ => &["case"],
        }
    }
}

/// What a block says.
pub enum Said {
    /// One call, or two on two cuttings.
    Calls(Vec<Trial>),
    /// A call on a tile of a group.
    Tile(u32, Trial),
    /// The window that the tiles of a group cover.
    Whole(WholeCase),
    Row(RowCase),
    Map(MapCase),
}

fn folder() -> PathBuf {
    PathBuf::from(env!("CARGO_MANIFEST_DIR")).join("../cases")
}

/// Each file and its text.
pub fn files() -> Reading<Vec<(&'static File, String)>> {
    let told = |error: std::io::Error| format!("the stored cases: {error}");
    let names = fs::read_dir(folder()).map_err(told)?.flatten();
    let is_text = |name: &PathBuf| name.extension().is_some_and(|end| end == "txt");
    let there = names.map(|entry| entry.path()).filter(is_text).count();
    if there != FILES.len() {
        return Err(format!("{there} files are stored, {} known", FILES.len()));
    }
    let read = |file: &'static File| {
        let text = fs::read_to_string(folder().join(file.name));
        let told = |error| format!("{}: {error}", file.name);
        Ok((file, text.map_err(told)?))
    };
    FILES.iter().map(read).collect()
}

/// Each file with what its blocks say, every block read to its last line.
fn read() -> Reading<Vec<(&'static File, Vec<Said>)>> {
    let mut all = Vec::new();
    for (file, text) in files()? {
        let File { name, blocks, .. } = file;
        let told = said(&text, file).map_err(|why| format!("{name}, {why}"))?;
        if told.len() != *blocks {
            return Err(format!("{name} has {} blocks, not {blocks}", told.len()));
        }
        groups_hold(&told).map_err(|why| format!("{name}, {why}"))?;
        all.push((file, told));
    }
    Ok(all)
}

/// The files of calls.
pub fn stored() -> Reading<Vec<Suite>> {
    let of_calls = |(file, _): &(&File, _)| file.request != ROWS;
    let files = read()?.into_iter().filter(of_calls);
    Ok(files.map(|(file, told)| suite(file, told)).collect())
}

fn suite(file: &'static File, told: Vec<Said>) -> Suite {
    let (mut trials, mut groups, mut tiles) = (Vec::new(), Vec::new(), Vec::new());
    for said in told {
        match said {
            Said::Calls(own) => trials.extend(own),
            Said::Tile(group, trial) => {
                tiles.push((group, trials.len()));
                trials.push(trial);
            }
            Said::Whole(whole) => groups.push(whole),
            Said::Row(_) | Said::Map(_) => (),
        }
    }
    if file.request < PATCH_TABLE {
        let own = trials.iter_mut();
        own.for_each(|trial| complete(trial, file.sight()));
    }
    let group = |whole: WholeCase| {
        let own = tiles.iter().filter(|tile| tile.0 == whole.group);
        let places = own.map(|tile| tile.1).collect();
        Group { places, whole }
    };
    Suite {
        name: file.name,
        sight: file.sight(),
        cuttings: file.is_of_cuttings(),
        groups: groups.into_iter().map(group).collect(),
        trials,
    }
}

/// The file of rows.
pub fn stored_rows() -> Reading<Vec<RowCase>> {
    let row = |said| match said {
        Said::Row(case) => Some(case),
        _ => None,
    };
    let told = read()?.into_iter().flat_map(|(_, told)| told);
    let all: Vec<RowCase> = told.filter_map(row).collect();
    let spans: usize = all.iter().map(RowCase::spans).sum();
    match spans == SPANS {
        true => Ok(all),
        false => Err(format!("{spans} spans are stored, {SPANS} known")),
    }
}

/// The rows of maps, put to the calls on them.
pub fn stored_maps() -> Reading<Vec<MapCase>> {
    let map = |said| match said {
        Said::Map(case) => Some(case),
        _ => None,
    };
    let told = read()?.into_iter().flat_map(|(_, told)| told);
    Ok(told.filter_map(map).collect())
}

/// What each block says.
pub fn said(text: &str, file: &File) -> Reading<Vec<Said>> {
    let read = |block| said_by(block, file);
    blocks(text)?.into_iter().map(read).collect()
}

/// What a block says, by its kind and by the request in force.
pub fn said_by(mut block: Block, file: &File) -> Reading<Said> {
    let kinds = file.kinds();
    if !kinds.contains(&block.kind) {
        return Err(block.wrong(&format!("of none of the kinds {kinds:?}")));
    }
    let said = match block.kind {
        "pair" => Said::Calls(two_cuttings(&mut block)?.into()),
        "bounds" | "spans" => Said::Row(row_case(&mut block)?),
        "rows" => Said::Map(map_case(&mut block)?),
        "whole" => Said::Whole(whole_case(&mut block)?),
        _ => match survey_call(&mut block, file.request)? {
            (None, trial) => Said::Calls(vec![trial]),
            (Some(group), trial) => Said::Tile(group, trial),
        },
    };
    block.end()?;
    Ok(said)
}
